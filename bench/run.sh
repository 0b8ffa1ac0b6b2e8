#!/bin/sh
# Proves and builds the kernels and the frames, compiles the benchmark and the C loops at -O3, and runs it; then the
# frame program on its largest input.
set -eu
cd "$(dirname "$0")/.."
out=target/bench
mkdir -p "$out"
for crate in bench_kernels bench_frames; do
    (cd "crates/$crate" && rt lib) >"$out/$crate.log" 2>&1 || { tail -n 20 "$out/$crate.log" >&2; exit 1; }
done

cc=${CC:-gcc}
peer='' peer_library=''
if printf '#include <osmocom/core/conv.h>\n' | "$cc" -E - >"$out/probe" 2>&1; then
    peer=-DWITH_OSMOCORE peer_library=-losmocore
else
    echo 'bench: without libosmocore (package libosmocore-dev)'
fi
for part in baseline peers measure frames bench; do
    "$cc" -std=c11 -D_POSIX_C_SOURCE=199309L $peer -O3 -Wall -Wextra -c "bench/$part.c" -o "$out/$part.o"
done
"$cc" "$out/baseline.o" "$out/peers.o" "$out/measure.o" "$out/frames.o" "$out/bench.o" \
    crates/bench_kernels/out/libbench_kernels.a crates/bench_frames/out/libbench_frames.a $peer_library -o "$out/bench"
"$out/bench"

program=crates/program_frames/out/program_frames
if [ -x "$program" ]; then
    "$cc" -std=c11 -D_POSIX_C_SOURCE=200809L -O3 -Wall -Wextra bench/program.c -o "$out/program"
    "$out/program" "$program" "$out/program.in"
else
    echo "frame program: skipped, since $program is not there (rt run in its folder makes it)"
fi
