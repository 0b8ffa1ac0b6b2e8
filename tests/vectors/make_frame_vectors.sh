#!/bin/sh
# Makes the file of frames anew, from other software alone:
#
#     sh make_frame_vectors.sh FILE
#
# The packages are named in README.md. PYTHON names a Python 3, CC a C compiler, CXX one of C++.
# Every decoder gets every frame, and the first difference ends the script with FILE as it was.
set -eu
export LC_ALL=C PYTHONDONTWRITEBYTECODE=1

file=${1:?usage: sh make_frame_vectors.sh FILE}
here=$(cd "$(dirname "$0")" && pwd)
python=${PYTHON:-python3}
work=$(mktemp -d)
trap 'rm -rf "$work"' EXIT

${CC:-cc} -std=gnu99 -O2 -Wall -Wextra -o "$work/frames_osmo" "$here/frames_osmo.c" $(pkg-config --cflags --libs libosmocore)
${CC:-cc} -std=gnu99 -O2 -Wall -Wextra -o "$work/frames_fec" "$here/frames_fec.c" -lfec
${CXX:-c++} -std=c++14 -O2 -o "$work/frames_itpp" "$here/frames_itpp.cc" $(pkg-config --cflags --libs itpp)

"$python" "$here/frames.py" >"$work/frames"
for decoder in frames_osmo frames_fec frames_itpp; do
    "$work/$decoder" <"$work/frames" >"$work/$decoder.answers"
done
"$python" "$here/compare_frames.py" "$work/frames" "$work/frames_osmo.answers" "$work/frames_fec.answers" \
    "$work/frames_itpp.answers" >"$work/vectors"

{
    cat <<'END'
# Frames decoded by other software; tests/vectors has the drivers.
#   KIND CODE SYMBOLS PLANS ANSWERS    fields are separated by one blank; - is no symbols, no letters, no bits
# SYMBOLS: two soft values a step, 0 to 7, 8 erased. PLANS: one a delivery, between commas.
# ANSWERS: STATE:COST:BITS or STATE:absent, between commas.
END
    cat "$work/vectors"
} >"$work/file"
cp "$work/file" "$file"
