#!/bin/sh
# Runs the frame decoder on hard inputs, and compares what it prints with what the rules say it prints.
# Usage, from the repository's folder: tests/frames/run.sh [PROGRAM]
program=${1:-crates/program_frames/out/program_frames}
here=$(dirname "$0")
work=$(mktemp -d) || exit 2
trap 'rm -rf "$work"' EXIT
passed=0
failed=0

# compare NAME: the program's output for $work/in with $work/out
compare() {
    if "$program" < "$work/in" > "$work/got" && cmp -s "$work/got" "$work/out"; then
        passed=$((passed + 1))
    else
        failed=$((failed + 1))
        echo "frames: $1 differs"
    fi
}

# repeat N TEXT: the text so many times; a \n in it is a line's end
repeat() {
    awk -v n="$1" -v text="$2" 'BEGIN { for (i = 0; i < n; i++) printf "%s", text }'
}

# the line of a delivery, so many times: repeated N SYMBOLS JOINS REFUSAL PLACE
repeated() {
    awk -v n="$1" -v a="$2" -v b="$3" -v c="$4" -v d="$5" 'BEGIN { for (i = 0; i < n; i++) printf "%6d%6d%4d%6d\n", a, b, c, d }'
}

# the closing line of a path of zeros: zeros COST LENGTH
zeros() {
    awk -v cost="$1" -v n="$2" 'BEGIN { printf "%6d%4d ", cost, 0; for (i = 0; i < n; i++) printf "0"; printf "\n" }'
}

# check NAME INPUT LINE..: an input with escapes, and the lines that are printed for it
check() {
    name=$1
    printf '%b' "$2" > "$work/in"
    shift 2
    printf '%s\n' "$@" > "$work/out"
    compare "$name"
}

. "$here/cases.sh"

# 600 rows of one symbol: the store has 512
{ echo k3; repeat 600 'sa\n 136\n'; } > "$work/in"
{ repeated 512 1 0 0 0; repeated 88 0 0 4 0; zeros 0 512; } > "$work/out"
compare rows_600

# a delivery whose rows do not fit is refused whole, and one that just fits is taken
{
    echo k3
    for i in 1 2 3 4 5 6 7 8 9 10 11; do
        repeat 50 sa; echo; repeat 50 ' 136'; echo
    done
    repeat 12 sa; echo; repeat 12 ' 136'; echo
    printf 'sa\n 136\n\n\nsa\n 144\n'
} > "$work/in"
{ repeated 10 50 0 0 0; repeated 1 0 0 4 0; repeated 1 12 0 0 0; repeated 1 0 0 4 0; repeated 1 0 0 0 0; repeated 1 0 0 2 0; zeros 0 512; } > "$work/out"
compare rows_512

# 4,096 symbols of which each costs 6 on the path of zeros, and more elsewhere: no more are taken
block() {
    repeat "$1" s; repeat $(($1 - 1)) j; printf a
}
{
    echo k3
    for i in $(awk 'BEGIN { for (i = 1; i <= 82; i++) print i }'); do
        block 25; block 25; echo; repeat 50 '  51'; echo
    done
    block 32; block 14; echo; repeat 46 '  51'; echo
    printf 'sa\n  51\n\n\n'
} > "$work/in"
{ repeated 81 50 48 0 0; repeated 1 0 0 3 0; repeated 1 46 44 0 0; repeated 1 0 0 3 0; repeated 1 0 0 0 0; zeros 24576 4096; } > "$work/out"
compare symbols_4096

# the limit is asked before the memory: 512 rows of 8 symbols, and then one symbol
{
    echo k3
    for i in $(awk 'BEGIN { for (i = 1; i <= 512; i++) print i }'); do
        block 8; echo; repeat 8 '   0'; echo
    done
    printf 'sa\n   0\n'
} > "$work/in"
{ repeated 512 8 7 0 0; repeated 1 0 0 3 0; zeros 0 4096; } > "$work/out"
compare limit_before_memory

# an input of as many bytes as are accepted: one line that is too long
{ echo k3; repeat 999997 x; } > "$work/in"
{ repeated 1 0 0 13 0; zeros 0 0; } > "$work/out"
compare bytes_1000000

# as many bytes, each the end of an empty line
{ echo k3; repeat 999997 '\n'; } > "$work/in"
{ repeated 499999 0 0 0 0; zeros 0 0; } > "$work/out"
compare lines_999997

# one byte more, and many more
{ echo k3; repeat 999998 x; } > "$work/in"
printf '     0   3\n' > "$work/out"
compare bytes_1000001
{ echo k7; repeat 999998 x; } > "$work/in"
compare bytes_1000001_of_another_code
{ echo k3; repeat 1500000 'sa\n 136\n'; } > "$work/in"
compare bytes_12000003

echo "frames: $passed passed, $failed failed"
[ "$failed" -eq 0 ]
