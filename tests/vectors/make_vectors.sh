#!/bin/sh
# Makes the file of test vectors anew, from other software alone:
#
#     sh make_vectors.sh FILE
#
# The packages are named in README.md. PYTHON names a Python 3 that has numpy, CC a C compiler.
# Every answer that two programs can give is asked of both, and the first difference ends the script
# with FILE as it was.
set -eu
export LC_ALL=C PYTHONDONTWRITEBYTECODE=1

file=${1:?usage: sh make_vectors.sh FILE}
here=$(cd "$(dirname "$0")" && pwd)
python=${PYTHON:-python3}
work=$(mktemp -d)
trap 'rm -rf "$work"' EXIT

same() {
    cmp "$work/$1" "$work/$2" || {
        echo "$1 and $2 differ" >&2
        exit 1
    }
}

osmo() {
    ${CC:-cc} -std=c99 -O1 -Wall -Wextra -o "$work/$1" "$here/$1.c" $(pkg-config --cflags --libs libosmocore)
}

# CRC-32: libosmocore answers every list; zlib, rhash and Archive::Zip those of whole bytes
osmo crc_osmo
"$python" "$here/crc_lists.py" >"$work/lists"
"$work/crc_osmo" <"$work/lists" >"$work/crc"
awk '/^#/ { next } $2 == "-" || length($2) % 8 == 0' "$work/crc" >"$work/crc.whole_bytes"
"$python" "$here/crc_zlib.py" <"$work/lists" >"$work/crc.zlib"
"$python" "$here/crc_rhash.py" <"$work/lists" >"$work/crc.rhash"
perl "$here/crc_zip.pl" <"$work/lists" >"$work/crc.zip"
same crc.whole_bytes crc.zlib
same crc.whole_bytes crc.rhash
same crc.whole_bytes crc.zip

# the sequence of x^9 + x^5 + 1: libosmocore
osmo prbs9_osmo
"$work/prbs9_osmo" >"$work/seq"

# path counts: numpy and Python's whole numbers, then PARI/GP over the same lines
"$python" "$here/counts.py" >"$work/counts"
awk '/^#/ { next } { print $NF }' "$work/counts" >"$work/counts.numpy"
COUNT_LINES="$work/counts" gp --fast --quiet "$here/counts.gp" </dev/null >"$work/counts.gp"
same counts.numpy counts.gp

{
    cat <<'END'
# Test vectors made by other software; tests/vectors has the drivers.
# Fields are separated by one blank; - is an empty list or plan.
#   crc BITS HEX                                   the CRC-32 of the bits, first character first
#   seq START COUNT BITS                           x^9 + x^5 + 1: the next COUNT newest bits, START newest last
#   count CODE START SYMBOLS PLAN STATE VALUE      path counts modulo 2^32 from any start
#   paths CODE SYMBOLS PLAN STATE VALUE            the same from 1 at state 0; absent for 0
END
    cat "$work/crc" "$work/seq" "$work/counts"
} >"$work/vectors"
cp "$work/vectors" "$file"
awk '/^#/ { next } { n[$1]++ } END { for (k in n) print n[k], k }' "$file" | sort -k 2
