#!/usr/bin/env bash
# Instruction-cache misses a line of `build/issuer dry`, by valgrind's cachegrind, in a cache of 32 KiB with eight ways: 20,000 lines of
# each input that is named (bench/inputs.sh), or of purchases and mix. ISSUER names another program.
set -eu -o pipefail
cd "$(dirname "$0")/.."

command -v valgrind >/dev/null || { echo "$0: no valgrind here" >&2; exit 1; }
room=$(mktemp -d)
trap 'rm -rf "$room"' EXIT
. bench/inputs.sh

[ $# -gt 0 ] || set -- purchases mix
for input in "$@"; do
    "$input" 20000 >"$room/lines"
    valgrind --tool=cachegrind --cache-sim=yes --I1=32768,8,64 --cachegrind-out-file=/dev/null "${ISSUER:-build/issuer}" dry \
        <"$room/lines" 2>&1 >/dev/null |
        awk -v input="$input" '
            { gsub(",", "") }
            /I *refs:/ { ran = $NF }
            /I1 *misses:/ { missed = $NF }
            END { printf "%-11s %8.1f misses a line, %8.0f instructions\n", input, missed / 20000, ran / 20000 }
        '
done
