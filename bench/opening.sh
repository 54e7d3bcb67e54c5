#!/usr/bin/env bash
# Seconds of a processor that an opening takes, beside `dry` on the lines of its records: opening.sh [RECORDS] [FOLDER]. 104,683 purchases
# (bench/inputs.sh) go onto a device in FOLDER. Each is the least of nine runs by turns.
set -eu -o pipefail
cd "$(dirname "$0")/.."

room=$(mktemp -d -p "${2:-/dev/shm}")
trap 'rm -rf "$room"' EXIT
. bench/inputs.sh

count=${1:-104683}
issuer=${ISSUER:-build/issuer}
purchases "$count" >"$room/lines"
"$issuer" format "$room/device" 100000000 7
"$issuer" replay "$room/device" <"$room/lines" >/dev/null

# own WORD..: the seconds that a run takes of a processor, its input from standard input.
own() {
    local TIMEFORMAT='%U %S'
    { time "$issuer" "$@" >/dev/null; } 2>&1 | awk '{ print $1 + $2 }'
}

for _ in 1 2 3 4 5 6 7 8 9; do
    own replay "$room/device" </dev/null >>"$room/openings"
    own dry <"$room/lines" >>"$room/dry"
done
paste <(sort -n "$room/openings" | head -n 1) <(sort -n "$room/dry" | head -n 1) |
    awk -v count="$count" '{ printf "%d records: an opening %.3f s, dry %.3f s, %.2f times\n", count, $1, $2, $1 / $2 }'
