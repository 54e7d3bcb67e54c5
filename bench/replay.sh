#!/usr/bin/env bash
# Replies a second of `build/issuer replay` on a file, beside a loop in C (bench/replay.c) that makes the same writes and syncs of the
# same bytes, and writes the same texts: on the disk of this folder, and in a folder in memory, where syncs cost nothing.
#
# The lines are purchases, as in bench/dry.sh, and each makes a record and is told one text, to the null device. The two take turns on
# fresh devices; the least time of each is shown, and how many replies a second the program gives as a part of what the loop gives.
set -eu -o pipefail
cd "$(dirname "$0")/.."

command -v gcc >/dev/null || { echo "$0: no gcc here, so nothing is compared" >&2; exit 1; }
turns=7
room=$(mktemp -d)
folders=()
trap 'rm -rf "$room" "${folders[@]}"' EXIT

. bench/inputs.sh

gcc -O2 -Wall -o "$room/loop" bench/replay.c

# timed COMMAND..: how many microseconds it takes.
timed() {
    local start=$EPOCHREALTIME
    "$@" >/dev/null
    local end=$EPOCHREALTIME
    echo $((${end/./} - ${start/./}))
}

# fresh FOLDER: a device there that stands for no records.
fresh() {
    rm -f "$1/device"
    build/issuer format "$1/device" "$size" 0
}

# compare PLACE FOLDER COUNT: a line of the table, of so many lines on a device in the folder.
compare() {
    local place=$1 folder=$2 count=$3 turn
    # Each half has room for all records.
    size=$((count * 200 + 2000))
    purchases "$count" >"$room/lines"
    fresh "$folder"
    build/issuer replay "$folder/device" <"$room/lines" >"$room/texts"
    cp "$folder/device" "$room/whole"
    for ((turn = 0; turn < turns; turn++)); do
        fresh "$folder"
        timed build/issuer replay "$folder/device" <"$room/lines" >>"$room/$place.issuer"
        cmp "$folder/device" "$room/whole"
        fresh "$folder"
        timed "$room/loop" "$room/whole" "$folder/device" "$room/texts" >>"$room/$place.loop"
        cmp "$folder/device" "$room/whole"
    done
    paste <(sort -n "$room/$place.issuer") <(sort -n "$room/$place.loop") | awk -v place="$place" -v count="$count" '
        NR == 1 { issuer = $1; loop = $2 }
        { issuers[NR] = $1; loops[NR] = $2 }
        END {
            middle = int((NR + 1) / 2)
            printf "%-8s %8d %10.3f %10.3f %12.0f %8.2f %18.2f\n", place, count, issuer / 1e6, loop / 1e6, count * 1e6 / issuer,
                loop / issuer, loops[middle] / issuers[middle]
        }'
}

mkdir -p build
folders+=("$(mktemp -d build/bench.XXXXXX)")
printf '%-8s %8s %10s %10s %12s %8s %18s\n' place lines seconds loop replies/second ratio 'ratio of middles'
compare disk "${folders[0]}" "${1:-500}"
if [ -d /dev/shm ] && [ -w /dev/shm ]; then
    folders+=("$(mktemp -d /dev/shm/bench.XXXXXX)")
    compare memory "${folders[1]}" "${2:-20000}"
fi
