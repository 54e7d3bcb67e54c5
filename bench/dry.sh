#!/usr/bin/env bash
# Lines per second, peak memory and instructions a line of `build/issuer dry`.
#
# Purchases: the first two lines are a user and a card. Of each ten after them, one loads 1.00 and nine authorise 0.01,
# which the funds allow. Again: purchases of half as many lines, and then the same lines again. Repeats: one line, again
# and again. The time is from the first line given to the last text read. The program's own time, and its peak of memory,
# are read then. Of nine such measurements the one with the least time of its own is shown, since the machine's speed may
# change from one to the next. Instructions, which don't, are counted by valgrind, where it is there.
#
# With words, 20000 lines of each of these inputs (bench/inputs.sh): controls10 and controls256 are purchases under so many controls,
# gateway purchases with the answers of their gateway, crowded purchases with the worst tokens, mixed lines of all kinds; mix, simple and
# drill are kept here.
set -eu -o pipefail
cd "$(dirname "$0")/.."

limit=30
room=$(mktemp -d)
trap 'rm -rf "$room"' EXIT
mkfifo "$room/in" "$room/out"

. bench/inputs.sh

# measure INPUT COUNT: one line of the table. The input stays open until the memory is read.
measure() {
    local input=$1 count=$2 texts issuer feeder start end peak own late=0
    "$input" "$count" >"$room/lines"
    texts=$(build/issuer dry <"$room/lines" | wc -l)
    build/issuer dry <"$room/in" >"$room/out" &
    issuer=$!
    exec 3>"$room/in" 4<"$room/out"
    start=$EPOCHREALTIME
    cat "$room/lines" >&3 2>/dev/null &
    feeder=$!
    timeout "$limit" head -n "$texts" <&4 >"$room/replies" || late=$?
    end=$EPOCHREALTIME
    peak=$(awk '/^VmHWM/ { printf "%.1f", $2 / 1024 }' "/proc/$issuer/status" 2>/dev/null) || peak=-
    own=$(awk -v ticks="$(getconf CLK_TCK)" '{ printf "%.2f", ($14 + $15) / ticks }' "/proc/$issuer/stat" 2>/dev/null) || own=-
    [ "$late" = 0 ] || kill "$issuer" "$feeder" 2>/dev/null || true
    exec 3>&- 4<&-
    wait "$issuer" "$feeder" 2>/dev/null || true
    show "$input" "$count" "$texts" "$late" "$start" "$end" "$own" "$peak"
}

# show INPUT COUNT TEXTS LATE START END OWN PEAK: the line of the table, where each text was read or time ran out.
show() {
    local replies
    replies=$(wc -l <"$room/replies")
    if [ "$4" != 0 ]; then
        printf '%-11s %8d %10s %12s %10s %10s\n' "$1" "$2" "over $limit" stopped "$7" "$8"
    elif [ "$replies" = "$3" ]; then
        awk -v input="$1" -v count="$2" -v start="$5" -v end="$6" -v own="$7" -v peak="$8" 'BEGIN {
            seconds = end - start
            printf "%-11s %8d %10.3f %12.0f %10s %10s\n", input, count, seconds, count / seconds, own, peak
        }'
    else
        echo "bench: $replies texts, and not $3" >&2
        exit 1
    fi
}

# instructions INPUT COUNT: how many the program runs for each line.
instructions() {
    if [ "$1" = again ] || [ "$1" = repeats ] || ! command -v valgrind >/dev/null; then
        echo -
        return
    fi
    "$1" "$2" >"$room/lines"
    valgrind --tool=callgrind --callgrind-out-file=/dev/null build/issuer dry <"$room/lines" 2>&1 >/dev/null |
        awk -v lines="$2" '/Collected/ { printf "%.0f\n", $NF / lines }'
}

# best INPUT COUNT: of nine measurements, the one with the least time of the program's own, and the instructions a line.
best() {
    local line
    line=$(
        for _ in 1 2 3 4 5 6 7 8 9; do
            measure "$1" "$2"
        done | sort -n -k 5,5 | head -n 1
    )
    printf '%s %12s\n' "$line" "$(instructions "$1" "$2")" | tee "$room/$1-$2"
}

# ratio INPUT: how many times the least time of its own, and the instructions, for 20000 lines the program took for 200000.
ratio() {
    awk -v input="$1" '
        NR == 1 { few = $5; ran = $7 }
        NR == 2 {
            printf "%s: 200000 lines took %.1f times the time of 20000\n", input, $5 / few
            if (ran > 0) printf "%s: 200000 lines took %.1f times the instructions of 20000\n", input, 10 * $7 / ran
        }
    ' "$room/$1-20000" "$room/$1-200000"
}

printf '%-11s %8s %10s %12s %10s %10s %12s\n' input lines seconds lines/second own 'peak MiB' instr/line
for input in "$@"; do
    best "$input" 20000
done
[ $# = 0 ] || exit 0
for count in 2000 20000 200000; do
    best purchases "$count"
done
for count in 20000 200000; do
    best again "$count"
done
best repeats 200001
ratio purchases
ratio again
