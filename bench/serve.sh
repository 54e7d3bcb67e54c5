#!/usr/bin/env bash
# Decisions a second of `build/issuer serve` and how long they take, on the loopback of this machine, with a gateway (bench/gateway.c)
# that funds each purchase, at once or after 200 milliseconds; with 1, 100 and 1000 purchases in flight (bench/load.c), and with one
# purchase beside them that is never answered. Each purchase is a connection to the program and one to the gateway, and makes two records
# of two synced writes each. Connections begin 200 microseconds apart, and at the last two rows as fast as they can. Beside each row: what
# a loop (bench/replay.c) takes that writes and syncs the same bytes and nothing else.
# At last how much of a processor the program takes where nothing comes.
#
# With a word the device is in that folder, and else in one in build/; with a second one so many purchases are made at a row.
set -eu -o pipefail
cd "$(dirname "$0")/.."

. bench/serving.sh
in_folder "${1:-build}"

# looped RECORDS: how many seconds the loop takes that writes the same records, so many at most. It ends with 1 where there are fewer.
looped() {
    local start end
    yes x | head -n "$1" >"$room/texts" || true
    "$issuer" format "$folder/copy" 64000000 0
    start=$EPOCHREALTIME
    "$room/replay" "$device" "$folder/copy" "$room/texts" >/dev/null || [ $? = 1 ]
    end=$EPOCHREALTIME
    rm "$folder/copy"
    awk -v start="$start" -v end="$end" 'BEGIN { print end - start }'
}

# measure GATEWAY MILLIS FLIGHT COUNT BESIDE [GAP]: a line of the table, alone or beside a call that is stalled, and with this gap between
# two connections.
measure() {
    local answered stalled=
    started "$2"
    if [ "$5" = stalled ]; then
        "$room/load" "$port" 1000000 1 1 c1 silent >/dev/null 2>&1 &
        stalled=$!
        sleep 1
    fi
    "$room/load" "$port" 0 "$4" "$3" c1 m1 "${6:-200}" >"$room/replies" 2>"$room/figures"
    read -r _ answered _ <"$room/figures"
    [ "$(grep -c '"reply":"approved"' "$room/replies")" = "$4" ] || { echo "$0: not all were approved" >&2; exit 1; }
    stopped
    [ -z "$stalled" ] || wait "$stalled" || true
    awk -v gateway="$1" -v flight="$3" -v loop="$(looped $((2 * answered + 100)))" '{
        printf "%-22s %7d %7d %9.2f %9.0f", gateway, flight, $2, $3, $4
        printf " %9.2f %9.2f %9.2f %9.2f %9.2f %7.2f\n", $5, $6, $7, $8, loop, loop / $3
    }' "$room/figures"
}

# idle: the part of a processor that the program takes in ten seconds in which nothing comes.
idle() {
    started 0
    sleep 1
    local before after ticks
    ticks=$(getconf CLK_TCK)
    before=$(awk '{ print $14 + $15 }' "/proc/$server/stat")
    sleep 10
    after=$(awk '{ print $14 + $15 }' "/proc/$server/stat")
    stopped
    awk -v ran=$((after - before)) -v ticks="$ticks" 'BEGIN { printf "idle: %.1f %% of a processor\n", 10 * ran / ticks }'
}

printf '%-22s %7s %7s %9s %9s %9s %9s %9s %9s %9s %7s\n' gateway flight calls seconds calls/s '50 %' '99 %' '99.9 %' 'most (ms)' loop ratio
most=${2:-5000}
for flight in 1 100 1000; do
    count=$((flight == 1 && most > 500 ? 500 : most))
    measure 'at once' 0 "$flight" "$count" all
    measure 'after 200 ms' 200 "$flight" $((flight == 1 ? 30 : count)) all
    measure 'at once, one silent' 0 "$flight" "$count" stalled
done
for flight in 100 1000; do
    measure 'at once, no gap' 0 "$flight" "$((4 * most))" all 0
done
idle
