#!/usr/bin/env bash
# What a purchase that a gateway funds at once asks of the system, and how many instructions it takes, by `build/issuer serve`: with 1 in
# flight and with 100. Each figure is that of 1,500 purchases less that of 500, over 1,000. Calls are counted by strace, and instructions
# by callgrind. A purchase's own calls are seventeen: accept, read, write and close for its client; socket, connect, write, read and close
# for the gateway; four writes and four syncs for its two records. With a word the device is in that folder, and else in /dev/shm.
set -eu -o pipefail
cd "$(dirname "$0")/.."

for program in strace valgrind; do
    command -v "$program" >/dev/null || { echo "$0: no $program here" >&2; exit 1; }
done
. bench/serving.sh
in_folder "${1:-/dev/shm}"
own=17

# bought FLIGHT COUNT WORD..: COUNT purchases, FLIGHT of them in flight, from a program that these words begin.
bought() {
    started 0 "${@:3}"
    "$room/load" "$port" 0 "$2" "$1" c1 m1 0 >"$room/replies" 2>"$room/figures"
    [ "$(grep -c '"reply":"approved"' "$room/replies")" = "$2" ] || { echo "$0: not all were approved" >&2; exit 1; }
    stopped
}

# counted FLIGHT COUNT: each call of the system with how often it was made.
counted() {
    bought "$1" "$2" strace -f -c -S name -U name,calls -o "$room/calls"
    awk 'NF == 2 && $2 ~ /^[0-9]+$/ && $1 != "total" { print $1, $2 }' "$room/calls"
}

# ran FLIGHT COUNT: how many instructions the program ran.
ran() {
    bought "$1" "$2" valgrind --tool=callgrind --callgrind-out-file=/dev/null --log-file="$room/log"
    awk '/Collected/ { print $NF }' "$room/log"
}

for flight in 1 100; do
    echo "$flight in flight, a purchase:"
    counted "$flight" 500 >"$room/few"
    counted "$flight" 1500 >"$room/many"
    awk 'NR == FNR { few[$1] = $2; next }
        { more = ($2 - few[$1]) / 1000; all += more }
        more > 0.005 { printf "  %-12s %6.2f\n", $1, more }
        END { printf "  %-12s %6.2f, of which %.2f beside its own\n", "all calls", all, all - own }' own="$own" "$room/few" "$room/many"
    few=$(ran "$flight" 500)
    many=$(ran "$flight" 1500)
    echo "  instructions $(((many - few) / 1000))"
done
