#!/usr/bin/env bash
# What strangers, broken gateways and a wrong clock do to `build/issuer serve` (bench/hostile.py): a row for each figure, with what is
# aimed at, and a star where that is missed. Those that wait for half a minute or two run beside the others and come last.
#
# With a word the devices are in that folder, and else in build/; with further words only these attacks run. ISSUER names another program.
set -eu -o pipefail
cd "$(dirname "$0")/.."

command -v python3 >/dev/null || { echo "$0: no python3 here, so there are no clients and no gateway" >&2; exit 1; }
issuer=${ISSUER:-build/issuer}
folder=${1:-build}
room=$(mktemp -d)
waiting=()
leave() {
    local number
    for number in "${waiting[@]}"; do
        kill "$number" 2>/dev/null || true
    done
    wait
    rm -rf "$room"
}
trap leave EXIT
mkdir -p build
ulimit -n "$(ulimit -Hn)"

outside=()
if command -v gcc >/dev/null; then
    gcc -O2 -Wall -shared -fPIC -o "$room/outside.so" bench/outside.c
    outside=(--outside "$room/outside.so")
fi

# attack NAME: its rows.
attack() {
    python3 -B bench/hostile.py --issuer "$issuer" --folder "$folder" "${outside[@]}" "$1"
}

if [ $# -gt 1 ]; then
    for name in "${@:2}"; do
        attack "$name"
    done
    exit
fi
long='silence let_in_again slow_sync restless_clock silent_links reached_again'
for name in $long; do
    attack "$name" >"$room/$name" &
    waiting+=($!)
done
for name in crowds pieces kept_links kept_clients reached dials calls_again notices_again full_queue end_of_run pause short_jumps \
    lasting_jump files; do
    attack "$name"
done
wait "${waiting[@]}"
for name in $long; do
    cat "$room/$name"
done
