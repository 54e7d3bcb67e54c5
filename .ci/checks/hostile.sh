#!/usr/bin/env bash
# What strangers, broken gateways and a wrong clock do to a program that serves (bench/hostile.py). Clients that say nothing are let go
# after 30 seconds; those that wait are not, nor those whose request comes in pieces or within a slow sync. An event beside 800 silent
# clients costs at most twice what it costs alone. With few handles neither silent clients nor unanswered calls lock out later calls. A
# hundred purchases at once to a gateway of Python's HTTPServer are all funded, also if it stops for a moment. Answers that came in time
# are taken in time after a stop. A clock that is ahead for a moment expires nothing and moves no deadline; one that stays ahead is
# believed. A run ends though its calls don't go out. Formatting a file that is there makes its name last, also if it has no bytes.
. "$(dirname "$0")/../program.sh"

if ! command -v python3 >/dev/null; then
    echo "$0: no python3 here: there are no strangers and no broken gateways"
    exit 0
fi
outside=()
if command -v gcc >/dev/null; then
    gcc -O2 -shared -fPIC -o "$room/outside.so" bench/outside.c
    outside=(--outside "$room/outside.so")
fi

beside=()
leave_all() {
    local number
    for number in "${beside[@]}"; do
        kill "$number" 2>/dev/null || true
    done
    wait
    leave
}
trap leave_all EXIT

# attacks NAME..: these run one after the other, beside all others.
attacks() {
    python3 -B bench/hostile.py --check --issuer "$issuer" --folder "$room" "${outside[@]}" "$@" &
    beside+=($!)
}

attacks silence
attacks slow_sync
attacks restless_clock
attacks short_jumps lasting_jump
attacks dials end_of_run
attacks small_crowd kept_links kept_clients reached
attacks pieces pause files
missed=0
for number in "${beside[@]}"; do
    wait "$number" || missed=1
done
[ "$missed" = 0 ] || fail 'these figures miss their aims'
