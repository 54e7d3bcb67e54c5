#!/usr/bin/env bash
# Two hundred runs or more on a real file, each killed by signal 9 at some moment, half of them amid their lines, of all kinds, where the
# disk isn't too quick for that. Then fifty or more on a file that turns ten times. The next opening finds the record of each text that
# went out, and at most one more; what still waits for the gateway is written again, byte by byte.
. "$(dirname "$0")/../program.sh"
. bench/inputs.sh

device=$room/device
mkfifo "$room/pipe"

formatted() {
    rm -f "$device"
    issue format "$device" "$size" 0
    ended 'formatting' 0 ''
}

# replayed WHAT: a replay of standard input on the device ends well, and what it writes stands in $room/out.
replayed() {
    issue replay "$device" >"$room/out"
    ended "$1" 0 ''
}

# split_texts: what each line is told, by a dry run in which a bad line stands behind each of them. texts[i] counts those of the first i.
split_texts() {
    issue dry <"$room/lines" >"$room/all"
    ended 'all lines' 0 ''
    awk '{ print; print "[]" }' "$room/lines" >"$room/in"
    issue dry <"$room/in" >"$room/out"
    ended 'lines with bad ones between them' 0 ''
    awk -v folder="$room/texts" '
        BEGIN { line = 1 }
        $0 == "{\"fault\":\"JSON\",\"reply\":\"form\"}" { printf "" >> (folder "/" line); close(folder "/" line); line++; next }
        { print >> (folder "/" line) }
    ' "$room/out"
    texts=(0)
    local i
    for ((i = 1; i <= count; i++)); do
        texts[i]=$((texts[i - 1] + $(wc -l <"$room/texts/$i")))
    done
    cat $(seq -f "$room/texts/%g" "$count") | cmp -s - "$room/all" || fail 'the texts of the lines are not those of all'
}

# look_at FILE: how many records stand on a device, those of an image among them, how many are in the image, where the current half begins,
# and the place of the end gate.
look_at() {
    read -r stood point start gate < <(od -An -v -tu1 -w1 "$1" | awk '
        function number(at) { return ((byte[at] * 256 + byte[at + 1]) * 256 + byte[at + 2]) * 256 + byte[at + 3] }
        { byte[NR - 1] = $1 }
        END {
            start = byte[16] == 1 ? 17 + int((NR - 17) / 2) : 17
            image = number(start)
            stood = point = image > 0 ? number(start + 4) : 0
            for (gate = start + 4 + image; byte[gate] == 1; gate += 5 + number(gate + 1)) stood++
            print stood, point, start, gate
        }')
}

# keep_device LINES: the device after so many lines, how many records it has, and how often it has turned by then.
keep_device() {
    cp "$device" "$room/devices/$1"
    look_at "$device"
    records[$1]=$stood
    turns=$((turns + (point != last_point)))
    last_point=$point
}

# take_lines: a line a run. What waits behind the first i lines stands in waiting/i, and the device in devices/i.
take_lines() {
    local i own
    turns=0
    last_point=0
    formatted
    keep_device 0
    for ((i = 1; i <= count; i++)); do
        replayed "line $i" <<<"${lines[i - 1]}"
        keep_device "$i"
        own=$((texts[i] - texts[i - 1]))
        head -n "-$own" "$room/out" >"$room/waiting/$((i - 1))"
        tail -n "$own" "$room/out" | cmp -s - "$room/texts/$i" || fail "line $i: it was told '$(cat "$room/out")'"
    done
    replayed 'no line' </dev/null
    cp "$room/out" "$room/waiting/$count"
    # What waits was written before, each byte of it.
    cat "$room"/waiting/* | grep -vxFf "$room/all" && fail 'what waits has other bytes than at first' || true
}

# take_all: all lines in one run, which leaves the same device. How long it takes, and how long a run that only opens the device.
take_all() {
    local since
    formatted
    since=$EPOCHREALTIME
    replayed 'no line' </dev/null
    start_up=$((${EPOCHREALTIME/./} - ${since/./}))
    since=$EPOCHREALTIME
    replayed 'all lines' <"$room/lines"
    span=$((${EPOCHREALTIME/./} - ${since/./}))
    wrote 'all lines' "$room/all"
    cmp -s "$device" "$room/devices/$count" || fail 'all lines: the device is another than with a line a run'
}

# lines_with RECORDS: the least number of lines behind which so many records stand.
lines_with() {
    for ((at = 0; at <= count; at++)); do
        [ "${records[at]}" != "$1" ] || return 0
    done
    fail "no line leaves $1 records"
}

# told_lines LINES: of how many lines a text went out, where so many of them were taken before.
told_lines() {
    local seen
    seen=$(($(awk 'END { print NR }' "$room/seen") - $(wc -l <"$room/waiting/$1")))
    for ((told = $1; texts[told] - texts[$1] < seen; told++)); do :; done
}

# has_half_of LINES: the current half is, up to its end gate, as so many lines leave it without a kill.
has_half_of() {
    cmp -s -i "$start" -n "$((gate - start))" "$device" "$room/devices/$1"
}

# has_turned: the device turned for the record of the next line, and doesn't have that.
has_turned() {
    [ "$point" = "$stood" ] && [ "$at" -lt "$count" ] && has_half_of "$((at + 1))"
}

# opened_again LINES: after a kill the device has the records of all lines that were told, and of one more at most.
opened_again() {
    head -c "$(wc -c <"$room/seen")" "$room/expected" | cmp -s - "$room/seen" || fail "killed: it wrote '$(tail -n 3 "$room/seen")'"
    told_lines "$1"
    replayed 'after a kill' </dev/null
    look_at "$device"
    lines_with "$stood"
    has_half_of "$at" || has_turned || fail "killed: its half isn't the one that $at lines leave"
    [ "$stood" -ge "${records[told]}" ] || fail "killed: of $told lines that were told it has $at"
    for ((next = told; next < count && records[next] == records[told]; next++)); do :; done
    [ "$stood" -le "${records[next]}" ] || fail "killed: $told lines were told, and it has $at"
    wrote 'after a kill' "$room/waiting/$at"
}

# wait_some: some moment of a run, or of its first part where runs are long. A pause too short for a program of its own is waited out.
wait_some() {
    local pause=$((RANDOM * limit / 32768 + RANDOM * start_up / 32768)) until
    until=$((${EPOCHREALTIME/./} + pause))
    [ "$pause" -lt 10000 ] || sleep "$(awk -v pause="$pause" 'BEGIN { print (pause - 5000) / 1e6 }')"
    while [ "${EPOCHREALTIME/./}" -lt "$until" ]; do :; done
}

# kill_one: a run on the device takes the lines after the first $at, and is killed. The input stays open, so no run ends by itself: one
# that has taken all lines waits for more of them.
kill_one() {
    local before=$at
    tail -n "+$((texts[at] + 1))" "$room/all" | cat "$room/waiting/$at" - >"$room/expected"
    exec {pipe}<>"$room/pipe"
    tail -n "+$((at + 1))" "$room/lines" >&"$pipe"
    : >"$room/seen"
    "$issuer" replay "$device" <"$room/pipe" >"$room/seen" 2>"$room/said" &
    child=$!
    wait_some
    kill -9 "$child"
    status=0
    wait "$child" 2>/dev/null || status=$?
    child=
    exec {pipe}>&-
    [ "$status" = 137 ] || fail "killed: status $status, and it said '$(cat "$room/said")'"
    opened_again "$before"
    [ "$told" = "$before" ] || [ "$told" = "$count" ] || amid=$((amid + 1))
}

# kill_runs KILLS: so many kills at least, on one device after the other.
kill_runs() {
    local killed=0 since=$SECONDS
    limit=$((span / 8 > 25000 ? span / 8 : span < 25000 ? span : 25000))
    amid=0
    at=$count
    while [ "$killed" -lt "$1" ] || { [ "$amid" -lt $(($1 / 2)) ] && [ $((SECONDS - since)) -lt 30 ]; }; do
        if [ "${records[at]}" = "${records[count]}" ]; then
            formatted
            at=0
        fi
        kill_one
        killed=$((killed + 1))
    done
    [ "$amid" -gt 0 ] || fail "none of $killed kills came amid lines"
}

# take_input INPUT COUNT SIZE: so many lines of a kind of input, and the devices of this size that they leave.
take_input() {
    count=$2
    size=$3
    rm -rf "$room/texts" "$room/waiting" "$room/devices"
    mkdir "$room/texts" "$room/waiting" "$room/devices"
    "$1" "$count" >"$room/lines"
    mapfile -t lines <"$room/lines"
    split_texts
    take_lines
    take_all
}

# Each half has room for all records, so the device never turns.
take_input mixed 141 10000
[ "$turns" = 0 ] || fail "a device with room for all records turned $turns times"
kill_runs 200

take_input long_names 120 9500
[ "$turns" -ge 10 ] || fail "a device that is to turn ten times turned $turns times"
kill_runs 50
