#!/usr/bin/env bash
# The reader of devices in examples/tools: from the device of each worked script it makes lines that give the same device again,
# byte for byte, and the same decisions. What it tells of a device's room, and which devices it refuses.

# Many small devices are written here: in memory their syncs take no time.
[ ! -w /dev/shm ] || export TMPDIR=/dev/shm
. "$(dirname "$0")/../program.sh"

scripts=examples/scripts
reader=examples/tools/device_lines.py
if ! command -v python3 >/dev/null; then
    echo "$0: no python3 here: the reader of devices is left out"
    exit 0
fi

# replayed DEVICE WHAT: a new device of 200000 bytes in halves, which never turns here, on which standard input is replayed.
replayed() {
    issue format "$1" 200000 0
    ended "$2, formatted" 0 ''
    issue replay "$1" >"$room/out"
    ended "$2, replayed" 0 ''
}

# decisions FILE: what the events in it were told, each reply once.
decisions() {
    grep -E '"reply":"(done|approved|declined)"' "$1" | sort -u
}

# follow FILE: each line of standard input is one of the file's, in their order.
follow() {
    awk -v file="$1" '{ found = 0; while (!found && (getline line <file) > 0) found = line == $0 } !found { print; exit 1 }'
}

for script in "$scripts"/*.jsonl; do
    name=$(basename "$script" .jsonl)
    replayed "$room/$name.device" "$name" <"$script"
done

# One run of the reader's functions for all devices, since there are many.
PYTHONDONTWRITEBYTECODE=1 PYTHONPATH=$(dirname "$reader") python3 - "$room"/*.device <<'END_OF_PYTHON'
import contextlib
import sys

import device_lines

for path in sys.argv[1:]:
    with open(path.removesuffix("device") + "lines", "w") as lines, contextlib.redirect_stdout(lines):
        device_lines.main([path])
END_OF_PYTHON

for script in "$scripts"/*.jsonl; do
    name=$(basename "$script" .jsonl)
    issue dry <"$room/$name.lines" >"$room/told"
    ended "$name, from its device" 0 ''
    replayed "$room/again" "$name, from its device" <"$room/$name.lines"
    wrote "$name: a dry run, and a replay" "$room/told"
    cmp "$room/$name.device" "$room/again" >&2 || fail "$name: the lines of its device give another device"
    rm "$room/again"
    # The record of what was due before a repeat is a time here, so `{"reply":"time"}` may have no place in the script's output.
    sed '/^{"reply":"time"}$/d' "$room/told" | follow "$scripts/$name.out" >&2 || fail "$name: its device's lines are told otherwise"
    diff <(decisions "$scripts/$name.out") <(decisions "$room/told") >&2 || fail "$name: its device's lines decide otherwise"
done

# A device of another instance gets the same records from them.
name=a_day_of_a_gateway_product
issue format "$room/again" 200000 9
ended 'another instance' 0 ''
issue replay "$room/again" <"$room/$name.lines" >"$room/out"
ended 'another instance' 0 ''
cmp -i 16 "$room/$name.device" "$room/again" >&2 || fail 'another instance has other records'

# told WHAT FILE WORDS..: the reader ends well, and writes what the file holds.
told() {
    python3 "$reader" "${@:3}" >"$room/out" 2>"$room/said" || fail "$1: it said '$(cat "$room/said")'"
    wrote "$1" "$2"
}

# refused DEVICE WHY [WORDS..]: the reader says why it doesn't read this device to its end, in these words among others.
refused() {
    status=0
    python3 "$reader" "$1" "${@:3}" >"$room/out" 2>"$room/said" || status=$?
    [ "$status" = 1 ] || fail "$2: status $status, not 1"
    grep -qF -- "$2" "$room/said" || fail "$2: it said '$(cat "$room/said")'"
}

# altered PLACE BYTES: a copy of the first example's device with these bytes from this place on.
altered() {
    cp "$device" "$room/altered"
    printf '%b' "$2" | dd of="$room/altered" bs=1 seek="$1" conv=notrunc status=none
}

# The first example's device has records of 15, 27, 25 and 30 bytes from place 21 on, and its end gate at place 138.
device=$room/first
replayed "$device" 'the first example' <"$first_in"
cat >"$room/lines" <<'END'
{"type":"user","at":0,"token":"t1","user":"u1"}
{"type":"card","at":0,"token":"t2","card":"c1","user":"u1","product":"default","active":true}
{"type":"load","at":0,"token":"t3","user":"u1","currency":"USD","amount":"50.00"}
{"type":"authorization","at":0,"token":"a1","card":"c1","currency":"USD","amount":"50.00","mcc":"5411","mid":"m1"}
END
cat >"$room/stats" <<'END'
records 4
size_bytes 200000
free_bytes 99869
half_bytes 99991
image_records 0
image_bytes 0
used_ratio 0.00122
END
sed 's/^\([a-z_]*\) .*/# TYPE issuer_device_\1 gauge\nissuer_device_&/' "$room/stats" >"$room/metrics"
told 'the first example' "$room/lines" "$device"
told 'its room' "$room/stats" "$device" --stats
told 'its room for Prometheus' "$room/metrics" "$device" --stats prometheus
altered 138 '\07\0\0\0\01x'
told 'a torn end' "$room/lines" "$room/altered"

# One of version 1 has its first gate right after its header, and no halves.
{ printf '\01ISS1\01\0\0\0\0\0\0\0\0\0\0' && head -c 100005 "$device" | tail -c +22; } >"$room/one_journal"
cat >"$room/one_stats" <<'END'
records 4
size_bytes 100000
free_bytes 99866
used_ratio 0.00134
END
told 'a device of version 1' "$room/lines" "$room/one_journal"
told 'the room of one of version 1' "$room/one_stats" "$room/one_journal" --stats

# A user of 36 letters who is suspended and made active in turns: a device of 707 bytes turns before the seventh record and the eighth.
user=$(printf 'w%.0s' {1..36})
move() { printf '{"type":"move","at":0,"token":"t%s","user":"%s","to":"%s"}\n' "$1" "$user" "$2"; }
{
    printf '{"type":"user","token":"t1","user":"%s"}\n' "$user"
    for n in 2 4 6; do
        move "$n" SUSPENDED
        move $((n + 1)) ACTIVE
    done
    move 8 SUSPENDED
} >"$room/in"
issue format "$room/turned" 707 0
ended 'a device that turns, formatted' 0 ''
issue replay "$room/turned" <"$room/in" >"$room/out"
ended 'a device that turns' 0 ''
[ "$(grep -c '"reply":"done"' "$room/out")" = 8 ] || fail "a device that turns: it wrote '$(cat "$room/out")'"
status=0
python3 "$reader" "$room/turned" >"$room/out" 2>"$room/said" || status=$?
[ "$status" = 2 ] || fail "a device that has turned: status $status, not 2"
grep -qF 'its first 7 records are in its image alone' "$room/said" || fail "a device that has turned: it said '$(cat "$room/said")'"
move 8 SUSPENDED >"$room/last"
wrote 'a device that has turned' "$room/last"
python3 "$reader" "$room/turned" --stats >"$room/stats_turned"
head -n 1 "$room/stats_turned" >"$room/out"
wrote 'how many records a device that has turned has' - <<<'records 8'

refused "$room/none" 'No such file'
: >"$room/empty"
refused "$room/empty" 'empty'
refused "$device" 'usage' --stat
head -c 100 /dev/zero >"$room/zeros"
refused "$room/zeros" "it isn't formatted" --stats
altered 5 '\03'
refused "$room/altered" "it isn't formatted"
altered 17 '\0\01\0206\0223'
refused "$room/altered" 'at place 17 is an image of 99987 bytes'
altered 22 '\0\0\0\0'
refused "$room/altered" 'at place 21 is a record of 0 bytes'
altered 22 '\0\0\040\01'
refused "$room/altered" 'at place 21 is a record of 8193 bytes'
altered 104 '\0\0\040\0'
head -c 400 "$room/altered" >"$room/short"
refused "$room/short" 'at place 103 is a record of 8192 bytes'
altered 25 '\016'
refused "$room/altered" 'a body ends within a field'
altered 26 '\021'
refused "$room/altered" 'a body has bytes after its last field'
altered 26 '\025'
refused "$room/altered" 'the number 21 stands for nothing'
altered 35 '\05'
refused "$room/altered" 'is no token'
altered 72 '\02'
refused "$room/altered" 'the number 2 stands for nothing'
altered 93 '\0\01'
refused "$room/altered" 'the number 1 stands for nothing'
altered 133 '\047\020'
refused "$room/altered" "'10000' is no mcc"

# A device that a program has open: its room can be looked at, and its lines can't be had.
mkfifo "$room/pipe"
"$issuer" replay "$device" <"$room/pipe" >"$room/seen" &
child=$!
exec {pipe}>"$room/pipe"
head -n 1 "$first_in" >&"$pipe"
for _ in {1..300}; do
    [ ! -s "$room/seen" ] || break
    sleep 0.1
done
refused "$device" 'another program has it open'
told 'the room of an open device' "$room/stats" "$device" --stats
exec {pipe}>&-
wait "$child" || fail 'a replay beside the reader: it failed'
child=
