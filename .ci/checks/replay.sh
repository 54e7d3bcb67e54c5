#!/usr/bin/env bash
# Replaying lines on a real file: what lasts, what comes again, a kill between and within runs, and devices that don't open.
. "$(dirname "$0")/../program.sh"

refusal='issuer: device is not an issuer device'
device=$room/device

# replayed WHAT FILE: a replay of standard input on the device ends well, and writes what the file holds.
replayed() {
    issue replay "$device" >"$room/out"
    ended "$1" 0 ''
    wrote "$1" "$2"
}

formatted() {
    rm -f "$device"
    issue format "$device" "$1" 0
    ended "a device of $1 bytes" 0 ''
}

# The first example, and then the same lines again: all are repeats, and nothing is written.
formatted 10000
replayed 'the first example' "$first_out" <"$first_in"
cp "$device" "$room/before"
replayed 'the first example again' "$first_out" <"$first_in"
cmp -s "$room/before" "$device" || fail 'the first example again: the device was written'
replayed 'no input' /dev/null </dev/null
cmp -s "$room/before" "$device" || fail 'no input: the device was written'

# A line a run: what they write in a row is the transcript, and the device is the same.
formatted 10000
: >"$room/rows"
while IFS= read -r line; do
    issue replay "$device" <<<"$line" >>"$room/rows"
    ended 'a line a run' 0 ''
done <"$first_in"
cmp -s "$room/rows" "$first_out" || fail "a line a run: it wrote '$(cat "$room/rows")'"
cmp -s "$room/before" "$device" || fail 'a line a run: the device is another'

# A request that waits for its answer is written again by each run, with the same bytes.
formatted 10000
cat >"$room/asked" <<'END'
{"type":"product","token":"p1","product":"g","currency":"USD","funding":"GATEWAY"}
{"type":"user","token":"t1","user":"u1"}
{"type":"card","token":"t2","card":"c1","user":"u1","product":"g"}
{"type":"authorization","token":"a1","card":"c1","currency":"USD","amount":"60.00","mcc":"5411","mid":"m1","at":1000}
END
issue replay "$device" <"$room/asked" >"$room/out"
ended 'a purchase' 0 ''
tail -n 1 "$room/out" >"$room/request"
grep -q '"method":"pgfs.authorization"' "$room/request" || fail 'a purchase: no request was written'
replayed 'a request that waits' "$room/request" </dev/null
replayed 'a request that still waits' "$room/request" </dev/null

# A device that is full says so, and takes what fits: each half has room for 58 bytes of records, and no image is shorter.
formatted 143
cat >"$room/users" <<'END'
{"type":"user","token":"t1","user":"u1"}
{"type":"user","token":"t2","user":"u2"}
{"type":"user","token":"t3","user":"u3"}
{"type":"user","token":"x","user":"y"}
END
cat >"$room/told" <<'END'
{"event":"t1","reply":"done"}
{"event":"t2","reply":"done"}
{"free":18,"need":20,"reply":"full"}
{"event":"x","reply":"done"}
END
replayed 'a small device' "$room/told" <"$room/users"

# unopened WHAT NAME: the device doesn't open, no input is read, and no file is made or written.
unopened() {
    { issue replay "$2" && cat >"$room/left"; } <"$first_in" >"$room/out"
    ended "$1" 4 "$refusal"
    wrote "$1" /dev/null
    cmp -s "$first_in" "$room/left" || fail "$1: it read its input"
}

# A program that is killed while its input is still open: until then nobody else opens the device. What it replied to lasts, and
# comes again.
formatted 10000
mkfifo "$room/lines"
"$issuer" replay "$device" <"$room/lines" >"$room/seen" &
child=$!
exec {lines}>"$room/lines"
head -n 2 "$first_in" >&"$lines"
for _ in {1..300}; do
    [ "$(wc -l <"$room/seen")" = 2 ] && break
    sleep 0.1
done
unopened 'a device that another program has open' "$device"
ln -s "$device" "$room/link"
unopened 'the same device by another name' "$room/link"
cp "$device" "$room/before"
issue format "$device" 10000 0
ended 'formatting a device that another program has open' 4 "$refusal"
cmp -s "$room/before" "$device" || fail 'formatting a device that another program has open: it was written'
{ kill -9 "$child" && wait "$child"; } 2>/dev/null || true
child=
exec {lines}>&-
head -n 2 "$first_out" | cmp -s - "$room/seen" || fail "before a kill: it wrote '$(cat "$room/seen")'"
cp "$device" "$room/before"
head -n 2 "$first_in" >"$room/two"
replayed 'after a kill' "$room/seen" <"$room/two"
cmp -s "$room/before" "$device" || fail 'after a kill: the device was written'
replayed 'the rest after a kill' "$first_out" <"$first_in"

mkdir "$room/folder"
unopened 'a device that is not there' "$room/none"
[ ! -e "$room/none" ] || fail 'a device that is not there: a file was made'
unopened 'a folder' "$room/folder"
unopened 'a pipe' "$room/lines"
unopened 'a device within a file' "$device/inner"
: >"$room/empty"
unopened 'an empty file' "$room/empty"
head -c 100 /dev/zero >"$room/zeros"
unopened 'a file of zeros' "$room/zeros"
cp "$device" "$room/twice"
printf '\2' | dd of="$room/twice" bs=1 conv=notrunc status=none
unopened 'another first byte' "$room/twice"

# Standard streams that fail. What was taken in before lasts, and the device that is opened then isn't taken for a stream.
formatted 10000
issue replay "$device" </ >"$room/out"
ended 'a directory as standard input' 3 'issuer: input fault'
wrote 'a directory as standard input' /dev/null
issue replay "$device" <&- >"$room/out"
ended 'a closed standard input' 3 'issuer: input fault'
wrote 'a closed standard input' /dev/null
replayed 'after input faults' /dev/null </dev/null
issue replay "$device" <"$first_in" >&-
ended 'a closed standard output' 5 'issuer: output fault'
status=0
"$issuer" replay "$device" <&- >&- 2>&- || status=$?
[ "$status" = 3 ] || fail "closed standard streams: status $status, not 3"
cp "$device" "$room/before"
head -n 1 "$first_in" >"$room/one"
head -n 1 "$first_out" >"$room/done"
replayed 'the line of an output fault' "$room/done" <"$room/one"
cmp -s "$room/before" "$device" || fail 'after an output fault: the line had no record'
replayed 'after an output fault' "$first_out" <"$first_in"
