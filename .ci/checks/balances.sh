#!/usr/bin/env bash
# Reports: after each worked script that has one, what the accounts on its device have, byte by byte; the device stays as it is.
. "$(dirname "$0")/../program.sh"

scripts=examples/scripts

for report in "$scripts"/*.balances; do
    name=$(basename "$report" .balances)
    rm -f "$room/device"
    issue format "$room/device" 100000 0
    ended "$name, formatted" 0 ''
    issue replay "$room/device" <"$scripts/$name.jsonl" >"$room/out"
    ended "$name, replayed" 0 ''
    wrote "$name, replayed" "$scripts/$name.out"
    cp "$room/device" "$room/kept"
    issue balances "$room/device" <"$first_in" >"$room/out"
    ended "$name" 0 ''
    wrote "$name" "$report"
    cmp -s "$room/kept" "$room/device" || fail "$name: the report changed the device"
done

# A report takes no input.
{ issue balances "$room/device" && cat >"$room/left"; } <"$first_in" >"$room/out"
ended 'a report with input' 0 ''
cmp -s "$first_in" "$room/left" || fail 'a report read its input'

# A device that isn't there, and one that isn't formatted.
issue balances "$room/none" >"$room/out"
ended 'a device that is not there' 4 'issuer: device is not an issuer device'
wrote 'a device that is not there' /dev/null
[ ! -e "$room/none" ] || fail 'a report made a device'
head -c 100 /dev/zero >"$room/zeros"
issue balances "$room/zeros" >"$room/out"
ended 'a device that is not formatted' 4 'issuer: device is not an issuer device'
wrote 'a device that is not formatted' /dev/null

# An output that is full.
if [ -w /dev/full ]; then
    issue balances "$room/device" >/dev/full
    ended 'a full output' 5 'issuer: output fault'
fi
