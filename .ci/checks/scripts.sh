#!/usr/bin/env bash
# The worked scripts: each is told what stands beside it, and of all in a row at least as many lines are told as came. After each of them a
# device that has turned goes on as one that hasn't: the accounts are the same, and so is what the script is told once more, and then a
# month later with other tokens.

# Many small devices are written here: in memory their syncs take no time.
[ ! -w /dev/shm ] || export TMPDIR=/dev/shm
. "$(dirname "$0")/../program.sh"
. bench/inputs.sh

scripts=examples/scripts

# named ENDING: the names of the files there that have this ending.
named() {
    local file
    for file in "$scripts"/*"$1"; do
        basename "$file" "$1"
    done | sort
}

named .jsonl >"$room/inputs"
named .out >"$room/outputs"
sed -n 's/^- `\([^`]*\)`: .*/\1/p' "$scripts/README.md" | sort >"$room/listed"
diff "$room/inputs" "$room/outputs" >&2 || fail "not each input (<) has an output (>), or the other way round"
diff "$room/inputs" "$room/listed" >&2 || fail "not each script (<) is listed once in $scripts/README.md (>), or the other way round"

while read -r name; do
    issue dry <"$scripts/$name.jsonl" >"$room/out"
    ended "$name" 0 ''
    wrote "$name" "$scripts/$name.out"
done <"$room/inputs"

cat "$scripts"/*.jsonl >"$room/row"
issue dry <"$room/row" >"$room/out"
ended 'all scripts in a row' 0 ''
told=$(wc -l <"$room/out")
lines=$(grep -c '[^[:blank:]]' "$room/row")
[ "$told" -ge "$lines" ] || fail "all scripts in a row: $told lines that are told, and $lines that came"

# later: the lines of standard input a month later, with other tokens.
later() {
    awk '{
        gsub(/"token":"/, "&z")
        gsub(/"txn":"/, "&z")
        if (match($0, /"at":[0-9]+/))
            $0 = substr($0, 1, RSTART + 4) sprintf("%.0f", substr($0, RSTART + 5, RLENGTH - 5) + 2592000000) substr($0, RSTART + RLENGTH)
        print
    }'
}

# go_on NAME WORD..: the program does this on both devices, and writes the same, which stands in $room/out.
go_on() {
    issue "$2" "$room/whole" <"$room/in" >"$room/expected"
    ended "$1, on a device that never turns" 0 ''
    issue "$2" "$room/turned" <"$room/in" >"$room/out"
    ended "$1, on a device that turns" 0 ''
    wrote "$1, on a device that turns" "$room/expected"
}

# Lines of 131 bytes a record, which more than fill a half of 19991 bytes. They are all declined, so no account knows of them.
long_names 170 | grep '"type":"card"' | sed 's/"token":"/&long-/' >"$room/long"
while read -r name; do
    rm -f "$room/whole" "$room/turned"
    issue format "$room/whole" 200000 0
    issue format "$room/turned" 40000 0
    cat "$scripts/$name.jsonl" "$room/long" >"$room/in"
    go_on "$name" replay
    [ "$(od -An -tu1 -j16 -N1 "$room/turned")" -eq 1 ] || fail "$name: its device has not turned"
    [ "$(od -An -tu1 -j16 -N1 "$room/whole")" -eq 0 ] || fail "$name: its large device has turned"
    go_on "$name, its accounts" balances
    cp "$scripts/$name.jsonl" "$room/in"
    go_on "$name, once more" replay
    later <"$scripts/$name.jsonl" >"$room/in"
    go_on "$name, a month later" replay
    go_on "$name, its accounts a month later" balances
done <"$room/inputs"
