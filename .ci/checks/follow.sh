#!/usr/bin/env bash
# A second device on real files. A copy is the same, and so is a device of version 1 caught up on halves; the first device's file stays as
# it was. Then copies and catches that are killed by signal 9 at some moment: what is left of the second device opens with the first
# records of the first one, at least as many as it had, or is no device yet where it was being copied. The first one's file stays. A
# second try then ends, and both are the same.
. "$(dirname "$0")/../program.sh"
. bench/inputs.sh

follow=crates/issuer_follow/out/issuer_follow
[ -x "$follow" ] || make follow >&2

from=$room/from
to=$room/to
lines=240

# follows WORDS..: runs the program of a second device, and keeps its status.
follows() {
    status=0
    "$follow" "$@" >"$room/out" 2>"$room/said" || status=$?
}

# is_done WHAT STATUS: the last run ended so, and wrote nothing.
is_done() {
    ended "$1" "$2" ''
    [ ! -s "$room/out" ] || fail "$1: it wrote '$(cat "$room/out")'"
}

# is_same RECORDS: both devices stand for the same, so many records.
is_same() {
    follows same "$from" "$to"
    ended 'same' 0 ''
    [ "$(cat "$room/out")" = "{\"records\":$1,\"same\":true}" ] || fail "same: it wrote '$(cat "$room/out")'"
}

# counts FILE: how many records stand on a device, by what `same` says of it beside itself; none where it can't be opened.
counts() {
    cp "$1" "$room/own"
    cp "$1" "$room/copy"
    follows same "$room/own" "$room/copy"
    count=none
    [ "$status" = 4 ] && return
    ended 'counting' 0 ''
    count=$(sed 's/{"records":\([0-9]*\),.*/\1/' "$room/out")
}

# filled FILE SIZE LINES: a device of this size, in halves, that was given so many lines of purchases.
filled() {
    rm -f "$1"
    issue format "$1" "$2" 5
    ended 'formatting' 0 ''
    purchases "$3" | issue replay "$1" >"$room/out"
    ended 'filling' 0 ''
}

# is_kept WHAT: the first device's file is as it was.
is_kept() {
    cmp -s "$from" "$room/kept" || fail "$1: the first device was changed"
}

filled "$from" 600000 "$lines"
counts "$from"
whole=$count
cp "$from" "$room/kept"

follows copy "$from" "$to" 30
is_done 'a copy to a device that is too small' 9
rm -f "$to"
follows copy "$from" "$to" 900000
is_done 'a copy' 0
is_kept 'a copy'
is_same "$whole"
follows copy "$from" "$to" 800000
is_done 'a copy to a device of another size' 4
is_same "$whole"
follows copy "$from" "$from" 900000
ended 'a copy to itself' 2 ''
follows catch "$room/none" "$to"
is_done 'catching up with no device' 4
rm -f "$room/other"
issue format "$room/other" 900000 6
follows catch "$from" "$room/other"
is_done 'catching up on a device of another instance' 10

# killed WORDS..: runs the program of a second device, and kills it at some moment of the time that it takes.
killed() {
    "$follow" "$@" >"$room/out" 2>"$room/said" &
    child=$!
    sleep "0.$(printf '%06d' $((RANDOM * 32768 % (span + 1000) + RANDOM % 1000)))"
    kill -9 "$child" 2>/dev/null || true
    wait "$child" 2>/dev/null || true
    child=
}

# took WORDS..: how long such a run takes, in millionths of a second, at most nine tenths of one.
took() {
    local since=$EPOCHREALTIME
    follows "$@"
    is_done "$1" 0
    span=$((${EPOCHREALTIME/./} - ${since/./}))
    span=$((span < 900000 ? span : 900000))
}

rm -f "$to"
took copy "$from" "$to" 900000
for ((i = 0; i < 40; i++)); do
    rm -f "$to"
    killed copy "$from" "$to" 900000
    is_kept 'a copy that was killed'
    if [ -e "$to" ]; then
        counts "$to"
        [ "$count" = none ] || [ "$count" = "$whole" ] || fail "a copy that was killed has $count records, not $whole"
        # A file that wasn't made to its size yet is no device of the size that was asked for.
        [ "$(wc -c <"$to")" = 900000 ] || rm -f "$to"
    fi
    follows copy "$from" "$to" 900000
    is_done 'a copy after a kill' 0
    is_same "$whole"
done

# A device with a part of the records, which one with all of them is ahead of.
filled "$room/part" 600000 $((lines / 4))
counts "$room/part"
part=$count
filled "$from" 60000000 "$lines"
counts "$from"
whole=$count
cp "$from" "$room/kept"
cp "$room/part" "$to"
took catch "$from" "$to"
is_same "$whole"
for ((i = 0; i < 20; i++)); do
    cp "$room/part" "$to"
    last=$part
    for ((j = 0; j < 3; j++)); do
        killed catch "$from" "$to"
        is_kept 'a catch that was killed'
        counts "$to"
        [ "$count" != none ] && [ "$count" -ge "$last" ] && [ "$count" -le "$whole" ] ||
            fail "a catch that was killed has $count records, after $last of $whole"
        last=$count
    done
    follows catch "$from" "$to"
    is_done 'a catch after kills' 0
    is_same "$whole"
done
