#!/usr/bin/env bash
# 20000 lines of all kinds, and the same lines again: then each is told one text, of a repeat or a refusal, and no record is made.
. "$(dirname "$0")/../program.sh"
. bench/inputs.sh

# run NAME FILE..: what the program writes on these files in a row, into $room/NAME.
run() {
    cat "${@:2}" >"$room/in"
    issue dry <"$room/in" >"$room/$1"
    ended "$1" 0 ''
}

# An event whose second line has other fields: the reply to that names the record that the first one made.
{
    printf '{"type":"user","token":"probe","user":"someone"}\n'
    printf '{"type":"user","token":"probe","user":"else"}\n'
} >"$room/probe"

mixed 20000 >"$room/lines"
run once "$room/lines"
run twice "$room/lines" "$room/lines"
run thrice "$room/lines" "$room/lines" "$room/lines"

lines=$(wc -l <"$room/lines")
told=$(wc -l <"$room/once")
head -n "$told" "$room/twice" | cmp -s - "$room/once" || fail 'twice: it begins otherwise than once'
tail -n +"$((told + 1))" "$room/twice" >"$room/again"
[ "$(wc -l <"$room/again")" = "$lines" ] || fail "again: $(wc -l <"$room/again") texts, and $lines lines"
! grep -E '"method":|"reply":"(acked|time|pending)"' "$room/again" >&2 || fail 'again: something was done'
tail -n +"$((told + lines + 1))" "$room/thrice" | cmp -s - "$room/again" || fail 'a third time: otherwise than the second'

run counted "$room/lines" "$room/probe"
run 'counted again' "$room/lines" "$room/lines" "$room/probe"
tail -n 1 "$room/counted" | grep -q '"reply":"conflict"' || fail "counted: $(tail -n 1 "$room/counted")"
cmp -s <(tail -n 1 "$room/counted") <(tail -n 1 "$room/counted again") || fail 'again: records were made'

# Each kind of text is there, or the lines are not mixed.
for text in done approved declined conflict late unknown acked already time idle form; do
    grep -q "\"reply\":\"$text\"" "$room/twice" || fail "no line was told $text"
done
for method in pgfs.authorization x.void x.standin pgfs.authorization.reversal pgfs.authorization.capture pgfs.refund x.expiry; do
    grep -q "\"method\":\"$method\"" "$room/once" || fail "nothing was sent by $method"
done
