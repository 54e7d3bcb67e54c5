#!/usr/bin/env bash
# Where lines begin and end: no input, blank lines, and a last line without a line feed. The lines of docs/LINES.md, of which each is taken.
. "$(dirname "$0")/../program.sh"

# answered WHAT FILE: on this input the program writes what the file holds.
answered() {
    issue dry >"$room/out"
    ended "$1" 0 ''
    wrote "$1" "$2"
}

answered 'the first example' "$first_out" <"$first_in"
answered 'no input' /dev/null </dev/null
printf '\n \n\t\r\n\n  \t' >"$room/blank"
answered 'blank lines alone' /dev/null <"$room/blank"
printf '%1000000s' '' >"$room/blank"
answered 'a million blanks' /dev/null <"$room/blank"

while IFS= read -r line; do
    printf '\n \t\r\n%s\r\n\n' "$line"
done <"$first_in" >"$room/between"
answered 'blank lines between' "$first_out" <"$room/between"

# The page has a line of each type of its table, and each line is taken.
awk '/^## / { is_ours = /^## One line of each/ } /^```/ { inside = !inside; next } inside && is_ours' docs/LINES.md >"$room/page"
sed -n '/^## Types/,/^| field /s/^| `\([a-z]*\)` |.*/"type":"\1"/p' docs/LINES.md | sort >"$room/types"
grep -o '"type":"[a-z]*"' "$room/page" | sort -u | diff - "$room/types" >&2 || fail 'docs/LINES.md: its lines (<) have other types than its table (>)'
issue dry <"$room/page" >"$room/out"
ended 'docs/LINES.md' 0 ''
! grep -E '"reply":"(form|conflict|declined|late|unknown|already|idle)"' "$room/out" || fail 'docs/LINES.md: a line was not taken'

head -c -1 "$first_in" >"$room/unended"
answered 'a last line without a line feed' "$first_out" <"$room/unended"
