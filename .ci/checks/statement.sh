#!/usr/bin/env bash
# What docs/RECIPES.md has on statements: its commands as they stand there, and what the page refuses.
. "$(dirname "$0")/../check.sh"

for command in python3 jq column; do
    if ! command -v "$command" >/dev/null; then
        echo "$0: no $command here: statements are left out"
        exit 0
    fi
done
export PYTHONDONTWRITEBYTECODE=1
lines=examples/statement/example.jsonl
page=examples/statement/page.py

mkdir "$room/page"
ln -s "$PWD/examples" "$room/page/examples"
awk '
    /^## / { is_ours = /^## A statement of account/ }
    /^```/ { inside = !inside; next }
    inside && is_ours
' docs/RECIPES.md >"$room/page/commands"
(cd "$room/page" && bash -eu -o pipefail commands) >"$room/out" 2>"$room/said" || fail "docs/RECIPES.md: it said '$(cat "$room/said")'"
cat "$lines" - >"$room/told" <<'END'
opening                              0.00
1970-01-02T00:00:00Z  programme      1500.00
1970-01-02T01:01:01Z  network    a1  -60.00
1970-01-03T00:00:00Z  network    a2  -19.90
1970-01-04T00:00:00Z  network    a2  19.90
1970-01-04T01:01:01Z  gateway    a3  25.00
closing                              1465.00
out -79.9, in 1544.9
END
wrote 'docs/RECIPES.md' "$room/told"
for text in '1,500.00' '1,420.10' '1,544.90' '79.90' '1970-01-02 to 1970-01-31'; do
    grep -qF "$text" "$room/page/statement.html" || fail "the page has no $text"
done

# A statement without its last line, one that lacks a row, and one whose names are no plain text.
refused() {
    status=0
    python3 "$page" u1 USD 1970-01-02 1970-01-31 >"$room/out" 2>"$room/said" || status=$?
    [ "$status" = 1 ] && [ ! -s "$room/out" ] || fail "$1: status $status, and a page of $(wc -c <"$room/out") bytes"
}
head -n -1 "$lines" | refused 'no closing line'
grep -v '"a1"' "$lines" | refused 'no whole statement'
refused 'no line' </dev/null
python3 "$page" '<b>' USD 1970-01-02 1970-01-31 <"$lines" >"$room/escaped"
grep -qF '<dd>&lt;b&gt;</dd>' "$room/escaped" || fail 'a name went into the page as it is'
