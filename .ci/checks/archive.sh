#!/usr/bin/env bash
# Archives: what the program makes of a device is the archive in examples/archive, row by row, and the queries there have their results
# on it by stock sqlite3. A second run adds nothing, and a copy that lags is taken up where it is. Of each worked script that has a
# report, the sums by SQL are what `issuer balances` tells. What sqlite3 finds in the files.

# Devices are written here: in memory their syncs take no time.
[ ! -w /dev/shm ] || export TMPDIR=/dev/shm
. "$(dirname "$0")/../program.sh"

archive=crates/issuer_archive/out/issuer_archive
examples=examples/archive
scripts=examples/scripts

if ! command -v sqlite3 >/dev/null || ! command -v python3 >/dev/null; then
    echo "$0: no sqlite3 or no python3 here: archives are left out"
    exit 0
fi
export PYTHONDONTWRITEBYTECODE=1

# rows DB: the two tables.
rows() {
    sqlite3 -readonly "$1" 'SELECT * FROM head; SELECT * FROM post ORDER BY seq'
}

# archived DEVICE DB LINE WHAT: a run writes this line, and leaves a sound file and no log.
archived() {
    status=0
    "$archive" archive "$1" "$2" </dev/null >"$room/out" 2>"$room/said" || status=$?
    ended "$4" 0 ''
    printf '%s\n' "$3" >"$room/line"
    wrote "$4" "$room/line"
    [ "$(sqlite3 -readonly "$2" 'PRAGMA integrity_check')" = ok ] || fail "$4: sqlite3 finds the file unsound"
}

sqlite3 "$room/example.db" <"$examples/example.sql"
rows "$room/example.db" >"$room/rows"

[ -x "$archive" ] || make archive >&2

# The device of the page.
issue format "$room/device" 100000 7
ended 'the device of the page' 0 ''
issue replay "$room/device" <"$examples/lines.jsonl" >/dev/null
ended 'the lines of the page' 0 ''
for run in first second; do
    archived "$room/device" "$room/db" '{"posts":7,"records":13}' "the $run run"
    rows "$room/db" | cmp -s - "$room/rows" || fail "the $run run: it has other rows than the example"
done
for query in "$examples"/[0-9]*.sql; do
    sqlite3 -readonly -header -separator ' | ' "$room/db" <"$query" | sed 's/ *$//' >"$room/out"
    wrote "$query, on what the program made" "${query%.sql}.out"
done

# stated DB FILE WORDS..: this statement is what the file holds.
stated() {
    local db=$1 file=$2
    shift 2
    status=0
    "$archive" statement "$db" "$@" </dev/null >"$room/out" 2>"$room/said" || status=$?
    ended "the statement $*" 0 ''
    wrote "the statement $*" "$file"
}

stated "$room/db" "$examples/statement.jsonl" u1 USD 2026-03-03 2026-03-04
cat >"$room/none" <<'END'
{"balance":"0.00","line":"opening"}
{"balance":"0.00","line":"closing"}
END
stated "$room/db" "$room/none" u9 USD 2026-03-03 2026-03-04
sed 's/0\.00/0/' "$room/none" >"$room/yen"
stated "$room/db" "$room/yen" u1 JPY 2026-03-03 2026-03-04
rows "$room/db" | cmp -s - "$room/rows" || fail 'statements: they changed the archive'

# The page's commands, in a folder in which the programs are built: after each stands what it writes.
mkdir -p "$room/page/build"
cp "$issuer" "$room/page/build/issuer"
cp "$archive" "$room/page/build/issuer_archive"
ln -s "$PWD/examples" "$room/page/examples"
awk -v room="$room/page" '
    /^## / { exit }
    /^```/ { inside = !inside; blocks += inside; next }
    inside { print >(room (blocks % 2 ? "/commands" : "/told")) }
' docs/ARCHIVE.md
(cd "$room/page" && bash -eu commands) >"$room/out" 2>"$room/said" || fail "docs/ARCHIVE.md: it said '$(cat "$room/said")'"
wrote 'docs/ARCHIVE.md' "$room/page/told"

# The statement of docs/RECIPES.md, from the lines that stand beside it.
issue format "$room/stated" 100000 7
ended 'the device of a statement' 0 ''
issue replay "$room/stated" <examples/statement/lines.jsonl >/dev/null
ended 'the lines of a statement' 0 ''
archived "$room/stated" "$room/stated.db" '{"posts":7,"records":15}' 'the archive of a statement'
stated "$room/stated.db" examples/statement/example.jsonl u1 USD 1970-01-02 1970-01-31

# A year of 100,000 postings.
{
    grep '^CREATE' "$examples/example.sql"
    cat <<'END'
INSERT INTO head VALUES (1, 7, 100000, 100000);
WITH RECURSIVE number(n) AS (SELECT 1 UNION ALL SELECT n + 1 FROM number WHERE n < 100000)
INSERT INTO post
SELECT n, n, 1735689600000 + n * 315000, 3 + n % 2, iif(n % 2, 'u1', NULL), 4 - n % 2 * 2, iif(n % 2, NULL, 'u1'), 840, n % 977 + 1, NULL
FROM number;
END
} | sqlite3 "$room/year.db"
status=0
"$archive" statement "$room/year.db" u1 USD 2025-01-01 2025-12-31 </dev/null >"$room/out" 2>"$room/said" || status=$?
ended 'a year of postings' 0 ''
[ "$(wc -l <"$room/out")" = 100002 ] || fail "a year of postings: $(wc -l <"$room/out") lines"
sqlite3 "$room/year.db" "SELECT sum(iif(to_kind = 4, amount, -amount)) FROM post" | python3 .ci/archive.py closing "$room/out" || fail 'a year of postings: the closing balance differs'

# No row of it takes more instructions than this, all else that a run does among them.
most=15000
if command -v valgrind >/dev/null; then
    took=$(valgrind --tool=callgrind --callgrind-out-file=/dev/null "$archive" statement "$room/year.db" u1 USD 2025-01-01 2025-12-31 2>&1 >/dev/null |
        awk '/Collected/ { printf "%d", $4 / 100000 }')
    [ "$took" -gt 0 ] && [ "$took" -le "$most" ] || fail "a year of postings: $took instructions a row, not $most at most"
fi

# An archive that sqlite3 made, of the first seven records.
sed '/VALUES (1, 7, 13, 7)/s/13, 7/7, 3/; /INSERT INTO post VALUES ([4-7],/d' "$examples/example.sql" | sqlite3 "$room/lags.db"
archived "$room/device" "$room/lags.db" '{"posts":7,"records":13}' 'an archive that lags'
rows "$room/lags.db" | cmp -s - "$room/rows" || fail 'an archive that lags: it has other rows than the example'

# refused STATUS DEVICE DB WHAT: a run ends so, writes nothing, and leaves the database's rows.
refused() {
    rows "$3" >"$room/kept" 2>/dev/null || true
    status=0
    "$archive" archive "$2" "$3" </dev/null >"$room/out" 2>"$room/said" || status=$?
    ended "$4" "$1" ''
    wrote "$4" /dev/null
    { rows "$3" 2>/dev/null || true; } | cmp -s - "$room/kept" || fail "$4: it changed the rows"
}

issue format "$room/other" 100000 8
ended 'another device' 0 ''
refused 12 "$room/other" "$room/db" 'another device'
refused 4 "$room/none" "$room/db" 'a device that is not there'
sqlite3 "$room/foreign.db" 'CREATE TABLE head (id INTEGER PRIMARY KEY) STRICT'
refused 13 "$room/device" "$room/foreign.db" 'tables of others'
sqlite3 "$room/above.db" <"$examples/example.sql"
sqlite3 "$room/above.db" 'UPDATE head SET posts = 6'
refused 13 "$room/device" "$room/above.db" 'a posting above the count'
refused 13 "$room/device" "$room/no/such/folder" 'a database that cannot be made'

# unknown WORDS..: these words are no command.
unknown() {
    status=0
    "$archive" "$@" </dev/null >"$room/out" 2>"$room/said" || status=$?
    ended "the words '$*'" 2 ''
    wrote "the words '$*'" /dev/null
}

unknown
unknown archive "$room/device"
unknown statement "$room/db" u1 USD 1970-02-30 1970-03-01
unknown statement "$room/db" u1 USD 2026-03-04 2026-03-03
unknown statement "$room/db" u1 usd 2026-03-03 2026-03-04
unknown statement "$room/db" -u1 USD 2026-03-03 2026-03-04
status=0
"$archive" statement "$room/foreign.db" u1 USD 2026-03-03 2026-03-04 </dev/null >"$room/out" 2>"$room/said" || status=$?
ended 'a statement from tables of others' 13 ''
wrote 'a statement from tables of others' /dev/null

# The sums of each report.
for report in "$scripts"/*.balances; do
    name=$(basename "$report" .balances)
    rm -f "$room/device" "$room/db" "$room/db-wal"
    issue format "$room/device" 100000 0
    issue replay "$room/device" <"$scripts/$name.jsonl" >/dev/null
    ended "$name, replayed" 0 ''
    "$archive" archive "$room/device" "$room/db" </dev/null >/dev/null || fail "$name: status $?"
    sqlite3 -readonly "$room/db" <"$examples/03_balances.sql" | python3 .ci/archive.py sums "$report" || fail "$name: the sums differ"
done
