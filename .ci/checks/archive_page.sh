#!/usr/bin/env bash
# The queries of docs/ARCHIVE.md are those in examples/archive, and on the archive there they have, by stock sqlite3, the results that
# the page has.
. "$(dirname "$0")/../check.sh"

if ! command -v sqlite3 >/dev/null || ! command -v python3 >/dev/null; then
    echo "$0: no sqlite3 or no python3 here: the page on archives is left out"
    exit 0
fi
examples=examples/archive
python3 -B .ci/archive.py page
sqlite3 "$room/db" <"$examples/example.sql"
for query in "$examples"/[0-9]*.sql; do
    sqlite3 -readonly -header -separator ' | ' "$room/db" <"$query" | sed 's/ *$//' >"$room/out"
    wrote "$query" "${query%.sql}.out"
done
