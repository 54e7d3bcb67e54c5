#!/usr/bin/env bash
# Postings a second that `build/issuer_archive archive` archives, one transaction each, beside stock `sqlite3` that makes the same
# transactions in write-ahead mode with a sync each: on the disk of this folder, and in a folder in memory, where syncs cost nothing.
# Then what a statement takes of 100,000 postings, and, with valgrind, its instructions a row.
set -eu -o pipefail
cd "$(dirname "$0")/.."

command -v sqlite3 >/dev/null || { echo "$0: no sqlite3 here, so nothing is compared" >&2; exit 1; }
turns=5
room=$(mktemp -d)
folders=()
trap 'rm -rf "$room" "${folders[@]}"' EXIT

# timed COMMAND..: how many microseconds it takes.
timed() {
    local start=$EPOCHREALTIME
    "$@" >/dev/null
    local end=$EPOCHREALTIME
    echo $((${end/./} - ${start/./}))
}

# loads COUNT: a user, and then loads of 1.00, each a record with one posting.
loads() {
    awk -v count="$1" 'BEGIN {
        print "{\"type\":\"user\",\"token\":\"u\",\"user\":\"u1\"}"
        for (i = 1; i < count; i++) {
            printf "{\"type\":\"load\",\"token\":\"l%d\",\"user\":\"u1\",\"currency\":\"USD\",\"amount\":\"1.00\"}\n", i
        }
    }'
}

# transactions DB: what adds the same rows, as statements.
transactions() {
    echo 'PRAGMA journal_mode = WAL; PRAGMA synchronous = FULL;'
    sqlite3 -readonly "$1" .schema
    sqlite3 -readonly -separator ', ' -nullvalue NULL "$1" "SELECT seq, record, at, from_kind, quote(from_user), to_kind, quote(to_user), currency, amount, quote(txn) FROM post ORDER BY seq" |
        awk -F ', ' '{ printf "BEGIN; INSERT INTO post VALUES (%s); INSERT OR REPLACE INTO head VALUES (1, 0, %s, %s); COMMIT;\n", $0, $2, $1 }'
}

plain() {
    sqlite3 "$1" <"$2"
}

fresh() {
    rm -f "$1/db" "$1/db-wal" "$1/db-shm"
}

# compare PLACE FOLDER COUNT: a line of the table, of so many postings.
compare() {
    local place=$1 folder=$2 count=$3 turn
    build/issuer format "$folder/device" $((count * 400 + 4000)) 0
    loads $((count + 1)) | build/issuer replay "$folder/device" >/dev/null
    fresh "$folder"
    build/issuer_archive archive "$folder/device" "$folder/db" >/dev/null
    transactions "$folder/db" >"$room/statements"
    for ((turn = 0; turn < turns; turn++)); do
        fresh "$folder"
        timed build/issuer_archive archive "$folder/device" "$folder/db" >>"$room/$place.issuer"
        fresh "$folder"
        timed plain "$folder/db" "$room/statements" >>"$room/$place.sqlite"
    done
    paste <(sort -n "$room/$place.issuer") <(sort -n "$room/$place.sqlite") | awk -v place="$place" -v count="$count" '
        NR == 1 { printf "%-8s %8d %10.3f %10.3f %12.0f %12.0f\n", place, count, $1 / 1e6, $2 / 1e6, count * 1e6 / $1, count * 1e6 / $2 }'
}

printf '%-8s %8s %10s %10s %12s %12s\n' device postings seconds "sqlite3's" 'a second' "sqlite3's"
mkdir "bench/room.$$"
folders+=("bench/room.$$")
compare disk "bench/room.$$" 2000
if [ -w /dev/shm ]; then
    memory=$(mktemp -d /dev/shm/archive.XXXXXX)
    folders+=("$memory")
    compare memory "$memory" 10000
fi

{
    grep '^CREATE' examples/archive/example.sql
    sed -n '/^INSERT INTO head VALUES (1, 7, 100000/,/^FROM number;/p' .ci/checks/archive.sh
} | sqlite3 "$room/year.db"
year() {
    build/issuer_archive statement "$room/year.db" u1 USD 2025-01-01 2025-12-31
}
echo "a statement of 100,000 postings: $(timed year) microseconds"
if command -v valgrind >/dev/null; then
    valgrind --tool=callgrind --callgrind-out-file=/dev/null build/issuer_archive statement "$room/year.db" u1 USD 2025-01-01 2025-12-31 2>&1 >/dev/null |
        awk '/Collected/ { printf "instructions a row: %.0f\n", $4 / 100000 }'
fi
