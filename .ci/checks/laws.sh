#!/usr/bin/env bash
# What docs/laws.txt names for the table of clauses: each call, clause and definition is there. Of a file with a call, a clause and a
# definition that aren't, each is found.
set -eu
cd "$(dirname "$0")/../.."

if ! command -v python3 >/dev/null; then
    echo 'Without python3 no laws are looked for.'
    exit 0
fi
python3 -B .ci/laws.py

room=$(mktemp -d)
trap 'rm -rf "$room"' EXIT

# found MESSAGE LINE: of a file with this line, this is said.
found() {
    echo "$2" >"$room/laws"
    ! python3 -B .ci/laws.py "$room/laws" >"$room/said" 2>&1 || { echo "$0: '$2' is taken" >&2; exit 1; }
    echo "docs/laws.txt: $1" | diff - "$room/said" >&2
}

found 'no crate shows iss_laws calls_are_paid_thrice' 'iss_laws calls_are_paid_thrice: Each call is paid.'
found 'no crate shows iss_top run forget' 'iss_top run forget: It forgets.'
found 'for iss_top there are 0 definitions IsForgotten, and not one' 'iss_top run replay = IsForgotten'
