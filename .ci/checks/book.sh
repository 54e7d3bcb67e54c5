#!/usr/bin/env bash
# The auditor's book of each clause of the top call, and the table of clauses, are made from the sources: each name that a clause
# cites has a definition.
set -eu
cd "$(dirname "$0")/../.."

if ! command -v python3 >/dev/null; then
    echo 'Without python3 neither the book nor the table of clauses is made.'
    exit 0
fi
python3 .ci/book.py
python3 .ci/book.py replay.moments
python3 .ci/book.py programs_keep_what_they_told
python3 .ci/clauses.py >build/clauses.md
grep -q '^| `run` | `status`' build/clauses.md
