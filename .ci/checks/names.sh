#!/usr/bin/env bash
# Each name that a document has in backticks stands in the sources: crates, files, functions, clauses, definitions, targets and scripts.
set -eu
cd "$(dirname "$0")/../.."

if ! command -v python3 >/dev/null; then
    echo 'Without python3 no names are looked for.'
    exit 0
fi
python3 .ci/names.py
