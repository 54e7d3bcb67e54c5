#!/usr/bin/env bash
# Instructions a byte that the longest lines and requests cost `build/issuer` (bench/costs.py), by valgrind. ISSUER names another program;
# with a word it ends with status 1 if a byte costs more than that.
set -eu -o pipefail
cd "$(dirname "$0")/.."

command -v valgrind >/dev/null || { echo "$0: no valgrind here" >&2; exit 1; }
room=$(mktemp -d)
trap 'rm -rf "$room"' EXIT
python3 -B bench/costs.py "${ISSUER:-build/issuer}" "$room" "$@"
