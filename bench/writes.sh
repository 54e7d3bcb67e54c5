#!/usr/bin/env bash
# The writes, syncs and bytes of two runs of `build/issuer replay` on a device, one of which turns, as strace counts them, and as the
# law on puts counts them by their records (`puts_are_counted`). It ends with 1 if they differ. ISSUER names another program.
set -eu -o pipefail
cd "$(dirname "$0")/.."

for program in strace python3; do
    command -v "$program" >/dev/null || { echo "$0: no $program here" >&2; exit 1; }
done
. bench/inputs.sh
room=$(mktemp -d)
trap 'rm -rf "$room"' EXIT
long_names 120 >"$room/lines"
python3 -B bench/writes.py "${ISSUER:-build/issuer}" "$room/lines" 9500 "$room"
