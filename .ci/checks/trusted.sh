#!/usr/bin/env bash
# The real edge and `main` have no more trusted lines than docs/PROOFS.md says.
set -eu
cd "$(dirname "$0")/../.."

said=$(sed -n 's/^- Together these are \([0-9]*\) lines of code.*/\1/p' docs/PROOFS.md)
count=$(python3 -B .ci/trusted.py)
[ "$count" -le "$said" ] || { echo "$0: $count trusted lines, and docs/PROOFS.md says $said" >&2; exit 1; }
