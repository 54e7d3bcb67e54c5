#!/usr/bin/env bash
# What `build/issuer` does if it lacks memory (bench/memory.py): three runs in which each allocation is refused once, and two long ones
# under twenty limits of their address space. With a word the devices are in that folder, and else in /dev/shm. ISSUER names another
# program.
set -eu -o pipefail
cd "$(dirname "$0")/.."

issuer=${ISSUER:-build/issuer}
room=$(mktemp -d -p "${1:-/dev/shm}")
trap 'rm -rf "$room"' EXIT
gcc -O2 -Wall -shared -fPIC -o "$room/allocations.so" bench/allocations.c
python3 -B bench/memory.py "$issuer" "$room/allocations.so" "$room"
