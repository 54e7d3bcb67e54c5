#!/usr/bin/env bash
# A simulated disk, which forgets what no sync settled: two hundred runs that replay, a hundred on a device that turns ten times, and two
# hundred that serve, each killed at some action. The device is then made anew: what was written and not settled has its old bytes, the new
# ones or any others. The next run opens it, and has each record of which a byte of a text went out. Without kills, each record is a write,
# a sync, its gate and a sync, and its texts go out after that; a turn is a half, a sync, its selector and a sync. The same kills lose
# something if no sync counts, only one of the two, or those of turns don't.
. "$(dirname "$0")/../serving.sh"
. bench/inputs.sh

if ! command -v python3 >/dev/null || ! built gateway || ! built load; then
    echo "$0: no gcc or no python3 here: no run is killed on a disk that forgets"
    exit 0
fi
gcc -O2 -shared -fPIC -o "$room/disk.so" .ci/disk.c
mixed 54 >"$room/lines"
long_names 120 >"$room/turning"
python3 -B .ci/forgets.py "$issuer" "$room"
