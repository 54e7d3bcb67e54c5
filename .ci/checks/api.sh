#!/usr/bin/env bash
# The contracts for machines in api/ and the program: each line and text of the worked scripts is as they say, and so is what a program
# that serves answers to clients and sends to its gateway.

# Each event that is served costs two syncs: in memory they take no time.
[ ! -w /dev/shm ] || export TMPDIR=/dev/shm
. "$(dirname "$0")/../serving.sh"

if ! command -v python3 >/dev/null; then
    echo "$0: no python3 here: the contracts for machines are not compared with the program"
    exit 0
fi
export PYTHONDONTWRITEBYTECODE=1

python3 .ci/api.py lines "$issuer"

formatted 1000000
serve
listening "$port" 'what serves'
python3 .ci/api.py serve "$port" "$gateway_port"
killed

# A device without room.
formatted 27
serve
listening "$port" 'what serves'
python3 .ci/api.py full "$port"
killed
