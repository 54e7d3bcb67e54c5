#!/usr/bin/env bash
# The contracts for machines in api/ are what `make api` writes, and the validator there tells valid values from others.
. "$(dirname "$0")/../check.sh"

if ! command -v python3 >/dev/null; then
    echo "$0: no python3 here: the contracts for machines are left out"
    exit 0
fi
export PYTHONDONTWRITEBYTECODE=1

python3 api/generate.py --check
python3 .ci/api.py cases

# Of these lines the first is valid for a client, the second for a replay, and the last for nobody.
cat >"$room/lines" <<'END_OF_LINES'
{"type":"user","token":"t1","user":"u1"}
{"type":"time","at":1}

nothing
END_OF_LINES
status=0
python3 api/validate.py api/line.schema.json ClientLine <"$room/lines" >"$room/out" || status=$?
[ "$status" = 1 ] || fail "a line that no client may send: status $status, not 1"
printf '%s\n' '2: {"type":"time","at":1}' '4: nothing' >"$room/bad"
wrote 'a line that no client may send' "$room/bad"
head -n 3 "$room/lines" >"$room/valid"
python3 api/validate.py api/line.schema.json <"$room/valid" || fail 'two lines: they are not valid'
