#!/usr/bin/env bash
# Standard streams that fail: status 5 for output, 3 for input.
. "$(dirname "$0")/../program.sh"

issue dry <"$first_in" >&-
ended 'a closed standard output' 5 'issuer: output fault'

# The reader has ended before the program starts.
exec {gone}> >(exec true)
wait $!
issue dry <"$first_in" >&"$gone"
exec {gone}>&-
ended 'a standard output whose reader has gone' 5 'issuer: output fault'

if [ -c /dev/full ]; then
    issue dry <"$first_in" >/dev/full
    ended 'a full device as standard output' 5 'issuer: output fault'
fi

issue dry </ >"$room/out"
ended 'a directory as standard input' 3 'issuer: input fault'
wrote 'a directory as standard input' /dev/null

issue dry <&- >"$room/out"
ended 'a closed standard input' 3 'issuer: input fault'
wrote 'a closed standard input' /dev/null

# With nowhere to say it, the status alone tells.
status=0
"$issuer" dry <"$first_in" >&- 2>&- || status=$?
[ "$status" = 5 ] || fail "closed standard output and error: status $status, not 5"
