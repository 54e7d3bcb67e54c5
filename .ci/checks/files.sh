#!/usr/bin/env bash
# No source, proof, script or document has more than 400 lines, but for those that .ci/exceptions names with the most that each may have.
# What a target writes into a document doesn't count.
. "$(dirname "$0")/../cases.sh"

# A file of 401 lines, a page of as many beside its tables, an exception that grew, and one that is none.
mkdir "$room/made"
lines 401 '-- a line' >"$room/made/New.antt"
lines 451 '-- a line' >"$room/made/Grown.antt"
lines 400 '-- a line' >"$room/made/Short.antt"
{ echo '<!-- tables: -->'; lines 400 '| a row |'; echo '<!-- end of tables -->'; lines 401 'a line'; } >"$room/made/PAGE.md"
printf '%s\n' '450 Grown.antt' '500 Short.antt' >"$room/list"
refused 'New.antt has 401 lines, and 400 are the most' files "$room/made" "$room/list"
refused 'PAGE.md has 401 lines' files "$room/made" "$room/list"
refused 'Grown.antt has 451 lines, and its exception 450' files "$room/made" "$room/list"
refused "Short.antt is an exception, and isn't longer" files "$room/made" "$room/list"

bar files
