#!/usr/bin/env bash
# The reasons of a decline are the same in the model, in the code, in docs/RULES.md and in docs/LINES.md.
. "$(dirname "$0")/../cases.sh"

# A page without one reason, one with a reason too many, and code that writes another.
mkdir -p "$room/less/docs" "$room/more/docs" "$room/code/crates/iss_event/src"
sed '/^| `EXPIRED`/d' docs/RULES.md >"$room/less/docs/RULES.md"
sed 's/`REVERSED`, `CLEARED`/`REVERSED`, `UNDONE`, `CLEARED`/' docs/LINES.md >"$room/more/docs/LINES.md"
sed 's/=> "CLEARED"/=> "CLOSED"/' crates/iss_event/src/reason.rt >"$room/code/crates/iss_event/src/reason.rt"
refused 'docs/RULES.md leaves out the reason EXPIRED' reasons "$room/less"
refused 'docs/LINES.md has UNDONE, which is no reason' reasons "$room/more"
refused 'crates/iss_event/src/reason.rt leaves out the reason CLEARED' reasons "$room/code"

bar reasons
