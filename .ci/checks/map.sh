#!/usr/bin/env bash
# The picture and the tables of crates in docs/ARCHITECTURE.md are those that `make map` writes, and its table of a sound state's rules has
# each of them, with a crate that has its law.
. "$(dirname "$0")/../cases.sh"

# A list of three sections, of which the highest stands on both others: an arrow leads to the one between them alone.
printf '%s\n' '## Low' 'a:' '## Middle, over it' 'b: a' '## High' 'c: a b' 'd: c' >"$room/crates"
bar map "$room/crates" >"$room/picture"
cat >"$room/wanted" <<'END'
```mermaid
flowchart TB
    high["<b>High</b><br/>c, d"]
    middle["<b>Middle, over it</b><br/>b"]
    low["<b>Low</b><br/>a"]
    high --> middle
    middle --> low
```
END
cmp "$room/wanted" "$room/picture" || fail 'the picture of a made-up list is another'

# A section that stands on a higher one, a rule without its row, and a row whose crate has no law of it.
printf '%s\n' '## Low' 'a: b' '## High' 'b:' >"$room/turned"
refused 'Low stands on High, which comes after it' map "$room/turned"
sed '/^| `owed` /d' docs/ARCHITECTURE.md >"$room/page"
refused 'the field owed has no row' sound "$room/page"
sed '/^| `owed` /s/`iss_balanced`/`iss_bounded`/' docs/ARCHITECTURE.md >"$room/page"
refused 'iss_bounded has no law of owed' sound "$room/page"

bar sound
bar map | diff docs/ARCHITECTURE.md - || fail "the picture or the tables aren't those of crates.txt and the crates' heads: make map"
