#!/usr/bin/env bash
# The gate warns of nothing: what `rt ci` printed, which .ci/run keeps in build/gate, has no warning. A crate that an earlier run
# proved isn't read again, and so warns of nothing; from nothing each is.
. "$(dirname "$0")/../cases.sh"

# A pattern that matches more than it seems to, and a parameter whose name is a word of clauses.
cat >"$room/proofs" <<'END'
== low
./proofs/More.antt:6:10: warning: this pattern binds a variable spelled like a constructor: `Spent` matches every `Two` here
rt: warning: src/lib.rt: record is reserved in a clause: to name the parameter there, rename it
rt: low proved
END
refused 'the gate warns: ./proofs/More.antt:6:10' silence "$room/proofs"
refused 'the gate warns: rt: warning: src/lib.rt' silence "$room/proofs"

if ! [ -s build/gate ]; then
    echo 'No gate has left what it printed, so no warning is looked for: .ci/run leaves it.'
    exit 0
fi
bar silence build/gate
