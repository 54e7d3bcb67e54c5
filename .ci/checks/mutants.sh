#!/usr/bin/env bash
# Each wrong body can still be made from the sources as they are, and the gate tries at most 45 in 14 crates.
exec "$(dirname "$0")/../mutants.py" stand
