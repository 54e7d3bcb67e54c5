#!/usr/bin/env bash
# The head of each crate's root file names each crate of crates.txt on which the crate stands, itself or by a word for several.
. "$(dirname "$0")/../cases.sh"

# A line of crates.txt with one library more, which its head then leaves out.
sed 's/^iss_edge:$/iss_edge: iss_model/' crates.txt >"$room/crates"
refused 'iss_edge: its head leaves out iss_model' heads "$room/crates"

bar heads
