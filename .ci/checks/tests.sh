#!/usr/bin/env bash
# What docs/TESTS.md names: each test is one of its crate, each crate of tests and each check is there, and what runs calls is a test, a
# script or a check. Of a page with a test that isn't there, without a crate, and without a check each is found.
set -eu
cd "$(dirname "$0")/../.."

if ! command -v python3 >/dev/null; then
    echo 'Without python3 the page of tests is not compared.'
    exit 0
fi
python3 -B .ci/tests_page.py

room=$(mktemp -d)
trap 'rm -rf "$room"' EXIT

# found WHAT SCRIPT: of the page that this script of sed changes, this alone is said.
found() {
    sed "$2" docs/TESTS.md >"$room/TESTS.md"
    ! python3 -B .ci/tests_page.py "$room/TESTS.md" >"$room/said" || { echo "$0: '$1' isn't said" >&2; exit 1; }
    printf 'TESTS.md: %s\n' "$1" | diff - "$room/said" >&2
}

found 'iss_words_tests has no test words_that_are_not_there' 's/`clap_takes_the_same_words`/`words_that_are_not_there`/'
found "iss_words_tests isn't in the table of crates" '/^| `iss_words_tests`/d'
found "drill.sh isn't in the table of checks" '/^| `drill.sh`/d'
found 'there is no check drills.sh' 's/^| `drill.sh`/&, `drills.sh`/'
found 'nothing that runs calls is named script_that_is_not_there' 's/`every_move_of_a_card`/`script_that_is_not_there`/'
