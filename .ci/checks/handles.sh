#!/usr/bin/env bash
# The edge's own tests with fewer handles than the connections of one of them need: the last is a dial's, or a client's.
. "$(dirname "$0")/../program.sh"

tests=$PWD/crates/iss_real_tests/out/iss_real_tests_tests
[ -x "$tests" ] || (cd crates/iss_real_tests && rt test) >&2

for handles in 31 32; do
    for test in $("$tests" --list | sed -n 's/: test$//p'); do
        (cd "$room" && ulimit -n "$handles" && "$tests" "$test") >"$room/out" 2>&1 ||
            fail "$test with $handles handles: $(tail -n 5 "$room/out")"
    done
done
