# What each check of the proved program begins with: the program that rt ci left, and its first example. `make test` leaves such a
# check to the gate.
. "$(dirname "${BASH_SOURCE[0]}")/check.sh"

issuer=crates/iss_cli/out/iss_cli
first_in=crates/iss_cli/stdin
first_out=crates/iss_cli/stdout
[ -x "$issuer" ] || make issuer >&2

# issue WORDS..: runs the program, and keeps its status and what it says on standard error.
issue() {
    status=0
    "$issuer" "$@" 2>"$room/said" || status=$?
}

# ended WHAT STATUS LINE: the last run ended so, and said this one line, or nothing where it is empty.
ended() {
    [ "$status" = "$2" ] || fail "$1: status $status, not $2"
    printf '%s' "${3:+$3$'\n'}" | cmp -s - "$room/said" || fail "$1: it said '$(cat "$room/said")', not '$3'"
}
