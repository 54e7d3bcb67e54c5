#!/usr/bin/env bash
# Words that are no command: status 2, the usage line, and nothing read or written.
. "$(dirname "$0")/../program.sh"

usage='issuer: usage: dry, format DEVICE SIZE INSTANCE, replay DEVICE, balances DEVICE, serve DEVICE PORT GATEWAYPORT TURNS, drill N'

# refused WORDS..: the program takes none of these words.
refused() {
    local what="the words '$*'"
    { issue "$@" && cat >"$room/left"; } <"$first_in" >"$room/out"
    ended "$what" 2 "$usage"
    wrote "$what" /dev/null
    cmp -s "$first_in" "$room/left" || fail "$what: it read its input"
}

refused
refused pay
refused replay
refused replay a b
refused replay ''
refused replay -a
refused serve d 80 81 0
refused drill 0
refused Dry
refused 'dry '
refused dry -x
refused dry dry
refused ''
refused dry ''
refused $'dr\xff'
refused dry $'\xff'
refused balances
refused balances -a
refused drill
refused drill 100001
refused drill 01
refused drill +1
refused serve d 80 81
refused serve d 0 81 1
refused serve d 80 65536 1
refused serve d 80 81 4294967296
refused balances "$(head -c 4097 /dev/zero | tr '\0' a)"
