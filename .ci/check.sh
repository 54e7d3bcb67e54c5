# What each check begins with: a folder for its files, and how it fails.
set -eu -o pipefail
cd "$(dirname "${BASH_SOURCE[0]}")/.."

# A check that starts a program beside it keeps its number here until it has ended.
child=
room=$(mktemp -d)
leave() {
    [ -z "$child" ] || kill -9 "$child" 2>/dev/null || true
    rm -rf "$room"
}
trap leave EXIT

fail() {
    echo "$0: $*" >&2
    exit 1
}

# wrote WHAT FILE: the last run wrote what the file holds, into $room/out.
wrote() {
    cmp -s "$2" "$room/out" || fail "$1: it wrote '$(head -c 2000 "$room/out")'"
}
