#!/usr/bin/env bash
# Tells whether this machine has what proving, building, testing and measuring need. Ends with 1 where something needed is missing.
set -eu -o pipefail
cd "$(dirname "$0")/.."

missing=0

# tell MARK WHAT FOUND WHY: one line of the table.
tell() {
    printf '%-8s %-12s %-44s %s\n' "$1" "$2" "$3" "$4"
}

# needed WHAT FOUND WHY: FOUND is empty where it is missing.
needed() {
    if [ -n "$2" ]; then
        tell ok "$1" "$2" "$3"
    else
        tell MISSING "$1" '' "$3"
        missing=1
    fi
}

# useful WHAT FOUND WHY: the same for what only some work needs.
useful() {
    if [ -n "$2" ]; then
        tell ok "$1" "$2" "$3"
    else
        tell without "$1" '' "$3"
    fi
}

# enough WHAT MEGABYTES LEAST WHY: so many are free, and this many are needed.
enough() {
    if [ "$2" -ge "$3" ]; then
        tell ok "$1" "$2 MB free" "$4"
    else
        tell MISSING "$1" "$2 MB free of the $3 that are needed" "$4"
        missing=1
    fi
}

kit=$(rt version 2>/dev/null) || kit=
python=$(python3 -c 'import sys; print(sys.executable if sys.version_info >= (3, 10) else "")' 2>/dev/null) || python=
disk=$(df -Pm . | awk 'NR == 2 { print $4 }')
memory=$(awk '/^MemAvailable:/ { print int($2 / 1024) }' /proc/meminfo)

needed rt "$kit" 'proves, builds and tests'
needed bash "$(command -v bash || true)" 'the checks of the built program'
needed make "$(command -v make || true)" 'the targets that make help lists'
enough disk "$disk" 5000 'what proofs leave in crates/*/out'
enough memory "$memory" 3000 'the proof of the largest crate'
tell ok processors "$(nproc)" 'with four, two crates are proved side by side'
useful valgrind "$(command -v valgrind || true)" 'counts instructions, which tell growth better than seconds'
useful strace "$(command -v strace || true)" 'counts the calls of two scripts that make bench runs'
useful sqlite3 "$(command -v sqlite3 || true)" 'reads archives of postings, and a check compares them'
useful gcc "$(command -v gcc || true)" 'compiles what make bench compares with, the gateway and clients of the checks, and the disk that forgets'
useful curl "$(command -v curl || true)" 'posts the lines of docs/SERVING.md, as the checks of serving do'
needed python3 "$python" 'of 3.10 or later: runs rt, the tests and the gate, and the gateways and clients of the documents'
useful jq "$(command -v jq || true)" 'makes tables of statements, as docs/RECIPES.md shows'
useful column "$(command -v column || true)" 'lays those tables out'
useful node "$(command -v node || true)" 'runs the example gateway and client in JavaScript'
useful nginx "$(command -v nginx || true)" 'takes the files of examples/nginx'
useful systemd "$(command -v systemd-analyze || true)" 'takes the file of examples/systemd'
exit "$missing"
