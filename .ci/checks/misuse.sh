#!/usr/bin/env bash
# What the store's types forbid: with each of these misuses in it a turn of the store doesn't compile, for that reason alone.
set -eu -o pipefail
cd "$(dirname "${BASH_SOURCE[0]}")/../.."

room=$(mktemp -d)
trap 'rm -rf "$room"' EXIT

fail() {
    echo "$0: $*" >&2
    exit 1
}

# A copy of the sources, with a crate of one turn above the store. No library is built there: a misuse is refused before that.
cp HANDLES "$room"
tar --exclude=out -cf - crates | tar -xf - -C "$room"
{
    cat crates.txt
    echo 'misuse: iss_edge iss_store'
} >"$room/crates.txt"
turn=$room/crates/misuse/src/lib.rt
mkdir -p "${turn%/*}"

# refused WHAT OLD NEW MESSAGE..: with the line NEW in place of OLD these are the compiler's errors.
refused() {
    local what=$1
    grep -qxF -- "$2" .ci/misuse/turn || fail "$what: the turn has no such line"
    awk -v old="$2" -v new="$3" '$0 == old { $0 = new } { print }' .ci/misuse/turn >"$turn"
    ! (cd "$room/crates/misuse" && rt check --jobs 2 --only turn) >"$room/said" 2>&1 || fail "$what: it compiles"
    shift 3
    printf '%s\n' "$@" >"$room/expected"
    sed -nE 's/^[^ ]+: error\[[^]]+\]: //p' "$room/said" | sed -E 's/: (note|help): .*//' >"$room/errors"
    diff "$room/expected" "$room/errors" >&2 || fail "$what: $(head -n 20 "$room/said")"
}

# The lines that misuses stand in place of.
commit='    let (store, durable) = store.commit(alloc, edge, planned)?;'
release='    store.release(alloc, edge, durable, routes)?;'

refused 'emitting a plan' "$commit" "    edge.emit(Channel(0), &planned)?; $commit" \
    'expected `&[u8]`, found `&Planned`'
refused 'releasing a record twice' "$release" "$release $release" \
    'use of moved value: `durable`'
refused 'using a store after a failed commit' "$commit" \
    '    let Ok((store, durable)) = store.commit(alloc, edge, planned) else { return Ok(store); };' \
    'use of moved value: `store`'
refused 'making a lasting record outside the store' "$release" \
    "    let durable = Durable { number: 0, entries: Vec::new(alloc), is_time: false }; $release" \
    'field `number` of struct `Durable` is private' \
    'field `entries` of struct `Durable` is private' \
    'field `is_time` of struct `Durable` is private'
