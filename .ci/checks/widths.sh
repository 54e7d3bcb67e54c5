#!/usr/bin/env bash
# Few clauses are long: each joined to one line, at most 90 are over 130 columns, and none is over 200.
. "$(dirname "$0")/../cases.sh"

# A clause of 140 columns, one of 201 and a short one, in functions that all, a crate or nobody else may call.
mkdir "$room/made"
{
    echo 'pub fn first()'
    echo '    ensures { refl }'
    echo '{}'
    echo 'pub(crate) fn second()'
    printf '    ensures { %s }\n{}\n' "$(printf '%0128d' 0)"
    echo 'fn third()'
    printf '    ensures { %s }\n{}\n' "$(printf '%0189d' 0)"
} >"$room/made/a.rt"
counted=$(bar widths "$room/made")
[ "$counted" = '3 2 1' ] || fail "of made-up clauses it counts $counted, not 3 2 1"

read -r _ long too_long <<<"$(bar widths)"
[ "$long" -le 90 ] || fail "$long clauses are over 130 columns: .ci/widths.py -v lists them"
[ "$too_long" -eq 0 ] || fail "$too_long clauses are over 200 columns: .ci/widths.py -v lists them"
