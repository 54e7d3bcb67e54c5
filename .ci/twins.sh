#!/usr/bin/env bash
# Lists the places in code, definitions and proofs where six or more lines stand twice, longest first. Imports, blank lines and
# lines without a word don't count. It is a place to look, and not a verdict.
set -eu -o pipefail
cd "$(dirname "$0")/.."

find crates -name out -prune -o \( -name '*.rt' -o -name '*.antt' \) -print0 | sort -z | xargs -0 awk '
    FNR == 1 { count = 0 }
    {
        line = $0
        gsub(/[ \t]+/, " ", line)
        if (line !~ /[A-Za-z]/ || line ~ /^ ?(ghost |pub )?(use|mod) /) next
        count++
        text[FILENAME, count] = line
        place[FILENAME, count] = FNR
        if (count < 6) next
        window = ""
        for (i = count - 5; i <= count; i++) window = window "\n" text[FILENAME, i]
        if (window in seen) {
            first = seen[window]
            if (last_first == first - 1 && last_file == file_of[window] && last_here == FILENAME SUBSEP (count - 1)) length_of[pair]++
            else { pair = file_of[window] ":" place[file_of[window], first] "  " FILENAME ":" place[FILENAME, count - 5]; length_of[pair] = 6 }
            last_first = first; last_file = file_of[window]; last_here = FILENAME SUBSEP count
        } else { seen[window] = count - 5; file_of[window] = FILENAME }
    }
    END { for (p in length_of) print length_of[p], p }
' | sort -rn
