#!/usr/bin/env bash
# However a pipe brings the input in two pieces, the program writes the same.
. "$(dirname "$0")/../program.sh"

size=$(wc -c <"$first_in")
for ((cut = 0; cut <= size; cut++)); do
    # The pause lets the program take the first piece by itself.
    {
        head -c "$cut" "$first_in"
        sleep 0.02
        tail -c +"$((cut + 1))" "$first_in"
    } | {
        issue dry >"$room/out"
        ended "cut at $cut" 0 ''
    }
    wrote "cut at $cut" "$first_out"
done
