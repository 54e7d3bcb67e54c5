#!/usr/bin/env bash
# States told sound or unsound: what the program of these cases is given, and has to print, comes from a second reading of the rules.
set -eu
cd "$(dirname "$0")/../.."

if ! command -v python3 >/dev/null; then
    echo 'Without python3 no second reading of the rules is compared.'
    exit 0
fi

cases=crates/iss_sound_cases
python3 .ci/states.py make .ci/states/base.txt .ci/states/single.txt | cmp - "$cases/stdin"
python3 .ci/states.py judge <"$cases/stdin" | cmp - "$cases/stdout"
echo "A second reading of the rules tells $(grep -c '^sound' "$cases/stdout") sound states from $(grep -c '^unsound' "$cases/stdout") unsound ones."
