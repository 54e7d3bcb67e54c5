#!/usr/bin/env bash
# Images that load and images that don't, and all scripts with the core written and made again after each line: the data of both programs are
# what a second reading and the scripts say.
set -eu
cd "$(dirname "$0")/../.."

scripts=examples/scripts
for file in "$scripts"/*.jsonl; do
    echo '#'
    cat "$file"
done | cmp - crates/iss_snapshot_scripts/stdin
cat "$scripts"/*.out | cmp - crates/iss_snapshot_scripts/stdout

if ! command -v python3 >/dev/null; then
    echo 'Without python3 no second reading of images is compared.'
    exit 0
fi
cases=crates/iss_snapshot_cases
python3 .ci/images.py make .ci/states/base.txt | cmp - "$cases/stdin"
python3 .ci/images.py judge <"$cases/stdin" | cmp - "$cases/stdout"
echo "A second reading tells $(grep -c '^loads' "$cases/stdout") images from $(grep -c '^none' "$cases/stdout") others."
