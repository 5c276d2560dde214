#!/usr/bin/env bash
# Takes the unfinished board work in: the files that were set aside get their own names, and the landed files that it
# changes are changed (docs/PORT.md says how). Run it once, at the top of a clean checkout, before any other edit there.
set -euo pipefail
cd "$(dirname "$0")/.."
git ls-files 'crates/calls/*.txt' 'crates/law/*.txt' | while read -r file; do
    git mv "$file" "${file%.txt}"
done
mkdir -p crates/law/must-fail
for crate in calls law; do
    for file in edits/unfinished/"$crate"/*.edit.txt; do
        name=$(basename "$file" .txt)
        git mv "$file" "crates/$crate/must-fail/$name"
    done
done
git apply --index docs/port-board.patch
