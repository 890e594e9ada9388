#!/usr/bin/env bash
# The examples' images and row texts are those that their scripts write.
set -eu
cd "$(dirname "$0")/.."
room=$(mktemp -d)
trap 'rm -rf "$room"' EXIT
for script in examples/*.py; do
    python3 "$script" "$room"
done
for file in "$room"/*; do
    cmp "$file" "examples/$(basename "$file")"
done
