#!/usr/bin/env bash
# Tries the wrong bodies of both folders, must-fail/ and wrong/, of the crates that are named, or of all: bench/wrong.sh [NAME..].
# It works in a copy, which is removed at the end, and prints what `rt must-fail` prints there and ends with its status.
set -eu
cd "$(dirname "$0")/.."
copy=$(mktemp -d)
trap 'rm -rf "$copy"' EXIT
tar --exclude='crates/*/out' -cf - crates crates.txt HANDLES | tar -xf - -C "$copy"
cd "$copy"
for edit in crates/*/wrong/*.edit; do
    [ -e "$edit" ] || continue
    folder=${edit%/wrong/*}/must-fail
    mkdir -p "$folder"
    [ ! -e "$folder/${edit##*/}" ] || { echo "$edit: must-fail/ has an edit of this name too"; exit 2; }
    mv "$edit" "$folder"
done
rt must-fail "$@"
