#!/bin/sh
# Compiles every sample with luac, as it comes and stripped, and writes oracle/samples/compiled.txt: a line each, the sample's name, `plain` or
# `stripped`, and the chunk in hex. The file is only ever made by this script, and kept, so that the generators need no luac.
set -eu
export LC_ALL=C
cd "$(dirname "$0")/samples"
luac=${LUAC:-luac5.4}
tmp=$(mktemp -d)
trap 'rm -rf "$tmp"' EXIT

# The sample's own name is the source in the chunk: the place where it lies is not.
compiled() {
    "$luac" $3 -o "$tmp/chunk" "$1.lua"
    echo "$1 $2 $(od -An -v -tx1 "$tmp/chunk" | tr -d ' \n')"
}

{
    echo "# Made by oracle/compile.sh from the samples beside it, with $("$luac" -v)."
    for file in *.lua; do
        compiled "${file%.lua}" plain ""
        compiled "${file%.lua}" stripped -s
    done
} > "$tmp/compiled.txt"
mv "$tmp/compiled.txt" compiled.txt
