#!/bin/sh
# Builds the judge, asks it every generator's requests, and writes what `vectors` compares: stdin and stdout in crates/vectors. The two files there are only ever made
# by this script. To try others: record.sh FOLDER GENERATOR .., and nothing outside that folder is written but target/oracle. The judge's own text, requests and
# answers (docs/PROTOCOL.md), is left in target/oracle/text.
set -eu
here=$(cd "$(dirname "$0")" && pwd)
top=$(dirname "$here")
out=$top/target/oracle
kept=$top/crates/vectors

# Each prints requests, the same in every run.
generators="words.py chunks.py"

if [ $# -gt 0 ]; then
    kept=$1
    shift
    generators=$*
fi

"$here/build.sh"
mkdir -p "$out/text" "$out/kept" "$kept"
{
    echo "# Made by oracle/record.sh from oracle/: $generators. What stands behind \`=\` is the Rust's answer; docs/PROTOCOL.md says how it is spelt."
    for generator in $generators; do
        "$here/$generator"
    done
    "$here/smallest.py"
} > "$out/text/requests"
"$out/oracle" < "$out/text/requests" > "$out/text/answers"
"$here/tally.py" "$out/text/requests" "$out/text/answers"

# Both files are there in full before either is replaced.
"$here/convert.py" "$out/text/requests" "$out/text/answers" "$out/kept"
mv "$out/kept/stdin" "$out/kept/stdout" "$kept/"
