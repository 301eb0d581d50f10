#!/bin/sh
# Asks the judge and the library the same: compare.sh GENERATOR ARGUMENT .., a program of this folder that prints requests. Says how many answers there are of
# which kind, and that all are alike; or, with status 1, the first request whose answers differ, in short. The library is asked by compare/answers.c, in text; where
# crates/vectors/out/vectors is there (`rt ci` leaves it, or `rt run` in crates/vectors), it is asked too, by the lines that are made of the judge's answers. VECTORS= before the command leaves it out.
# Needs a C compiler and liblafzimdo.a (`make target/staticlib/liblafzimdo.a`).
set -eu
here=$(cd "$(dirname "$0")" && pwd)
top=$(dirname "$here")
vectors=${VECTORS-$top/crates/vectors/out/vectors}

"$here/build.sh"
"$top/compare/build.sh" answers
tmp=$(mktemp -d)
trap 'rm -rf "$tmp"' EXIT
generator=$1
shift
"$here/$generator" "$@" > "$tmp/stdin"
"$top/target/oracle/oracle" < "$tmp/stdin" > "$tmp/judge"
"$top/target/compare/answers" < "$tmp/stdin" > "$tmp/library"
"$here/tally.py" "$tmp/stdin" "$tmp/judge"
if ! cmp -s "$tmp/judge" "$tmp/library"; then
    line=$(cmp "$tmp/judge" "$tmp/library" 2>&1 | sed 's/.*line //')
    answer=$(head -n "$((line - 1))" "$tmp/judge" | grep -c '^end$' || true)
    echo "answers differ first at request $((answer + 1)):"
    grep -vE '^(#|$)' "$tmp/stdin" | sed -n "$((answer + 1))p" | cut -c 1-400
    for side in judge library; do
        echo "$side: $(sed -n "${line}p" "$tmp/$side" | cut -c 1-400)"
    done
    exit 1
fi
echo "$(grep -c '^end$' "$tmp/judge") answers alike"
if [ -x "$vectors" ]; then
    "$here/convert.py" "$tmp/stdin" "$tmp/judge" > "$tmp/lines"
    "$vectors" < "$tmp/lines" > "$tmp/compared"
    echo "vectors: $(tail -n 1 "$tmp/compared")"
    case $(tail -n 1 "$tmp/compared") in *' 0 differ') ;; *) head -n 3 "$tmp/compared"; exit 1 ;; esac
fi
