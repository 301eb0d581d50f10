#!/bin/sh
# Builds the comparison over the Rust, as oracle/build.sh compiles it, and over liblafzimdo.a from the folder LAFZIMDO_LIB (default target/staticlib):
# `build.sh run` target/compare/run; `build.sh fuzz` target/fuzz/fuzz, the Rust with coverage for libFuzzer. Without the Rust: `build.sh answers` target/compare/answers, which answers
# requests in text, and target/compare/liblafzimdo.so, for Python.
set -eu
here=$(cd "$(dirname "$0")" && pwd)
top=$(dirname "$here")
library=${LAFZIMDO_LIB:-$top/target/staticlib}
[ -f "$library/liblafzimdo.a" ] || { echo "compare/build.sh: no liblafzimdo.a in $library; run make target/staticlib/liblafzimdo.a" >&2; exit 1; }

case $1 in
answers)
    out=$top/target/compare
    mkdir -p "$out"
    cc -O2 -Wall "$here/answers.c" "$here/parts.c" "$library/liblafzimdo.a" -o "$out/answers"
    exec cc -shared -Wl,--whole-archive "$library/liblafzimdo.a" -Wl,--no-whole-archive -o "$out/liblafzimdo.so"
    ;;
run)
    out=$top/target/compare judge=$top/target/oracle
    "$top/oracle/build.sh"
    ;;
fuzz)
    out=$top/target/fuzz judge=$top/target/fuzz
    coverage="-C llvm-args=-sanitizer-coverage-level=4 -C llvm-args=-sanitizer-coverage-inline-8bit-counters"
    coverage="$coverage -C llvm-args=-sanitizer-coverage-pc-table -C llvm-args=-sanitizer-coverage-trace-compares"
    ORACLE_LIB=$judge LUAD_FLAGS="-C codegen-units=1 -C passes=sancov-module $coverage" "$top/oracle/build.sh"
    ;;
esac
mkdir -p "$out"
build() {
    kind=$1 name=$2
    shift 2
    rustc --edition 2021 -O -C overflow-checks=on --crate-type "$kind" --crate-name "$name" --out-dir "$out" -L "$out" -L "$judge" "$@"
}
build lib compare --extern hex --extern luad_core --extern luad_dialect_lua54 "$here/src/lib.rs"
case $1 in
run) build bin run --extern compare -L "native=$library" -l static=lafzimdo "$here/src/run.rs" ;;
fuzz)
    build staticlib fuzz --extern compare "$here/src/fuzz.rs"
    clang -fsanitize=fuzzer "$out/libfuzz.a" "$library/liblafzimdo.a" -lpthread -ldl -lm -o "$out/fuzz"
    ;;
esac
