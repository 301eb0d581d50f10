#!/bin/sh
# Builds the judge: target/oracle/oracle, from the Rust sources at LUAD_SRC (default: shared/docs/src beside the repository).
# Nothing is fetched and nothing of the sources is kept: they are copied into target/oracle and compiled there. (A link
# would do, but `rt ci` wants none in a checkout.)
# Into another folder (ORACLE_LIB), without the program, it is compiled for a fuzzer with more words for rustc (LUAD_FLAGS), and for bench/run without overflow
# checks (ORACLE_OVERFLOW=off).
set -eu
here=$(cd "$(dirname "$0")" && pwd)
top=$(dirname "$here")
out=$top/target/oracle
lib=${ORACLE_LIB:-$out}

fail() {
    echo "oracle/build.sh: $*" >&2
    exit 1
}

src=${LUAD_SRC:-$top/../shared/docs/src}
[ -d "$src/crates" ] || fail "no Rust sources at $src; set LUAD_SRC"
src=$(cd "$src" && pwd)
mkdir -p "$out" "$lib"
for part in luad-core luad-dialect-lua54; do
    rm -rf "${out:?}/$part"
    cp -R "$src/crates/$part/src" "$out/$part"
    chmod -R u+w "$out/$part"
done

# The copy of the validator whose list of findings is not shortened: it lacks one line, the one call that shortens the list.
validator=$out/luad-dialect-lua54/validator.rs
copy=$out/validator_untruncated.rs
calls=$(grep -c 'truncate_and_dedup_diagnostics(' "$validator" || true)
[ "$calls" = 1 ] || fail "validator.rs has $calls lines that call truncate_and_dedup_diagnostics, not 1"
sed '/^ *let .* = truncate_and_dedup_diagnostics(.*);$/d' "$validator" > "$copy"
left=$(grep -c 'truncate_and_dedup_diagnostics(' "$copy" || true)
[ "$left" = 0 ] || fail "the call of truncate_and_dedup_diagnostics is not a line by itself"

# Overflow stops the judge rather than giving a wrapped answer.
overflow=${ORACLE_OVERFLOW:-on}
build() {
    kind=$1 name=$2 file=$3
    shift 3
    rustc --edition 2021 -O -C overflow-checks="$overflow" --crate-type "$kind" --crate-name "$name" --out-dir "$lib" -L "$lib" "$@" "$here/$file"
}
build proc-macro derives standins/derives.rs
build lib serde standins/serde.rs --extern derives
build lib schemars standins/schemars.rs --extern derives
build lib sha2 standins/sha2.rs
build lib hex standins/hex.rs
# shellcheck disable=SC2086
build lib luad_core standins/luad_core.rs ${LUAD_FLAGS:-} --extern serde --extern schemars --extern hex
# shellcheck disable=SC2086
build lib luad_dialect_lua54 standins/luad_dialect_lua54.rs ${LUAD_FLAGS:-} --extern serde --extern schemars --extern sha2 --extern hex --extern luad_core
[ -n "${ORACLE_LIB:-}" ] || build bin oracle src/main.rs --extern hex --extern luad_core --extern luad_dialect_lua54
