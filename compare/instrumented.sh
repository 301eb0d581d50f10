#!/bin/sh
# Makes target/fuzz/lib/liblafzimdo.a: the library as `rt lib` compiles it, with coverage for libFuzzer. rt is run
# from a folder of links to its kit, in which clang is told to put coverage in. What rt kept in crates/*/out is not
# proved again. Another crate may be named, to try this script.
set -eu
here=$(cd "$(dirname "$0")" && pwd)
top=$(dirname "$here")
crate=${1:-lafzimdo_c}
kit=$(cd "$(dirname "$(readlink -f "$(command -v rt)")")/.." && pwd)
room=$(mktemp -d)
trap 'rm -rf "$room"' EXIT
shadow=$room/kit
mkdir -p "$shadow/bin" "$shadow/toolchain/bin" "$top/target/fuzz/lib"

# Links to everything in a folder but some of its entries.
links() {
    folder=$1
    shift
    for entry in "$kit/$folder"/*; do
        case " $* " in *" $(basename "$entry") "*) ;; *) ln -s "$entry" "$shadow/$folder/" ;; esac
    done
}
links . bin toolchain
links toolchain bin
# (rt takes the folder above its own file for its kit, so these are copies)
links bin rt rtlib.py
cp "$kit/bin/rt" "$kit/bin/rtlib.py" "$shadow/bin/"
links toolchain/bin clang
cat > "$shadow/toolchain/bin/clang" <<END
#!/bin/sh
exec "$kit/toolchain/bin/clang" -fsanitize-coverage=inline-8bit-counters,pc-table,trace-cmp "\$@"
END
chmod +x "$shadow/toolchain/bin/clang"

# The archive goes to target/fuzz, and nothing stays that could be taken for the plain one.
cd "$top/crates/$crate"
"$shadow/bin/rt" lib
mv "out/lib$crate.a" "$top/target/fuzz/lib/liblafzimdo.a"
