#!/usr/bin/env python3
# Measures the stack that each call of include/lafzimdo.h takes on functions nested to the ceiling, and that the program chunklist takes where it is built:
#     compare/stack.py            a table; exit status 1 where a call takes more than it may, for a level or in all, or more than the header says
#     compare/stack.py header     the same, and writes what was measured into the header's line
# Every declaration of the header is measured; one that cannot be called from what is known here is a failure. Needs `make target/staticlib/liblafzimdo.a` (or a library
# in the folder LAFZIMDO_LIB) and a C compiler.
import ctypes
import os
import pathlib
import re
import resource
import subprocess
import sys

here = pathlib.Path(__file__).resolve().parent
top = here.parent
header = top / "include/lafzimdo.h"
out = top / "target/compare"
library = pathlib.Path(os.environ.get("LAFZIMDO_LIB", top / "target/staticlib")) / "liblafzimdo.a"
program = top / "crates/chunklist/out/chunklist"

# The second of the header's ceilings is that of nesting.
CEILING = int(re.search(r"#define LAFZIMDO_CEILINGS \{\d+, (\d+),", header.read_text())[1])
HALF = CEILING // 2
# Bytes for a level of nesting: of a call that copies, of any other. And bytes in all.
COPYING, OTHER = 1024, 512
IN_ALL = 24_000

# ---- the chunk

HEADER = (top / "samples/recentre.luac").read_bytes()[:31]


def number(n):
    groups = [n & 127 | 128]
    while n := n >> 7:
        groups.insert(0, n & 127)
    return bytes(groups)


def string(text):
    return number(len(text) + 1) + text


def listed(*entries):
    return number(len(entries)) + b"".join(entries)


MOVE, NO_OPCODE = b"\0\0\0\0", b"\x64\0\0\0"


def chunk(depth):
    """Main, and in it so many functions within each other: each with two entries of every list, and a finding."""
    head = string(b"@deep") + number(300) * 2 + bytes([0, 0, 2]) + listed(MOVE, NO_OPCODE)
    head += listed(b"\x04" + string(b"name"), b"\x13" + bytes(8)) + listed(bytes(3), bytes(3))
    tail = listed(b"\1", b"\x80") + listed(number(0) + number(300), number(1) + number(301))
    tail += listed(string(b"a") + number(0) + number(1), number(0) * 3) + listed(string(b"u"), number(0))
    return HEADER + b"\2" + (head + number(1)) * depth + head + number(0) + tail * (depth + 1)


# ---- the calls

DECLARED = re.compile(r"^\w+ (lafzimdo_\w+)\(([^)]*)\);", re.M)
GIVEN = {"chunk": "chunk", "len": "len", "limits": "limits", "function": "function", "entry": "entry", "pc": "entry", "place": "place", "out": "out"}
GIVEN |= {field: "0" for field in "word op a k b c bx sbx ax sj".split()}


def arguments(call, parameters):
    """What a call is given, by its parameters' names; memory that is lent, or a list of numbers, is followed by its length."""
    split = [re.fullmatch(r"(.*?)(\w+)(\[\w+\])?", p.strip()).groups() for p in parameters.split(",")]
    for (kind, name, _), (_, behind, _) in zip(split, split[1:] + [(None, None, None)]):
        if name in GIVEN:
            yield GIVEN[name]
        elif behind == name + "_len" and not kind.startswith("const"):
            yield f"(void *)lent, LENT / sizeof({kind.replace('*', '').strip()})"
        elif behind == name + "_len" and kind.startswith("const uint64_t"):
            yield "listed, sizeof listed / sizeof *listed"
        elif not name.endswith("_len"):
            sys.exit(f"compare/stack.py: {call} is not measured: its parameter {name} is not known here")


def declared():
    """The calls of the header, each with its parameters; the library must have the same."""
    text = re.sub(r"/\*.*?\*/", "", header.read_text(), flags=re.S)
    found = dict(DECLARED.findall(text))
    symbols = subprocess.run(["nm", "-g", "--defined-only", library], capture_output=True, text=True, check=True).stdout
    exported = set(re.findall(r" T (lafzimdo_\w+)", symbols))
    named = set(re.findall(r"\b(lafzimdo_\w+)\s*\(", text))
    if not found or not set(found) == exported == named:
        sys.exit(f"compare/stack.py: the header's declarations and the library's calls differ: {sorted(set(found) ^ exported | named ^ exported)}")
    return found


def build():
    out.mkdir(parents=True, exist_ok=True)
    runs, rows = [], []
    for call, parameters in declared().items():
        # What takes nothing returns no refusal.
        refusal = f"{call}() == 0" if parameters == "void" else f"{call}({', '.join(arguments(call, parameters))})"
        runs.append(f"static uint64_t run_{call}(void) {{ return {refusal}; }}\n")
        names = re.findall(r"\w+(?=\s*(?:\[\w+\])?\s*(?:,|$))", parameters)
        takes = [bool({"function"} & set(names)), bool({"entry", "pc"} & set(names)), "place" in names]
        rows.append(f'    {{"{call}", run_{call}, {", ".join(str(int(t)) for t in takes)}}},\n')
    (out / "stack_calls.h").write_text("".join(runs) + "static const struct call calls[] = {\n" + "".join(rows) + "};\n")
    subprocess.run(["cc", "-O2", "-Wall", "-Wextra", "-I", out, here / "stack.c", library, "-o", out / "stack"], check=True)


def calls_on(depth):
    """The bytes that each call takes, or `refused`."""
    path = out / f"deep-{depth}"
    path.write_bytes(chunk(depth))
    told = subprocess.run([out / "stack", path], capture_output=True, text=True, check=True).stdout
    return dict(line.split() for line in told.splitlines())


# ---- chunklist

PAGE, ALIGNED = 4096, 16
NO_RANDOM_ADDRESSES = 0x0040000
LIBC = ctypes.CDLL(None)


def chunklist_ends(data, pages, shift):
    """Whether the program ends well on these bytes with so many pages of stack, of which so many bytes are taken before it begins (by a word of its environment)."""
    def limited():
        LIBC.personality(NO_RANDOM_ADDRESSES)
        resource.setrlimit(resource.RLIMIT_STACK, (pages * PAGE, pages * PAGE))
    return subprocess.run([program], input=data, stdout=subprocess.DEVNULL, stderr=subprocess.DEVNULL, env={"SHIFT": "x" * shift}, preexec_fn=limited).returncode >= 0


def least(enough, end):
    """The smallest number below the end that is enough, where each above it is too; the end, where none is."""
    first, last = 0, end
    while first < last:
        middle = (first + last) // 2
        first, last = (first, middle) if enough(middle) else (middle + 1, last)
    return first


def chunklist_on(data):
    """The stack that the program takes, to 16 bytes, and beside it the same for all data: the pages that do, less what can be taken before."""
    pages = least(lambda n: chunklist_ends(data, n, 0), 1024)
    return pages * PAGE - (least(lambda n: not chunklist_ends(data, pages, n * ALIGNED), PAGE // ALIGNED) - 1) * ALIGNED


# ---- what came out

LINE = re.compile(r"^ \* Stack: .*$", re.M)


def figures(rows):
    """Bytes for a level, of the calls that do not copy and of those that do; kB in all."""
    copying = [row for row in rows if "copy" in row[0]]
    others = [row for row in rows if row not in copying]
    return max(level for _, level, _ in others), max(level for _, level, _ in copying), -(-max(total for _, _, total in rows) // 1000)


def sentence(level, copy_level, total):
    return (f"Stack: a call takes at most {level:,} bytes for each level of nesting ({copy_level:,} where it copies), of which there are at most {CEILING:,}, "
            f"and {total:,} kB in all. Measured by compare/stack.py, not proved.")


def said():
    """The header's figures."""
    line = LINE.search(header.read_text())
    numbers = [int(n.replace(",", "")) for n in re.findall(r"\d[\d,]*", line[0])] if line else []
    return (numbers[0], numbers[1], numbers[3]) if len(numbers) == 4 else None


def chunklist_row():
    nothing, half, full = (chunklist_on(data) for data in (b"", chunk(HALF), chunk(CEILING)))
    return "chunklist", (full - half) // (CEILING - HALF), full - nothing


def main():
    build()
    half, full, above = calls_on(HALF), calls_on(CEILING), calls_on(CEILING + 1)
    refused = [call for call, told in full.items() if told == "refused"]
    if refused or above["lafzimdo_summary"] != "refused":
        sys.exit(f"compare/stack.py: refused on {CEILING} levels: {refused}; the summary on {CEILING + 1}: {above['lafzimdo_summary']}")
    rows = [(call, (int(full[call]) - int(half[call])) // (CEILING - HALF), int(full[call])) for call in full]
    measured = figures(rows)
    if program.exists():
        rows.append(chunklist_row())
    failed = False
    print(f"| call | bytes for a level | bytes on {CEILING} levels | |\n|---|--:|--:|---|")
    for call, level, total in rows:
        may = [COPYING if "copy" in call else OTHER, IN_ALL if call in full else total]
        above = [f"above {most}" for taken, most in zip((level, total), may) if taken > most]
        failed |= bool(above)
        print(f"| {call} | {level} | {total} | {', '.join(above)} |")
    print(f"\n{sentence(*measured)}")
    if sys.argv[1:] == ["header"]:
        header.write_text(LINE.sub(" * " + sentence(*measured), header.read_text()))
    if not said() or any(m > s for m, s in zip(measured, said())):
        print(f"the header says less: {said()}")
        failed = True
    sys.exit(failed)


main()
