#!/usr/bin/env python3
# `lafzimdo dump --luac` against luac5.4 -l -l, line by line: samples/, every chunk of oracle/samples/compiled.txt, and two made here; every opcode is met. Where luac prints a function's address in memory, the program prints its place
# in the file: both are replaced by the function's number. Prints what differs; exit status 1 where anything does.
import os
import pathlib
import re
import subprocess
import sys
import tempfile

sys.dont_write_bytecode = True
top = pathlib.Path(__file__).resolve().parent.parent
program = os.environ.get("LAFZIMDO", top / "target/rust/release/lafzimdo")
luac = os.environ.get("LUAC", "luac5.4")
HEADING = re.compile(r"^(?:main|function) <.*> \(\d+ instructions? at (0x[0-9a-f]+)\)$", re.M)


def lines_of(*command):
    return subprocess.run(command, capture_output=True, check=True).stdout.decode("latin-1")


def numbered(text):
    """Addresses as the numbers of the functions: these are listed from main on, each before those that nest in it."""
    numbers = {address: f"function-{number}" for number, address in enumerate(HEADING.findall(text))}
    return re.sub(r"0x[0-9a-f]+(?=\)?:?$)", lambda found: numbers.get(found[0], found[0]), text, flags=re.M).split("\n")


def compiled(source, folder):
    (folder / "made.lua").write_text(source)
    subprocess.run([luac, "-o", folder / "made", folder / "made.lua"], check=True)
    return (folder / "made").read_bytes()


def made(folder):
    """More constants than Bx can count (LOADKX), a table with more entries than C can (EXTRAARG); floats of all sizes and strings of all bytes."""
    yield "many constants", compiled("return {" + ",".join(f"{n}.5" for n in range(132_000)) + "}", folder)
    floats = [f"{digits}e{exponent}" for digits in ("1", "1.5", "9.9999999999999", "0.33333333333333333", "123456789012345") for exponent in range(-30, 31)]
    strings = ['"' + "".join(f"\\{byte:03d}" for byte in range(first, first + 32)) + '"' for first in range(0, 256, 32)]
    special = ["1e308 * 10", "-1e308 * 10", "0.0", "-0.0", "5e-324", "math.maxinteger", "9223372036854775807", "-9223372036854775807"]
    yield "constants", compiled("".join(f"f({value})\n" for value in floats + strings + special), folder)


def chunks(folder):
    yield from made(folder)
    for path in sorted((top / "samples").glob("*.luac")):
        yield path.name, path.read_bytes()
    for line in (top / "oracle/samples/compiled.txt").read_text().splitlines():
        if not line.startswith("#"):
            name, kind, digits = line.split()
            yield f"{name} {kind}", bytes.fromhex(digits)


def main():
    compared = files = differ = refused = 0
    met = set()
    with tempfile.TemporaryDirectory() as folder:
        path = pathlib.Path(folder, "chunk")
        for name, chunk in chunks(pathlib.Path(folder)):
            path.write_bytes(chunk)
            ran = subprocess.run([program, "dump", "--luac", path], capture_output=True)
            if ran.returncode == 1 and b"refused 19 " in ran.stderr:
                refused += 1  # nested deeper than the limit
                continue
            ours, theirs = numbered(ran.stdout.decode("latin-1")), numbered(lines_of(luac, "-p", "-l", "-l", path))
            files, compared = files + 1, compared + len(theirs)
            met |= {line.split("\t")[3].strip() for line in theirs if line.startswith("\t") and line.count("\t") >= 4}
            wrong = [(o, t) for o, t in zip(ours, theirs) if o != t]
            if wrong or len(ours) != len(theirs):
                differ += 1
                print(f"{name}: {len(ours)} lines, luac {len(theirs)}")
                for o, t in wrong[:3]:
                    print(f"  ours {o!r}\n  luac {t!r}")
    opcodes = {name for name in met if name.isalnum() and name.isupper()}
    print(f"luac: {files} chunks, {compared} lines, {len(opcodes)} opcodes, {differ} chunks differ, {refused} nested too deep")
    sys.exit(differ > 0 or files < 100 or refused > 2 or len(opcodes) < 83)


if __name__ == "__main__":
    main()
