#!/usr/bin/env python3
# Runs archive copies. Every sample is compiled, as it comes and stripped; the library copies each chunk (by compare/answers.c), and besides the same chunk spelt otherwise: numbers
# padded, another format, another byte 31, a source in every function, trailing bytes. lua runs each copy, and what it prints must be what it prints of
# luac's own chunk. A sample whose functions nest deeper than the ceiling has no copy: it must be refused with 19, and each that is not so deep must be copied.
# The last line says how many ran alike; the status is 1 where one did not. Needs luac5.4 and lua5.4, a C compiler and
# liblafzimdo.a (`make target/staticlib/liblafzimdo.a`); where one of them is missing it says so, and the status is 2.
import os
import shutil
import subprocess
import sys
import tempfile
from pathlib import Path

sys.dont_write_bytecode = True

from kept.ask import CEILINGS, hexed, limited
from kept.build import chunk, depth, family
from kept.parse import main_of

HERE = Path(__file__).resolve().parent
SAMPLES = HERE / "samples"
COMPARE = HERE.parent / "compare"
ANSWERS = HERE.parent / "target/compare/answers"
LUAC, LUA = os.environ.get("LUAC", "luac5.4"), os.environ.get("LUA", "lua5.4")


def otherwise(data):
    """The same chunk, spelt so that its copy differs from it: lua refuses it as it is."""
    main = main_of(data)
    assert chunk(main) == data
    for function in family(main):
        function.source = main.source
    return chunk(main, pad=lambda: 1, format=b"\x01", byte31=len(main.upvalues) + 1, trailing=b"\x1bLua")


def compiled(folder):
    """What luac makes, by the sample's name and how it was made."""
    for sample in sorted(SAMPLES.glob("*.lua")):
        for kind, flags in (("plain", ()), ("stripped", ("-s",))):
            # The sample's own name is the source in the chunk.
            subprocess.run([LUAC, *flags, "-o", folder / "chunk", sample.name], cwd=SAMPLES, check=True)
            yield f"{sample.stem} {kind}", (folder / "chunk").read_bytes()


def too_deep(data):
    return depth(main_of(data)) > CEILINGS["max_nesting_depth"]


def copies(chunks):
    """The archive copies, by the library; none of a chunk that nests too deep."""
    asked = "".join(f"{limited({})} {hexed(data)}\n" for data in chunks)
    answers = subprocess.run([ANSWERS], input=asked, capture_output=True, text=True, check=True).stdout.split("end\n")[:-1]
    assert len(answers) == len(chunks)
    for data, answer in zip(chunks, answers):
        if too_deep(data):
            assert answer.startswith("refused 19 "), answer[:80]
            yield None
        else:
            (copy,) = (line.split(" ", 1)[1] for line in answer.splitlines() if line.startswith("copy "))
            yield bytes.fromhex(copy)


def run(folder, data):
    """What lua prints of a chunk, with its errors and its status."""
    (folder / "chunk").write_bytes(data)
    done = subprocess.run([LUA, "chunk"], cwd=folder, capture_output=True, timeout=60)
    return done.returncode, done.stdout, done.stderr


def ready(program):
    """Whether the tools are there and the library's answers are built; says what is not."""
    for tool in (LUAC, LUA, "cc"):
        if not shutil.which(tool):
            print(f"{program}: no copy was run: {tool} is not there")
            return False
    return subprocess.run([COMPARE / "build.sh", "answers"]).returncode == 0


def main():
    if not ready("run_copies.py"):
        return 2
    with tempfile.TemporaryDirectory() as name:
        folder = Path(name)
        named = dict(compiled(folder))
        others = {f"{title}, spelt otherwise": otherwise(data) for title, data in named.items()}
        spelt = [*named.values(), *others.values()]
        every = list(zip([*named, *others], [*named.values()] * 2, spelt, copies(spelt)))
        copied = [entry for entry in every if entry[3] is not None]
        changed = sum(data != copy for _, _, data, copy in copied)
        wrong = [title for title, data, _, copy in copied if run(folder, data) != run(folder, copy)]
    for title in wrong:
        print(f"{title}: the copy does not run as luac's chunk does")
    for title in [title for title, _, _, copy in every if copy is None]:
        print(f"{title}: refused with 19, as it must be")
    print(f"{len(copied) - len(wrong)} copies ran alike, {changed} of them of chunks that are no copies of themselves")
    return 1 if wrong else 0


if __name__ == "__main__":
    sys.exit(main())
