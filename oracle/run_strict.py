#!/usr/bin/env python3
# The stricter reading (lafzimdo_strict_summary, under the ceilings) against Lua's own loader, lua_load of liblua5.4: run_strict.py [SEED [COUNT]], with so many chunks by chance (1 and 20,000) beside made and kept ones (strict/made.py).
# A chunk must be read exactly where Lua loads it, and where 31, 32 or 33 is refused Lua must say so in its words, but for these:
#     a name is stored behind the upvalues     C is undefined: not run. Held against strict/lundump.py instead, which is held against Lua on every chunk that is run
#     12, an unknown tag                       passes the loader unnoticed
#     13 to 19                                 limits that the loader has not: it loads what is nested deeper (19); of the others its memory is at an end, or a string is cut short
#     1, an int is cut short                   the loader says 'integer overflow' as soon as it has grown too large
#     the memory of a state is at an end       Lua says so before it looks for what a count claims
# `run_strict.py self-test` shows that each of these tests can fail. The last line says how many disagree; the status is 1 where one does. Needs lua5.4's library and headers (Debian: liblua5.4-dev), a C compiler with address
# sanitizer, and liblafzimdo.a (`make target/staticlib/liblafzimdo.a`); where one of them is missing it says so, and the status is 2.
import ctypes
import os
import random
import struct
import subprocess
import sys
import tempfile
from collections import Counter
from pathlib import Path

sys.dont_write_bytecode = True

from kept.ask import CEILINGS
from strict import made
from strict.lundump import CUT, FIXED, FORMAT, LOADS, MEMORY, NULL, OVERFLOW, TEXT, told

HERE = Path(__file__).resolve().parent
TOP = HERE.parent
OUT = TOP / "target/strict"
STRICT, ORDINARY = "lafzimdo_strict_summary", "lafzimdo_summary"
STOPPED = "stopped"
SHOWN = 10

# What Lua says where a number is refused; the header's, and 31 among them, in the order of the bytes.
SAYS = {1: {CUT, OVERFLOW, TEXT}, 3: {OVERFLOW}, 33: {NULL}, 32: {OVERFLOW}}
SAYS |= {number: {message} for number, (message, _) in zip((4, 5, 31, 6, 7, 8, 9, 10, 11), FIXED)}
SAYS[4] |= {TEXT}
# Of limits: counts above the ceilings take more memory than a state may have, before anything behind them is looked at.
SAYS |= {13: {MEMORY, CUT}, **{number: {MEMORY} for number in range(14, 19)}}
# What the loader does not look at: it may say anything of what is behind.
TAG, DEPTH = 12, 19
BEHIND = (TAG, DEPTH)
HEADER = (31, *range(4, 12))


# ---- Both sides

def build():
    """Whether both are there."""
    OUT.mkdir(parents=True, exist_ok=True)
    loader = ["cc", "-O1", "-g", "-Wall", "-Wextra", "-fsanitize=address", HERE / "strict/load.c", "-llua5.4", "-o", OUT / "load"]
    for command in (loader, [TOP / "compare/build.sh", "answers"]):
        if subprocess.run(command).returncode:
            print("run_strict.py: nothing was run")
            return False
    return True


def asked(chunks, call=STRICT):
    """The number and the place, or None, that the library gives for each; 0 where it is read."""
    function = getattr(ctypes.CDLL(str(TOP / "target/compare/liblafzimdo.so")), call)
    function.restype = ctypes.c_uint64
    limits, out = (ctypes.c_uint64 * 9)(*CEILINGS.values()), (ctypes.c_uint64 * 64)()
    for chunk in chunks:
        status = function(chunk, ctypes.c_size_t(len(chunk)), limits, out)
        yield status % 256, status // 256 - 1 if status >= 256 else None


def loaded(chunks, *fault):
    """What Lua says of each. The loader is started again behind a chunk at which it stops."""
    said = []
    with tempfile.NamedTemporaryFile() as file:
        for chunk in chunks:
            file.write(struct.pack("<I", len(chunk)) + chunk)
        file.flush()
        while len(said) < len(chunks):
            environment = {**os.environ, "ASAN_OPTIONS": "detect_leaks=0"}
            ran = subprocess.run([OUT / "load", file.name, str(len(said)), *fault], capture_output=True, text=True, errors="replace", env=environment)
            lines = [line.split(" ", 1) for line in ran.stdout.split("\n")[:-1] if line]
            said += [line[1] for line in lines if len(line) == 2]
            assert [int(line[0]) for line in lines] == list(range(len(said) - len(lines), len(said))), "the numbers of the chunks"
            if ran.returncode:
                said.append(STOPPED)
                fault = ()
    return said


# ---- Held against each other

def agrees(chunk, answer, said):
    """Under which heading this is in order; None where it is not."""
    number, place = answer
    if number == 0:
        return "read, and Lua loads" if said == LOADS else None
    if number in BEHIND:
        return f"{number}, and Lua {'loads' if said == LOADS else 'refuses it for something else'}"
    if said == MEMORY and number not in HEADER:
        return f"{number}, and Lua's memory is at an end"
    if said not in SAYS.get(number, ()):
        return None
    if number == 1 and said != CUT:
        # At the end of the file; or there is no first byte of the signature, and so no chunk for Lua.
        in_order = place == len(chunk) if said == OVERFLOW else place == 0
        return f"1, and Lua says '{said}'" if in_order else None
    return "refused by both, 1 to 11" if number < TAG else f"{number}, and Lua says '{said}'"


def compare(chunks, answers, said, expected):
    """How many there are under each heading, and what disagrees."""
    counts, wrong = Counter(), []
    for chunk, answer, says, (message, beyond) in zip(chunks, answers, said, expected, strict=True):
        if beyond:
            # lundump.py takes no memory: where it finds the chunk cut short, Lua's memory may have been at an end before.
            heading = agrees(chunk, answer, message) or message == CUT and agrees(chunk, answer, MEMORY)
            heading = heading and "not run, names beyond the upvalues: " + ("read" if answer[0] == 0 else "refused behind them")
        elif says not in (message, MEMORY):
            heading = None
        else:
            heading = agrees(chunk, answer, says)
        if not heading:
            wrong.append(f"{answer}, and Lua: {says}, by lundump.py: {message}: {chunk.hex()}")
        else:
            counts[heading] += 1
    return counts, wrong


def run_on(chunks):
    """What the loader says where it is run, and what lundump.py does."""
    expected = list(map(told, chunks))
    run = iter(loaded([chunk for chunk, (_, beyond) in zip(chunks, expected) if not beyond]))
    return [None if beyond else next(run) for _, beyond in expected], expected


def gathered(seed, count):
    groups = {"made": made.made(), "kept": made.kept(), "by chance": made.by_chance(random.Random(seed), count)}
    chunks = list(dict.fromkeys(chunk for group in groups.values() for chunk in group))
    print(f"{len(chunks)} chunks: " + ", ".join(f"{len(group)} {name}" for name, group in groups.items()) + ", each asked once")
    return chunks


def main(seed=1, count=20_000):
    if not build():
        return 2
    chunks = gathered(seed, count)
    counts, wrong = compare(chunks, asked(chunks), *run_on(chunks))
    for heading, count in sorted(counts.items()):
        print(f"{count:8} {heading}")
    for what in wrong[:SHOWN]:
        print(what)
    print(f"{len(chunks)} chunks, {sum(count for heading, count in counts.items() if heading.startswith('not run'))} of them not run, {len(wrong)} disagree")
    return 1 if wrong else 0


# ---- That it can fail

def self_test():
    if not build():
        return 2
    chunks = list(dict.fromkeys(made.made()))
    said, expected = run_on(chunks)
    answers = list(asked(chunks))
    number = lambda exchanged: [(exchanged.get(n, n), place) for n, place in answers]
    says = lambda one, other: [other if s == one else s for s in said]
    behind = lambda n: [(m, place + 1) if m == n else (m, place) for m, place in answers]
    ways = {
        "the ordinary summary": (list(asked(chunks, ORDINARY)), said),
        "31 is read": (number({31: 0}), said), "32 is read": (number({32: 0}), said), "33 is read": (number({33: 0}), said),
        "what is read is 31": (number({0: 31}), said), "what is read is 32": (number({0: 32}), said), "what is read is 1": (number({0: 1}), said), "what is read is 2": (number({0: 2}), said),
        "31 and 32 exchanged": (number({31: 32, 32: 31}), said), "32 and 33 exchanged": (number({32: 33, 33: 32}), said), "1 is 32": (number({1: 32}), said), "32 is 1": (number({32: 1}), said),
        "33 is 1": (number({33: 1}), said), "31 is 6": (number({31: 6}), said), "3 is 32, and 32 is 33": (number({3: 32, 32: 33}), said), "32 is 14": (number({32: 14}), said), "32 is 16": (number({32: 16}), said), "1 a byte behind": (behind(1), said),
        "Lua loads nothing": (answers, says(LOADS, CUT)), "Lua loads what is cut short": (answers, says(CUT, LOADS)), "Lua takes any format": (answers, says(FORMAT, LOADS)),
        "Lua takes any int": (answers, says(OVERFLOW, LOADS)), "Lua takes a null string": (answers, says(NULL, LOADS)), "Lua stops": (answers, says(LOADS, STOPPED)),
    }
    missed = [way for way, (a, s) in ways.items() if not compare(chunks, a, s, expected)[1]]
    missed += ["the right answers"] if compare(chunks, answers, said, expected)[1] else []
    few = [chunk for chunk, says in zip(chunks, said) if says == LOADS][:3]
    for fault in ("stop", "read", "write"):
        if loaded(few, fault) != [STOPPED, LOADS, LOADS]:
            missed.append(f"the loader's fault: {fault}")
    for way in missed:
        print(f"not found: {way}")
    print(f"self-test: {len(ways)} wrong ways and 3 faults of the loader on {len(chunks)} made chunks, {len(missed)} not found")
    return 1 if missed else 0


if __name__ == "__main__":
    os.chdir(HERE)
    sys.exit(self_test() if sys.argv[1:] == ["self-test"] else main(*map(int, sys.argv[1:3])))
