#!/usr/bin/env python3
# Writes the files that are measured into a folder: the same bytes in every run (those of `real` as far as luac5.4 is the same).
# A file is a set of chunks, each behind its length in eight bytes: one chunk, but for `samples`.
#
#   samples     what luac made of oracle/samples, plain and stripped, but for what nests too deep
#   real-M      the sample scripts bundled again and again, every copy with names of its own, compiled by luac5.4
#   large-M     main and eight functions that share the file
#   tiny-M      as many functions of 14 or 18 bytes as there is room for: above a million in 16 MB
#   nested-M    as many functions within each other as there may be
#   zeros-M     half of it zero groups, before the numbers of main and of the one function in main; in that stand as many functions as there is room for, each with a source.
#               What reads a padded number again for each function takes the product of the two halves
#   findings-16 as large-16, with 10,001 findings spread evenly, so that validation stops at the very end
#   padded-16   as real-16, every number behind a zero group: no number is spelt as in its copy
#   joined-16   as real-16, every script with its source, as if luac had joined files: the archive copy drops these, the full copy keeps them
#
# M is the size in MB (of 1,048,576 bytes): 1, 2, 4, 8, 16. No file is longer than 16,777,216 bytes.
import random
import re
import subprocess
import sys
from pathlib import Path

sys.dont_write_bytecode = True
ORACLE = Path(__file__).parent.parent / "oracle"
sys.path.insert(0, str(ORACLE))

from kept.ask import CEILINGS
from kept.build import HEADER, number
from kept.parse import Reader
from kept.real import compiled

MB = 1 << 20
SIZES = (1, 2, 4, 8, 16)

# ---- what luac makes

# Not in a bundle: one begins with a line that only a file may begin with, and two would nest too deep in it.
NO_MODULE = ("hash_line", "deep_functions", "deepest_functions")
# Nests too deep to be read.
REFUSED = ("deep_functions",)
KEPT_WORDS = set("break const close elseif false function local repeat return until while".split())


def module(text, copy):
    """A script with names of its own: every word of five letters or more gets the copy's number behind it."""
    def named(match):
        word = match.group()
        return word if word in KEPT_WORDS else f"{word}{copy:03}"
    return re.sub(r"\b[A-Za-z_]{5,}\b", named, text)


def bundle(copies):
    scripts = [(path.stem, path.read_text()) for path in sorted((ORACLE / "samples").glob("*.lua")) if path.stem not in NO_MODULE]
    for copy in range(copies):
        for name, text in scripts:
            yield f'modules["{name}{copy}"] = function(...)\n{module(text, copy)}\nend\n'


def luac(copies):
    script = "local modules = {}\n" + "".join(bundle(copies)) + "return modules\n"
    run = subprocess.run(["luac5.4", "-o", "-", "-"], input=script.encode("latin-1"), stdout=subprocess.PIPE, check=True)
    return run.stdout


class Numbers(Reader):
    """Where the numbers of a chunk stand."""

    def __init__(self, data):
        super().__init__(data, 32)
        self.places = []
        self.function()

    def number(self):
        self.places.append(self.at)
        return super().number()


def padded(copies):
    """What luac makes, every number behind a zero group."""
    data = luac(copies)
    cuts = [0, *Numbers(data).places, len(data)]
    return b"\0".join(data[start:end] for start, end in zip(cuts, cuts[1:]))


class Scripts(Reader):
    """Where the functions of a chunk begin that stand in main."""

    def __init__(self, data):
        super().__init__(data, 32)
        self.depth = 0
        self.places = []
        self.function()

    def function(self):
        if self.depth == 1:
            self.places.append(self.at)
        self.depth += 1
        super().function()
        self.depth -= 1


def joined(copies):
    """What luac makes, each function in main with a source of its own. (luac5.4 itself aborts on so many files.)"""
    data = luac(copies)
    places = Scripts(data).places
    assert all(data[at] == 0x80 for at in places)
    cuts = [0, *(at + 1 for at in places), len(data)]
    parts = [data[start:end] for start, end in zip(cuts, cuts[1:])]
    return b"".join(part[:-1] + string(b"@script_%05d.lua" % k) for k, part in enumerate(parts[:-1])) + parts[-1]


# ---- functions that are made up

def word(op, a, rest):
    return (op | a << 7 | rest).to_bytes(4, "little")


def jump(by):
    return (56 | by + 2**24 - 1 << 7).to_bytes(4, "little")


BLOCK = 4096
STACK = 250
UPVALUES = 4
# Words that jump no further than this, and only where there is so much room on both sides.
FAR = 100
FEWEST_CONSTANTS = 64
PLAIN = (0, 1, 12, 14, 18, 20, 34, 36, 46, 60, 66, 68, 68, 70)
MOVE = word(0, 1, 0)


def block(rng):
    """Words as luac would mix them, none of them wrong: moves, fields, calls, sums, tests, constants, upvalues and short jumps."""
    words = []
    for place in range(BLOCK):
        a = rng.randrange(STACK)
        b, c = rng.randrange(STACK) << 16, rng.randrange(STACK) << 24
        kind = rng.random()
        if kind < 0.06 and place > FAR:
            words.append(jump(rng.randrange(-FAR, FAR)))
        elif kind < 0.12:
            words.append(word(3, a, rng.randrange(FEWEST_CONSTANTS) << 15))
        elif kind < 0.18:
            words.append(word(9, a, rng.randrange(UPVALUES) << 16))
        elif kind < 0.24:
            words.append(word(11, a, rng.randrange(UPVALUES) << 16 | c))
        else:
            words.append(word(rng.choice(PLAIN), a, b | c))
    return words


def constant(rng, k):
    """More than half are short strings; no two strings are the same."""
    kind = rng.random()
    if kind < 0.55:
        return b"\x04" + string(b"name_%06d" % k + b"x" * rng.randrange(8))
    if kind < 0.6:
        return b"\x14" + string(b"a longer text, as in a message to the user: %06d" % k + b"y" * rng.randrange(60))
    if kind < 0.8:
        return b"\x03" + rng.randrange(2**32).to_bytes(8, "little")
    if kind < 0.96:
        return b"\x13" + rng.randrange(2**63).to_bytes(8, "little")
    return rng.choice((b"\0", b"\x01", b"\x11"))


def string(text):
    return number(len(text) + 1) + text


# A word, a delta, a tenth of a constant, a sixtieth of a local, a 128th of an anchor.
BYTES_FOR_INSTRUCTION = 7.1


class Maker:
    """Makes functions: all have words from one block, each has constants of its own."""

    def __init__(self):
        self.rng = random.Random(54)
        self.words = block(self.rng)
        self.deltas = bytes(self.rng.choice((0, 0, 0, 1, 1, 2, 255)) for _ in range(BLOCK))
        self.constants = 0

    def head(self, count, source, nested, wrong):
        """A function of so many instructions up to those within it; `wrong` has other words, by their number."""
        words = (self.words * (count // BLOCK + 1))[:count - FAR] + [MOVE] * FAR
        for pc, other in wrong.items():
            words[pc] = other
        first = self.constants
        self.constants += max(count // 10, FEWEST_CONSTANTS)
        listed = [constant(self.rng, k) for k in range(first, self.constants)]
        out = [source, number(1), number(count), bytes([2, 0, STACK]), number(count), *words, number(len(listed)), *listed]
        out += [number(UPVALUES), bytes([1, 0, 0] * UPVALUES), number(nested)]
        return b"".join(out)

    def tail(self, count):
        deltas = (self.deltas * (count // BLOCK + 1))[:count]
        anchors = [number(pc) + number(10 + pc) for pc in range(128, count, 128)]
        named = [string(b"local_%06d" % k) + number(k) + number(k + 40) for k in range(0, count, 60)]
        names = [string(b"upvalue_%d" % k) for k in range(UPVALUES)]
        return b"".join([number(count), deltas, number(len(anchors)), *anchors, number(len(named)), *named, number(len(names)), *names])

    def function(self, size, inner=(), source=b"\x80", wrong={}):
        """A function of about so many bytes, without those within it."""
        count = int(size / BYTES_FOR_INSTRUCTION)
        return self.head(count, source, len(inner), wrong) + b"".join(inner) + self.tail(count)


def chunk(main):
    return b"".join(bytes.fromhex(data) for _, data in HEADER) + bytes([UPVALUES]) + main


LARGE = 8


def large(size, wrong=lambda k, count: {}):
    maker = Maker()
    share = size // (LARGE + 1)
    inner = [maker.function(share, wrong=wrong(k, int(share / BYTES_FOR_INSTRUCTION))) for k in range(LARGE)]
    return chunk(maker.function(share, inner, string(b"@large.lua")))


LEVELS = CEILINGS["max_nesting_depth"] + 1


def nested(size):
    maker = Maker()
    inner = []
    for level in reversed(range(LEVELS)):
        inner = [maker.function(size // LEVELS, inner, string(b"@nested.lua") if level == 0 else b"\x80")]
    return chunk(inner[0])


def tiny(size):
    """Two of three functions have one instruction, RETURN0."""
    front = b"\x80" + number(0) * 2 + bytes([0, 0, 2])
    none = front + number(0) * 8
    one = front + number(1) + word(71, 0, 0) + number(0) * 7
    groups = (size - 64) // len(one + none + one)
    main = string(b"@tiny.lua") + number(0) * 2 + bytes([0, 1, 2]) + number(0) * 3 + number(3 * groups) + (one + none + one) * groups + number(0) * 4
    return chunk(main)


HEAVY = 2
NUMBERS = 11


def zeros(size):
    """Main and a function in it have zero groups before each of their eleven numbers; the functions in that have one instruction and a source, every second its parent's."""
    zero = bytes(size // 2 // (HEAVY * NUMBERS))

    def heavy(source, inner, count):
        n = [zero + number(value) for value in (0, 0, 1, 0, 0, count, 1, 0, 0, 0)]
        return zero + source + n[0] + n[1] + bytes([0, 1, 2]) + n[2] + word(71, 0, 0) + n[3] + n[4] + n[5] + inner + n[6] + b"\0" + n[7] + n[8] + n[9]

    source = string(b"@zeros.lua")
    rest = number(0) * 2 + bytes([0, 0, 2]) + number(1) + word(71, 0, 0) + number(0) * 7
    groups = (size - 128 - HEAVY * NUMBERS * len(zero)) // len(source + rest + source + rest)
    inner = (source + rest + string(b"@other.lua") + rest) * groups
    return chunk(heavy(source, heavy(b"\x80", inner, 2 * groups), 1))


# ---- 10,001 findings

# A word of each kind: no opcode; a register, a constant, an upvalue, a table's upvalue, a nested function, a jump's target that is not there.
WRONG = (word(100, 0, 0), word(0, 255, 0), word(3, 0, 131071 << 15), word(9, 0, 200 << 16), word(11, 0, 200 << 16), word(79, 0, 131071 << 15), jump(2**24))
# A register and a constant: two findings.
TWICE = word(3, 255, 131071 << 15)
WRONG_WORDS = 10000


def spread(k, count):
    """Of the function k within main: its share of the wrong words, evenly. The last one of all is wrong twice, so that there are 10,001 findings."""
    each = WRONG_WORDS // LARGE
    found = {(i + 1) * (count - 1) // (each + 1): WRONG[i % len(WRONG)] for i in range(each)}
    if k + 1 == LARGE:
        found[max(found)] = TWICE
    return found


# ---- the folder

def write(folder, name, chunks):
    out = b"".join(len(data).to_bytes(8, "little") + data for data in chunks)
    (folder / name).write_bytes(out)
    print(f"{name}: {len(chunks)} chunks, {sum(map(len, chunks))} bytes", file=sys.stderr)


def sized(make, size):
    """The chunk must fill its size but for a tenth, and be no longer."""
    data = make(size)
    assert size * 0.9 < len(data) <= size, (make, size, len(data))
    return data


def bundled(make):
    """As many copies as there is room for. A copy takes a little more in a longer bundle."""
    copy = len(make(8)) / 8 * 1.02
    return lambda size: make(int(size / copy))


def main():
    folder = Path(sys.argv[1])
    folder.mkdir(parents=True, exist_ok=True)
    write(folder, "samples", [data for (name, _), data in compiled().items() if name not in REFUSED])
    for mb in SIZES:
        size = mb * MB
        write(folder, f"real-{mb}", [sized(bundled(luac), size)])
        for make in (large, tiny, nested, zeros):
            write(folder, f"{make.__name__}-{mb}", [sized(make, size)])
    write(folder, "findings-16", [sized(lambda size: large(size, spread), 16 * MB)])
    write(folder, "padded-16", [sized(bundled(padded), 16 * MB)])
    write(folder, "joined-16", [sized(bundled(joined), 16 * MB)])


main()
