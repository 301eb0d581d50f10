#!/usr/bin/env python3
# The requests on instruction words: `word` and `enc`, every opcode with every field at and beyond its ends.
# Nothing here depends on the day or the machine: the random numbers have a fixed seed.
import random

OPCODES = range(83)
FIELDS = ("A", "K", "B", "C", "BX", "SBX", "AX", "SJ")

# Fields within every range and, k aside, at no end, so that a field put at an end stands out.
PLAIN = {"A": 1, "K": 0, "B": 2, "C": 3, "BX": 4, "SBX": -1, "AX": 5, "SJ": -2}

ENDS = {
    "A": (0, 255), "K": (0, 1), "B": (0, 255), "C": (0, 255), "BX": (0, 131071),
    "SBX": (-65535, 65536), "AX": (0, 2**25 - 1), "SJ": (-16777215, 16777216),
}

# Just beyond each range, and at the ends of the type. A, B and C are bytes: nothing of them is beyond.
BEYOND = {
    "K": (2, 255),
    "BX": (131072, 2**32 - 1),
    "SBX": (-65536, 65537, -2**31, 2**31 - 1),
    "AX": (2**25, 2**32 - 1),
    "SJ": (-16777216, 16777217, -2**31, 2**31 - 1),
}

# The bits of a word that hold a field.
MASKS = {"A": 0xff << 7, "K": 1 << 15, "B": 0xff << 16, "C": 0xff << 24, "BX": 0x1ffff << 15, "AX": 0x1ffffff << 7}

# 01's worked cases.
WORKED_WORDS = (0x7fff0081, 0x7fffff38, 0x00000053, 0x7fffffb8)
WORKED_FIELDS = ((1, {"A": 1, "SBX": -1}), (56, {"SJ": -1}), (56, {"SJ": 0}))

# The requests in their order; one that comes again is asked once.
requests = {}


def word(value):
    requests[f"word {value:08x}"] = True


def enc(opcode, **changed):
    fields = {**PLAIN, **changed}
    requests[" ".join(map(str, ["enc", opcode, *(fields[name] for name in FIELDS)]))] = True


def words(rng):
    for value in WORKED_WORDS:
        word(value)
    for bit in range(32):
        word(1 << bit)
        word(0xffffffff ^ 1 << bit)
    # All 128 numbers, those without an opcode included; 0 and 127 give the all-zero and the all-one word.
    for opcode in range(128):
        word(opcode)
        word(0xffffff80 | opcode)
    # Each field alone at its upper end, and alone at its lower one.
    for opcode in OPCODES:
        for mask in MASKS.values():
            word(mask | opcode)
            word((0xffffff80 ^ mask) | opcode)
    for opcode in range(83, 128):
        word(rng.getrandbits(25) << 7 | opcode)
    for _ in range(400):
        word(rng.getrandbits(32))


def encodings(rng):
    for opcode, fields in WORKED_FIELDS:
        enc(opcode, **fields)
    for opcode in OPCODES:
        enc(opcode, **{name: low for name, (low, _) in ENDS.items()})
        enc(opcode, **{name: high for name, (_, high) in ENDS.items()})
        for limits in (ENDS, BEYOND):
            for name, values in limits.items():
                for value in values:
                    enc(opcode, **{name: value})
        # Everything beyond at once: refused, or encoded from the bytes alone.
        enc(opcode, **{name: values[0] for name, values in BEYOND.items()})
    # No opcode: refused, whether or not a field is beyond its range too.
    for opcode in range(83, 256):
        enc(opcode)
        enc(opcode, **{name: values[-1] for name, values in BEYOND.items()})
    for _ in range(200):
        enc(rng.choice(OPCODES), **{name: rng.randint(*ends) for name, ends in ENDS.items()})


rng = random.Random(54)
words(rng)
encodings(rng)
print(*requests, sep="\n")
