# The library's calls as numbers, as the lines of crates/vectors/stdin have them (docs/PROTOCOL.md): what a call returns and, where that is 0, its array, with a string's bytes in place of its place; then
# what stands in lent memory. `out` must be as it was behind its numbers, and wholly on a refusal: where it is not, the answer has a word that no line expects.
import ctypes
from array import array

BEFORE = 165
ROOM = 65536
OUT = 20
FAR = (2**32, 2**63, 2**64 - 1)
WARNING_RULE = 2
U8, U32, U64, I32 = ctypes.c_uint8, ctypes.c_uint32, ctypes.c_uint64, ctypes.c_int32
MEMORY = {"B": U8, "I": U32, "Q": U64}


class Lent:
    """Memory of one kind of items, each 165 before a call."""

    def __init__(self, kind):
        self.kind, self.memory = kind, (MEMORY[kind] * (ROOM + 64))()
        self.blank = array(kind, [BEFORE]) * (ROOM + 64)
        self.lend(ROOM)

    def lend(self, lent):
        ctypes.memmove(self.memory, self.blank.buffer_info()[0], (lent + 64) * self.blank.itemsize)
        return self.memory, lent

    def items(self, start, count):
        return array(self.kind, memoryview(self.memory)[start:start + count].tobytes()).tolist()

    def written(self, lent):
        """How many of what was lent, and of 64 behind, are no longer as they were. They are made so again."""
        changed = lent + 64 - self.items(0, lent + 64).count(BEFORE)
        self.lend(lent)
        return changed


class Library:
    def __init__(self, shared):
        self.library = ctypes.CDLL(str(shared))
        self.out = (U64 * OUT)()
        self.limits = (U64 * 9)()
        self.bytes, self.chunk = b"", (U8 * 1)()
        self.copies, self.rows, self.findings = Lent("B"), Lent("I"), Lent("Q")

    def asked_under(self, limits):
        self.limits = (U64 * 9)(*limits)

    def asked_about(self, chunk):
        self.bytes, self.chunk = chunk, (U8 * max(len(chunk), 1)).from_buffer_copy(chunk or b"\0")

    def returned(self, name, numbers, arguments):
        """0 and so many numbers, or the refusal."""
        call = getattr(self.library, name)
        call.restype = U64
        for at in range(OUT):
            self.out[at] = BEFORE
        status = call(*arguments, self.out)
        shown = 0 if status else numbers
        touched = [] if self.out[shown:] == [BEFORE] * (OUT - shown) else ["touched"]
        return [status, *self.out[:shown], *touched]

    def on_chunk(self, name, numbers, *arguments):
        return self.returned(f"lafzimdo_{name}", numbers, [self.chunk, U64(len(self.bytes)), self.limits, *(U64(a) if isinstance(a, int) else a for a in arguments)])

    def spelt(self, numbers, at):
        """Place and length at `at`, shown as length and bytes."""
        place, length = numbers[at:at + 2]
        return [*numbers[:at], length, *self.bytes[place:place + length], *numbers[at + 2:]]

    # ---- One call each

    def summary(self):
        numbers = self.on_chunk("summary", 15)
        return numbers if numbers[0] else [*numbers, *self.bytes[numbers[9]:numbers[9] + numbers[10]]]

    def totals(self):
        return self.on_chunk("verdict", 1) + self.on_chunk("finding_count", 1)

    def copy_length(self):
        return self.on_chunk("copy_length", 1)

    def function(self, function):
        numbers = self.on_chunk("function", 18, function)
        return numbers if numbers[0] else self.spelt(numbers, 4)

    def entries(self, name, numbers, shown, function):
        """From entry 0 up to the refusal behind the last."""
        answer, entry = [], 0
        while True:
            found = self.on_chunk(name, numbers, function, entry)
            answer += found if found[0] else shown(found)
            if found[0]:
                return answer
            entry += 1

    def constant(self, numbers):
        return self.spelt(numbers, 2) if numbers[1] in (4, 20) else numbers[:3]

    def local_variables(self, function, lent):
        answer, entry = [], 0
        while True:
            found = self.on_chunk("local", 3, function, entry, *self.copies.lend(lent))
            answer += found if found[0] else found + self.copies.items(0, found[1])
            answer += [self.copies.written(lent)]
            if found[0] not in (0, 26):
                return answer
            entry += 1

    def lines(self, function, pcs):
        return [number for pc in pcs for number in self.on_chunk("line", 1, function, pc)]

    def lend(self, name, numbers, memory, lent, start, count):
        found = self.on_chunk(name, numbers, *memory.lend(lent))
        return [*found, *memory.items(start, count), memory.written(lent)]

    def records(self):
        """The list of records is not in C: its numbers are those of the list that C lends, and only rule 2 is a warning."""
        found = self.on_chunk("findings", 2, *self.findings.lend(40004))
        shown = self.findings.items(0, 0 if found[0] else 4 * found[2])
        self.findings.written(40004)
        return found + [n for at in range(0, len(shown), 4) for n in [*shown[at:at + 4], int(shown[at + 2] == WARNING_RULE)]]

    def decode(self, word):
        return self.returned("lafzimdo_decode", 12, [U32(word)])

    def encode(self, op, a, k, b, c, bx, sbx, ax, sj):
        return self.returned("lafzimdo_encode", 1, [*map(U8, (op, a, k, b, c)), U32(bx), I32(sbx), U32(ax), I32(sj)])

    # ---- A line

    def answer(self, letter, arguments):
        """What the call of this letter answers; nothing where there is no such letter."""
        whole = lambda numbers: numbers
        calls = {
            "s": self.summary,
            "t": self.totals,
            "m": self.copy_length,
            "f": self.function,
            "i": lambda f: self.entries("instruction", 1, whole, f),
            "k": lambda f: self.entries("constant", 3, self.constant, f),
            "u": lambda f: self.entries("upvalue", 3, whole, f),
            "d": lambda f: self.entries("delta", 1, whole, f),
            "a": lambda f: self.entries("anchor", 2, whole, f),
            "n": lambda f: self.entries("upvalue_name", 3, lambda numbers: self.spelt(numbers, 2), f),
            "l": self.local_variables,
            "p": lambda f, pc, count: self.lines(f, range(pc, pc + count)),
            "o": lambda f: self.lines(f, FAR),
            "c": lambda *lent: self.lend("copy", 1, self.copies, *lent),
            "r": lambda *lent: self.lend("index", 1, self.rows, *lent),
            "v": lambda *lent: self.lend("findings", 2, self.findings, *lent),
            "g": self.records,
            "w": self.decode,
            "e": self.encode,
        }
        return calls[letter](*arguments)
