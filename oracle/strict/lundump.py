# lundump.c of Lua 5.4.4 once more, as a walk that takes no memory: what the loader will say of a chunk, and whether it comes to where C is undefined: a name is stored behind the array of upvalues. Such chunks are not run.
import sys

# The functions nest as deep as a chunk has bytes for.
sys.setrecursionlimit(20_000)

LOADS = "loads"
TEXT = "attempt to load a text chunk (mode is 'b')"
CUT = "truncated chunk"
OVERFLOW = "integer overflow"
FORMAT = "format mismatch"
NULL = "bad format for constant string"
MEMORY = "not enough memory"

INT_MAX, SIZE_MAX = 2**31 - 1, 2**64 - 1
NUMBERS, STRINGS = (3, 19), (4, 20)
FIXED = (
    ("not a binary chunk", b"Lua"), ("version mismatch", b"\x54"), (FORMAT, b"\0"), ("corrupted chunk", b"\x19\x93\r\n\x1a\n"), ("Instruction size mismatch", b"\4"),
    ("lua_Integer size mismatch", b"\x08"), ("lua_Number size mismatch", b"\x08"), ("integer format mismatch", (0x5678).to_bytes(8, "little")),
    ("float format mismatch", bytes.fromhex("0000000000287740")),
)


class Said(Exception):
    pass


class Loader:
    def __init__(self, chunk):
        self.chunk, self.at = chunk, 0
        self.beyond = False

    def block(self, length):
        """loadBlock"""
        if length > len(self.chunk) - self.at:
            raise Said(CUT)
        self.at += length
        return self.chunk[self.at - length:self.at]

    def byte(self):
        return self.block(1)[0]

    def unsigned(self, limit):
        """loadUnsigned: the limit is tested before each group is taken."""
        value, limit = 0, limit >> 7
        while True:
            byte = self.byte()
            if value >= limit:
                raise Said(OVERFLOW)
            value = value << 7 | byte & 0x7F
            if byte & 0x80:
                return value

    def int(self):
        return self.unsigned(INT_MAX)

    def string(self):
        """loadStringN: whether there is one."""
        size = self.unsigned(SIZE_MAX)
        self.block(max(size, 1) - 1)
        return size > 0

    def header(self):
        """f_parser looks at the first byte, checkHeader at the others."""
        if self.chunk[:1] != b"\x1b":
            raise Said(TEXT)
        self.at = 1
        for message, bytes_ in FIXED:
            if self.block(len(bytes_)) != bytes_:
                raise Said(message)

    def constant(self):
        tag = self.byte()
        if tag in NUMBERS:
            self.block(8)
        elif tag in STRINGS and not self.string():
            raise Said(NULL)
        # Any other tag passes: lua_assert(0) is nothing in a release.

    def function(self):
        self.string()
        self.int(), self.int()
        self.block(3)
        self.block(4 * self.int())
        for _ in range(self.int()):
            self.constant()
        upvalues = self.int()
        self.block(3 * upvalues)
        for _ in range(self.int()):
            self.function()
        self.debug(upvalues)

    def debug(self, upvalues):
        self.block(self.int())
        for _ in range(self.int()):
            self.int(), self.int()
        for _ in range(self.int()):
            self.string()
            self.int(), self.int()
        for name in range(self.int()):
            self.string()
            self.beyond |= name >= upvalues


def told(chunk):
    """What Lua says of it, as long as its memory lasts, and whether it stores a name behind the upvalues before."""
    loader = Loader(chunk)
    try:
        loader.header()
        loader.byte()
        loader.function()
        return LOADS, loader.beyond
    except Said as said:
        return str(said), loader.beyond
