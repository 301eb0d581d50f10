# Chunks from a description, spelt by 01's grammar. A chunk is a list of pieces, one for each field, so that a single field can be replaced, padded or
# cut off. A claim is a count that differs from the number of items that follow it.
from dataclasses import dataclass, field
from typing import NamedTuple

HEADER = (
    ("signature", "1b4c7561"), ("version", "54"), ("format", "00"), ("data", "19930d0a1a0a"), ("isize", "04"), ("intsize", "08"),
    ("numsize", "08"), ("int", "7856000000000000"), ("num", "0000000000287740"),
)
TAGS = {"nil": 0, "false": 1, "true": 17, "int": 3, "float": 19, "short": 4, "long": 20}

# The kinds of pieces that are numbers of any length.
NUMBERS = ("count", "size", "line", "pc")


class Piece(NamedTuple):
    kind: str
    data: bytes


def number(value, pad=0):
    """High group first, the last byte marked; `pad` groups of zeros before."""
    groups = [value % 128 + 128]
    while value >= 128:
        value //= 128
        groups.append(value % 128)
    return b"\0" * pad + bytes(reversed(groups))


def no_pad():
    return 0


@dataclass
class Function:
    source: object = None  # bytes, or None where it is absent; so are names
    first: int = 0
    last: int = 0
    params: int = 0
    vararg: int = 0
    stack: int = 2
    words: list = field(default_factory=list)
    constants: list = field(default_factory=list)  # ("int", 5), ("short", b"x"), ("nil",), or (tag, bytes) for any other
    upvalues: list = field(default_factory=list)
    nested: list = field(default_factory=list)
    deltas: list = field(default_factory=list)
    anchors: list = field(default_factory=list)
    locals: list = field(default_factory=list)
    names: list = field(default_factory=list)
    claims: dict = field(default_factory=dict)

    def pieces(self, pad=no_pad):
        def num(kind, value):
            return [Piece(kind, number(value, pad()))]

        def count(name):
            return num("count", self.claims.get(name, len(getattr(self, name))))

        def string(content):
            if content is None:
                return num("size", 0)
            return num("size", len(content) + 1) + [Piece("text", content)]

        out = string(self.source) + num("line", self.first) + num("line", self.last)
        out += [Piece("byte", bytes([value])) for value in (self.params, self.vararg, self.stack)]
        out += count("words") + [Piece("word", word.to_bytes(4, "little")) for word in self.words]
        out += count("constants")
        for constant in self.constants:
            out += spelt_constant(constant, string)
        out += count("upvalues") + [Piece("byte", bytes([byte])) for upvalue in self.upvalues for byte in upvalue]
        out += count("nested")
        for function in self.nested:
            out += function.pieces(pad)
        out += count("deltas") + [Piece("deltas", bytes(delta % 256 for delta in self.deltas))]
        out += count("anchors")
        for pc, line in self.anchors:
            out += num("pc", pc) + num("line", line)
        out += count("locals")
        for name, start, end in self.locals:
            out += string(name) + num("pc", start) + num("pc", end)
        out += count("names")
        for name in self.names:
            out += string(name)
        return out


def spelt_constant(constant, string):
    kind, *value = constant
    if kind not in TAGS:
        return [Piece("tag", bytes([kind])), Piece("text", *value)]
    tag = [Piece("tag", bytes([TAGS[kind]]))]
    if kind == "int":
        return tag + [Piece("eight", (value[0] % 2**64).to_bytes(8, "little"))]
    if kind == "float":
        return tag + [Piece("eight", value[0].to_bytes(8, "little"))]
    if kind in ("short", "long"):
        return tag + string(value[0])
    return tag


def pieces(main, pad=no_pad, byte31=None, trailing=b"", **header):
    """A chunk's pieces; header fields as given, by their names above."""
    out = [Piece(name, header.get(name, bytes.fromhex(usual))) for name, usual in HEADER]
    out.append(Piece("byte31", bytes([len(main.upvalues) % 256 if byte31 is None else byte31])))
    return out + main.pieces(pad) + [Piece("trailing", trailing)]


def join(parts):
    return b"".join(part.data for part in parts)


def chunk(main, **knobs):
    return join(pieces(main, **knobs))


def replaced(parts, index, data):
    """The chunk with another spelling of one piece."""
    return join(parts[:index]) + data + join(parts[index + 1:])


def chain(depth, **fields):
    """Functions within each other, the innermost at `depth`."""
    function = Function(**fields)
    for _ in range(depth):
        function = Function(**fields, nested=[function])
    return function


def family(function):
    """The function and all within it, in the order their bytes begin."""
    return [function] + [inner for nested in function.nested for inner in family(nested)]


def depth(function):
    return 1 + max(map(depth, function.nested)) if function.nested else 0
