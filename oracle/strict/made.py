# The chunks on which the stricter reading and Lua's loader are held against each other: made ones, with every number at the bounds, the kept ones, and some by chance.
from pathlib import Path

from kept import damage, synthetic
from kept.build import NUMBERS, Function, chunk, family, join, number, pieces, replaced
from kept.fields import full, worth
from kept.real import compiled
from kept.stored import requests

INT, SIZE = 2**31 - 128, 2**64 - 128  # the least that are no int, no size
VALUES = (0, 1, 2, 127, 128, 2**24, INT - 1, INT, INT + 1, 2**31 - 1, 2**31, 2**32, 2**62, 2**63, SIZE - 1, SIZE, 2**64, 2**70)
PADS = (0, 1, 5, 12)
CUT = (INT - 1, INT, 2**31, SIZE - 1, SIZE)
ABSENT = ("80", "0080", "000080", "00" * 11 + "80", "", "00", "0000")
KEPT = Path(__file__).resolve().parents[2] / "crates/vectors/stdin"
REAL = 600


def bases():
    """The smallest chunk, and one with something of everything in functions within each other."""
    return pieces(Function()), pieces(full())


def numbers():
    for parts in bases():
        for index, part in enumerate(parts):
            if part.kind not in NUMBERS:
                continue
            for pad in PADS:
                for value in (worth(part.data), *VALUES):
                    yield replaced(parts, index, number(value, pad))
            # Cut off within the number, and right behind it.
            for spelling in (number(value, pad) for value in CUT for pad in (0, 1)):
                for length in range(len(spelling) + 1):
                    yield join(parts[:index]) + spelling[:length]


def strings():
    """String constants of size 0, and other strings that are absent."""
    for tag in (4, 20):
        for spelling in map(bytes.fromhex, ABSENT):
            parts = pieces(Function(constants=[("true",), (tag, spelling), ("nil",)]))
            yield join(parts)
            yield join(parts[:parts.index(("text", spelling)) + 1])
            yield chunk(Function(constants=[(tag, spelling)], nested=[Function(first=INT)]))
            yield chunk(Function(first=INT, constants=[(tag, spelling)]))
    for name in (None, b"", b"x", b"y" * 40, b"z" * 41):
        yield chunk(Function(source=name, upvalues=[(1, 0, 0)], locals=[(name, 0, 1)], names=[name], nested=[Function(source=name)]))
        yield chunk(Function(constants=[("short", name), ("long", name)]))


def headers():
    for parts in bases():
        for index in range(10):
            for value in range(256):
                yield replaced(parts, index, bytes([value]) + parts[index].data[1:])
        whole = join(parts)
        for value in range(1, 256):
            odd = whole[:5] + bytes([value]) + whole[6:]
            yield odd[:6]
            yield odd[:6 + value % 30]
            yield odd[:4] + b"\x53" + odd[5:]
            yield odd[:8] + b"\0" + odd[9:]
    for byte31 in (0, 1, 2, 255):
        for trailing in (b"", b"\x1bLua", bytes(40)):
            yield chunk(full(), byte31=byte31, trailing=trailing)


def every_byte():
    whole = join(bases()[1])
    for place in range(len(whole) + 1):
        yield whole[:place]
        for value in {0, 1, 0x7f, 0x80, 0x81, 0xff, whole[place] ^ 1, whole[place] ^ 0x80} if place < len(whole) else ():
            yield whole[:place] + bytes([value]) + whole[place + 1:]


def tags():
    for tag in range(256):
        yield chunk(Function(constants=[(tag, b"")]))
        yield chunk(Function(constants=[(tag, b"\x81")]))
        yield chunk(Function(constants=[(tag, bytes(8))]))


def made():
    return [*numbers(), *strings(), *headers(), *every_byte(), *tags()]


def kept():
    """What luac made of the samples, and every chunk that is kept, without its limits."""
    return [*compiled().values(), *(bytes.fromhex(request.chunk.strip("-")) for request in requests(KEPT.read_text()) if request.kind() == "chunk")]


def largest(rng, data):
    """A number at a bound, in place of a byte."""
    place = rng.randrange(31, len(data))
    return data[:place] + number(rng.choice(VALUES), rng.choice((0, 0, 1, 3))) + data[place + 1:]


WAYS = (damage.changed, damage.put_in, damage.taken_out, damage.swapped, damage.twice, largest, largest)


def drawn(rng):
    """A chunk from the grammar, mostly without names beyond the upvalues and with few numbers that are no ints."""
    function = synthetic.function(rng, rng.choice((0, 0, 1, 1, 2, 3)))
    few = rng.randrange(5) > 0
    for one in family(function):
        if rng.randrange(6):
            one.names = one.names[:len(one.upvalues)]
        if few:
            one.first, one.last = one.first % INT, one.last % INT
            one.anchors = [(pc % INT, line % INT) for pc, line in one.anchors]
            one.locals = [(name, start % INT, end % INT) for name, start, end in one.locals]
            one.constants = [("short", b"k") if constant in (("short", None), ("long", None)) else constant for constant in one.constants]
    pad = (lambda: rng.choice((0, 0, 1, 3))) if rng.randrange(3) == 0 else (lambda: 0)
    return chunk(function, pad=pad, format=bytes([rng.choice((0,) * 15 + (1,))]))


def by_chance(rng, count):
    real = [data for data in compiled().values() if len(data) <= REAL]
    chunks = []
    while len(chunks) < count:
        data = rng.choice(real) if rng.randrange(2) else drawn(rng)
        for _ in range(rng.choice((0, 1, 1, 1, 2, 3))):
            # Damage wants some bytes behind the header.
            data = rng.choice(WAYS)(rng, data) if len(data) > 48 else data
        chunks.append(data)
    return chunks
