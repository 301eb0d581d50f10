# A small chunk with something of everything, each of its fields replaced in turn; and the fields of the header, numbers and constants by themselves.
from .build import NUMBERS, Function, chunk, join, number, pieces, replaced
from .instructions import CLOSURE, LOADK, MOVE, iabc, iabx

TOO_BIG = 2**64 - 128
# A number that has grown too big before its end is found so at the next byte, whatever that is.
GROWN = b"\x01" + b"\x7f" * 8

# The piece that is main's last line, where its source is absent: the header's nine, byte 31, the source and the first line come before.
LAST_LINE = 12


def worth(spelling):
    value = 0
    for byte in spelling:
        value = value * 128 + byte % 128
    return value


def full():
    """Something of everything, in about 130 bytes."""
    inner = Function(first=3, last=5, stack=1, words=[iabc(MOVE)], constants=[("short", b"s")], upvalues=[(0, 1, 2)], nested=[Function()],
                     deltas=[1], anchors=[(0, 4)], locals=[(b"v", 0, 1)], names=[b"u"])
    return Function(source=b"@m", first=1, last=130, params=1, vararg=1, stack=2, words=[iabx(LOADK, 0, 3), iabx(CLOSURE, 1)],
                    constants=[("nil",), ("true",), ("int", -2), ("long", b"k")], upvalues=[(1, 0, 0)], nested=[inner],
                    deltas=[1, -128], anchors=[(1, 300)], locals=[(b"a", 0, 2)], names=[b"E"])


def numbers_in_turn(requests):
    requests.title("fields: each number replaced")
    parts = pieces(full())
    for index, part in enumerate(parts):
        if part.kind not in NUMBERS:
            continue
        value = worth(part.data)
        for other in (value + 1, value - 1 if value else 2, 2**63, TOO_BIG - 1, TOO_BIG):
            requests.chunk(replaced(parts, index, number(other)))
        requests.chunk(replaced(parts, index, b"\0" + part.data))
        requests.chunk(replaced(parts, index, GROWN + b"\0"))
        # Cut off within the number, before and after it is too big.
        for start in (b"\0\0", GROWN, GROWN + b"\0"):
            requests.chunk(join(parts[:index]) + start)


def others_in_turn(requests):
    requests.title("fields: each other field replaced")
    parts = pieces(full())
    for index, part in enumerate(parts):
        if part.kind in NUMBERS or not part.data:
            continue
        first, rest = part.data[0], part.data[1:]
        for data in (bytes([first ^ 0x80]) + rest, bytes([first ^ 1]) + rest, part.data[:-1], part.data + b"\x80"):
            requests.chunk(replaced(parts, index, data))
        requests.chunk(join(parts[:index]) + part.data[:len(part.data) // 2])


def header(requests):
    requests.title("fields: the header")
    data = chunk(Function())
    for place in range(32):
        for value in sorted({0, 0x54, 0xff, data[place] ^ 1, data[place] ^ 0x80} - {data[place]}):
            requests.chunk(data[:place] + bytes([value]) + data[place + 1:])
    # Sizes, integers and floats of other builds of Lua, and floats that differ from the test number in a bit or are no number at all.
    for name, value in (("isize", "08"), ("intsize", "04"), ("numsize", "04"), ("version", "53"), ("version", "55"), ("data", "19930a0d1a0a"),
                        ("int", "0000000000005678"), ("int", "7856000000000080"), ("num", "4077280000000000"), ("num", "0000000000f87f00"),
                        ("num", "000000000000f87f"), ("num", "00000000002877c0"), ("num", "0100000000287740"), ("signature", "1b4c7541")):
        requests.chunk(chunk(Function(), **{name: bytes.fromhex(value)}))
    # The first of two wrong fields is told.
    requests.chunk(chunk(Function(), version=b"\x53", isize=b"\x08"))
    requests.chunk(chunk(Function(), format=b"\x01", numsize=b"\x04", num=bytes(8)))
    requests.chunk(chunk(Function(), format=b"\x01")[:5])


def number_values(requests):
    requests.title("fields: numbers of every length")
    for bits in range(1, 65):
        for value in (2**bits - 1, 2**bits, 2**bits - 2**(bits // 2)):
            if value < TOO_BIG:
                requests.chunk(chunk(Function(first=value % 2**62, last=value)))
    requests.title("fields: numbers at the end of their range, and padded")
    base = pieces(Function())
    for value in (TOO_BIG - 2, TOO_BIG - 1, TOO_BIG, TOO_BIG + 1, TOO_BIG + 127, 2**64, 2**65, 2**70 - 1, 2**77):
        for pad in (0, 1, 5):
            requests.chunk(replaced(base, LAST_LINE, number(value, pad)))
    # 01's cases, and the low group first.
    for spelling in ("80", "ff", "0180", "02ac", "000080", "8001", "0081", "7fff", "0000000000000000000000000000000000000081"):
        requests.chunk(replaced(base, LAST_LINE, bytes.fromhex(spelling)))


def tags(requests):
    requests.title("fields: every constant tag")
    for tag in range(256):
        requests.chunk(chunk(Function(constants=[(tag, b"\x80")])) if tag in (4, 20) else
                       chunk(Function(constants=[(tag, b"\x01" + bytes(7))])) if tag in (3, 19) else
                       chunk(Function(constants=[(tag, b"")])))


def constants(requests):
    requests.title("fields: constants")
    for value in (0, 1, -1, 127, -128, 2**31, -2**31 - 1, 2**63 - 1, -2**63, 0x0123456789abcdef):
        requests.chunk(chunk(Function(constants=[("int", value)])))
    for bits in (0, 2**63, 0x3ff0000000000000, 0x7ff0000000000000, 0xfff0000000000000, 0x7ff8000000000000, 0xfff8000000000000, 0x7ff0000000000001,
                 0xfff7ffffffffffff, 0x7ff4123456789abc, 0xffffffffffffffff, 1, 0x000fffffffffffff, 0x7fefffffffffffff):
        requests.chunk(chunk(Function(constants=[("float", bits)])))
    for kind in ("short", "long"):
        for content in (None, b"", b"\0", b"a", b"\xff\x80\x00", bytes(range(32)), b"x" * 40, b"y" * 41, b"z" * 126, b"z" * 127, b"z" * 128):
            requests.chunk(chunk(Function(constants=[(kind, content), ("nil",)])))
    requests.chunk(chunk(Function(constants=[("nil",), ("false",), ("true",), ("int", 3), ("float", 19), ("short", b"\x04"), ("long", b"\x14")])))
