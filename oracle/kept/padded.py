# Padded numbers: how many a chunk has, of every kind of number and of none but these. The judge reads each with the Rust's own reader (oracle/src/padded.rs).
from .build import NUMBERS, Function, chunk, number, pieces, replaced
from .fields import LAST_LINE, TOO_BIG


def numbers_alone(requests, main, zeros, **knobs):
    """Each number padded alone."""
    parts = pieces(main, **knobs)
    for index, part in enumerate(parts):
        if part.kind in NUMBERS:
            requests.chunk(replaced(parts, index, bytes(zeros) + part.data))


def smallest(requests):
    requests.title("padded: each number of the smallest chunk, by one zero group and by nine, and all of them")
    numbers_alone(requests, Function(), 1)
    numbers_alone(requests, Function(), 9)
    requests.chunk(chunk(Function(), pad=lambda: 1))


def everything():
    """Every kind of number, sizes of absent strings among them, 61 in all; zeros wherever there is no number."""
    inner = Function(nested=[Function(source=b"@b")], first=2, last=2)
    return Function(source=b"@a", first=1, last=300, words=[0, 0x80000000],
                    constants=[("nil",), ("false",), ("true",), ("int", 0), ("float", 0), ("short", b"\0x"), ("long", bytes(3)), ("short", None), ("long", b"")],
                    upvalues=[(0, 0, 0)], nested=[inner, Function()], deltas=[0, 0, -128], anchors=[(0, 5), (128, 16384)],
                    locals=[(b"\0v", 0, 3), (None, 128, 200)], names=[None, b"", b"\0"])


def every_kind(requests):
    requests.title("padded: every kind of number alone, none, and all")
    knobs = {"byte31": 0, "trailing": b"\0\x80\0\0"}
    requests.chunk(chunk(everything(), **knobs))
    numbers_alone(requests, everything(), 1, **knobs)
    requests.chunk(chunk(everything(), pad=lambda: 1, **knobs))


def values(requests):
    requests.title("padded: numbers of one byte to eleven")
    for value in (0, 1, 127, 128, 16383, 16384, 2**62 - 1, 2**63 - 1, 2**63, TOO_BIG - 1):
        for zeros in (0, 1):
            requests.chunk(replaced(pieces(Function()), LAST_LINE, number(value, zeros)))
