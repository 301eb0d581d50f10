# What the copy changes: names and sources, padded numbers, the format, byte 31. What it keeps: everything else, trailing bytes too.
from .build import Function, chunk
from .fields import full
from .instructions import MOVE, iabc

NAMES = (None, b"", b"?", b"n")


def names(requests):
    requests.title("copies: local names, absent ones among them")
    for name in NAMES:
        for other in NAMES:
            main = Function(locals=[(name, 0, 1), (other, 2, 300)])
            for limit in (0, 1):
                requests.chunk(chunk(main), max_string_bytes=limit)
    grows = Function(locals=[(None, 0, 0)] * 20, nested=[Function(locals=[(None, 1, 2)] * 3)])
    requests.chunk(chunk(grows))
    requests.chunk(chunk(grows), max_string_bytes=0, max_input_bytes=len(chunk(grows)))
    requests.title("copies: upvalue names, more and fewer than upvalues")
    for upvalues in range(4):
        for count in range(5):
            requests.chunk(chunk(Function(upvalues=[(1, index, 0) for index in range(upvalues)], names=list(NAMES[:count]))))


def sources(requests):
    requests.title("copies: sources of main, of a function within, and of one within that")
    for main in (None, b"", b"@m"):
        for nested in (None, b"", b"@m", b"@n"):
            for inner in (None, b"", b"@n", b"@i"):
                requests.chunk(chunk(Function(source=main, nested=[Function(source=nested, nested=[Function(source=inner)]), Function()])))


def paddings(rng):
    """Every number padded by 1 and by 9, and some by some."""
    yield lambda: 1
    yield lambda: 9
    for _ in range(12):
        yield lambda: rng.choice((0, 0, 1, 2, 5))


def padded(requests, rng):
    requests.title("copies: padded numbers")
    for pad in paddings(rng):
        requests.chunk(chunk(full(), pad=pad))
        requests.chunk(chunk(Function(), pad=pad, trailing=b"\0\x80"))
        requests.chunk(chunk(Function(locals=[(None, 128, 16384)], anchors=[(2**63, 2**61)]), pad=pad))
    shrunk = chunk(full(), pad=lambda: 1)
    requests.chunk(shrunk, max_input_bytes=len(shrunk))
    requests.chunk(shrunk, max_input_bytes=len(shrunk) - 1)


def header_bytes(requests):
    requests.title("copies: format, byte 31, trailing bytes")
    for value in (0, 1, 2, 0x54, 0x7f, 0x80, 0xff):
        for limit in (0, 1, 2, 10000):
            requests.chunk(chunk(Function(), format=bytes([value]), trailing=bytes(value % 3)), max_diagnostics=limit)
        requests.chunk(chunk(Function(upvalues=[(1, 0, 0)]), byte31=value))
    for trailing in (b"\0", b"\xff" * 3, b"end\n", b"\x1bLua", chunk(Function())):
        requests.chunk(chunk(Function(), trailing=trailing))
        requests.chunk(chunk(full(), trailing=trailing), max_diagnostics=0)
    requests.title("copies: main's upvalues around 256")
    for count in (1, 127, 128, 255, 256, 257, 300):
        requests.chunk(chunk(Function(upvalues=[(0, index % 256, index // 256) for index in range(count)]), byte31=7))
    # Those of a function within do not count.
    requests.chunk(chunk(Function(upvalues=[(1, 1, 1)] * 2, nested=[Function(upvalues=[(0, 0, 0)] * 5)])))


def lengths(requests):
    """Counts and sizes of two bytes, and numbers of every length where the copy writes them."""
    requests.title("copies: numbers of every length")
    for groups in range(1, 10):
        for value in (2**(7 * groups) - 1, 2**(7 * groups)):
            low = min(value, 2**62 - 1)
            requests.chunk(chunk(Function(first=low, last=value, anchors=[(value, low)], locals=[(b"", value, value)])))
    for count in (127, 128, 129):
        requests.chunk(chunk(Function(source=b"s" * count, deltas=[1] * count)))
        requests.chunk(chunk(Function(constants=[("nil",)] * count, names=[None] * count)))
        requests.chunk(chunk(Function(words=[iabc(MOVE)] * count, anchors=[(0, 1)] * count)))
        requests.chunk(chunk(Function(nested=[Function(locals=[(b"l", 0, 1)] * count)], deltas=[-128])))
