# A run of deltas so long that place plus size passes 2^64: the only way to refusal 2. And refusals next to it.
from .build import Function, chunk, join, number, pieces

LONGEST = 2**64 - 129


def before_deltas(main):
    """The bytes before the outermost function's count of deltas, the third of its last four counts from behind."""
    parts = pieces(main)[:-1]
    tail = [index for index, part in enumerate(parts) if part.kind == "count"][-4]
    return join(parts[:tail])


def deltas_at(place, size, main):
    """The count padded until its deltas begin at the place."""
    start = before_deltas(main)
    pad = place - len(start) - len(number(size))
    assert pad >= 0, place
    return start + number(size, pad)


def overflow(requests):
    requests.title("overflow: deltas that begin at a place and end beyond 2^64")
    for place in (60, 127, 128, 129, 130, 150, 200):
        for size in (LONGEST - 2, LONGEST - 1, LONGEST, 2**63, 2**64 - place, 2**64 - place - 1):
            if size <= LONGEST:
                for tail in (b"", b"\0", b"\x80" * 40):
                    requests.chunk(deltas_at(place, size, Function()) + tail)
    requests.title("overflow: behind a nested function, and within one")
    source = Function(source=b"s" * 20, nested=[Function(source=b"t" * 10)])
    for place in (128, 129, 160):
        requests.chunk(deltas_at(place, LONGEST, source))
        requests.chunk(deltas_at(place, LONGEST, source), max_nesting_depth=0)
    inner = Function(source=b"s" * 90, nested=[Function(claims={"deltas": LONGEST}), Function()])
    requests.chunk(chunk(inner))
    requests.chunk(chunk(Function(source=b"s" * 60, nested=[Function(claims={"deltas": LONGEST})])))
    requests.lookup(chunk(inner), 5, (0,))
    # Strings are stopped by their limit before.
    requests.chunk(chunk(Function(source=b"s" * 120, claims={"names": 1})) + number(LONGEST))
    requests.chunk(chunk(Function(constants=[("short", b"s" * 120), (4, number(LONGEST))])))
