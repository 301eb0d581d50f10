# Chunks by chance, from the grammar: every field has its odd values, and now and then a count claims what is not there.
from .ask import CEILINGS
from .build import Function, chunk
from .instructions import CLOSURE, GETTABUP, GETUPVAL, JMP, LOADK, SETTABUP, SETUPVAL, iabc, iabx, jump

LIST_NAMES = ("words", "constants", "upvalues", "nested", "deltas", "anchors", "locals", "names")
ODD_NUMBERS = (0, 1, 127, 128, 300, 16383, 16384, 2**31, 2**62 - 1, 2**62, 2**63, 2**64 - 129)
ODD_FLOATS = (0, 2**63, 0x7ff0000000000000, 0x7ff8000000000001, 0xfff4000000000000, 0x4077280000000000)
ODD_STRINGS = (None, None, b"", b"a", b"@s", b"?", b"\0", b"\xff\x80", b"name")


def some(rng, most, make):
    """A list of a few, often of none."""
    count = rng.randrange(most + 1) if rng.randrange(2) else 0
    return [make(rng) for _ in range(count)]


def number(rng):
    return rng.choice(ODD_NUMBERS) if rng.randrange(5) == 0 else rng.randrange(12)


def string(rng):
    return rng.choice(ODD_STRINGS)


def word(rng):
    op = rng.choice((LOADK, GETUPVAL, SETUPVAL, GETTABUP, SETTABUP, CLOSURE, JMP, rng.randrange(128)))
    if op == JMP:
        return jump(rng.randrange(-3, 4))
    if op in (LOADK, CLOSURE):
        return iabx(op, rng.randrange(3), rng.randrange(3))
    return iabc(op, rng.randrange(4), rng.randrange(3), rng.randrange(256), rng.randrange(2))


def constant(rng):
    kind = rng.choice(("nil", "false", "true", "int", "float", "short", "long"))
    if rng.randrange(60) == 0:
        return rng.randrange(256), b""
    if kind == "int":
        return kind, rng.getrandbits(64) >> rng.randrange(64)
    if kind == "float":
        return kind, rng.choice(ODD_FLOATS) if rng.randrange(2) else rng.getrandbits(64)
    return (kind, string(rng)) if kind in ("short", "long") else (kind,)


def upvalue(rng):
    return tuple(rng.choice((0, 1, 2, 255)) for _ in range(3))


def function(rng, depth):
    nested = [] if depth == 0 else [function(rng, depth - 1) for _ in range(rng.choice((0, 0, 1, 1, 2)))]
    deltas = some(rng, 4, lambda rng: rng.choice((0, 1, 2, -1, 127, -127, -128)))
    anchors = some(rng, 3, lambda rng: (rng.choice((0, 1, 2, 3, number(rng))), number(rng)))
    made = Function(
        source=string(rng), first=number(rng), last=number(rng),
        params=rng.randrange(4), vararg=rng.choice((0, 1, 255)), stack=rng.choice((0, 1, 2, 3, 255)),
        words=some(rng, 3, word), constants=some(rng, 3, constant), upvalues=some(rng, 2, upvalue), nested=nested, deltas=deltas, anchors=anchors,
        locals=some(rng, 2, lambda rng: (string(rng), number(rng), number(rng))), names=some(rng, 3, string))
    if rng.randrange(20) == 0:
        name = rng.choice(LIST_NAMES)
        made.claims[name] = max(0, len(getattr(made, name)) + rng.choice((-1, 1, 1, 5, 2**40)))
    return made


def limits(rng):
    """Mostly the ceilings; else one or two of the limits small."""
    chosen = {}
    while rng.randrange(3) == 0:
        limit = rng.choice(list(CEILINGS)[1:])
        chosen[limit] = rng.choice((0, 1, 2, 3, 5))
    return chosen


def random_chunks(requests, rng, count):
    requests.title("synthetic: by chance")
    for _ in range(count):
        pad = (lambda: rng.choice((0, 0, 0, 1, 3))) if rng.randrange(6) == 0 else (lambda: 0)
        knobs = {"byte31": rng.randrange(256)} if rng.randrange(4) == 0 else {}
        if rng.randrange(8) == 0:
            knobs["format"] = bytes([rng.randrange(256)])
        if rng.randrange(6) == 0:
            knobs["trailing"] = bytes(rng.randrange(256) for _ in range(rng.randrange(4)))
        data = chunk(function(rng, rng.choice((0, 0, 0, 1, 1, 1, 2, 2, 3, 6))), pad=pad, **knobs)
        requests.chunk(data, **limits(rng))
