# Each of the nine limits at what a chunk needs, one below, one above, at 0, at its ceiling and beyond.
from .ask import CEILINGS
from .build import Function, chain, chunk, depth, family, number, pieces
from .fields import full
from .instructions import MOVE, iabc


def strings_of(function):
    own = [function.source, *(name for name, _, _ in function.locals), *function.names]
    return own + [constant[1] for constant in function.constants if constant[0] in ("short", "long")]


def needs(main, **knobs):
    """The least limits under which the chunk is read."""
    functions = family(main)
    return {
        "max_input_bytes": len(chunk(main, **knobs)),
        "max_nesting_depth": depth(main),
        "max_total_prototypes": len(functions) - 1,
        "max_instructions_per_proto": max(len(function.words) for function in functions),
        "max_total_instructions": sum(len(function.words) for function in functions),
        "max_constants_per_proto": max(len(function.constants) for function in functions),
        "max_upvalues_per_proto": max(len(function.upvalues) for function in functions),
        "max_string_bytes": max((len(string) for function in functions for string in strings_of(function) if string), default=0),
        "max_diagnostics": 0,
    }


def trees():
    """Chunks whose totals come from several functions, side by side and within each other."""
    word, nil, upvalue = iabc(MOVE), ("nil",), (0, 0, 0)
    leaf = Function(words=[word], constants=[nil], upvalues=[upvalue])
    wide = Function(words=[word] * 2, nested=[leaf, Function(words=[word] * 3, constants=[nil] * 3), leaf])
    late = Function(nested=[Function(), Function(nested=[Function(upvalues=[upvalue] * 2), Function(source=b"abc")])])
    comb = Function(source=b"main", nested=[Function(nested=[leaf]), Function(nested=[leaf]), Function(nested=[Function(nested=[leaf])])])
    return [Function(), full(), leaf, wide, late, comb, chain(3, words=[word])]


def at_each(requests):
    requests.title("bounds: each limit at the least, one below and one above")
    for main in trees():
        data, least = chunk(main), needs(main)
        for limit, value in least.items():
            for other in sorted({0, value - 1, value, value + 1} - {-1}):
                requests.chunk(data, **{limit: other})
        requests.chunk(data, **least)
        requests.chunk(data, **dict.fromkeys(CEILINGS, 0))
        # All at the least but one, which is one below: what comes first in the bytes is told.
        for limit, value in least.items():
            if value:
                requests.chunk(data, **{**least, limit: value - 1})


def ceilings(requests):
    requests.title("bounds: ceilings")
    data = chunk(Function())
    for limit, ceiling in CEILINGS.items():
        for value in (0, 1, ceiling - 1, ceiling, ceiling + 1, 2**32, 2**63, 2**64 - 1):
            requests.chunk(data, **{limit: value})
        # Above a ceiling comes before a file too long, and before anything in the bytes.
        other = "max_input_bytes" if limit != "max_input_bytes" else "max_nesting_depth"
        requests.chunk(data, **{other: 0, limit: ceiling + 1})
        requests.chunk(b"", **{limit: ceiling + 1})
        requests.lookup(data, 9, (0,), **{limit: ceiling + 1})
    requests.chunk(data, **{limit: ceiling + 1 for limit, ceiling in CEILINGS.items()})


def input_lengths(requests):
    requests.title("bounds: the input's length")
    word = iabc(MOVE)
    for main, knobs in ((Function(), {}), (Function(), {"trailing": b"abc"}), (full(), {}), (full(), {"trailing": bytes(5)}),
                        (Function(locals=[(None, 0, 0)]), {}), (Function(words=[word] * 30), {}), (Function(), {"signature": b"Lua\x1b"})):
        data = chunk(main, **knobs)
        for value in (len(data) - 1, len(data), len(data) + 1, 0, 31, 32):
            requests.chunk(data, max_input_bytes=value)
        requests.lookup(data, 0, (0, 1), max_input_bytes=len(data))
        requests.lookup(data, 0, (0, 1), max_input_bytes=len(data) - 1)
    for length in (0, 1, 4):
        for value in (0, 1, 3, 4, 5):
            requests.chunk(b"\x1bLua"[:length], max_input_bytes=value)


def counts(requests):
    requests.title("bounds: counts beyond their limits, before their items are looked for")
    limits = (("words", "max_instructions_per_proto"), ("words", "max_total_instructions"), ("constants", "max_constants_per_proto"),
              ("upvalues", "max_upvalues_per_proto"), ("nested", "max_total_prototypes"))
    for name, limit in limits:
        for claim in (1, 2, 5, 127, 128, 16777216, 16777217, 2**32, 2**63, 2**64 - 129):
            claiming = Function(claims={name: claim})
            for value in (0, claim - 1, claim):
                if value <= CEILINGS[limit]:
                    requests.chunk(cut_behind_count(claiming, name), **{limit: value})
        requests.chunk(chunk(Function(nested=[Function(claims={name: 3})])), **{limit: 2})
        requests.chunk(chunk(Function(nested=[Function(), Function(claims={name: 3})]), pad=lambda: 2), **{limit: 2})
    requests.title("bounds: counts without a limit")
    for name in ("deltas", "anchors", "locals", "names"):
        for claim in (1, 16777217, 2**32, 2**63, 2**64 - 129):
            requests.chunk(chunk(Function(claims={name: claim})))
            requests.chunk(cut_behind_count(Function(claims={name: claim}), name))


def cut_behind_count(function, name):
    """Nothing follows the count: only its limit can be told before the end of the file."""
    at = ["words", "constants", "upvalues", "nested", "deltas", "anchors", "locals", "names"].index(name)
    out, seen = b"", -1
    for part in pieces(function):
        out += part.data
        seen += part.kind == "count"
        if seen == at:
            return out


def strings(requests):
    requests.title("bounds: string lengths")
    for length in (0, 1, 2, 40, 126, 127, 128):
        text = b"s" * length
        for main in (Function(source=text), Function(nested=[Function(source=text)]), Function(constants=[("short", text)]),
                     Function(constants=[("nil",), ("long", text)]), Function(locals=[(text, 0, 0)]), Function(names=[None, text])):
            for value in (length - 1, length):
                if value >= 0:
                    requests.chunk(chunk(main), max_string_bytes=value)
    requests.title("bounds: string lengths beyond the limit, before their bytes are looked for")
    for size in (2, 3, 129, 16777217, 16777218, 2**32, 2**63, 2**64 - 129):
        for pad in (0, 3):
            data = chunk(Function())[:32] + number(size, pad)
            for value in (0, size - 2, size - 1):
                if value <= CEILINGS["max_string_bytes"]:
                    requests.chunk(data, max_string_bytes=value)
