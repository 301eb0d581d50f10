# Nested functions: how deep, how many, and which of the two limits is told.
from .ask import CEILINGS, FAR
from .build import Function, chain, chunk, family
from .instructions import MOVE, iabc

FIRST_OF_TWO = (
    {"max_nesting_depth": 0}, {"max_nesting_depth": 1}, {"max_nesting_depth": 1, "max_total_prototypes": 1}, {"max_total_prototypes": 1},
    {"max_total_prototypes": 2}, {"max_total_prototypes": 2, "max_nesting_depth": 2}, {"max_string_bytes": 0},
)


def depths(requests):
    requests.title("nesting: depth at and beyond the limit")
    for deep in range(7):
        data = chunk(chain(deep))
        for limit in range(max(deep - 2, 0), deep + 2):
            requests.chunk(data, max_nesting_depth=limit)
    # Not the first child is too deep.
    data = chunk(Function(nested=[Function(), Function(nested=[Function(), Function(nested=[Function()])]), Function()]))
    for limit in range(4):
        requests.chunk(data, max_nesting_depth=limit)
    requests.title("nesting: depth at the ceiling")
    # The ceiling is 14, as deep as was found in use; before it was 200.
    for deep in (0, 13, 14, 15, 16, 200, 201, 250):
        for limit in (13, 14, 15):
            requests.chunk(chunk(chain(deep)), max_nesting_depth=limit)
    for deep in (0, 14, 200, 201):
        for limit in (16, 199, 200, 201, *FAR):
            requests.chunk(chunk(chain(deep)), max_nesting_depth=limit)
    for deep in (14, 15, 200):
        requests.lookup(chunk(chain(deep, first=3, deltas=[4])), deep, (0, 1))
        requests.lookup(chunk(chain(deep)), deep + 1, (0, 1))


def shapes():
    """Trees of up to five functions."""
    leaf = Function()
    pair = Function(nested=[leaf, leaf])
    return [pair, chain(2), chain(4), Function(nested=[leaf] * 3), Function(nested=[pair]), Function(nested=[leaf, chain(1)]),
            Function(nested=[chain(1), leaf]), Function(nested=[pair, leaf]), Function(nested=[chain(1), chain(1)])]


def totals(requests):
    requests.title("nesting: how many functions in all")
    for main in shapes():
        for limit in range(len(family(main)) + 1):
            requests.chunk(chunk(main), max_total_prototypes=limit)
        for limit in range(3):
            requests.chunk(chunk(main), max_total_prototypes=limit, max_nesting_depth=1)
    requests.title("nesting: many side by side")
    wide = chunk(Function(nested=[Function()] * 40))
    for limit in (39, 40):
        requests.chunk(wide, max_total_prototypes=limit)
    requests.lookup(wide, 40, (0,))
    requests.lookup(wide, 41, (0,))


def first_of_two(requests):
    """Where a nested function begins, its depth is told before the total, and both before anything of the function."""
    requests.title("nesting: which refusal comes first where a function begins")
    data = chunk(chain(3))
    # Of all numbers only the counts of nested functions are 1.
    begins = [place for place in range(32, len(data)) if data[place - 1] == 0x81]
    for begin in begins:
        for tail in (b"", b"\0", b"\x01" + b"\x7f" * 8 + b"\0", b"\x85"):
            for limits in FIRST_OF_TWO:
                requests.chunk(data[:begin] + tail, **limits)


def totals_of_code(requests):
    requests.title("nesting: instructions in all")
    word = iabc(MOVE)
    for counts in ((1, 1), (2, 0, 1), (0, 3), (1, 2, 3), (3, 2, 1)):
        side = Function(words=[word] * counts[0], nested=[Function(words=[word] * count) for count in counts[1:]])
        within = None
        for count in reversed(counts):
            within = Function(words=[word] * count, nested=[within] if within else [])
        for main in (side, within):
            for limit in range(sum(counts) + 1):
                requests.chunk(chunk(main), max_total_instructions=limit)
            for limit in range(max(counts) + 1):
                requests.chunk(chunk(main), max_instructions_per_proto=limit, max_total_instructions=max(counts))
    # A function beyond both is told by its own limit.
    for own, total in ((1, 1), (1, 5), (5, 1), (2, 1), (1, 2), (0, 0)):
        requests.chunk(chunk(Function(words=[word] * 2)), max_instructions_per_proto=own, max_total_instructions=total)
    half = CEILINGS["max_total_instructions"] // 2
    for claim in (half, half + 1, 2 * half - 1):
        requests.chunk(chunk(Function(words=[word] * 2, nested=[Function(claims={"words": claim})])))
        requests.chunk(chunk(Function(words=[word] * 2, nested=[Function(claims={"words": claim})])), max_total_instructions=claim + 1)
