# Chunks up to the longest request: long lists, long strings, many functions.
from .ask import hexed, limited
from .build import Function, chunk
from .instructions import LOADK, MOVE, iabc, iabx, jump

LONGEST_REQUEST = 1048576
NIL, UPVALUE = ("nil",), (1, 2, 3)


def long_lists(requests):
    requests.title("large: long lists")
    requests.chunk(chunk(Function(words=[jump(59999)] + [MOVE] * 59998 + [jump(-60000), jump(-60002), jump(0)])))
    requests.chunk(chunk(Function(words=[iabc(MOVE, 1)] * 40000, deltas=[1] * 40000, anchors=[(128 * index, 5 * index) for index in range(310)])))
    # Indices at the end of Bx, and one beyond the list that they fall into.
    for count in (65536, 131071, 131072):
        requests.chunk(chunk(Function(words=[iabx(LOADK, 0, bx) for bx in (65535, 65536, 131070, 131071)], constants=[NIL] * count)))
    for count in (256, 65535, 65536, 100000):
        requests.chunk(chunk(Function(upvalues=[UPVALUE] * count, names=[None] * count)))
    requests.chunk(chunk(Function(deltas=[index % 7 - 3 for index in range(200000)])))
    requests.chunk(chunk(Function(first=1, deltas=[1] * 100000, anchors=[(index, index) for index in range(60000)])))
    requests.chunk(chunk(Function(locals=[(None, index, index + 1) for index in range(50000)])))
    walked = chunk(Function(first=1, deltas=[1] * 300000, words=[MOVE]))
    requests.lookup(walked, 0, (0, 1, 2**14, 299998, 299999, 300000, 2**64 - 1))
    anchored = chunk(Function(first=1, deltas=[-1] * 50000, words=[MOVE], anchors=[(2 * index, 2**62 - 1 - index) for index in range(30000)]))
    requests.lookup(anchored, 0, (0, 1, 2, 49998, 49999, 50000, 60001, 2**64 - 1))


def long_strings(requests):
    requests.title("large: long strings")
    for length in (2**14 - 1, 2**14, 2**16, 200000):
        text = b"s" * length
        for main in (Function(source=text), Function(constants=[("long", text)]), Function(locals=[(text, 0, 1)]), Function(names=[text])):
            for limit in (length - 1, length):
                requests.chunk(chunk(main), max_string_bytes=limit)
    requests.chunk(chunk(Function(), trailing=b"\x80" * 300000))
    requests.title("large: the longest request, and the input at its limit")
    # With so many digits in the limits, the room for hex is even.
    room = LONGEST_REQUEST - len(limited({"max_input_bytes": 524288}) + " ")
    # The size takes three bytes, where an empty source's takes one.
    data = chunk(Function(source=b"x" * (room // 2 - len(chunk(Function(source=b""))) - 2)))
    assert len(hexed(data)) == room
    for limit in (len(data), len(data) - 1):
        requests.chunk(data, max_input_bytes=limit)


def many_functions(requests):
    requests.title("large: many functions")
    one = Function(words=[iabc(MOVE, 7), MOVE], deltas=[1, 1])
    requests.chunk(chunk(Function(source=b"@many", nested=[one] * 8000)))
    for limit in (7999, 8000):
        requests.chunk(chunk(Function(nested=[Function()] * 8000)), max_total_prototypes=limit)
    tree = one
    for _ in range(12):
        tree = Function(nested=[tree, tree])
    requests.chunk(chunk(tree))
    comb = one
    for _ in range(13):
        comb = Function(words=[MOVE], nested=[one] * 20 + [comb])
    requests.chunk(chunk(comb))
    requests.lookup(chunk(comb), 260, (0, 1, 2))
