# Line lookups: deltas, anchors and first lines of every kind, at pcs within, at the end, behind, and far behind.
from .ask import FAR
from .build import Function, chunk
from .fields import full
from .instructions import MOVE, iabc

HUGE = 2**62
NEAR = tuple(range(8))


def lined(first, words, deltas, anchors):
    return Function(first=first, words=[iabc(MOVE)] * words, deltas=deltas, anchors=anchors)


def asked(requests, first, words, deltas, anchors, pcs=NEAR):
    requests.lookup(chunk(lined(first, words, deltas, anchors)), 0, (*pcs, *FAR))


def worked(requests):
    requests.title("lines: 01's cases")
    asked(requests, 10, 5, [1, 0, 2, -128, 1], [(3, 200)], (2, 3, 9))
    asked(requests, 1, 1, [-5], [], (0,))
    requests.title("lines: sums below 0, on the way and at the end")
    for first, deltas in ((0, [-1, 2]), (0, [-1, -1, 1]), (3, [-5, 1, 1, 1]), (100, [-127, 27]), (0, [-127] * 3), (1, [-1, -1, 127]),
                          (0, [127, -127, -1])):
        asked(requests, first, len(deltas), deltas, [])
        asked(requests, 9, len(deltas) + 3, deltas, [(0, first)])


def anchors(requests):
    requests.title("lines: anchors in order, out of order, doubled, at 0, behind the deltas")
    lists = ([(0, 50)], [(1, 50)], [(4, 50)], [(5, 50)], [(99, 50)], [(0, 50), (0, 60)], [(2, 50), (2, 60)], [(1, 50), (3, 70)], [(3, 70), (1, 50)],
             [(0, 50), (9, 60), (1, 70)], [(4, 0), (0, 5)], [(2, 0)], [(2**63, 5)], [(0, 7), (2**63, 5)], [(2**64 - 129, 5), (0, 7)],
             [(1, 40), (2, 50), (3, 60)], [(1, 40), (1, 50), (1, 60), (1, 70)], [(0, 1), (1, 2), (2, 3), (3, 4), (4, 5)])
    for listed in lists:
        for deltas in ([1, 2, 3, 4, 5], [0, -128, -128, -128, 1], [-3, -128, 2, 2, -128], []):
            for words in (5, len(listed), len(listed) + 1):
                asked(requests, 10, words, deltas, listed)


def as_many(requests):
    requests.title("lines: as many anchors as instructions, one more, one fewer")
    for count in range(5):
        listed = [(3 * index + 1, 20 + index) for index in range(count)]
        for words in range(max(count - 1, 0), count + 2):
            for deltas in ([], [5], [1, 1, 1, 1], [-128, 2, -128, 2, -128, 2]):
                asked(requests, 7, words, deltas, listed)


def marks(requests):
    requests.title("lines: deltas of -128, with an anchor at their pc and without")
    for place in range(4):
        for deltas in ([-128, 1, 1, 1], [1, -128, 1, 1], [1, 1, 1, -128], [-128, -128, -128, -128], [1, -127, 127, -128]):
            asked(requests, 5, 4, deltas, [(place, 1000)])
            asked(requests, 5, 4, deltas, [(9, 1), (place, 1000)])
            asked(requests, 5, 4, deltas, [(place, 1000), (place, 2000), (0, 3)])
        asked(requests, 5, 4, [-128] * 4, [(index, 100 * index) for index in range(place)])


def huge(requests):
    requests.title("lines: first lines and anchors' lines at 2^62 and one below")
    for first in (HUGE - 1, HUGE, 2**63, 2**64 - 129):
        for deltas in ([], [0], [127, 127], [-1, 1]):
            asked(requests, first, 1, deltas, [])
        # Refused whether or not the line would be used.
        asked(requests, first, 1, [], [(0, 5)])
        asked(requests, first, 3, [1, 1], [(0, 5)])
        for listed in ([(0, first)], [(5, first)], [(2**63, first)], [(0, 1), (1, first)], [(1, first), (0, 1)]):
            for deltas in ([], [1, -128, 1]):
                asked(requests, 1, 3, deltas, listed)
                requests.chunk(chunk(lined(1, 1, deltas, listed)))
    requests.title("lines: which function's lines are huge")
    for main, nested in ((HUGE, 1), (1, HUGE), (HUGE, HUGE), (HUGE - 1, HUGE - 1)):
        data = chunk(Function(first=main, deltas=[1], nested=[Function(first=nested, deltas=[2]), Function(last=HUGE, deltas=[3])]))
        requests.chunk(data)
        for function in (0, 1, 2, 3):
            requests.lookup(data, function, (0, 1))


def functions(requests):
    requests.title("lines: functions by their number, and none of that number")
    data = chunk(full())
    for function in (0, 1, 2, 3, 4, 255, 256, 2**32, 2**63, 2**64 - 1):
        requests.lookup(data, function, (0, 1, 2))
    inner = Function(first=2, deltas=[0], nested=[Function(first=3, deltas=[0])])
    tree = Function(first=1, deltas=[0], nested=[inner, Function(first=4, deltas=[0])])
    for function in range(6):
        requests.lookup(chunk(tree), function, (0,))
    requests.title("lines: refused chunks, and no pcs")
    for broken in (b"", data[:20], data[:-1], b"\x1bLub" + data[4:]):
        for function in (0, 9):
            requests.lookup(broken, function, (0,))
    for limit in ("max_input_bytes", "max_nesting_depth", "max_total_prototypes", "max_instructions_per_proto", "max_string_bytes"):
        requests.lookup(data, 9, (0,), **{limit: 0})
    requests.lookup(data, 0, ())
    requests.lookup(data, 3, ())


def pcs(requests):
    requests.title("lines: any pc, in any order")
    data = chunk(lined(100, 6, [1, -2, 3, -128, 5, -6], [(3, 40), (70000, 7)]))
    requests.lookup(data, 0, (5, 4, 3, 2, 1, 0, 0, 5, 69999, 70000, 70001))
    requests.lookup(data, 0, (2**31 - 1, 2**31, 2**32 - 1, 2**32, 2**62, 2**63 - 1, 2**63, 2**64 - 2, 2**64 - 1))
    for pc in range(9):
        requests.lookup(data, 0, (pc,))


def some(rng, values, most):
    return [rng.choice(values) for _ in range(rng.randrange(most + 1))]


def random_lines(requests, rng, count):
    requests.title("lines: by chance")
    for _ in range(count):
        deltas = some(rng, (0, 1, 1, 2, -1, -3, 127, -127, -128, -128), 6)
        listed = [(rng.choice((0, 1, 2, 3, 4, 5, 6, 9)), rng.choice((0, 1, 5, 100, 1000, HUGE - 1))) for _ in range(rng.randrange(5))]
        if rng.randrange(3):
            listed.sort()
        words = rng.choice((len(deltas), len(deltas), len(listed), rng.randrange(6)))
        asked(requests, rng.choice((0, 1, 10, 200)), words, deltas, listed)
