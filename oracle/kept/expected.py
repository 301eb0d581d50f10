# From a request and the judge's answer (docs/PROTOCOL.md) to the lines that `vectors` compares: a call, its arguments, and the numbers that it must answer. All numbers are the judge's, but for what
# 01 says by itself: 23 and 24 behind the last function and entry, 26 where lent memory is one too short, and one refusal for all calls on a chunk that is refused.
from .ask import FAR
from .shape import has_shape

# Each byte or number of lent memory before a call.
BEFORE = 165
BLANK = [BEFORE] * 4
# Bytes for a local's name, where no name is longer.
ROOM = 256
# How much longer than the answer lent memory is where it is longer.
BEHIND = 60
NO_FUNCTION, NO_ENTRY, SHORT = 23, 24, 26

LISTS = "ikudaln"
WARNINGS = {"HEADER-003": 1, "CHUNK-001": 2}
TAGS = {"nil": 0, "false": 1, "true": 17, "int": 3, "float": 19, "short": 4, "long": 20}
VERDICTS = {"valid-for-analysis": 0, "invalid": 1, "incomplete": 2}
RULES = {"OPCODE-001": 1, "REG-001": 2, "CONST-001": 3, "UPVAL-001": 4, "UPVAL-002": 5, "PROTO-001": 6, "JUMP-001": 7}
SEVERITIES = {"error": 0, "warning": 1}
MODES = {"iABC": 0, "iABx": 1, "iAsBx": 2, "iAx": 3, "isJ": 4, "-": 5}


def line(letter, arguments, numbers):
    """A call with its answer. Bytes stand as one word."""
    spelt = (f"x{n.hex()}" if isinstance(n, bytes) else str(n) for n in numbers if n != b"")
    return " ".join([letter, *map(str, arguments), "=", *spelt])


def unsigned(word):
    return int(word) % 2**64


def status(words):
    """Of the words `refused N PLACE` what a call returns."""
    number, place = words[1:]
    return int(number) if place == "-" else int(number) + 256 * (int(place) + 1)


def present(word):
    return int(word != "-")


def data(word):
    """STR, and HEX."""
    return bytes.fromhex(word.strip("x-"))


def string(word):
    return [len(data(word)), data(word)]


def expected(request, answer):
    """The limits, the chunk (of a word neither) and the lines. No other answer has the same lines."""
    assert has_shape(request, answer), f"{request:.200}: {answer[:3]}"
    words = request.split(" ")
    answer = [shown.split(" ") for shown in answer]
    match words[0]:
        case "word":
            return None, None, word(words[1], answer)
        case "enc":
            return None, None, [encode(words[1:], answer[0][1:])]
        case "lines":
            return words[1:10], words[10], list(lookups(words[11:], answer[0]))
        case "verdict":
            return words[1:10], words[10], list(totals(answer))
        case _:
            return words[:9], words[9], list(refused(status(answer[0])) if answer[0][0] == "refused" else whole(answer))


# ---- Words

def word(digits, answer):
    words = answer[0]
    assert words[1] == digits
    at = words.index("encode")
    fields = dict(zip(words[2:at:2], words[3:at:2]))
    shown = [unsigned(fields[name]) for name in "a k b sb c sc bx sbx ax sj".split()]
    fields_in = [fields[name] for name in "op a k b c bx sbx ax sj".split()]
    return [line("w", [int(digits, 16)], [0, fields["op"], MODES[fields["mode"]], *shown]), encode(fields_in, words[at + 1:])]


def encode(fields, answer):
    return line("e", map(unsigned, fields), [status(answer)] if answer[0] == "refused" else [0, int(answer[0], 16)])


# ---- A chunk that is refused

def refused(why):
    """Every call refuses it alike, and leaves lent memory as it was."""
    yield line("s", [], [why])
    yield line("t", [], [why, why])
    yield line("m", [], [why])
    yield line("f", [0], [why])
    for letter in LISTS:
        yield line(letter, [0, 64], [why, 0]) if letter == "l" else line(letter, [0], [why])
    yield line("p", [0, 0, 1], [why])
    yield line("o", [0], [why] * 3)
    for letter in "rcv":
        yield line(letter, [64, 0, 4], [why, *BLANK, 0])
    yield line("g", [], [why])


# ---- A chunk that is read

def whole(answer):
    of = {}
    for words in answer:
        of.setdefault(words[0], []).append(words[1:])
    functions, (verdict,), (found,) = int(of["functions"][0][0]), of["verdict"][0], of["findings"][0]
    copy = data(of["copy"][0][0])
    yield summary(of, functions)
    yield line("t", [], [0, VERDICTS[verdict], 0, found])
    yield line("m", [], [0, len(copy)])
    begins = [at for at, words in enumerate(answer) if words[0] == "function"] + [next(at for at, words in enumerate(answer) if words[0] == "row")]
    looked_up = [words for words in answer if words[0] == "line"]
    assert len(looked_up) == len(of["row"]) == functions == len(begins) - 1
    for row, shown, start, end in zip(of["row"], looked_up, begins, begins[1:]):
        yield from function(answer[start:end], row, shown)
    yield from no_function(functions)
    yield from lent("r", [functions], [int(n) for row in of["row"] for n in row])
    yield from lent("c", [len(copy)], copy)
    findings = of.get("finding", [])
    assert len(findings) == int(found)
    yield from lent("v", [VERDICTS[verdict], found], [n for words in findings for n in finding(words)])
    yield line("g", [], [0, VERDICTS[verdict], found, *(n for words in findings for n in [*finding(words), SEVERITIES[words[4]]])])


def summary(of, functions):
    *bytes_, test, bits = of["header"][0]
    assert test == "22136"
    place, trailing = of["trailing"][0]
    warnings = [n for name, at in of.get("warning", []) for n in (WARNINGS[name], at)]
    assert len(warnings) == 2 * int(of["warnings"][0][0])
    version_format = [int(digits, 16) for digits in bytes_[:2]]
    (padded,) = of["padded"][0]
    return line("s", [], [0, *version_format, *bytes_[2:], int(bits, 16), functions, place, len(data(trailing)), *(warnings + [0] * 4)[:4], padded, data(trailing)])


def function(answer, row, looked_up):
    """A function's fields, entries and lines. Where it starts and ends, and where its words and its constants begin, is told by its row."""
    (_, number, _, depth, _, parent, _, start, _, end), (_, source), (_, *lines), (_, *bytes_), (_, *counts), *entries = answer
    assert row[:-2] == [start, end, depth, parent, *counts] and looked_up[1] == number
    yield line("f", [number], [0, depth, parent, present(source), *string(source), *lines, *bytes_, *counts])
    lists = {letter: [words[1:] for words in entries if words[0] == letter] for letter in LISTS}
    assert sum(map(len, lists.values())) == len(entries)
    for letter, shown in lists.items():
        if letter == "l":
            yield from local_variables(number, shown)
        else:
            yield line(letter, [number], [n for words in shown for n in [0, *entry(letter, words)]] + [NO_ENTRY])
    yield from lines_shown(number, looked_up, max(map(int, (counts[0], counts[4], counts[5]))))


def entry(letter, words):
    match letter, words:
        case "i", [digits]:
            return [int(digits, 16)]
        case "k", [kind, value]:
            return [TAGS[kind], *(string(value) if kind in ("short", "long") else [unsigned(value) if kind == "int" else int(value, 16)])]
        case "k", [kind]:
            return [TAGS[kind], 0]
        case "d", [delta]:
            return [unsigned(delta)]
        case "n", [name]:
            return [present(name), *string(name)]
    return words


def local_variables(number, shown):
    """With more memory than the longest name takes, with as much, and with one byte less."""
    names = [data(name) for name, *_ in shown]
    longest = max(map(len, names), default=0)
    for room in [max(ROOM, longest + BEHIND), *([longest, longest - 1] if longest else [])]:
        numbers = []
        for name, (_, *pcs) in zip(names, shown):
            numbers += [0, len(name), *pcs, name, written(name)] if len(name) <= room else [SHORT, 0]
        yield line("l", [number, room], [*numbers, NO_ENTRY, 0])


def lines_shown(number, words, most):
    """The pcs that PROTOCOL.md names: the first ones, and three far behind every function."""
    count = min(most + 2, 64)
    if words[2] == "refused":
        why = int(words[3])
        yield line("p", [number, 0, count], [why] * count)
        yield line("o", [number], [why] * 3)
        return
    pairs = [tuple(map(int, pair.split(":"))) for pair in words[2:]]
    assert [pc for pc, _ in pairs] == [*range(count), *FAR]
    numbers = [n for _, at in pairs for n in (0, at)]
    yield line("p", [number, 0, count], numbers[:-6])
    yield line("o", [number], numbers[-6:])


def no_function(number):
    yield line("f", [number], [NO_FUNCTION])
    yield line("i", [number], [NO_FUNCTION])
    yield line("l", [number, ROOM], [NO_FUNCTION, 0])
    yield line("p", [number, 0, 1], [NO_FUNCTION])


def finding(words):
    at, pc, rule, number, _ = words
    return [at, pc, RULES[rule], unsigned(number)]


# ---- Lent memory

def written(items):
    return sum(int(item) != BEFORE for item in items)


def memory(items):
    return [items] if isinstance(items, bytes) else items


def lent(letter, array, items):
    """As much as the answer takes, shown in full; one too few; and more, with the last four of the answer shown and four behind them."""
    n = len(items)
    yield line(letter, [n, 0, n], [0, *array, *memory(items), written(items)])
    if n:
        yield line(letter, [n - 1, 0, 0], [SHORT, 0])
    last = items[-4:]
    yield line(letter, [n + BEHIND, n - len(last), len(last) + 4], [0, *array, *memory(last), *BLANK, written(items)])


# ---- Lines, and verdicts alone

def lookups(asked, answer):
    """One line for each run of pcs that follow each other."""
    function, *pcs = asked
    if answer[0] == "refused":
        # Without a pc the refusal is asked for at pc 0.
        pcs = pcs or ["0"]
        found = [[status(answer)]] * len(pcs)
    else:
        assert answer[1] == function and [pair.split(":")[0] for pair in answer[2:]] == pcs
        found = [[0, pair.split(":")[1]] for pair in answer[2:]]
    runs = []
    for pc, numbers in zip(map(int, pcs), found):
        if not runs or runs[-1][0] + runs[-1][1] != pc:
            runs.append([pc, 0, []])
        runs[-1][1] += 1
        runs[-1][2] += numbers
    for pc, count, numbers in runs or [[0, 0, []]]:
        yield line("p", [function, pc, count], numbers)


def totals(answer):
    if answer[0][0] == "refused":
        yield line("t", [], [status(answer[0])] * 2)
        return
    (_, verdict), (_, found) = answer
    yield line("t", [], [0, VERDICTS[verdict], 0, found])
    if int(found):
        yield line("v", [4 * int(found) - 1, 0, 0], [SHORT, 0])
