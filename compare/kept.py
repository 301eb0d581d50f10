#!/usr/bin/env python3
# Asks the static library what crates/vectors/stdin asks, and compares, as the program `vectors` does: kept.py prints its differences and its totals, which must be crates/vectors/stdout. Then the same
# requests in the text of docs/PROTOCOL.md, by answers.c: functions and entries once by their numbers and once by the parts at their places, held against the same lines. Exit status 1 on a difference.
# kept.py self-test [SEED] alters 1,000 lines by chance, asks crates/vectors/out/vectors them too where it is there (`rt ci` leaves it, or `rt run` in crates/vectors), then alters 20,000 answers in text, and says how many are found. Needs `make target/staticlib/liblafzimdo.a` (or a library in the folder LAFZIMDO_LIB) and a C compiler.
import collections
import random
import subprocess
import sys
from itertools import zip_longest
from pathlib import Path

sys.dont_write_bytecode = True
HERE = Path(__file__).resolve().parent
TOP = HERE.parent
BUILT = TOP / "target/compare"
KEPT = TOP / "crates/vectors"
VECTORS = TOP / "crates/vectors/out/vectors"
sys.path.insert(0, str(TOP / "oracle"))

from calls import Library
from convert import answers
from kept.expected import expected
from kept.stored import requests

# How many lines and answers in text the self-test alters, and the number of lines from which on an answer is left out.
ALTERED, ALTERED_TEXTS, LONG = 1000, 20000, 2000


# ---- Lines

def numbers(words):
    return [number for word in words for number in (bytes.fromhex(word[1:]) if word[0] == "x" else [int(word)])]


def difference(wanted, found):
    """The first number that differs, with what was expected and found."""
    pairs = zip_longest(wanted, found, fillvalue="nothing")
    return next(((at, a, b) for at, (a, b) in enumerate(pairs) if a != b), None)


def compared(library, lines):
    """For each line with a call its number, and the first difference or nothing."""
    for number, line in enumerate(lines, 1):
        word, _, rest = line.partition(" ")
        if word == "limits":
            library.asked_under(map(int, rest.split(" ")))
        elif word == "chunk":
            library.asked_about(bytes.fromhex(rest.strip("-")))
        elif line and word[0] != "#":
            words = line.split(" ")
            at = words.index("=")
            yield number, difference(numbers(words[at + 1:]), library.answer(word, numbers(words[1:at])))


def report(results):
    """What `vectors` prints."""
    shown = ["line {}, number {}: expected {}, found {}".format(number, *differs) for number, differs in results if differs]
    return [*shown, f"{len(results) - len(shown)} agree, {len(shown)} differ"]


# ---- Text

def answered(kept, *argument):
    """The answers of answers.c."""
    asked = "".join(request.text() + "\n" for request in kept)
    return answers(subprocess.run([BUILT / "answers", *argument], input=asked, capture_output=True, text=True, check=True).stdout)


def in_text(kept, *argument):
    """Whether answers.c answers these requests with the kept lines."""
    differ = collections.Counter()
    for request, answer in zip_longest(kept, answered(kept, *argument)):
        if lines_of(request.text(), answer) != request.lines:
            if not differ:
                print(f"differs: line {request.number}, {request.text():.300}")
            differ[request.kind()] += 1
    for kind, count in collections.Counter(request.kind() for request in kept).items():
        print(f"in text, {' '.join([*argument, kind])}: {count} answers, {differ[kind]} differ")
    return not differ


def lines_of(request, answer):
    """Nothing for an answer that the text does not have, as that `out` was touched."""
    try:
        return expected(request, answer)[2]
    except (AssertionError, KeyError, IndexError, ValueError, TypeError):
        return None


# ---- The self-test

def altered(chance, line):
    """The line with another number, another bit of its bytes, one number more or one less."""
    words = line.split(" ")
    first = words.index("=") + 1
    way = chance.randrange(6) if len(words) > first else 1
    at = chance.randrange(first, len(words)) if len(words) > first else 0
    if way == 0:
        del words[at]
    elif way == 1:
        words.insert(at or first, str(chance.randrange(256)))
    elif words[at][0] == "x":
        digit = chance.randrange(1, len(words[at]))
        words[at] = words[at][:digit] + f"{int(words[at][digit], 16) ^ 1 << chance.randrange(4):x}" + words[at][digit + 1:]
    else:
        words[at] = str(int(words[at]) ^ 1 << chance.choice([0, 0, 1, 8, 31, 63]))
    return " ".join(words)


def self_test(library, lines, seed):
    chance = random.Random(seed)
    calls = [at for at, line in enumerate(lines[:-1]) if " =" in line and line[0] != "#"]
    changed = dict.fromkeys(chance.sample(calls, ALTERED))
    for at in changed:
        while numbers_of(changed[at] or lines[at]) == numbers_of(lines[at]):
            changed[at] = altered(chance, lines[at])
    asked = [changed.get(at, line) for at, line in enumerate(lines[:-1])]
    results = list(compared(library, asked))
    found = {number - 1 for number, differs in results if differs}
    print(f"seed {seed}: {len(changed)} lines altered, {len(changed.keys() & found)} of them found, {len(found - changed.keys())} others differ")
    return (found == changed.keys()) & by_vectors(asked, report(results))


def by_vectors(asked, shown):
    """Whether `vectors` prints the same of these lines, where it is there."""
    if not VECTORS.exists():
        print("vectors is not there")
        return True
    out = subprocess.run([VECTORS], input="\n".join(asked) + "\n", capture_output=True, text=True, check=True).stdout.splitlines()
    alike = sum(a == b for a, b in zip(out, shown))
    print(f"vectors: {len(out)} lines, {alike} of them the same; {out[-1]}")
    return out == shown


def numbers_of(line):
    return numbers(line.split(" =")[1].split())


def altered_text(chance, answer):
    """The answer without a line, with one twice, or with another character. Each kind of line is as likely as another."""
    word = chance.choice(sorted({line.split(" ")[0] for line in answer}))
    at = chance.choice([at for at, line in enumerate(answer) if line.split(" ")[0] == word])
    line, way = answer[at], chance.randrange(4)
    if way < 2:
        return answer[:at] + [line] * (2 * way) + answer[at + 1:]
    where = chance.randrange(len(line))
    other = chance.choice("0123456789abcdef -x".replace(line[where], ""))
    return [*answer[:at], line[:where] + other + line[where + 1:], *answer[at + 1:]]


def self_test_in_text(kept, seed):
    chance = random.Random(seed)
    asked = [(request, answer) for request, answer in zip(kept, answered(kept)) if len(answer) < LONG]
    missed = 0
    for request, answer in chance.choices(asked, k=ALTERED_TEXTS):
        missed += lines_of(request.text(), altered_text(chance, answer)) == request.lines
    print(f"seed {seed}: {ALTERED_TEXTS} answers in text altered, {ALTERED_TEXTS - missed} of them found")
    return not missed


def main():
    subprocess.run([HERE / "build.sh", "answers"], check=True)
    library = Library(BUILT / "liblafzimdo.so")
    text = (KEPT / "stdin").read_text()
    if sys.argv[1:2] == ["self-test"]:
        seed = int(sys.argv[2]) if len(sys.argv) > 2 else 1
        return self_test(library, text.splitlines(), seed) & self_test_in_text(requests(text), seed)
    shown = report(list(compared(library, text.splitlines())))
    print(*shown[-20:], sep="\n")
    alike = "\n".join(shown) + "\n" == (KEPT / "stdout").read_text()
    print("as crates/vectors/stdout says" if alike else "crates/vectors/stdout says otherwise")
    kept = requests(text)
    by_number = in_text(kept)
    by_place = in_text([request for request in kept if request.kind() == "chunk"], "parts")
    return alike and by_number and by_place


sys.exit(not main())
