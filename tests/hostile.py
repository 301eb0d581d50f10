#!/usr/bin/env python3
# Files made so that one long text is shown again and again: a source that thousands of functions share, a name or a
# string that every word uses, a source that thousands of findings have. What list, dump and check print of such a file,
# and the processor time they take, is bound by what they print and take of a plain file of the same size, in which the
# long text stands where it is shown once (or, where they print less of that than its size, by its size). Behind --table
# there is a line for each run. Exit status 1 where a bound is broken.
import math
import os
import pathlib
import resource
import subprocess
import sys
import tempfile
from typing import NamedTuple

sys.dont_write_bytecode = True
top = pathlib.Path(__file__).resolve().parent.parent
program = os.environ.get("LAFZIMDO", top / "target/rust/release/lafzimdo")
sys.path.insert(0, str(top / "oracle"))
from kept.build import Function, chunk

# A line of a listing has some 40 characters, and at most three texts behind `;`, each cut to 240 characters or fewer:
# so no file has twenty times the output of a plain one, nor takes twenty times as long (the case with texts of 60 bytes
# is the worst). A text that is not cut, or looked at whole, makes it hundreds and more.
TIMES = 20

FORMS = ["list", "list --json", "check", "check --names --verbose", "check --json", "dump", "dump --json", "dump --raw",
         "dump --luac"]
ALONE = ["dump --function", "dump --json --function", "dump --raw --function", "dump --luac --function"]

MOVE, LOADK, GETUPVAL, SETTABUP, JMP = 0, 3, 9, 15, 56
# With a constant for the value too.
SETTABUP_K = SETTABUP | 1 << 15
# To register 2, where there are two: a finding.
MOVE_BEYOND = MOVE | 2 << 7


# ---- The files

class Case(NamedTuple):
    """Two files of one size, and the number of their last function."""

    name: str
    hostile: bytes
    plain: bytes
    last: int = 0


def case(name, make, long, last=0):
    """`make` gives the main function, from the text that is shown often and the one that is shown once."""
    hostile, plain = (chunk(make(often, once)) for often, once in ((long, long[:2]), (long[:2], long)))
    assert abs(len(hostile) - len(plain)) < 16
    return Case(name, hostile, plain, last)


def main(once, constants=(), **fields):
    """A main function with a text that is shown once: its last constant, which no word uses."""
    return Function(constants=[*constants, ("long", once)], **fields)


def functions(count, **fields):
    return [Function(**fields) for _ in range(count)]


def sources():
    source = b"@" + b"s" * 100_000
    shared = lambda often, once: main(once, source=often, nested=functions(20_000))
    yield case("a source, 20,000 functions", shared, source, 20_000)
    yield case("a text for a source, 20,000 functions", shared, source[1:], 20_000)
    findings = lambda often, once: main(once, source=often, words=[MOVE_BEYOND] * 10_000)
    yield case("a source, 10,000 findings", findings, source)
    inner = lambda often: Function(source=often, nested=functions(9_000, words=[MOVE_BEYOND]))
    spread = lambda often, once: main(once, nested=[inner(often)])
    yield case("a source, findings in 9,000 functions", spread, source, 9_001)


def texts():
    name = "ü".encode() * 2**19
    local = lambda often, once: main(once, words=[MOVE] * 20_000, locals=[(often, 0, 20_000)])
    yield case("a local's name, 20,000 words", local, name)
    upvalue = lambda often, once: main(once, words=[GETUPVAL] * 20_000, upvalues=[(1, 0, 0)], names=[often])
    yield case("an upvalue's name, 20,000 words", upvalue, name)
    string = lambda often, once: main(once, words=[LOADK] * 200_000, constants=[("long", often)])
    yield case("a string, 200,000 words", string, b"k" * 2**22)
    three = lambda words: lambda often, once: main(
        2 * once, words=[SETTABUP_K] * words, upvalues=[(1, 0, 0)], names=[often], constants=[("long", often)])
    yield case("three texts, 50,000 words", three(50_000), b"\xff" * 2**20)
    # As long as texts may be that are not cut, of bytes that are shown as four characters each.
    yield case("three texts of 60 bytes, 100,000 words", three(100_000), b"\xff" * 60)


def words():
    """No long text, but much to look at for each word: local variables that live, jumps to one pc."""
    count = 100_000
    live = lambda end: chunk(Function(words=[MOVE] * count, locals=[(b"v", 0, end)] * 250))
    yield Case("250 variables that live, 100,000 words", live(count), live(0))
    jumps = [JMP | 0xFFFFFF - pc - 1 << 7 for pc in range(count)]
    yield Case("100,000 jumps to one pc", chunk(Function(words=jumps)), chunk(Function(words=[MOVE] * count)))


# ---- The runs

class Ran(NamedTuple):
    """What a run printed, in bytes, and the processor time that it took."""

    printed: int
    seconds: float


def run(form, path, most=None):
    """A run, which is stopped where it is far beyond `most`."""
    def limited():
        if most:
            seconds = math.ceil(most.seconds) + 1
            resource.setrlimit(resource.RLIMIT_CPU, (seconds, seconds))
    child = subprocess.Popen([program, *form.split(), path], stdout=subprocess.PIPE, preexec_fn=limited)
    printed = 0
    while part := os.read(child.stdout.fileno(), 1 << 20):
        printed += len(part)
        if most and printed > most.printed:
            child.kill()
            break
    child.stdout.close()
    _, status, usage = os.wait4(child.pid, 0)
    child.returncode = os.waitstatus_to_exitcode(status)
    assert child.returncode in (0, 4, 5) or most and child.returncode < 0, (form, child.returncode)
    return Ran(printed, usage.ru_utime + usage.ru_stime)


def ratios(form, hostile, plain):
    """How many times the output and the time of the plain file, and the run. A time that is beyond the bound is taken
    again: others may use the machine."""
    for _ in range(3):
        usual = run(form, plain)
        usual = usual._replace(printed=max(usual.printed, plain.stat().st_size))
        most = Ran(TIMES * usual.printed, TIMES * usual.seconds)
        seen = run(form, hostile, most)
        if seen.seconds <= most.seconds:
            break
    return seen.printed / usual.printed, seen.seconds / usual.seconds, seen


def tried(one, folder):
    """The worst ratios of a case, and how many are beyond the bound."""
    hostile, plain = folder / "hostile", folder / "plain"
    hostile.write_bytes(one.hostile)
    plain.write_bytes(one.plain)
    worst, broken = [0, 0], 0
    for form in [*FORMS, *(f"{form} {one.last}" for form in ALONE)]:
        printed, seconds, seen = ratios(form, hostile, plain)
        worst = [max(worst[0], printed), max(worst[1], seconds)]
        wrong = max(printed, seconds) > TIMES
        broken += wrong
        if wrong or "--table" in sys.argv:
            print(f"{one.name} ({len(one.hostile)} bytes), {form}: {seen.printed} bytes, {seen.seconds:.3f} s;"
                  f" {printed:.1f} times the output, {seconds:.1f} times the time" + (": too much" if wrong else ""))
    return *worst, broken


def test():
    with tempfile.TemporaryDirectory(dir="/dev/shm" if os.path.isdir("/dev/shm") else None) as folder:
        seen = [tried(one, pathlib.Path(folder)) for part in (sources, texts, words) for one in part()]
    printed, seconds, broken = zip(*seen)
    print(f"hostile: {len(seen)} files in {len(FORMS) + len(ALONE)} forms each, at most {max(printed):.1f} times the"
          f" output of a plain file and {max(seconds):.1f} times its time; {sum(broken)} runs beyond {TIMES} times")
    sys.exit(sum(broken) > 0)


if __name__ == "__main__":
    test()
