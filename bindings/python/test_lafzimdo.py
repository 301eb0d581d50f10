#!/usr/bin/env python3
"""The module against the kept answers of the Rust (crates/vectors, docs/PROTOCOL.md): every request, functions and entries by their places. Then refusals, limits, names, threads, pools, the example.

    python3 bindings/python/test_lafzimdo.py        needs make
"""
import concurrent.futures
import multiprocessing
import pathlib
import pickle
import re
import struct
import subprocess
import sys
import unittest

sys.dont_write_bytecode = True
HERE = pathlib.Path(__file__).resolve().parent
TOP = HERE.parents[1]
sys.path[:0] = [str(HERE), str(TOP / "oracle")]

import lafzimdo
from kept.expected import expected
from kept.stored import requests

SAMPLE = (TOP / "samples/recentre.luac").read_bytes()
FAR = (1 << 32, 1 << 63, (1 << 64) - 1)
CODES = {1: "HEADER-003", 2: "CHUNK-001"}
MODES = ["iABC", "iABx", "iAsBx", "iAx", "isJ", "-"]


# ---- Answers in the text of docs/PROTOCOL.md

def string(data):
    return "-" if data is None else "x" + data.hex()


def constant(k):
    words = {lafzimdo.Tag.NIL: "nil", lafzimdo.Tag.FALSE: "false", lafzimdo.Tag.TRUE: "true"}
    match k.tag:
        case lafzimdo.Tag.INTEGER:
            return f"k int {k.value}"
        case lafzimdo.Tag.FLOAT:
            return f"k float {k.bits:016x}"
        case lafzimdo.Tag.SHORT_STRING:
            return f"k short {string(k.value)}"
        case lafzimdo.Tag.LONG_STRING:
            return f"k long {string(k.value)}"
        case tag:
            return f"k {words[tag]}"


def function(f):
    yield f"function {f.number} depth {f.depth} parent {f.parent.number} start {f.start} end {f.end}"
    yield f"source {string(f.source)}"
    yield f"lines {f.line_defined} {f.last_line_defined}"
    yield f"bytes {f.numparams} {f.is_vararg} {f.maxstacksize}"
    yield "counts " + " ".join(map(str, f.counts))
    yield from (f"i {word:08x}" for word in f.instructions())
    yield from map(constant, f.constants())
    yield from (f"u {u.instack} {u.idx} {u.kind}" for u in f.upvalues())
    yield from (f"d {delta}" for delta in f.deltas())
    yield from (f"a {a.pc} {a.line}" for a in f.anchors())
    yield from (f"l {string(v.name)} {v.startpc} {v.endpc}" for v in f.locals())
    yield from (f"n {string(name)}" for name in f.upvalue_names())


def asked_lines(chunk, number, pcs):
    return " ".join([f"line {number}", *(f"{pc}:{chunk.line(number, pc)}" for pc in pcs)])


def lines(chunk, number, pcs):
    try:
        return asked_lines(chunk, number, pcs)
    except lafzimdo.Refused as refusal:
        if refusal.number != 25:
            raise
        return f"line {number} refused 25"


def whole(chunk):
    h = chunk.header
    yield f"header {h.version:02x} {h.format:02x} {h.instruction_size} {h.lua_integer_size} {h.sizeof_sizet} {h.lua_number_size} 22136 {struct.pack('>d', h.luac_num).hex()}"
    yield f"warnings {len(chunk.warnings)}"
    yield from (f"warning {CODES[w.number]} {w.place}" for w in chunk.warnings)
    yield f"functions {chunk.function_count}"
    yield f"padded {chunk.padded_numbers}"
    yield f"trailing {chunk.trailing_place} {chunk.trailing_bytes.hex() or '-'}"
    for f in chunk.functions:
        yield from function(f)
    yield from ("row " + " ".join(map(str, row)) for row in chunk.index)
    yield f"copy {chunk.copy().hex()}"
    yield from validated(chunk)
    for f in chunk.functions:
        most = max(f.counts[0], f.counts[4], f.counts[5])
        yield lines(chunk, f.number, [*range(min(most + 2, 64)), *FAR])


def validated(chunk):
    findings = chunk.findings()
    yield f"verdict {chunk.verdict()}"
    yield f"findings {len(findings)}"
    yield from (f"finding {f.function} {f.pc} {f.name} {f.number} {f.severity}" for f in findings)


def refused(refusal):
    return f"refused {refusal.number} {'-' if refusal.place is None else refusal.place}"


def tried(call):
    try:
        return call()
    except lafzimdo.Refused as refusal:
        return refused(refusal)


def fields(word):
    i = lafzimdo.decode(word)
    again = tried(lambda: f"{lafzimdo.encode(i.opcode, i.a, i.k, i.b, i.c, i.bx, i.sbx, i.ax, i.sj):08x}")
    shown = f"a {i.a} k {i.k} b {i.b} sb {i.sb} c {i.c} sc {i.sc} bx {i.bx} sbx {i.sbx} ax {i.ax} sj {i.sj}"
    return f"word {word:08x} op {i.opcode} mode {MODES[i.mode]} {shown} encode {again}"


def answer(text):
    words = text.split(" ")
    kind = words[0] if words[0] in ("word", "enc", "lines", "verdict") else "chunk"
    if kind == "word":
        return [fields(int(words[1], 16))]
    if kind == "enc":
        return ["enc " + tried(lambda: f"{lafzimdo.encode(*map(int, words[1:])):08x}")]
    at = 0 if kind == "chunk" else 1
    data = bytes.fromhex(words[at + 9].strip("-"))
    try:
        chunk = lafzimdo.Chunk.read(data, lafzimdo.Limits(*map(int, words[at:at + 9])))
        if kind == "chunk":
            return list(whole(chunk))
        if kind == "verdict":
            return list(validated(chunk))[:2]
        return [asked_lines(chunk, int(words[at + 10]), map(int, words[at + 11:]))]
    except lafzimdo.Refused as refusal:
        return [refused(refusal)]


class Kept(unittest.TestCase):
    def test_every_kept_request(self):
        kept = requests((TOP / "crates/vectors/stdin").read_text())
        self.assertGreater(len(kept), 11_000)
        for request in kept:
            self.assertEqual(expected(request.text(), answer(request.text()))[2], request.lines, f"line {request.number}")

    def test_the_numbers_of_the_header(self):
        header = (TOP / "include/lafzimdo.h").read_text()
        ceilings = re.search(r"LAFZIMDO_CEILINGS \{(.*)\}", header)[1]
        self.assertEqual(list(lafzimdo.Limits()), list(map(int, ceilings.split(", "))))
        self.assertEqual(lafzimdo._ROW, int(re.search(r"LAFZIMDO_ROW_NUMBERS (\d+)", header)[1]))
        self.assertEqual(lafzimdo._MOST_FINDINGS, int(re.search(r"LAFZIMDO_MOST_FINDINGS (\d+)", header)[1]))
        self.assertEqual(lafzimdo.__version__, re.search(r'VERSION_TEXT "(.*)"', header)[1])
        self.assertLess(max(map(int, re.findall(r"_NUMBERS (\d+)", header))), lafzimdo._ROOM)
        tags = dict(re.findall(r"LAFZIMDO_TAG_(\w+) = (\d+)", header))
        self.assertEqual({tag.name: str(tag.value) for tag in lafzimdo.Tag}, tags)


class Sample(unittest.TestCase):
    def setUp(self):
        self.chunk = lafzimdo.Chunk.read(SAMPLE)

    def test_a_walk(self):
        main = self.chunk.functions[0]
        self.assertEqual((main.source, main.depth, main.parent, len(self.chunk.functions)), (b"@recentre.lua", 0, main, 7))
        self.assertEqual([f.number for f in main.nested()], [1, 2, 3, 5, 6])
        self.assertEqual([f.number for f in self.chunk.functions[3].nested()], [4])
        self.assertTrue(all(f.source is main.source for f in self.chunk.functions))
        words = [lafzimdo.decode(word) for word in main.instructions()]
        self.assertEqual([word.name for word in words[:3]], ["VARARGPREP", "LOADF", "LOADK"])
        self.assertEqual([k.value for k in main.constants()][:3], [0.5, b"freq", 131.2])
        self.assertEqual(next(main.locals()), lafzimdo.Local(b"start", 4, 79))
        self.assertEqual(main.lines()[:4], [1, 4, 4, 4])
        self.assertEqual(list(main.upvalue_names()), [b"_ENV"])
        self.assertEqual((self.chunk.copy(), self.chunk.verdict(), self.chunk.findings()), (SAMPLE, lafzimdo.Verdict.VALID_FOR_ANALYSIS, []))
        self.assertEqual(repr(self.chunk), "<lafzimdo.Chunk of 2372 bytes, 7 functions>")
        self.assertEqual(repr(self.chunk.functions[4]), "<lafzimdo.Function 4, lines 36 to 42>")

    def test_refusals(self):
        with self.assertRaises(lafzimdo.Refused) as caught:
            lafzimdo.Chunk.read(SAMPLE[:45])
        refusal = caught.exception
        self.assertEqual((refusal.number, refusal.place, refusal.text), (1, 33, "the file is cut short (CORE-TRUNC-001)"))
        self.assertEqual(str(refusal), "refused 1 at 33: the file is cut short (CORE-TRUNC-001)")
        for number, call in [(21, lambda: lafzimdo.Chunk.read(SAMPLE, lafzimdo.Limits(max_nesting_depth=1 << 40))), (22, lambda: lafzimdo.Chunk.read(SAMPLE, lafzimdo.Limits(max_input_bytes=9))),
                             (23, lambda: self.chunk.line(7, 0)), (27, lambda: lafzimdo.encode(3, bx=1 << 20)), (28, lambda: lafzimdo.encode(83)), (1, lambda: lafzimdo.Chunk.read(b""))]:
            with self.assertRaises(lafzimdo.Refused) as caught:
                call()
            self.assertEqual((caught.exception.number, caught.exception.place is None), (number, number > 20))

    def test_numbers_that_do_not_fit(self):
        for call in (lambda: self.chunk.line(0, -1), lambda: self.chunk.line(1 << 64, 0), lambda: lafzimdo.Chunk.read(SAMPLE, lafzimdo.Limits(max_diagnostics=-1)), lambda: lafzimdo.encode(256),
                     lambda: lafzimdo.encode(1, sbx=1 << 31)):
            self.assertRaises(OverflowError, call)
        self.assertRaises(ValueError, lafzimdo.Chunk.read, SAMPLE, (1, 2, 3))

    def test_names_and_texts(self):
        self.assertEqual([lafzimdo.opcode_name(n) for n in (0, 82, 83)], ["MOVE", "EXTRAARG", None])
        odd = bytearray(SAMPLE)
        odd[5] = 1
        warnings = lafzimdo.Chunk.read(odd + b"x").warnings
        self.assertEqual([(w.number, w.place) for w in warnings], [(1, 5), (2, 2372)])
        self.assertIn("Lua's own loader refuses", warnings[0].text)
        finding = lafzimdo.Finding(0, 0, 7, -3)
        self.assertEqual((finding.name, finding.severity, finding.text), ("JUMP-001", "error", "outside the function is the jump's target -3"))

    def test_other_kinds_of_bytes(self):
        for data in (bytearray(SAMPLE), memoryview(SAMPLE)):
            self.assertEqual(lafzimdo.Chunk.read(data).copy(), SAMPLE)

    def test_many_threads(self):
        def work(_):
            chunk = lafzimdo.Chunk.read(SAMPLE)
            return chunk.copy() == SAMPLE and [k.value for k in chunk.functions[0].constants()][1] == b"freq"
        with concurrent.futures.ThreadPoolExecutor(8) as pool:
            self.assertTrue(all(pool.map(work, range(200))))


class Strict(unittest.TestCase):
    def test_worked_cases(self):
        """Those of the crate for Rust."""
        cases = [line.split(" | ") for line in (TOP / "bindings/rust/tests/data/strict.txt").read_text().splitlines() if line[0] != "#"]
        self.assertEqual(len(cases), 46)
        for name, spelt, *answers in cases:
            data = bytes.fromhex(spelt if spelt.startswith("1b4c") else SAMPLE[:31].hex() + spelt)
            limits = lafzimdo.Limits(**{limit: int(value) for limit, value in (other.split(" ") for other in answers[2:])})
            for strict, expected in zip((False, True), answers):
                self.assertEqual(self.shown(data, limits, strict), expected, (name, strict))

    def shown(self, data, limits, strict):
        """An answer as the table has it."""
        try:
            chunk = lafzimdo.Chunk.read(data, limits, strict)
        except lafzimdo.Refused as refusal:
            return str(refusal).split(":")[0]
        warnings = [f" L54-{CODES[w.number]} at {w.place}" for w in chunk.warnings]
        return f"read {chunk.function_count} {len(chunk.trailing_bytes)}" + "".join(warnings)

    def test_what_is_read_is_the_same(self):
        chunk = lafzimdo.Chunk.read(SAMPLE, strict=True)
        self.assertEqual((chunk.copy(), len(chunk.functions), chunk.limits), (SAMPLE, 7, lafzimdo.Limits()))
        with self.assertRaises(lafzimdo.Refused) as caught:
            lafzimdo.Chunk.read(SAMPLE[:5] + b"\1" + SAMPLE[6:], strict=True)
        self.assertEqual(str(caught.exception), "refused 31 at 5: the format byte is not 0 (Lua's loader: format mismatch)")


def main_function(data):
    """A function of a chunk, and lists of it, as a process of a pool would send them."""
    main = lafzimdo.Chunk.read(data).functions[0]
    return main, list(main.constants()), list(main.locals()), list(main.upvalues()), main.nested()


class Sent(unittest.TestCase):
    """From process to process, as a pool sends what its workers return and raise."""

    # Far more than a worker takes to start: where what is sent cannot be read, a pool would wait for ever.
    LONG = 60
    KINDS = ("spawn", "fork")

    def pooled(self, how, work, *arguments):
        pool = multiprocessing.get_context(how).Pool(1)
        try:
            return pool.apply_async(work, arguments).get(timeout=self.LONG)
        finally:
            pool.terminate()

    def see(self, chunk, again):
        """The same in all that a chunk tells."""
        self.assertIsNot(chunk, again)
        told = lambda one: {name: value for name, value in vars(one).items() if not name.startswith("_")}
        self.assertEqual(told(chunk), told(again))
        self.assertEqual(list(whole(chunk)), list(whole(again)))

    def test_a_refusal(self):
        for how in self.KINDS:
            with self.subTest(how):
                with self.assertRaises(lafzimdo.Refused) as caught:
                    self.pooled(how, lafzimdo.Chunk.read, SAMPLE[:45])
                refusal = caught.exception
                self.assertEqual((refusal.number, refusal.place), (1, 33))
                self.assertEqual(str(refusal), "refused 1 at 33: the file is cut short (CORE-TRUNC-001)")

    def test_a_chunk(self):
        for how in self.KINDS:
            with self.subTest(how):
                self.see(lafzimdo.Chunk.read(SAMPLE), self.pooled(how, lafzimdo.Chunk.read, SAMPLE))

    def test_functions(self):
        here = main_function(SAMPLE)
        for how in self.KINDS:
            with self.subTest(how):
                main, *lists, nested = self.pooled(how, main_function, SAMPLE)
                self.assertEqual(lists, list(here[1:4]))
                self.assertEqual(list(function(main)), list(function(here[0])))
                # One chunk for all that came together.
                self.assertIs(main.chunk.functions[0], main)
                self.assertEqual([f.number for f in nested], [1, 2, 3, 5, 6])
                self.assertTrue(all(f.chunk is main.chunk for f in nested))

    def test_every_protocol(self):
        limits = lafzimdo.Limits(max_diagnostics=1)
        odd = bytearray(SAMPLE + b"x")
        odd[5] = 1
        chunk, strict = lafzimdo.Chunk.read(odd, limits), lafzimdo.Chunk.read(SAMPLE, strict=True)
        refusals = []
        for call in (lambda: lafzimdo.Chunk.read(b""), lambda: strict.line(7, 0)):
            with self.assertRaises(lafzimdo.Refused) as caught:
                call()
            refusals.append(caught.exception)
        refusals[1].file = "lost.luac"
        others = [limits, chunk.header, chunk.warnings[0], lafzimdo.Tag.NIL, lafzimdo.Verdict.INVALID]
        others += [lafzimdo.Anchor(1, 2), lafzimdo.Finding(0, 0, 7, -3), lafzimdo.decode(0)]
        for protocol in range(pickle.HIGHEST_PROTOCOL + 1):
            again = lambda value: pickle.loads(pickle.dumps(value, protocol))
            for one in (chunk, strict):
                self.see(one, again(one))
            for refusal in refusals:
                told = again(refusal)
                self.assertEqual((type(told), told.args, vars(told)), (lafzimdo.Refused, refusal.args, vars(refusal)))
            for one in others:
                self.assertEqual((type(again(one)), again(one)), (type(one), one))


class Example(unittest.TestCase):
    def test_constants(self):
        ran = subprocess.run([sys.executable, HERE / "examples/constants.py", TOP / "samples"], capture_output=True, text=True, env={"PYTHONPATH": str(HERE), "PYTHONDONTWRITEBYTECODE": "1"})
        self.assertEqual(ran.stderr, "")
        self.assertTrue(ran.stdout.startswith("2 scripts read, 0 refused\nrecentre.luac\n  texts: %4d %8.3f"), ran.stdout)
        self.assertIn("\n  recentre: recentre.luac, recentre.stripped.luac\n", ran.stdout)


if __name__ == "__main__":
    unittest.main()
