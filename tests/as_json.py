#!/usr/bin/env python3
# `--json`: every kept chunk, in runs of many files, read by Python's reader of JSON; each object is as the schema says that the program prints, and holds what the library answers in text (compare/answers.c,
# which is held against the kept answers by compare/kept.py). Then odd names and numbers. Prints totals; exit status 1 where anything is wrong.
import os
import pathlib
import shutil
import struct
import subprocess
import sys
import tempfile
from collections import defaultdict

sys.dont_write_bytecode = True
here = pathlib.Path(__file__).resolve().parent
top = here.parent
program = os.environ.get("LAFZIMDO", top / "target/rust/release/lafzimdo")
from json_reader import as_bytes, fits, objects

sys.path.insert(0, str(top / "oracle"))
from convert import answers
from kept.stored import requests

LIMITS = ["input-bytes", "nesting-depth", "total-prototypes", "instructions-per-proto", "total-instructions", "constants-per-proto", "upvalues-per-proto", "string-bytes", "diagnostics"]


def run(*arguments, status=None, text=None):
    ran = subprocess.run([program, *arguments], capture_output=True, input=text)
    assert ran.stderr == b"", ran.stderr
    assert status is None or ran.returncode == status, (arguments, ran.returncode)
    return ran.stdout.decode()


SCHEMA = objects(run("help", "schema", status=0).replace("\n", " ") + "\n")[0]


def asked(command, *arguments, status=None):
    """The objects that a command prints, each as the schema says it of this command."""
    found = objects(run(command, "--json", *arguments, status=status))
    for one in found:
        kind = "refused" if "refused" in one else "error" if "error" in one else command
        assert fits(SCHEMA["$defs"][kind], one, SCHEMA), one
        assert fits(SCHEMA, one, SCHEMA)
    return found


# ---- From JSON to the text of docs/PROTOCOL.md

def string(shown):
    data = as_bytes(shown)
    return "-" if data is None else "x" + data.hex()


def constant(k):
    match k["type"]:
        case "nil":
            return "k nil"
        case "boolean":
            return "k true" if k["value"] else "k false"
        case "integer":
            return f"k int {int(k['value'])}"
        case "float":
            value = struct.unpack(">d", bytes.fromhex(k["bits"]))[0]
            assert str(value).lstrip("-") == "nan" if k["value"] == "nan" else value == float(k["value"]), k
            return f"k float {k['bits']}"
        case other:
            return f"k {other.removesuffix(' string')} {string(k['value'])}"


def in_text(dump):
    h = dump["header"]
    bits = struct.pack(">d", h["luac_num"]).hex()
    yield f"header {h['version']:02x} {h['format']:02x} {h['instruction_size']} {h['lua_integer_size']} 8 {h['lua_number_size']} 22136 {bits}"
    yield from warnings_in_text(dump)
    yield f"functions {dump['function_count']}"
    yield f"padded {dump['padded_numbers']}"
    yield f"trailing {dump['trailing_place']} {as_bytes(dump['trailing_bytes']).hex() or '-'}"
    for f in dump["functions"]:
        yield f"function {f['number']} depth {f['depth']} parent {f['parent']} start {f['start']} end {f['end']}"
        yield f"source {string(f['source'])}"
        yield f"lines {f['line_defined']} {f['last_line_defined']}"
        yield f"bytes {f['numparams']} {f['is_vararg']} {f['maxstacksize']}"
        lists = ["instructions", "constants", "upvalues", "nested", "deltas", "anchors", "locals", "upvalue_names"]
        yield "counts " + " ".join(str(len(f[name])) for name in lists)
        for at, i in enumerate(f["instructions"]):
            assert i["pc"] == at
            yield f"i {i['word']:08x}"
        yield from map(constant, f["constants"])
        yield from (f"u {u['instack']} {u['idx']} {u['kind']}" for u in f["upvalues"])
        yield from (f"d {delta}" for delta in f["deltas"])
        yield from (f"a {a['pc']} {a['line']}" for a in f["anchors"])
        yield from (f"l {string(v['name'])} {v['startpc']} {v['endpc']}" for v in f["locals"])
        yield from (f"n {string(name)}" for name in f["upvalue_names"])


def warnings_in_text(shown):
    yield f"warnings {len(shown['warnings'])}"
    yield from (f"warning {w['code'].removeprefix('L54-')} {w['place']}" for w in shown["warnings"])


def checked_in_text(check):
    yield f"verdict {check['verdict']}"
    yield f"findings {len(check['findings'])}"
    yield from (f"finding {f['function']} {f['pc']} {f['rule']} {f['number']} {f['severity']}" for f in check["findings"])


def lines_in(dump, answer):
    """The lines of instructions, where the answer has them; null where a function has none, or they are refused."""
    for line in (line for line in answer if line.startswith("line ")):
        _, number, *pairs = line.split(" ")
        f = dump["functions"][int(number)]
        told = {} if pairs[0] == "refused" else dict(map(int, pair.split(":")) for pair in pairs)
        stored = pairs[0] != "refused" and (f["deltas"] or len(f["anchors"]) == len(f["instructions"]))
        for i in f["instructions"][:len(told) - 3 if stored else None]:
            assert i["line"] is None if not stored else int(i["line"]) == told[i["pc"]], (number, i)


COUNTS = ["instructions", "constants", "upvalues", "nested", "deltas", "anchors", "locals", "upvalue_names"]


def see(answer, dump, check, listed):
    """One chunk: what was printed against the answer in text."""
    words = answer[0].split(" ")
    if words[0] == "refused":
        place = None if words[2] == "-" else int(words[2])
        for one in (dump, check, listed):
            assert (one["status"], one["refused"]["number"], one["refused"]["place"]) == (1, int(words[1]), place), one
        return "refused"
    upto = next(at for at, line in enumerate(answer) if line.startswith("row "))
    assert list(in_text(dump)) == answer[:upto]
    lines_in(dump, answer)
    found = [line for line in answer if line.split(" ")[0] in ("verdict", "findings", "finding")]
    assert list(checked_in_text(check)) == found
    assert list(warnings_in_text(check)) == [line for line in answer[:upto] if line.startswith("warning")]
    assert check["status"] == {"valid-for-analysis": 0, "invalid": 4, "incomplete": 5}[check["verdict"]] and listed["status"] == dump["status"] == 0
    words = {f["number"]: f for f in dump["functions"]}
    for finding in check["findings"]:
        f = words[finding["function"]]
        i = f["instructions"][finding["pc"]]
        assert (finding["word"], finding["line"], finding["source"]) == (i["word"], i["line"], f["source"])
        assert finding["instruction"].split(" ")[0] == (i["name"] or "no")
    assert (listed["bytes"], listed["verdict"]) == (dump["bytes"], check["verdict"])
    assert listed["trailing"] == len(as_bytes(dump["trailing_bytes"]))
    for one, other in zip(listed["functions"], dump["functions"], strict=True):
        assert all(one[name] == len(other[name]) for name in COUNTS)
        assert all(one[name] == other[name] for name in one if name not in COUNTS)
    return "read"


def kept(folder):
    """Every kept chunk, those under one set of limits in one run."""
    wanted = [request for request in requests((top / "crates/vectors/stdin").read_text()) if request.kind() == "chunk"]
    subprocess.run([top / "compare/build.sh", "answers"], check=True)
    text = "".join(request.text() + "\n" for request in wanted)
    told = answers(subprocess.run([top / "target/compare/answers"], input=text, capture_output=True, text=True, check=True).stdout)
    runs, seen, lines = defaultdict(list), defaultdict(int), 0
    for at, (request, answer) in enumerate(zip(wanted, told, strict=True)):
        path = folder / str(at)
        path.write_bytes(bytes.fromhex(request.chunk.strip("-")))
        runs[request.limits].append((path, answer))
    for limits, files in runs.items():
        options = [f"--max-{name}={number}" for name, number in zip(LIMITS, limits.split(" "))]
        (folder / "list").write_text("".join(f"{path}\n" for path, _ in files))
        dump, check, listed = (asked(command, "--files-from", folder / "list", *options) for command in ("dump", "check", "list"))
        for (path, answer), *shown in zip(files, dump, check, listed, strict=True):
            assert all(one["file"] == str(path) for one in shown)
            seen[see(answer, *shown)] += 1
            if int(path.name) % 100 == 0:
                lines += lines_of(path, options, answer, shown[0])
    print(f"json: {sum(seen.values())} kept chunks in {len(runs)} runs of each command, {seen['read']} read, {seen['refused']} refused, {lines} lines told")
    return len(wanted) > 5000 and seen["read"] > 2000 and lines > 500


def lines_of(path, options, answer, dump):
    """The lines of each function of a chunk, by pcs and all at once."""
    told = 0
    for line in (line for line in answer if line.startswith("line ")):
        _, function, *pairs = line.split(" ")
        if pairs[0] == "refused":
            assert asked("lines", *options, path, function, status=1)[0]["refused"]["number"] == 25
            continue
        pcs = [pair.split(":")[0] for pair in pairs]
        found = asked("lines", *options, path, function, *pcs, status=0)[0]
        assert found["function"] == int(function)
        assert [f"{one['pc']}:{one['line']}" for one in found["lines"]] == pairs
        every = asked("lines", *options, path, function, status=0)[0]["lines"]
        code = dump["functions"][int(function)]["instructions"]
        assert [one["pc"] for one in every] == [i["pc"] for i in code]
        assert all(i["line"] in (None, one["line"]) for i, one in zip(code, every))
        told += len(pairs)
    return told


def odd(folder):
    """Names and numbers that JSON has no plain way for."""
    sample = (top / "samples/recentre.luac").read_bytes()
    for name in [b'a "quoted"\\name\n\x01\x7f', "Grüße".encode(), b"no\xfftext", b"-"]:
        path = os.path.join(os.fsencode(folder), name)
        with open(path, "wb") as file:
            file.write(sample)
        assert as_bytes(asked("list", path, status=0)[0]["file"]) == path
    damaged = bytearray(sample)
    at = sample.index(0x800007B8.to_bytes(4, "little"))
    damaged[at:at + 4] = 0xFFFFFFB8.to_bytes(4, "little")
    (folder / "damaged").write_bytes(damaged)
    found = asked("check", folder / "damaged", status=4)
    assert found == asked("check", "--quiet", folder / "damaged", status=4) and found[0]["findings"][0]["instruction"] == "JMP 16777216"
    two = asked("check", path, folder / "none", status=3)
    assert [one["status"] for one in two] == [0, 3] and "No such file" in two[1]["error"]
    assert asked("dump", "--function", "7", path, status=1)[0]["refused"]["number"] == 23
    assert [f["number"] for f in asked("dump", "--function", "6", path, status=0)[0]["functions"]] == [6]
    # A constant of each sort; lines, pcs and integers at 2^53 and beyond.
    number = lambda n: bytes([*(n >> 7 * at & 127 for at in range(9, 0, -1) if n >> 7 * at), n & 127 | 128])
    floats = [0.0, -0.0, 1e308, 5e-324, float("inf"), float("-inf"), float("nan"), 0.1]
    integers = [0, 2**53, 2**53 + 1, -(2**53), -(2**53) - 1, 2**63 - 1, -(2**63)]
    constants = [b"\x00", b"\x01", b"\x11", *(b"\x13" + struct.pack("<d", x) for x in floats), *(b"\x03" + struct.pack("<q", n) for n in integers)]
    constants += [b"\x04" + number(4) + b"\xff\x00a", b"\x14" + number(3) + "ü".encode(), b"\x04" + number(1), b"\x04" + number(2) + b"\0"]
    main = b"\x80" + number(2**62) + number(2**64 - 129) + b"\0\0\2" + number(0) + number(len(constants)) + b"".join(constants) + b"\x80\x80\x80"
    main += number(1) + number(2**60) + number(2**61) + number(1) + number(2) + b"x" + number(2**53) + number(2**53 + 1) + number(0)
    path = folder / "odd"
    path.write_bytes(sample[:31] + b"\0" + main)
    shown = asked("dump", path, status=0)[0]["functions"][0]
    assert (shown["line_defined"], shown["last_line_defined"]) == (str(2**62), str(2**64 - 129))
    assert shown["anchors"] == [{"pc": str(2**60), "line": str(2**61)}]
    assert shown["locals"] == [{"name": "x", "startpc": 2**53, "endpc": str(2**53 + 1)}]
    values = [k.get("value") for k in shown["constants"]]
    assert values[:3] == [None, False, True]
    assert [repr(x) for x in values[3:7]] == [repr(x) for x in floats[:4]] and values[7:10] == ["inf", "-inf", "nan"] and values[10] == 0.1
    assert values[11:18] == [n if abs(n) <= 2**53 else str(n) for n in integers]
    assert values[18:] == [{"hex": "ff0061"}, "ü", "", "\0"]
    if shutil.which("jq"):
        told = subprocess.run(["jq", "-r", ".functions[0].constants | length"], input=run("dump", "--json", path), capture_output=True, text=True, check=True)
        assert told.stdout == f"{len(constants)}\n"
    return True


def main():
    with tempfile.TemporaryDirectory(dir="/dev/shm" if os.path.isdir("/dev/shm") else None) as folder:
        folder = pathlib.Path(folder)
        good = kept(folder) & odd(folder)
    sys.exit(not good)


if __name__ == "__main__":
    main()
