#!/usr/bin/env python3
# `lafzimdo dump` against luac5.4 -l -l: of every sample each instruction's number, line, name and operands, and each thing that stands behind `;` (names of registers by lfunc.c's rule over the
# locals that luac lists, constants, upvalues, targets, nested functions), told from luac's listing. Prints what differs; exit status 1 where anything does.
import os
import pathlib
import re
import subprocess
import sys
import tempfile

sys.dont_write_bytecode = True
top = pathlib.Path(__file__).resolve().parent.parent
sys.path.insert(0, str(pathlib.Path(__file__).resolve().parent))
program = os.environ.get("LAFZIMDO", top / "target/rust/release/lafzimdo")
luac = os.environ.get("LUAC", "luac5.4")

ESCAPES = {"n": 10, "r": 13, "t": 9, "a": 7, "b": 8, "v": 11, "f": 12, '"': 34, "\\": 92}


def unquoted(text):
    """The bytes of a quoted string, in luac's escapes or ours."""
    parts = re.findall(r"\\x[0-9a-f]{2}|\\\d{3}|\\.|.", text[1:-1], re.S)
    value = lambda part: int(part[2:], 16) if part[:2] == "\\x" else int(part[1:]) if part[1:].isdigit() and len(part) == 4 else ESCAPES[part[1]] if part[0] == "\\" else ord(part)
    return bytes(value(part) for part in parts)


def value(text):
    """A constant, so that both ways of writing it are equal."""
    if text.startswith('"'):
        return unquoted(text)
    if re.fullmatch(r"-?\d+", text) or text in ("nil", "true", "false"):
        return text
    return "%.14g" % float(text)


# ---- luac's listing

class Function:
    def __init__(self, heading):
        self.lines = re.search(r":(\d+),(\d+)> ", heading).groups()
        self.code, self.constants, self.locals, self.upvalues = [], [], [], []

    def local(self, register, pc):
        """lfunc.c, luaF_getlocalname."""
        for name, start, end in self.locals:
            if start > pc:
                return None
            if pc < end:
                if register == 0:
                    return name
                register -= 1
        return None


def listed_by_luac(path):
    text = subprocess.run([luac, "-p", "-l", "-l", path], capture_output=True, check=True).stdout.decode("latin-1")
    functions, addresses, part = [], {}, None
    for line in text.split("\n"):
        if heading := re.match(r"(main|function) <.* at (0x\w+)\)$", line):
            addresses[heading[2]] = len(functions)
            functions.append(Function(line))
            part = "code"
        elif found := re.match(r"(constants|locals|upvalues) \(\d+\) for", line):
            part = found[1]
        elif line.startswith("\t"):
            words = line[1:].split("\t")
            f = functions[-1]
            if part == "code":
                f.code.append((words[1][1:-1], words[2].strip(), words[3] if len(words) > 3 else "", "\t".join(words[4:])[2:]))
            elif part == "constants":
                f.constants.append(value("\t".join(words[2:])))
            elif part == "locals":
                f.locals.append((words[1], int(words[2]) - 1, int(words[3]) - 1))
            else:
                f.upvalues.append(words[1])
    return functions, addresses


# ---- ours

LINE = re.compile(r" +(\d+) \[ *(\S+)\] (\w+)(?: +([^;]*?))?(?: +; (.*))?$")


def listed_by_us(path):
    text = subprocess.run([program, "dump", path], capture_output=True, check=True).stdout.decode("latin-1")
    assert "pcs count from 0" in text.split("\n")[1]
    functions = []
    for block in text.split("\nfunction ")[1:]:
        lines = block.split("\n")
        number = int(lines[0].split(",")[0])
        assert number == len(functions), (number, len(functions))
        code, labels, first = [], [], re.search(r": lines (\d+) to (\d+) of ", lines[0]).groups()
        start = next(n for n, line in enumerate(lines) if line.startswith("  instructions "))
        for line in lines[start + 1:]:
            if line.startswith("  constants "):
                break
            if label := re.match(r"  L(\d+): +; from ([\d ]+)$", line):
                labels.append((int(label[1]), [int(n) for n in label[2].split()]))
                assert len(code) == labels[-1][0], line
            else:
                code.append(LINE.fullmatch(line).groups(""))
        functions.append((first, code, labels))
    return functions


def parts(comment):
    """What stands behind `;`, at commas that are not in a string."""
    return re.findall(r'(?:"(?:\\.|[^"\\])*"|[^,"])+', comment)


FLAGGED = {"EQ", "LT", "LE", "EQK", "EQI", "LTI", "LEI", "GTI", "GEI", "TEST", "TESTSET", "MMBINI", "MMBINK"}
NO_SET = {"SETUPVAL", "SETTABUP", "SETTABLE", "SETI", "SETFIELD", "SETLIST", "MMBIN", "MMBINI", "MMBINK", "CLOSE", "TBC", "EQ", "LT", "LE", "EQK", "EQI", "LTI", "LEI", "GTI", "GEI", "TEST",
          "RETURN", "RETURN1", "TFORPREP", "TFORCALL"}


def see(f, functions, addresses, pc, ours, said):
    """One instruction of ours against luac's; gives what is wrong, or nothing."""
    number, line, name, operands, comment = ours
    their_line, their_name, their_operands, their_comment = f.code[pc]
    if (int(number), line, name) != (pc, their_line, their_name):
        return "number, line or name"
    words = operands.split()
    numbers = [int(word.lstrip("RKUk")) for word in words]
    theirs = [int(word.rstrip("k")) for word in their_operands.split()]
    flag = words[-1][1:] if words and words[-1].startswith("k") else None
    if flag is not None and name not in FLAGGED:
        if (flag == "1") != their_operands.endswith("k") and name not in ("NEWTABLE", "SETLIST"):
            return "k"
        numbers = numbers[:-1]
    if numbers != theirs:
        return "operands"
    if name in ("SETTABUP", "SETTABLE", "SETI", "SETFIELD", "SELF") and words[2].startswith("K") != their_operands.endswith("k"):
        return "register or constant"
    known, expected = set(), []
    for at, word in enumerate(words):
        n = int(word.lstrip("RKUk"))
        if word[0] == "R" and word not in known:
            known.add(word)
            local = f.local(n, pc)
            if local is None or local.startswith("("):
                local = None if at or name in NO_SET else f.local(n, pc + 1)
            if local and not local.startswith("("):
                expected.append(("R", n, local))
        elif word[0] == "K" and word not in known:
            known.add(word)
            expected.append(("K", n, f.constants[n]))
        elif word[0] == "U" and f.upvalues[n] != "-":
            expected.append(("U", n, f.upvalues[n]))
    if name == "LOADKX":
        n = int(f.code[pc + 1][2])
        expected.append(("K", n, f.constants[n]))
    found = []
    for part in parts(comment):
        part = part.strip()
        if meaning := re.fullmatch(r"([RKU])(\d+)=(.*)", part, re.S):
            letter, n, text = meaning.groups()
            found.append((letter, int(n), value(text) if letter == "K" and not text.endswith(" bytes)") else expected_cut(expected, int(n), text) if letter == "K" else text))
            said[letter] += 1
    if sorted(map(str, found)) != sorted(map(str, expected)):
        return f"meanings {found}, expected {expected}"
    if to := re.search(r"(?:^|, )((?:exit )?to) (-?\d+)", comment):
        said["to"] += 1
        if their_comment != f"{to[1]} {int(to[2]) + 1}":
            return "target"
    elif "to " in their_comment and name in ("JMP", "FORLOOP", "FORPREP", "TFORPREP", "TFORLOOP"):
        return "no target"
    if name == "CLOSURE":
        said["function"] += 1
        n = addresses[their_comment]
        if f"function {n}, lines {functions[n].lines[0]} to {functions[n].lines[1]}" not in comment:
            return "function"
    if name == "CALL":
        said["call"] += 1
        if not comment.replace(",", "").endswith(their_comment):
            return "in and out"
    if name in ("MMBIN", "MMBINI", "MMBINK") and their_comment.split(" ")[0] not in comment:
        return "event"
    return None


def expected_cut(expected, n, text):
    """A long string is cut: its front is shown."""
    for letter, k, whole in expected:
        if (letter, k) == ("K", n) and isinstance(whole, bytes):
            front = unquoted(text.rsplit('.. (', 1)[0])
            if whole.startswith(front) and text.endswith(f"({len(whole)} bytes)") and len(front) == 60:
                return whole
    return text


def main():
    from luac import chunks
    said = dict.fromkeys(["R", "K", "U", "to", "function", "call", "labels"], 0)
    files = instructions = wrong = 0
    with tempfile.TemporaryDirectory() as folder:
        path = pathlib.Path(folder, "chunk")
        for name, chunk in chunks(pathlib.Path(folder)):
            path.write_bytes(chunk)
            if subprocess.run([program, "list", path], capture_output=True).returncode == 1:
                continue
            files += 1
            (functions, addresses), ours = listed_by_luac(path), listed_by_us(path)
            assert len(functions) == len(ours), name
            for f, (lines, code, labels) in zip(functions, ours):
                assert lines == f.lines and len(code) == len(f.code), name
                jumps = {}
                for pc, instruction in enumerate(code):
                    instructions += 1
                    if trouble := see(f, functions, addresses, pc, instruction, said):
                        wrong += 1
                        print(f"{name}: {trouble}\n  ours {instruction}\n  luac {f.code[pc]}")
                    if to := re.match(r"(?:exit )?to (\d+)$", f.code[pc][3]):
                        if f.code[pc][1] in ("JMP", "FORLOOP", "FORPREP", "TFORPREP", "TFORLOOP"):
                            jumps.setdefault(int(to[1]) - 1, []).append(pc)
                said["labels"] += len(labels)
                if dict(labels) != {to: pcs for to, pcs in jumps.items() if to < len(code)}:
                    wrong += 1
                    print(f"{name}: labels {labels}, expected {jumps}")
    print(f"listing: {files} chunks, {instructions} instructions, {wrong} differ; compared: " + ", ".join(f"{n} {what}" for what, n in said.items()))
    sys.exit(wrong > 0 or files < 100 or min(said.values()) < 100)


if __name__ == "__main__":
    main()
