#!/usr/bin/env python3
"""Counts, over crates/*/src/*.rt, the places that docs/DESIGN-PASS.md speaks of.

usage: tools/design_pass.py [-v] [FOLDER]      FOLDER has crates/ (default: the checkout); -v lists the places

The program is read as text: clauses, `ghost use` lines and comments are taken out first.
"""
import collections
import glob
import os
import re
import sys

VERBOSE = "-v" in sys.argv
NAMES = [a for a in sys.argv[1:] if a != "-v"]
ROOT = NAMES[0] if NAMES else os.path.dirname(os.path.dirname(os.path.realpath(__file__)))


def end_of(text, i):
    """the index of the bracket that closes the one at i"""
    closing = {"(": ")", "{": "}", "[": "]"}[text[i]]
    depth = 0
    for j in range(i, len(text)):
        if text[j] == text[i]:
            depth += 1
        elif text[j] == closing:
            depth -= 1
            if depth == 0:
                return j
    return len(text) - 1


def bare(text):
    """without comments, `ghost use` and clauses"""
    text = re.sub(r"(?m)^\s*//.*$", "", text)
    text = re.sub(r"(?m)^\s*ghost use [^;]*;\n", "", text)
    clause = re.compile(r"\n[ \t]*(requires|ensures|ghost \w+ ?[:=])[^{\n;]*\{")
    out, i = "", 0
    while True:
        m = clause.search(text, i)
        if not m:
            return out + text[i:]
        out += text[i:m.start()]
        i = end_of(text, m.end() - 1) + 1


def functions(text):
    """(name, parameters, body) of each function"""
    for m in re.finditer(r"\bfn (\w+)(?:<[^>(]*>)?\(", text):
        close = end_of(text, m.end() - 1)
        brace = text.find("{", close)
        semicolon = text.find(";", close)
        if brace < 0 or 0 <= semicolon < brace:
            continue
        yield m.group(1), text[m.end():close], text[brace:end_of(text, brace) + 1]


def tokens(body):
    return re.findall(r"[A-Za-z_]\w*|\d\w*|[^\s\w]", body)


KEYWORDS = set("if else while for in loop match let mut return break continue as true false ref self Self".split())


def shape(body):
    """a body with each name replaced by the number of its first appearance, and each number by 0"""
    seen, out = {}, []
    for t in tokens(body):
        if t in KEYWORDS or not re.match(r"\w", t):
            out.append(t)
        elif t[0].isdigit():
            out.append("0")
        else:
            out.append("v%d" % seen.setdefault(t, len(seen)))
    return " ".join(out)


found = collections.OrderedDict()


def place(point, where, what):
    found.setdefault(point, []).append("%s: %s" % (where, what))


bodies = collections.defaultdict(list)
together = collections.defaultdict(set)
required = collections.defaultdict(set)
for path in sorted(glob.glob(os.path.join(ROOT, "crates/*/src/**/*.rt"), recursive=True)):
    where = os.path.relpath(path, os.path.join(ROOT, "crates"))
    whole = open(path, encoding="utf-8").read()
    text = bare(whole)
    for m in re.finditer(r"\benum (\w+) \{", text):
        inside = text[m.end():end_of(text, m.end() - 1)]
        while re.search(r"[({][^(){}]*[)}]", inside):
            inside = re.sub(r"[({][^(){}]*[)}]", "@", inside)
        variants = [v.strip() for v in inside.split(",") if v.strip()]
        names = [re.match(r"\w*", v).group(0) for v in variants]
        plain = [v for v in variants if re.fullmatch(r"\w+", v)]
        if len(names) == 2 and ("Err" in names or len(plain) == 1 or set(names) & {"Refused", "Stop"}):
            place("1a own enums of the shape of Option or Result", where, "%s %s" % (m.group(1), names))
    for m in re.finditer(r"(?:\w+::)?Err\((\w+)\) => (?:return )?(?:\w+::)?Err\(\1\)", text):
        place("1b a refusal handed on by hand", where, m.group(0))
    for m in re.finditer(r"let (?:\w+::)?Ok\([^\n]*\) = (\w+) else \{\s*return \1;", text):
        place("1b a refusal handed on by hand", where, m.group(0).replace("\n", " "))
    for m in re.finditer(r"\bconst BAD\b|\breturn 25[56];|=> refused\(q\)|\breturn refusal;", text):
        place("1c a number for what is missing or refused", where, m.group(0))
    for m in re.finditer(r"\bwhile ([^\n{]*)\{", text):
        place("3 loops with a counter or a test", where, m.group(1).strip())
    for name, parameters, body in functions(text):
        if len(tokens(body)) >= 20:
            bodies[shape(body)].append("%s %s" % (where, name))
        names = [p.split(":")[0].replace("mut ", "").strip() for p in re.split(r",(?![^\[<]*[\]>])", parameters)]
        names = [n for n in names if n and not n.endswith("self")]
        for i in range(len(names) - 2):
            together[tuple(names[i:i + 3])].add("%s %s" % (where, name))
        if re.fullmatch(r"same\w*|equal\w*|begins|copy_bytes|shift|signed|wide\w*|narrow|number|\w+_number", name):
            place("4 equality, copying, conversion by hand", where, name)
        if re.search(r"\bkind: u8\b", parameters):
            place("7 a switch on which step to run", where, name)
        if re.search(r"(\bout|\bgot|\blist|\bwant|\bbuf|\brows): &mut", parameters) and re.search(
                r"\b(used|at|n|from|to): usize\b", parameters):
            place("6 a buffer with a length or a place beside it", where, name)
    for m in re.finditer(r"\btype \w+ = \[", text):
        place("6 a buffer with a length or a place beside it", where, m.group(0) + "..")
    for m in re.finditer(r"\brequires(?: \w+)? \{ (.*?) \}\n", whole):
        required[m.group(1)].add(where + " " + str(whole[:m.start()].count("\n") + 1))
for body, where in sorted(bodies.items(), key=lambda x: x[1]):
    if len(where) > 1:
        for w in where[1:]:
            place("2 a function like another but for a name, a type or a number", w, "as " + where[0])
for names, where in sorted(together.items()):
    if len(where) >= 3:
        place("5a three parameters that travel together through three functions", "%d functions" % len(where), ", ".join(names))
for fact, where in sorted(required.items()):
    if len(where) >= 3:
        place("5b a fact that three functions require", "%d functions" % len(where), fact)
answers = lines = 0
for path in glob.glob(os.path.join(ROOT, "crates/*/proofs/**/*.antt"), recursive=True):
    if os.path.basename(path) in ("Answers.antt", "Proof.antt", "Invariants.antt"):
        text = open(path, encoding="utf-8").read()
        answers += len(re.findall(r"(?m)^(?:abbrev )?pub [\w'+-]+ : goal\.", text))
        lines += text.count("\n")
for point in sorted(found):
    print("%4d  %s" % (len(found[point]), point))
    if VERBOSE:
        for p in found[point]:
            print("        " + p)
print("%4d  8 answers to goals, in %d lines" % (answers, lines))
