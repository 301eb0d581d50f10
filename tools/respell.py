#!/usr/bin/env python3
"""Gives the repository's own definitions and lemmas the spelling of today's Rattle: words in snake case, a dash only where it joins two names.

usage: tools/respell.py [--list]      at the top of the repository, once, after the kit's own port script

A name that a file of specs/ or of proofs/ (not of a function's proof) declares is spelt anew: camelCase as camel_case, and each dash as '_', but where
the parts on its two sides are both names of definitions (of specs/, or of the library's list words). Two that would fall together are kept apart:
a lemma that would have a definition's name, or another lemma's, gets '_lem' behind it. Types, modules, Rust's names, strings and what Rattle names itself stay.
It reads and writes .antt and .rt files, must-fail edits, and names between backticks in README.md and docs/. --list prints old and new, and writes nothing.
"""
import os
import re
import sys

CUT = r"(?<![^\s(){}\[\],;.@\"«»`'])"
NAME = r"[^\s(){}\[\],;.@\"«»`]+"
TOKEN = re.compile(r"(?<![^\s(){},;.@«»\[\]])([A-Za-z_μ][^\s(){},;.@\"«»\[\]]*)")
SIGNATURE = re.compile(r"^(\s*)((?:(?:abbrev|unfoldable|pub|mutual|infixl?|infixr)\s+)*)([A-Za-zμ][^\s(){}\[\],;.:λ]*)\s*(?:[({][^:]*:.*)?:\s")
WORDS = set("length take drop append map filter concat reverse replicate splice all any sum zip suc zero add sub mul div mod pow min max not and or head tail".split())
MADE = re.compile(r"^(returns|invariant|decreases|loop|ghost|overflow_\w+)(-|$)|-(requires|ensures|returns|preserved|init|spec|loop|again)(-|$)")
OLD_MADE = re.compile(r"^(Need|Start|After|Then|Else)\b")


def files(ends, tops=("crates",)):
    for top in tops:
        for folder, dirs, names in os.walk(top):
            dirs[:] = sorted(d for d in dirs if d != "out")
            for n in sorted(names):
                if n.endswith(ends):
                    yield os.path.join(folder, n)


def read(p):
    with open(p, encoding="utf-8") as f:
        return f.read()


def of_function(p):
    return os.path.basename(p) in ("Proof.antt", "Answers.antt", "Invariants.antt")


def snake(part):
    return re.sub(r"(?<=[a-z0-9])[A-Z](?![A-Z0-9]|$)", lambda m: "_" + m[0].lower(), part)


def declared():
    """name -> set of 'spec' and 'proof', of what the repository's files declare."""
    out = {}
    for p in files(".antt"):
        kind = "function" if of_function(p) else "spec" if "/specs/" in p else "proof"
        for line in read(p).split("\n"):
            if line.lstrip().startswith("--"):
                continue
            m = SIGNATURE.match(line)
            if m:
                out.setdefault(m[3], set()).add(kind)
    return out


def table():
    names = declared()
    specs = {snake(n) for n, k in names.items() if "spec" in k and "-" not in n} | WORDS
    turned = {}
    for n, kinds in sorted(names.items()):
        if kinds == {"function"} or n[0].isupper() or n == "_" or (MADE.search(n) and "spec" not in kinds and "proof" not in kinds):
            continue
        if "-" not in n and snake(n) == n:
            continue
        parts = [snake(x) for x in n.split("-")]
        new = parts[0]
        for a, b in zip(parts, parts[1:]):
            new += ("-" if a in specs and b in specs else "_") + b
        if new != n:
            turned[n] = new
    taken = {n for n in names if n not in turned} | library()
    out = {}
    # definitions first: a lemma gives way
    for n in sorted(turned, key=lambda n: ("spec" not in names[n], "-" in n, n)):
        new = turned[n]
        if "spec" in names[n] and names.get(new) == {"proof"} and new not in out:
            out[new] = new + "_lem"
            taken.add(new + "_lem")
        else:
            while new in taken:
                new += "_lem"
        taken.add(new)
        out[n] = new
    return out


def library():
    """The names that the repository's files import from std."""
    out = set()
    for p in files((".antt", ".rt")):
        for m in re.finditer(r"use (?:Rattle\.std|mathlib|lib|native|borrow|Prim)\.[^\s{]*\{([^}]*)\}", read(p)):
            out |= {x.strip().split(" as ")[-1] for x in m[1].split(",")}
    return out


def turn(text, names):
    def one(m):
        behind_dot = text[max(m.start() - 1, 0):m.start()] == "."
        plain = "-" not in m[1] and snake(m[1]) == m[1]
        return m[1] if behind_dot and plain else names.get(m[1], m[1])

    return TOKEN.sub(one, text)


def has(text, name):
    """Whether a file declares a lemma of that name, or takes it from a file of lemmas."""
    if any((m := SIGNATURE.match(line)) and m[3] == name for line in text.split("\n")):
        return True
    return any(name in (x.strip() for x in m[1].split(",")) for m in re.finditer(r"use Rattle\.\w+\.proofs\.[A-Z][\w.]*\.\{([^}]*)\}", text))


STRING = re.compile(r'"(?:[^"\\]|\\.)*"')


def turn_rust(text, names):
    out = []
    for line in text.split("\n"):
        at, done = 0, ""
        for m in STRING.finditer(line):
            done += turn(line[at:m.start()], names) + m[0]
            at = m.end()
        out.append(done + turn(line[at:], names))
    return "\n".join(out)


def main():
    names = table()
    if "--list" in sys.argv:
        for a, b in sorted(names.items()):
            print(a, b)
        return
    # a lemma that gives way has a plain name, which Rust's functions may have too: it is changed where it is known alone
    plain = {k for k in names if "-" not in k and snake(k) == k}
    sure = {k: v for k, v in names.items() if k not in plain}
    for p in files((".antt", ".rt", ".edit")):
        old = read(p)
        here = dict(sure, **{k: names[k] for k in plain if p.endswith(".antt") and has(old, k)})
        new = turn_rust(old, sure) if p.endswith(".rt") else turn(old, here)
        if new != old:
            with open(p, "w", encoding="utf-8") as f:
                f.write(new)
    for p in ["README.md"] + list(files(".md", ("docs",))):
        if p.endswith("HOUSE.md") or "/changes/" in p:
            continue
        old = read(p)
        new = re.sub(r"`([^`\n]+)`", lambda m: "`" + re.sub(r"[^\s,;:(){}.]+", lambda w: sure.get(w[0], w[0]), m[1]) + "`", old)
        if new != old:
            with open(p, "w", encoding="utf-8") as f:
                f.write(new)


if __name__ == "__main__":
    main()
