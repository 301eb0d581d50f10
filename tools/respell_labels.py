#!/usr/bin/env python3
"""Spells labels and constructors of the repository's own records and data types with underscores alone, as Rust's names; after tools/respell.py, once.

usage: tools/respell_labels.py      at the top of the repository
"""
import os
import re

LABELS = """after-name all-instructions at-is at-start constant-bytes constants-at copy-length instructions-at last-line_defined last-line-defined line-defined
line-is lineinfo-at local-name long-constant long-string name-shown not-before short-constant short-string source-bytes source-name upvalue-name
upvalue-name-bytes""".split()
TABLE = {x: x.replace("-", "_") for x in LABELS}
TOKEN = re.compile(r"(?<![^\s(){},;.@«»\[\]])([A-Za-z_μ][^\s(){},;.@\"«»\[\]]*)")

for folder, dirs, names in os.walk("crates"):
    dirs[:] = sorted(d for d in dirs if d != "out")
    for n in sorted(names):
        if n.endswith((".antt", ".edit")) and n != "Proof.antt":
            p = os.path.join(folder, n)
            with open(p, encoding="utf-8") as f:
                old = f.read()
            new = TOKEN.sub(lambda m: TABLE.get(m[1], m[1]), old)
            if new != old:
                with open(p, "w", encoding="utf-8") as f:
                    f.write(new)
