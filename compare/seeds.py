#!/usr/bin/env python3
# Writes the kept chunks as inputs of the fuzz target: seeds.py LINES FOLDER, the lines of crates/vectors/stdin. An input is which limit, its value, and the chunk, as src/fuzz.rs reads it.
import hashlib
import sys
from pathlib import Path

sys.dont_write_bytecode = True
sys.path.insert(0, str(Path(__file__).resolve().parent.parent / "oracle"))

from kept.ask import CEILINGS
from kept.stored import requests

LIMITS = list(CEILINGS.values())
LONGEST = 2000
NO_LIMIT = bytes([9, 0])

lines, folder = map(Path, sys.argv[1:3])
folder.mkdir(parents=True, exist_ok=True)
for request in requests(lines.read_text()):
    if request.kind() != "chunk":
        continue
    chunk = bytes.fromhex(request.chunk.strip("-"))
    if len(chunk) > LONGEST:
        continue
    other = [(which, int(limit)) for which, limit in enumerate(request.limits.split(" ")) if int(limit) != LIMITS[which]]
    first = bytes(other[0]) if other and other[0][1] < 240 else NO_LIMIT
    (folder / hashlib.sha1(first + chunk).hexdigest()).write_bytes(first + chunk)
