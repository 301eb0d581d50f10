#!/usr/bin/env python3
# Compares the lent list of findings with the unchanged Rust: on every chunk of chunks.py and large.py the refusal with its place, the verdict, how many findings there are, and the
# findings (of a list of more than 200 some of them). Needs the judge (oracle/build.sh), `make target/staticlib/liblafzimdo.a` (or the library in the folder LAFZIMDO_LIB) and a C compiler; builds target/findings-answers.
import os
import pathlib
import subprocess
import sys

here = pathlib.Path(__file__).resolve().parent
top = here.parent.parent
program = top / "target/findings-answers"
library = pathlib.Path(os.environ.get("LAFZIMDO_LIB", top / "target/staticlib")) / "liblafzimdo.a"
subprocess.run(["cc", "-O2", here / "answers.c", library, "-o", program], check=True)


def shown(k, n):
    return n <= 200 or k == 0 or k + 1 == n or k % 1000 == 0


def compared(lines):
    """The lines of an answer that are compared."""
    found = [l for l in lines if l.startswith("finding ")]
    kept = [l for k, l in enumerate(found) if shown(k, len(found))]
    for l in lines:
        if l.startswith("refused "):
            return [l]
    return [l for l in lines if l.startswith(("verdict ", "findings "))] + kept


def answers(command, requests):
    out = subprocess.run(command, input="\n".join(requests) + "\n", capture_output=True, text=True, check=True).stdout
    return [a.strip("\n").split("\n") for a in out.split("\nend\n")][:len(requests)]


differ = asked = findings = 0
for generator in ("chunks.py", "large.py"):
    text = subprocess.run([sys.executable, here.parent / generator], capture_output=True, text=True, check=True).stdout
    requests = [l for l in text.split("\n") if l[:1].isdigit()]
    for start in range(0, len(requests), 50):
        part = requests[start:start + 50]
        rust, ours = answers([top / "target/oracle/oracle"], part), answers([program], part)
        for request, r, o in zip(part, rust, ours):
            asked += 1
            findings += sum(l.startswith("finding ") for l in o)
            if compared(r) != o:
                differ += 1
                print("differs:", request[:200], compared(r)[:4], o[:4])
print(f"{asked} chunks, {findings} findings compared, {differ} differ")
sys.exit(differ != 0)
