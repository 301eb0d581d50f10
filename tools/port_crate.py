#!/usr/bin/env python3
"""Brings the proofs of crates over: names of goals, answers (port_answers.py), clauses (port_clauses.py), as far as that goes by itself.

usage: tools/port_crate.py CRATE..     at the top of the repository; the crates below must be proved. Logs lie in $LOGS (port-logs in the temporary folder).
"""
import os
import re
import subprocess
import sys
import tempfile

LOGS = os.environ.get("LOGS") or os.path.join(tempfile.gettempdir(), "port-logs")
HERE = os.path.dirname(os.path.realpath(__file__))


def run(args, cwd, log):
    with open(log, "w") as f:
        subprocess.run(args, cwd=cwd, stdout=f, stderr=subprocess.STDOUT)
    with open(log, encoding="utf-8", errors="replace") as f:
        return f.read()


def main():
    os.makedirs(LOGS, exist_ok=True)
    bad = []
    for crate in sys.argv[1:]:
        folder = os.path.join("crates", crate)
        log = os.path.join(LOGS, crate)
        old = [r for r, d, f in os.walk(os.path.join(folder, "proofs")) if "Proof.antt" in f and "+" not in r]
        if old:
            names = os.path.join(LOGS, "names-" + crate)
            run(["rt", "check", "--generated", names, "--old-names"], folder, log + ".names")
            p = os.path.join(names, "names.json")
            if os.path.exists(p) and f"Rattle-{crate}-" in open(p, encoding="utf-8").read():
                print(run([sys.executable, os.path.join(HERE, "port_answers.py"), p, folder], ".", log + ".answers"), end="")
            else:
                print(crate, "no names: see", log + ".names")
                bad.append(crate)
                continue
        for turn in range(4):
            text = run(["rt", "check"], folder, log)
            if not re.search(r"error: `[^`]+`: write the clause", text):
                break
            run([sys.executable, os.path.join(HERE, "port_clauses.py"), log, folder], ".", log + ".clauses")
        ok = re.search(r"(?m)^logic=proved", text) and text.rstrip().rfind("logic=not-proved") < 0
        last = re.findall(r"(?m)^logic=.*", text)
        good = bool(last) and last[-1].startswith("logic=proved") and f"{crate}" in text
        functions = re.findall(r"(?m)^fn (\S+): (.*)", text)
        left = [f for f, s in functions if not s.startswith("proved")]
        print(f"== {crate}: {'PROVED' if good else 'NOT proved'} {last[-1][:40] if last else ''}; open: {' '.join(left)}")
        sys.stdout.flush()
        if not good:
            bad.append(crate)
    sys.exit(bool(bad))


main()
