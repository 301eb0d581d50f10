#!/usr/bin/env python3
# Counts the answers with each refusal, warning, verdict and rule: tally.py STDIN STDOUT, two files. Fails where a line is no request, or where there
# are not as many answers as requests.
import re
import sys
from collections import Counter

# What is counted once in an answer, however often it is there. `lines` is the refusal of one function's line lookup in the answer to a chunk.
COUNTED = {
    "refused": r"^(?:enc )?refused (\d+)",
    "encode": r"^word .* encode (refused \d+)",
    "lines": r"^line \d+ refused (\d+)",
    "warning": r"^warning (\S+)",
    "verdict": r"^verdict (\S+)",
    "rule": r"^finding \d+ \d+ (\S+)",
    "bad": r"^bad (request)",
}


def natural(name):
    return (0, int(name), "") if name.isdigit() else (1, 0, name)


def tally(requests, answers):
    found = {title: Counter() for title in COUNTED}
    for answer in answers:
        for title, pattern in COUNTED.items():
            found[title].update(set(re.findall(pattern, answer, re.M)))
    asked = Counter(request.split(" ")[0] if request[0].isalpha() else "chunk" for request in requests)
    for title, counts in {"requests": asked, **found}.items():
        if counts:
            print(f"{title:9}", *(f"{name}: {counts[name]}" for name in sorted(counts, key=natural)), sep="  ")
    if len(requests) != len(answers) or found["bad"]:
        sys.exit(f"tally.py: {len(requests)} requests, {len(answers)} answers, {sum(found['bad'].values())} lines are no request")


with open(sys.argv[1]) as asked, open(sys.argv[2]) as answered:
    requests = [line.rstrip("\n") for line in asked if line != "\n" and line[0] != "#"]
    tally(requests, re.split(r"^end\n", answered.read(), flags=re.M)[:-1])
