#!/usr/bin/env python3
# From requests and the judge's answers in the text of docs/PROTOCOL.md to the lines that `vectors` compares: convert.py REQUESTS ANSWERS prints them, without the requests that are too long for it,
# and says how many these are; convert.py REQUESTS ANSWERS FOLDER writes FOLDER/stdin, with a last line that is altered on purpose, and FOLDER/stdout, what `vectors` then prints.
# kept/expected.py has the numbers.
import sys
from pathlib import Path

sys.dont_write_bytecode = True

from kept.expected import expected

# What `vectors` has room for: bytes of a chunk and of lent memory, and a number more than a line may have; bytes of a line.
ROOM, LONGEST = 65536, 1048576


def answers(text):
    """The lines of each answer."""
    return [answer.strip("\n").split("\n") for answer in text.split("\nend\n")[:-1]]


def fits(chunk, lines):
    """Whether `vectors` has room for the chunk, for the numbers of each line, and for the memory that it lends."""
    return len(chunk or "") <= 2 * ROOM and all(map(fits_line, lines))


def fits_line(line):
    words = line.split(" ")
    numbers = sum(len(word) // 2 if word[0] == "x" else 1 for word in words[1:] if word != "=")
    lent = {"l": 2, "c": 1, "r": 1, "v": 1}.get(words[0])
    return numbers < ROOM and len(line) <= LONGEST and (lent is None or int(words[lent]) + 64 <= ROOM)


class Lines:
    """Lines in their order; the limits and the chunk are said where they change, and an empty line stands before each request about a chunk."""

    def __init__(self):
        self.lines = []
        self.subject = {"limits": None, "chunk": None}
        self.too_long = 0

    def add(self, comments, request, answer):
        limits, chunk, numbers = expected(request, answer)
        if not fits(chunk, numbers):
            self.too_long += 1
            return
        if limits:
            self.lines += [""]
        self.lines += comments
        if limits:
            self.say("limits", " ".join(limits))
            self.say("chunk", chunk)
        self.lines += numbers

    def say(self, what, value):
        if self.subject[what] != value:
            self.subject[what] = value
            self.lines += [f"{what} {value}"]

    def alter(self):
        """The summary of the last chunk once more, with a version that it does not have. What `vectors` prints of it."""
        last = [line for line in self.lines if line.startswith("s = 0 ")][-1].split(" ")
        right, wrong = int(last[3]), int(last[3]) + 1
        self.lines += ["# Altered on purpose, so that the comparison is seen to fail.", " ".join([*last[:3], str(wrong), *last[4:]])]
        return f"line {len(self.lines)}, number 1: expected {wrong}, found {right}"

    def asked(self):
        return sum(" =" in line and line[0] != "#" for line in self.lines)


def converted(requests, answered):
    """The lines of all requests, given as texts."""
    lines, comments, answered = Lines(), [], iter(answers(answered))
    for request in requests.splitlines():
        if request.startswith("#"):
            comments.append(request)
        elif request:
            lines.add(comments, request, next(answered))
            comments = []
    lines.lines += comments
    assert next(answered, None) is None, "more answers than requests"
    return lines


def main():
    lines = converted(*(Path(name).read_text() for name in sys.argv[1:3]))
    if len(sys.argv) < 4:
        print(*lines.lines, sep="\n")
        print(f"{lines.asked()} calls; {lines.too_long} requests are too long", file=sys.stderr)
        return
    assert not lines.too_long, "requests that are too long cannot be kept"
    difference = lines.alter()
    folder = Path(sys.argv[3])
    folder.mkdir(parents=True, exist_ok=True)
    (folder / "stdin").write_text("\n".join(lines.lines) + "\n")
    (folder / "stdout").write_text(f"{difference}\n{lines.asked() - 1} agree, 1 differ\n")


if __name__ == "__main__":
    main()
