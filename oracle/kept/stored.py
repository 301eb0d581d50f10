# The lines of crates/vectors/stdin, read: each request with its limits, its chunk and its lines, and the request as docs/PROTOCOL.md spells it.
from dataclasses import dataclass, field

KINDS = {"s": "chunk", "t": "verdict", "p": "lines", "w": "word", "e": "enc"}


@dataclass
class Request:
    limits: str
    chunk: str
    number: int  # of its first call's line, from 1
    lines: list = field(default_factory=list)

    def kind(self):
        return KINDS[self.lines[0][0]]

    def text(self):
        """The request; `lines` that is refused and has no pc asks for pc 0."""
        arguments = self.lines[0].split(" =")[0].split(" ")[1:]
        match self.kind():
            case "chunk":
                return f"{self.limits} {self.chunk}"
            case "verdict":
                return f"verdict {self.limits} {self.chunk}"
            case "lines":
                return " ".join(["lines", self.limits, self.chunk, arguments[0], *map(str, self.pcs())])
            case "word":
                return f"word {int(arguments[0]):08x}"
            case "enc":
                return " ".join(["enc", *(str(signed(int(word))) for word in arguments)])

    def pcs(self):
        for line in self.lines:
            _, _, pc, count = line.split(" =")[0].split(" ")
            yield from range(int(pc), int(pc) + int(count))


def signed(number):
    return number - 2**64 if number >= 2**63 else number


def requests(text):
    """All requests, without the last line, which is altered. An empty line stands before each that is about a chunk; `w` goes with the `e` behind it."""
    found, said, before = [], {}, ""
    for number, line in enumerate(text.splitlines()[:-1], 1):
        word = line.split(" ", 1)[0]
        if word in ("limits", "chunk"):
            said[word] = line.split(" ", 1)[1]
        elif line and word[0] != "#":
            if not before or word == "w" or (word == "e" and before != "w"):
                found.append(Request(said.get("limits"), said.get("chunk"), number))
            found[-1].lines.append(line)
            before = word
        elif not line:
            before = ""
    return found
