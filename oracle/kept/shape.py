# The shape of an answer in the text of docs/PROTOCOL.md, for each kind of request: which lines, in which order, with which words. An answer of another shape is none.
import re

NUMBER, SIGNED, STR, HEX = r"(?:0|[1-9]\d*)", r"(?:0|-?[1-9]\d*)", r"(?:-|x(?:[0-9a-f]{2})*)", r"(?:-|(?:[0-9a-f]{2})+)"
REFUSAL = rf"refused {NUMBER} (?:{NUMBER}|-)"
PAIRS = rf"(?: {NUMBER}:{NUMBER})*"
TOTALS = rf"verdict \S+\nfindings {NUMBER}\n"
FIELDS = "".join(rf" {name} {SIGNED}" for name in "a k b sb c sc bx sbx ax sj".split())


def numbers(count):
    return rf"(?: {NUMBER}){{{count}}}"


def many(line):
    return rf"(?:{line}\n)*"


CONSTANT = rf"k (?:nil|false|true|int {SIGNED}|float [0-9a-f]{{16}}|short {STR}|long {STR})"
FUNCTION = (rf"function {NUMBER} depth {NUMBER} parent {NUMBER} start {NUMBER} end {NUMBER}\nsource {STR}\nlines{numbers(2)}\nbytes{numbers(3)}\ncounts{numbers(8)}\n"
            + many(r"i [0-9a-f]{8}") + many(CONSTANT) + many(rf"u{numbers(3)}") + many(rf"d {SIGNED}") + many(rf"a{numbers(2)}")
            + many(rf"l x(?:[0-9a-f]{{2}})*{numbers(2)}") + many(rf"n {STR}"))
CHUNK = (rf"header [0-9a-f]{{2}} [0-9a-f]{{2}}{numbers(5)} [0-9a-f]{{16}}\nwarnings {NUMBER}\n" + many(rf"warning \S+ {NUMBER}")
         + rf"functions {NUMBER}\npadded {NUMBER}\ntrailing {NUMBER} {HEX}\n(?:{FUNCTION})+(?:row{numbers(14)}\n)+copy {HEX}\n{TOTALS}"
         + many(rf"finding {NUMBER} {NUMBER} \S+ {SIGNED} \S+") + many(rf"line {NUMBER}(?: refused 25|{PAIRS})"))

SHAPES = {
    "word": rf"word [0-9a-f]{{8}} op {NUMBER} mode \S+{FIELDS} encode (?:[0-9a-f]{{8}}|{REFUSAL})\n",
    "enc": rf"enc (?:[0-9a-f]{{8}}|{REFUSAL})\n",
    "lines": rf"line {NUMBER}{PAIRS}\n|{REFUSAL}\n",
    "verdict": rf"{TOTALS}|{REFUSAL}\n",
    "chunk": rf"{CHUNK}|{REFUSAL}\n",
}
COMPILED = {kind: re.compile(shape) for kind, shape in SHAPES.items()}


def has_shape(request, answer):
    """Whether these lines can answer the request."""
    first = request.split(" ")[0]
    return COMPILED.get(first, COMPILED["chunk"]).fullmatch("".join(line + "\n" for line in answer)) is not None
