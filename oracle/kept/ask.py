# Requests as they are written: the nine limits, a chunk in hex, a function's number and pcs.
import re
from pathlib import Path

JUDGE = Path(__file__).parent.parent / "src" / "limits.rs"


def ceiling(name):
    """A ceiling as the judge has it: with one of its own, a request would be refused with 21 by both sides, and so agree."""
    return int(re.search(rf"pub const {name}: usize = ([0-9_]+);", JUDGE.read_text())[1])


MOST = ceiling("CEILING")
# In the order of ResourceLimits.
CEILINGS = {
    "max_input_bytes": MOST,
    "max_nesting_depth": ceiling("NESTING_CEILING"),
    "max_total_prototypes": MOST,
    "max_instructions_per_proto": MOST,
    "max_total_instructions": MOST,
    "max_constants_per_proto": MOST,
    "max_upvalues_per_proto": MOST,
    "max_string_bytes": MOST,
    "max_diagnostics": ceiling("DIAGNOSTICS_CEILING"),
}

# Pcs behind every function: the ones that a chunk's answer always shows.
FAR = (2**32, 2**63, 2**64 - 1)


class Requests:
    """The requests in their order; one that comes again is asked once."""

    def __init__(self):
        self.lines = {}

    def title(self, text):
        """A comment over the requests that follow."""
        self.lines[f"# {text}"] = True

    def chunk(self, data, **limits):
        self.lines[f"{limited(limits)} {hexed(data)}"] = True

    def verdict(self, data, **limits):
        """Asks for the verdict and the number of findings alone."""
        self.lines[f"verdict {limited(limits)} {hexed(data)}"] = True

    def lookup(self, data, function, pcs, **limits):
        words = " ".join(map(str, (function, *pcs)))
        self.lines[f"lines {limited(limits)} {hexed(data)} {words}"] = True

    def show(self):
        print(*self.lines, sep="\n")


def limited(limits):
    """The ceilings, but for the limits that are given."""
    unknown = limits.keys() - CEILINGS.keys()
    assert not unknown, unknown
    return " ".join(str(limits.get(name, ceiling)) for name, ceiling in CEILINGS.items())


def hexed(data):
    return data.hex() or "-"
