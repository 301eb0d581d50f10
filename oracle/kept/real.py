# What luac made of the samples: as it comes and stripped, cut off at every place, and under other limits.
from pathlib import Path

from .ask import FAR

COMPILED = Path(__file__).parent.parent / "samples" / "compiled.txt"

# Cut off at every place. Functions within main, anchors and a delta of -128 are in the first.
CUT = (("far_function", "plain"), ("returns", "plain"), ("one_line", "stripped"))

# Looked up at many pcs: anchors every 128 instructions, and jumps of more than 127 lines.
LOOKED_UP = (("long_line", 0, 310), ("line_gap", 0, 80), ("line_gap", 1, 12), ("far_function", 0, 8), ("far_function", 1, 8), ("sweep_log", 0, 60))

# Limits too small for some of what luac makes, and just enough for others.
OTHER_LIMITS = {
    "max_nesting_depth": (0, 1, 2, 3), "max_total_prototypes": (0, 1, 2, 3), "max_instructions_per_proto": (1, 5, 20, 40),
    "max_total_instructions": (1, 10, 30, 60), "max_constants_per_proto": (0, 2, 5, 9), "max_upvalues_per_proto": (0, 1, 2),
    "max_string_bytes": (0, 3, 6, 11, 40), "max_diagnostics": (0, 1),
}
SMALL = 160


def compiled():
    """By name and kind, the chunks in the order of the file."""
    chunks = {}
    for line in COMPILED.read_text().splitlines():
        if not line.startswith("#"):
            name, kind, data = line.split(" ")
            chunks[name, kind] = bytes.fromhex(data)
    return chunks


def samples(requests):
    chunks = compiled()
    for (name, kind), data in chunks.items():
        requests.title(f"real: {name}, {kind}")
        requests.chunk(data)
    requests.title("real: lines")
    for name, function, count in LOOKED_UP:
        requests.lookup(chunks[name, "plain"], function, (*range(count), *FAR))
        requests.lookup(chunks[name, "stripped"], function, (0, 1, 2, *FAR))


def truncations(requests):
    chunks = compiled()
    for name, kind in CUT:
        requests.title(f"real: {name}, {kind}, cut off at every place")
        data = chunks[name, kind]
        for length in range(len(data)):
            requests.chunk(data[:length])


def other_limits(requests):
    requests.title("real: other limits")
    for data in compiled().values():
        if len(data) > SMALL:
            continue
        for limit, values in OTHER_LIMITS.items():
            for value in values:
                # A third of them, another third for each chunk.
                if (len(data) + value) % 3 == 0:
                    requests.chunk(data, **{limit: value})
        requests.chunk(data, max_input_bytes=len(data))
        requests.chunk(data, max_input_bytes=len(data) - 1)
