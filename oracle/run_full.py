#!/usr/bin/env python3
# Runs full copies of joined scripts (samples/joined: NAME.1.lua, NAME.2.lua, .. are one script, as `luac a.lua b.lua` makes it), each of which fails at its end: lua must print of the full copy what it prints of luac's own
# chunk, with the same names in its messages. So it must of the full copy of the same chunk spelt otherwise: numbers padded, another format, another byte 31, a source spelt in every function, trailing bytes. The archive copy has
# other names, so that a copy without the sources would be found. Besides, of these and of every sample that is not nested too deep: the full copy is what Lua's own dumper writes of what it loaded (`string.dump` of `load`: lua_dump of lua_load).
# The last line says how many did; the status is 1 where one did not. Needs luac5.4 and lua5.4, a C compiler and liblafzimdo.a (`make target/staticlib/liblafzimdo.a`); where one of them is missing it says so, and the status is 2.
import ctypes
import os
import subprocess
import sys
import tempfile
from itertools import groupby
from pathlib import Path

sys.dont_write_bytecode = True

from kept.build import chunk
from kept.parse import main_of
from run_copies import ANSWERS, LUA, LUAC, SAMPLES, compiled, ready, run, too_deep

JOINED = SAMPLES / "joined"
CEILINGS = (16777216, 14, 16777216, 16777216, 16777216, 16777216, 16777216, 16777216, 10000)
DUMP = "io.write(string.dump(assert(load(io.read('a'), 'x', 'b'))))"


def joined(folder):
    """What luac makes of the parts of each script. (luac 5.4.4 writes the chunk, and then may stop: it frees what it joined twice.)"""
    parts = sorted(part.name for part in JOINED.glob("*.lua"))
    for name, files in groupby(parts, lambda part: part.split(".")[0]):
        (folder / "chunk").unlink(missing_ok=True)
        subprocess.run([LUAC, "-o", folder / "chunk", *files], cwd=JOINED, stderr=subprocess.DEVNULL)
        yield name, (folder / "chunk").read_bytes()


def otherwise(data):
    """The same chunk, spelt so that its full copy differs from it: every source is spelt, as it is read."""
    main = main_of(data)
    assert chunk(main) == data

    def spell(function, parent):
        function.source = parent if function.source is None else function.source
        for nested in function.nested:
            spell(nested, function.source)

    spell(main, None)
    return chunk(main, pad=lambda: 1, format=b"\x01", byte31=len(main.upvalues) + 1, trailing=b"\x1bLua")


class Library:
    def __init__(self):
        self.library = ctypes.CDLL(str(ANSWERS.parent / "liblafzimdo.so"))
        self.limits = (ctypes.c_uint64 * 9)(*CEILINGS)

    def copy(self, name, data):
        """The archive copy (`copy`) or the full copy (`full_copy`)."""
        call = getattr(self.library, f"lafzimdo_{name}")
        call.restype = ctypes.c_uint64
        lent, out = ctypes.create_string_buffer(2 * len(data)), (ctypes.c_uint64 * 1)()
        status = call(data, ctypes.c_size_t(len(data)), self.limits, lent, ctypes.c_size_t(len(lent)), out)
        assert status == 0, f"refused {status % 256}"
        return lent.raw[:out[0]]


def dumped(data):
    """By lua_load and lua_dump."""
    return subprocess.run([LUA, "-e", DUMP], input=data, capture_output=True, check=True).stdout


def main():
    if not ready("run_full.py"):
        return 2
    wrong, ran, named = [], 0, 0
    library = Library()
    with tempfile.TemporaryDirectory() as name:
        folder = Path(name)
        scripts = dict(joined(folder))
        for title, data in scripts.items():
            expected = run(folder, data)
            assert expected[0] == 1 and f"{title}.".encode() in expected[2], f"{title} fails, and says where"
            for kind, spelt in (("", data), (", spelt otherwise", otherwise(data))):
                ran += 1
                if run(folder, library.copy("full_copy", spelt)) != expected:
                    wrong.append(f"{title}{kind}: the full copy does not run as luac's chunk does")
            named += run(folder, library.copy("copy", data)) != expected
        samples = {title: data for title, data in compiled(folder) if title.endswith(" plain") and not too_deep(data)}
        both = {**scripts, **samples}
        wrong += [f"{title}: the full copy is not what Lua dumps" for title, data in both.items() if library.copy("full_copy", data) != dumped(data)]
    if named < len(scripts):
        wrong.append(f"of {len(scripts) - named} scripts the archive copy has the same names: they show nothing")
    for what in wrong:
        print(what)
    print(f"{ran} full copies of {len(scripts)} joined scripts were run, of {named} of which the archive copy has other names; {len(both)} were held against Lua's dumper; {len(wrong)} differences")
    return 1 if wrong else 0


if __name__ == "__main__":
    os.chdir(Path(__file__).resolve().parent)
    sys.exit(main())
