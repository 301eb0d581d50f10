# Which constants does each script of a folder hold? A notebook in cells (# %%), which runs as a script too:
#     PYTHONPATH=bindings/python python3 bindings/python/examples/constants.py samples
# %% [markdown]
# Every compiled script of a folder is read, and its texts and numbers are set against each other: which script talks of a frequency, which calls `print`, which were refused.

# %%
import collections
import pathlib
import sys

import lafzimdo

folder = pathlib.Path(sys.argv[1] if len(sys.argv) > 1 else "samples")

# %% Read all of them; what is refused is told, and does not stop the others.
scripts, refused = {}, {}
for path in sorted(folder.glob("*.luac")):
    try:
        scripts[path.name] = lafzimdo.Chunk.read(path.read_bytes())
    except lafzimdo.Refused as refusal:
        refused[path.name] = refusal

print(f"{len(scripts)} scripts read, {len(refused)} refused")
for name, refusal in refused.items():
    print(f"  {name}: number {refusal.number}, place {refusal.place}: {refusal.text}")

# %% The constants of each, over all of its functions.
constants = {
    name: collections.Counter(constant.value for function in chunk.functions for constant in function.constants() if constant.value is not None)
    for name, chunk in scripts.items()
}
for name, found in constants.items():
    texts = sorted(value.decode("utf-8", "backslashreplace") for value in found if isinstance(value, bytes))
    numbers = sorted(value for value in found if isinstance(value, (int, float)) and not isinstance(value, bool))
    print(f"{name}\n  texts: {', '.join(texts)}\n  numbers: {', '.join(map(str, numbers))}")

# %% The other way round: which scripts share a text.
holders = collections.defaultdict(set)
for name, found in constants.items():
    for value in found:
        if isinstance(value, bytes):
            holders[value].add(name)
shared = {value: names for value, names in holders.items() if len(names) > 1}
print(f"{len(shared)} texts are in more than one script")
for value in sorted(shared):
    print(f"  {value.decode('utf-8', 'backslashreplace')}: {', '.join(sorted(shared[value]))}")
