#!/usr/bin/env python3
# For who uses the library from C: the headers compile by themselves, in C and C++; their names are those of the library and of bindings/rust, and as many as the arrays are long; each call's comment begins
# with its cost; the texts are those of bindings/rust; the examples run, and print what the program prints. Prints totals; stops at what is wrong.
import os
import pathlib
import re
import struct
import subprocess
import sys
import tempfile

sys.dont_write_bytecode = True
top = pathlib.Path(__file__).resolve().parent.parent
program = os.environ.get("LAFZIMDO", top / "target/rust/release/lafzimdo")
include, library = top / "include", top / "target/lib/liblafzimdo.a"
header, texts = (include / "lafzimdo.h").read_text(), (include / "lafzimdo_text.h").read_text()
plain = re.sub(r"/\*.*?\*/", "", header, flags=re.S)
sys.path.insert(0, str(top / "tests"))
from json_reader import as_bytes, objects
from luac import chunks

STRICT = ["-Wall", "-Wextra", "-Wpedantic", "-Wconversion", "-Werror"]


def run(*command, **options):
    return subprocess.run(command, check=True, capture_output=True, text=True, **options).stdout


# ---- Names

def enums(text):
    """Each enum of a header: its names with their numbers."""
    found = {}
    for name, body in re.findall(r"enum (\w+) \{(.*?)\};", re.sub(r"/\*.*?\*/", "", text, flags=re.S), re.S):
        number, items = 0, {}
        for item in filter(None, (item.strip() for item in body.split(","))):
            word, _, value = item.partition(" = ")
            number = int(value or number)
            items[word] = number
            number += 1
        found[name] = items
    return found


def shouted(name):
    return re.sub(r"(?<=[a-z])(?=[A-Z])", "_", name).upper()


def names(refusals, opcodes):
    found = enums(header)
    lengths = {name: int(n) for name, n in re.findall(r"#define LAFZIMDO_(\w+)_NUMBERS (\d+)", header)}
    assert list(found["lafzimdo_refusal"].items()) == [(f"LAFZIMDO_REFUSED_{shouted(name)}", number) for number, name, _ in refusals]
    # The items of each array are as many as it is long; at a place there is one more, the place behind.
    for enum, length in [(name, name.removeprefix("lafzimdo_").removesuffix("_item").upper()) for name in found if name.endswith("_item")]:
        items = list(found[enum].values())
        assert items == list(range(len(items))), enum
        several = {"CONSTANT": ["CONSTANT", "CONSTANT_AT"], "UPVALUE": ["UPVALUE", "UPVALUE_AT"], "ANCHOR": ["ANCHOR", "ANCHOR_AT"], "STRING": ["UPVALUE_NAME", "STRING_AT"]}.get(length, [length])
        assert lengths.pop(several[-1]) == len(items), enum
        assert all(lengths.pop(one) == len(items) - 1 for one in several[:-1]), enum
    assert lengths == {"LIMITS": len(found["lafzimdo_limit"])} and len(found["lafzimdo_limit"]) == 9, lengths
    limits = re.findall(r"pub max_(\w+): u64", (top / "bindings/rust/src/limits.rs").read_text())
    assert [f"LAFZIMDO_LIMIT_{limit.upper()}" for limit in limits] == list(found["lafzimdo_limit"])
    # Every array that a call fills is declared by its name, but for those of one number.
    assert set(re.findall(r"\bout\[(\w+)\]", plain)) - {"1"} == {f"LAFZIMDO_{name}_NUMBERS" for name in re.findall(r"#define LAFZIMDO_(\w+)_NUMBERS", header)} - {"LAFZIMDO_LIMITS_NUMBERS", "LAFZIMDO_ROW_NUMBERS", "LAFZIMDO_FINDING_NUMBERS"}
    assert list(enums(texts)["lafzimdo_opcode"]) == [f"LAFZIMDO_OP_{name}" for name in opcodes]
    rules = re.findall(r"(\d) => Rule::(\w+)\(", (top / "bindings/rust/src/finding.rs").read_text())
    assert found["lafzimdo_rule"] == {f"LAFZIMDO_RULE_{shouted(name)}": int(number) for number, name in rules}
    tags = re.findall(r"^            (\d+) => Constant::(\w+)(?:\((true|false))?", (top / "bindings/rust/src/entry.rs").read_text(), re.M)
    assert found["lafzimdo_tag"] == {f"LAFZIMDO_TAG_{shouted(value or name)}": int(tag) for tag, name, value in tags}
    version = re.search(r'^version = "(.*)"', (top / "bindings/rust/Cargo.toml").read_text(), re.M)[1]
    parts = [int(re.search(rf"#define LAFZIMDO_VERSION_{part} (\d+)", header)[1]) for part in ("MAJOR", "MINOR", "PATCH")]
    assert f'#define LAFZIMDO_VERSION_TEXT "{version}"' in header and ".".join(map(str, parts)) == version
    for page in ("1", "3"):
        assert f'"lafzimdo {version}"' in (top / f"man/lafzimdo.{page}").read_text().split("\n")[0]
    return len(found), sum(map(len, found.values()))


def costs():
    """Each declaration's comment begins with its cost."""
    calls = re.findall(r"/\* ((?:(?!\*/).)*?) ?\*/\nuint64_t (lafzimdo_\w+)\(", header, re.S)
    assert len(calls) == len(re.findall(r"^uint64_t lafzimdo_\w+\(", header, re.M))
    for comment, call in calls:
        assert re.match(r"(One|Two|Three|No) pass(es)?\b", comment), f"{call}: {comment:.60}"
    return len(calls)


# ---- Texts

def told_by_c(folder):
    source = folder / "texts.c"
    source.write_text("""#include <lafzimdo.h>
#include <lafzimdo_text.h>
#include <stdio.h>
static void show(const char *what, const char *(*text)(unsigned)) {
    for (unsigned n = 0; n < 300; n++)
        if (text(n)) printf("%s %u %s\\n", what, n, text(n));
}
int main(void) {
    show("refusal", lafzimdo_refusal_text); show("opcode", lafzimdo_opcode_name); show("rule", lafzimdo_rule_name);
    show("why", lafzimdo_rule_text); show("verdict", lafzimdo_verdict_name); show("warning", lafzimdo_warning_text);
    printf("version %d %s\\n", LAFZIMDO_VERSION, LAFZIMDO_VERSION_TEXT);
    if (lafzimdo_version() != LAFZIMDO_VERSION) return 1;
    return lafzimdo_opcode_name(~0u) != NULL;
}
""")
    run("cc", *STRICT, "-I", include, source, library, "-o", folder / "texts")
    return run(folder / "texts").splitlines()


def rust_texts(refusals, opcodes):
    finding, head = ((top / f"bindings/rust/src/{name}.rs").read_text() for name in ("finding", "header"))
    numbers = {name: int(number) for number, name in re.findall(r"(\d) => Rule::(\w+)\(", finding)}
    part = lambda text, name: re.search(rf"fn {name}\(&self\).*?\n    }}", text, re.S)[0]
    told = [f"refusal {number} {why}" for number, _, why in refusals] + [f"opcode {number} {name}" for number, name in enumerate(opcodes)]
    for what, name in (("rule", "name"), ("why", "why")):
        for left, text in re.findall(r'(Rule::.*?) => "(.*)"', part(finding, name)):
            told += [f"{what} {numbers[rule]} {text}" for rule in re.findall(r"Rule::(\w+)", left)]
    told += [f"verdict {number} {text}" for number, text in enumerate(re.findall(r'Verdict::\w+ => "(.*)"', finding))]
    codes = re.findall(r'Warning::\w+\(_\) => "(.*)"', part(head, "code"))
    told += [f"warning {number} {why} ({code})" for number, (why, code) in enumerate(zip(re.findall(r'Warning::\w+\(_\) => "(.*)"', part(head, "why")), codes), 1)]
    parts = [int(n) for n in re.findall(r"#define LAFZIMDO_VERSION_(?:MAJOR|MINOR|PATCH) (\d+)", header)]
    return told + [f"version {parts[0] * 1000000 + parts[1] * 1000 + parts[2]} {'.'.join(map(str, parts))}"]


# ---- Items

# Each array by the names of its items: how it is asked for, and the enum.
ASKED = {
    "summary": "lafzimdo_summary(chunk, len, limits, out)",
    "function": "lafzimdo_function(chunk, len, limits, f, out)",
    "head": "lafzimdo_head_at(chunk, len, limits, rows[f * LAFZIMDO_ROW_NUMBERS + LAFZIMDO_ROW_START], out)",
    "tail": "lafzimdo_tail_at(chunk, len, limits, tail_of(f), out)",
    "constant": "lafzimdo_constant(chunk, len, limits, f, e, out)",
    "upvalue": "lafzimdo_upvalue(chunk, len, limits, f, e, out)",
    "anchor": "lafzimdo_anchor(chunk, len, limits, f, e, out)",
    "local": "lafzimdo_local(chunk, len, limits, f, e, name, sizeof name, out)",
    "string": "lafzimdo_upvalue_name(chunk, len, limits, f, e, out)",
    "word_at": "first(lafzimdo_head_at, rows[f * LAFZIMDO_ROW_NUMBERS], LAFZIMDO_HEAD_INSTRUCTIONS, lafzimdo_word_at)",
    "delta_at": "first(lafzimdo_tail_at, tail_of(f), LAFZIMDO_TAIL_DELTAS, lafzimdo_delta_at)",
    "local_at": "first(lafzimdo_tail_at, tail_of(f), LAFZIMDO_TAIL_LOCALS, lafzimdo_local_at)",
    "field": "lafzimdo_instruction(chunk, len, limits, f, e, out) || lafzimdo_decode((uint32_t)out[0], out)",
}


def items_program(folder):
    """Prints every item of every array, by its name."""
    show = lambda name, memory="out": "".join(f'printf(" {item}=%llu", (unsigned long long){memory}[{item}]);\n' for item in enums(header)[f"lafzimdo_{name}_item"] if not item.endswith("_BEHIND") or name == "tail" or name.endswith("_at"))
    one = lambda name: f'if (({ASKED[name]}) == 0) {{ printf("{name} %zu %zu", f, e); {show(name)} printf("\\n"); }}\n'
    source = folder / "items.c"
    source.write_text(f"""#include <lafzimdo.h>
#include <stdio.h>
#include <stdlib.h>
static uint8_t chunk[1 << 24], name[1 << 16];
static uint32_t rows[1 << 20];
static uint64_t out[64], list[4 * LAFZIMDO_MOST_FINDINGS];
static size_t len, functions;
static const uint64_t limits[] = LAFZIMDO_CEILINGS;
static uint64_t tail_of(size_t f) {{
    uint64_t head[LAFZIMDO_HEAD_NUMBERS], at = 0;
    lafzimdo_head_at(chunk, len, limits, rows[f * LAFZIMDO_ROW_NUMBERS], head);
    at = head[LAFZIMDO_HEAD_NESTED_AT];
    for (size_t g = f + 1; g < functions; g++)
        if (rows[g * LAFZIMDO_ROW_NUMBERS + LAFZIMDO_ROW_PARENT] == f) at = rows[g * LAFZIMDO_ROW_NUMBERS + LAFZIMDO_ROW_END];
    return at;
}}
typedef uint64_t at_place(const uint8_t *, size_t, const uint64_t *, size_t, uint64_t *);
/* The first entry of the list whose count and place stand there in a part; 1 where it has none. */
static uint64_t first(at_place *part, size_t place, size_t count, at_place *entry) {{
    uint64_t parts[64];
    return part(chunk, len, limits, place, parts) || parts[count] == 0 || entry(chunk, len, limits, parts[count + 1], out);
}}
int main(void) {{
    size_t f = 0, e = 0;
    len = fread(chunk, 1, sizeof chunk, stdin);
    {one("summary")}
    const uint64_t strict = lafzimdo_strict_summary(chunk, len, limits, list);
    printf("strict %u %llu", LAFZIMDO_NUMBER(strict), (unsigned long long)(LAFZIMDO_HAS_PLACE(strict) ? LAFZIMDO_PLACE(strict) : 0)); {show("summary", "list")} printf("\\n");
    functions = out[LAFZIMDO_SUMMARY_FUNCTIONS];
    if (lafzimdo_index(chunk, len, limits, rows, sizeof rows / sizeof *rows, out)) return 1;
    for (f = 0; f < functions; f++) {{
        const uint32_t *row = rows + f * LAFZIMDO_ROW_NUMBERS;
        e = 0;
        printf("row %zu 0", f); {show("row", "row")} printf("\\n");
        {one("function")} {one("head")} {one("tail")} {one("word_at")} {one("delta_at")} {one("local_at")}
        for (e = 0; e < 300; e++) {{ {"".join(one(name) for name in ("constant", "upvalue", "anchor", "local", "string", "field"))} }}
    }}
    if (lafzimdo_findings(chunk, len, limits, list, sizeof list / sizeof *list, out)) return 1;
    printf("findings 0 0"); {show("findings")} printf("\\n");
    for (e = 0; e < out[LAFZIMDO_FINDINGS_COUNT]; e++) {{ const uint64_t *finding = list + e * LAFZIMDO_FINDING_NUMBERS; printf("finding 0 %zu", e); {show("finding", "finding")} printf("\\n"); }}
    return 0;
}}
""")
    run("cc", *STRICT, "-I", include, source, library, "-o", folder / "items")


LISTS = {"INSTRUCTIONS": "instructions", "CONSTANTS": "constants", "UPVALUES": "upvalues", "NESTED": "nested", "DELTAS": "deltas", "ANCHORS": "anchors", "LOCALS": "locals", "UPVALUE_NAMES": "upvalue_names"}


RIGHT = object()


def tag_of(k):
    return {"nil": 0, "boolean": 17 if k.get("value") else 1, "integer": 3, "float": 19, "short string": 4, "long string": 20}[k["type"]]


def expected_item(kind, f, e, item, shown, dump, check, chunk):
    """What an item is by its name alone, from the program's JSON; RIGHT where a place is right, None where the name says nothing that JSON has."""
    name = item.removeprefix(f"LAFZIMDO_{kind.upper()}_")
    function = dump["functions"][f]
    at = lambda what: shown[f"LAFZIMDO_{kind.upper()}_{what}"]
    text = lambda place, length, data: chunk[place:place + length] == (as_bytes(data) or b"")
    if name in LISTS and kind in ("function", "row", "head", "tail"):
        return len(function[LISTS[name]])
    if name.endswith("_LINE") and kind in ("function", "head"):
        return int(function["line_defined" if name == "FIRST_LINE" else "last_line_defined"])
    if name.startswith("SOURCE_") and (kind == "function" or kind == "head" and at("HAS_SOURCE")):
        return RIGHT if text(at("SOURCE_PLACE"), at("SOURCE_LENGTH"), function["source"]) else "source"
    match kind, name:
        case "summary", _:
            h, warnings = dump["header"], dump["warnings"] + [{"place": 0, "code": ""}] * 2
            codes = {"": 0, "L54-HEADER-003": 1, "L54-CHUNK-001": 2}
            return {"VERSION": h["version"], "FORMAT": h["format"], "INSTRUCTION_SIZE": h["instruction_size"], "INTEGER_SIZE": h["lua_integer_size"], "SIZE_T_SIZE": 8, "NUMBER_SIZE": h["lua_number_size"],
                    "TEST_NUMBER": struct.unpack("<Q", struct.pack("<d", h["luac_num"]))[0], "FUNCTIONS": dump["function_count"], "TRAILING_PLACE": dump["trailing_place"],
                    "TRAILING_LENGTH": len(as_bytes(dump["trailing_bytes"])), "WARNING_1": codes[warnings[0]["code"]], "WARNING_1_PLACE": warnings[0]["place"], "WARNING_2": codes[warnings[1]["code"]],
                    "WARNING_2_PLACE": warnings[1]["place"], "PADDED": dump["padded_numbers"]}[name]
        case ("function" | "row" | "head"), _:
            own = {"DEPTH": function["depth"], "PARENT": function["parent"], "PARAMETERS": function["numparams"], "VARARG": function["is_vararg"], "STACK": function["maxstacksize"],
                   "START": function["start"], "END": function["end"], "HAS_SOURCE": int(function["source"] is not None) if kind == "function" or f == 0 else None}
            if name == "INSTRUCTIONS_AT":
                words = b"".join(i["word"].to_bytes(4, "little") for i in function["instructions"])
                return RIGHT if text(at(name), len(words), {"hex": words.hex()}) else "words"
            if name == "CONSTANTS_AT" and function["constants"]:
                return RIGHT if chunk[at(name)] == tag_of(function["constants"][0]) else "a tag"
            return own.get(name)
        case "word_at", "WORD":
            return function["instructions"][0]["word"]
        case "delta_at", "DELTA":
            return function["deltas"][0] % 2**64
        case "local_at", ("STARTPC" | "ENDPC"):
            return int(function["locals"][0][name.lower()])
        case "local_at", "HAS_NAME":
            return 1
        case "local_at", ("NAME_PLACE" | "NAME_LENGTH"):
            return RIGHT if text(at("NAME_PLACE"), at("NAME_LENGTH"), function["locals"][0]["name"]) else "name"
        case ("word_at" | "delta_at" | "local_at"), "BEHIND":
            return RIGHT if function["start"] < shown[item] <= function["end"] else "behind"
        case "tail", "BEHIND":
            return function["end"]
        case "tail", "DELTAS_AT":
            deltas = bytes(delta % 256 for delta in function["deltas"])
            return RIGHT if text(at(name), len(deltas), {"hex": deltas.hex()}) else "deltas"
        case "constant", _:
            k = function["constants"][e]
            if "string" in k["type"] and name != "TAG":
                return RIGHT if text(at("VALUE"), at("LENGTH"), k["value"]) else "string"
            bits = int(k["value"]) % 2**64 if k["type"] == "integer" else int(k["bits"], 16) if k["type"] == "float" else None
            return {"TAG": tag_of(k), "VALUE": bits}.get(name)
        case "upvalue", _:
            return function["upvalues"][e][name.lower()]
        case "anchor", _:
            return int(function["anchors"][e][name.lower()])
        case "local", "NAME_LENGTH":
            return len(as_bytes(function["locals"][e]["name"]))
        case "local", _:
            return int(function["locals"][e][name.lower()])
        case "string", "PRESENT":
            return int(function["upvalue_names"][e] is not None)
        case "string", _:
            return RIGHT if text(at("PLACE"), at("LENGTH"), function["upvalue_names"][e]) else "name"
        case "findings", _:
            return {"VERDICT": ["valid-for-analysis", "invalid", "incomplete"].index(check["verdict"]), "COUNT": len(check["findings"])}[name]
        case "finding", "RULE":
            return ["OPCODE-001", "REG-001", "CONST-001", "UPVAL-001", "UPVAL-002", "PROTO-001", "JUMP-001"].index(check["findings"][e]["rule"]) + 1
        case "finding", _:
            return check["findings"][e][name.lower()] % 2**64
        case "field", "OPCODE":
            return function["instructions"][e]["opcode"]
        case "field", _:
            return {o["field"].upper(): o["value"] % 2**64 for o in function["instructions"][e]["operands"]}.get(name)
    return None


def items(folder):
    """Every item by its name, of samples with and without lines, one with anchors, and one that is damaged: what the name says is there."""
    items_program(folder)
    damaged = bytearray((top / "samples/recentre.luac").read_bytes() + b"xy")
    damaged[5] = 1
    at = damaged.index(0x800007B8.to_bytes(4, "little"))
    damaged[at:at + 4] = 0xFFFFFFB8.to_bytes(4, "little")
    damaged[at + 4:at + 8] = (14 | 30 << 7).to_bytes(4, "little")
    named = dict(chunks(folder))
    seen, summary, path = {}, {}, folder / "chunk"
    for chunk in (bytes(damaged), named["recentre.stripped.luac"], named["line_gap plain"], named["deep_upvalues plain"], named["constants"], named["varargs plain"], named["to_be_closed plain"]):
        path.write_bytes(chunk)
        dump, check = (objects(subprocess.run([program, command, "--json", path], capture_output=True, text=True).stdout)[0] for command in ("dump", "check"))
        for line in subprocess.run([folder / "items"], input=chunk, capture_output=True, check=True).stdout.decode().splitlines():
            kind, f, e, *pairs = line.split(" ")
            shown = {item: int(value) for item, value in (pair.split("=") for pair in pairs)}
            if kind == "strict":
                # The same numbers, or 31 and an array as it was.
                assert (f, e) == (("31", "5") if chunk[5] else ("0", "0")) and shown == ({item: 0 for item in summary} if chunk[5] else summary), line
                continue
            summary = shown if kind == "summary" else summary
            for item, value in shown.items():
                expected = expected_item(kind, int(f), int(e), item, shown, dump, check, chunk)
                assert expected is None or expected is RIGHT or value == expected, (line, item, expected)
                seen.setdefault(item, set()).update([] if expected is None else [value])
    # What is not seen by its name: the mode, and places of lists whose entries are of any length (walk.c goes on from those).
    unseen = {item for item, values in seen.items() if not values}
    assert unseen <= {"LAFZIMDO_FIELD_MODE"} | {f"LAFZIMDO_{part}_{name}_AT" for part in ("HEAD", "TAIL") for name in LISTS}, unseen
    return len(seen) - len(unseen)


# ---- Examples

def compiled(folder):
    """The headers alone, and the examples."""
    for name in ("lafzimdo", "lafzimdo_text"):
        for compiler, suffix, standards in (("gcc", "c", ("c99", "c11", "c17")), ("g++", "cpp", ("c++11", "c++17")), ("clang", "c", ("c99",)), ("clang++", "cpp", ("c++11",))):
            if compiler.startswith("clang") and subprocess.run(["which", compiler], capture_output=True).returncode:
                continue
            alone = folder / f"alone.{suffix}"
            alone.write_text(f"#include <{name}.h>\n#include <{name}.h>\n")
            for standard in standards:
                run(compiler, f"-std={standard}", *STRICT, "-I", include, "-fsyntax-only", alone)
    run("cc", "-std=c99", *STRICT, "-I", include, "-c", top / "bindings/c/lafzimdo_text.c", "-o", folder / "texts.o")
    for name in ("walk", "copy"):
        run("cc", "-std=c99", *STRICT, "-fsanitize=undefined,address", "-I", include, top / f"examples/{name}.c", library, "-o", folder / name)
    run("c++", "-std=c++11", "-Wall", "-Wextra", "-Werror", "-I", include, top / "examples/functions.cpp", library, "-o", folder / "functions")


def walked(dump):
    """What walk.c prints, from the program's JSON."""
    for f in dump["functions"]:
        yield f"function {f['number']} depth {f['depth']} lines {f['line_defined']} to {f['last_line_defined']}".encode()
        yield from (f"  {i['pc']} {i['name']}".encode() for i in f["instructions"])
        front = lambda text: b'"' + as_bytes(text).split(b"\0")[0] + b'"'
        yield from (b"  constant %d %s" % (at, front(k["value"])) for at, k in enumerate(f["constants"]) if "string" in k["type"])
        yield from (b"  local %d from %d %s" % (at, local["startpc"], front(local["name"])) for at, local in enumerate(f["locals"]))


def examples(folder):
    compiled(folder)
    path, out, seen = folder / "chunk", folder / "out", 0
    for name, chunk in chunks(folder):
        path.write_bytes(chunk)
        told = objects(subprocess.run([program, "dump", "--json", path], capture_output=True, text=True).stdout)
        if "refused" in told[0]:
            continue
        printed = subprocess.run([folder / "walk", path], capture_output=True, check=True).stdout
        assert printed == b"".join(line + b"\n" for line in walked(told[0])), name
        shown = run(folder / "copy", path, out)
        assert shown.startswith(f"{len(chunk)} bytes, copy {out.stat().st_size} bytes, valid-for-analysis"), shown
        copy = subprocess.run([program, "copy", path, "-"], capture_output=True, check=True).stdout
        assert out.read_bytes() == copy, name
        assert run(folder / "functions", path) == f"{path}: {told[0]['function_count']}\n"
        seen += 1
    path.write_bytes(chunk[:40])
    for example, arguments in (("walk", [path]), ("copy", [path, out]), ("functions", [path])):
        ran = subprocess.run([folder / example, *arguments], capture_output=True, text=True)
        assert ran.returncode == 1 and "the file is cut short (CORE-TRUNC-001)" in ran.stderr, ran
        ran = subprocess.run([folder / example, folder / "none", *arguments[1:]], capture_output=True, text=True)
        assert ran.returncode == 3, ran
    path.write_bytes(b"")
    assert subprocess.run([folder / "functions", path], capture_output=True).returncode == 1
    return seen


def main():
    refusals = [(int(number), name, why) for number, name, why in re.findall(r'^    (\d+) (\w+?)(?:\(usize\))? "(.*)";$', (top / "bindings/rust/src/refusal.rs").read_text(), re.M)]
    opcodes = re.findall(r'"(\w+)",', (top / "bindings/rust/src/word.rs").read_text().split("const NAMES")[1].split("];")[0])
    assert len(refusals) >= 28 and len(opcodes) == 83
    groups, count = names(refusals, opcodes)
    calls = costs()
    with tempfile.TemporaryDirectory() as folder:
        folder = pathlib.Path(folder)
        told, expected = told_by_c(folder), rust_texts(refusals, opcodes)
        assert sorted(told) == sorted(expected), set(told) ^ set(expected)
        by_name, seen = items(folder), examples(folder)
    print(f"c: {groups} enums with {count} names, {by_name} items seen by their names, {calls} calls with their costs, {len(told)} texts, 3 examples on {seen} chunks")
    assert seen > 100


if __name__ == "__main__":
    main()
