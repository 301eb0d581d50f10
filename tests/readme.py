#!/usr/bin/env python3
# README.md and those of the bindings, taken at their word: programs compile and run, what they show is printed, commands do what they say, links are there. Stops at what is wrong.
import os
import pathlib
import re
import shutil
import subprocess
import sys
import tempfile

sys.dont_write_bytecode = True
top = pathlib.Path(__file__).resolve().parent.parent
program = pathlib.Path(os.environ.get("LAFZIMDO", top / "target/rust/release/lafzimdo"))
readme, rust, python = ((top / f"{folder}README.md").read_text() for folder in ("", "bindings/rust/", "bindings/python/"))
environment = {**os.environ, "PATH": f"{program.parent}:{os.environ['PATH']}", "PYTHONPATH": str(top / "bindings/python"), "PYTHONDONTWRITEBYTECODE": "1", "CARGO_TARGET_DIR": str(top / "target/rust")}


def run(*command, status=0, **options):
    ran = subprocess.run(command, capture_output=True, text=True, env=environment, **options)
    assert ran.returncode == status, f"{command}\n{ran.stdout}{ran.stderr}"
    return ran.stdout


def blocks(text, language):
    return [body for told, body in re.findall(r"^```(\w*)\n(.*?)^```$", text, re.M | re.S) if told == language]


def in_c(folder):
    (block,) = blocks(readme, "c")
    source = folder / "count.c"
    source.write_text(block + '#include <stdio.h>\nint main(void) { static uint8_t b[65536]; size_t n = fread(b, 1, sizeof b, stdin); printf("%ld\\n", functions(b, n)); return 0; }\n')
    run("cc", "-Wall", "-Wextra", "-Werror", "-I", top / "include", source, top / "target/lib/liblafzimdo.a", "-o", folder / "count-c")
    with open(top / "samples/recentre.luac") as sample:
        assert run(folder / "count-c", stdin=sample) == "7\n"


def in_python(folder):
    (block,) = blocks(readme, "python")
    (folder / "count.py").write_text(block + f"print(functions(open({str(top / 'samples/recentre.luac')!r}, 'rb').read()))\n")
    assert run(sys.executable, folder / "count.py") == "7\n"
    (block,) = blocks(python, "python")
    (folder / "more.py").write_text(block)
    told = run(sys.executable, folder / "more.py", cwd=top).splitlines()
    assert len(told) == 9 and told[7] == "SELF 16 65" and told[8] == "valid-for-analysis True", told


def in_rust(folder):
    ours, _ = blocks(readme, "rust")
    (theirs,) = blocks(rust, "rust")
    for name, source in (("count", ours + 'fn main() { println!("{:?}", functions(&std::fs::read(std::env::args().nth(1).unwrap()).unwrap())) }\n'), ("whole", theirs)):
        (folder / name / "src").mkdir(parents=True)
        (folder / name / "Cargo.toml").write_text(f'[package]\nname = "readme_{name}"\nversion = "0.1.0"\nedition = "2021"\n[dependencies]\nlafzimdo = {{ path = "{top}/bindings/rust" }}\n[workspace]\n')
        (folder / name / "src/main.rs").write_text(source)
    assert run("cargo", "run", "-q", "--offline", "--", top / "samples/recentre.luac", cwd=folder / "count") == "Ok(7)\n"
    shutil.copy(top / "samples/recentre.luac", folder / "whole/script.luac")
    told = run("cargo", "run", "-q", "--offline", cwd=folder / "whole")
    assert told.endswith("valid-for-analysis\n") and 'ShortString("freq")' in told
    assert (folder / "whole/archive.luac").read_bytes() == (top / "samples/recentre.luac").read_bytes()


def in_rattle(folder):
    """README's program over crate lua54: proved beside the repository's crates, compiled, and run on the sample. What rt
    keeps of these crates on this machine it takes over."""
    where = folder / "rattle"
    shutil.copytree(top / "crates", where / "crates", ignore=shutil.ignore_patterns("out", "must-fail"))
    program = where / "crates/readme"
    (program / "src").mkdir(parents=True)
    (program / "src/main.rt").write_text(blocks(readme, "rust")[1])
    (where / "crates.txt").write_text((top / "crates.txt").read_text() + "readme: format read_chunk show_chunk lua54\n")
    with open(top / "samples/recentre.luac") as sample:
        assert run("rt", "run", cwd=program, stdin=sample) == "7\n"


def listing():
    """The lines of the marker, as the program prints them, one behind the other."""
    (block,) = blocks(readme, "")
    told = run(program, "dump", "samples/recentre.luac", cwd=top)
    assert "\n" + block in told and block.count("\n") >= 10
    for line in block.splitlines():
        assert re.match(r" {4}\d+ \[6[45]\] ", line)


def commands(folder):
    """What README types on many files, and what the binding's README shows."""
    where = folder / "files"
    (where / "archive").mkdir(parents=True)
    (where / "copies").mkdir()
    sample = (top / "samples/recentre.luac").read_bytes()
    (where / "archive/a.luac").write_bytes(sample)
    (where / "archive/half.luac").write_bytes(sample[:1000])
    damaged = bytearray(sample)
    at = sample.index(0x800007B8.to_bytes(4, "little"))
    damaged[at:at + 4] = 0xFFFFFFB8.to_bytes(4, "little")
    (where / "damaged.luac").write_bytes(damaged)
    (where / "odd.luac").write_bytes(sample[:5] + b"\1" + sample[6:])
    typed = {line.split("#")[0].strip() for line in readme.splitlines() if line.startswith("    ") and "lafzimdo" in line}
    flat = "find . -name '*.luac' -print0 | lafzimdo copy --into copies --files-from -"
    assert flat in typed, flat
    run("sh", "-c", flat, status=1, cwd=where)
    assert sorted(path.name for path in (where / "copies").iterdir()) == ["a.luac", "damaged.luac", "odd.luac"]
    for path in (where / "copies").iterdir():
        path.unlink()
    # Two files of one name, in two folders.
    for around, more in (("one", b"1"), ("two", b"2")):
        (where / "archive" / around).mkdir()
        (where / "archive" / around / "init.luac").write_bytes(sample + more)
    expected = {
        "lafzimdo check archive/*.luac": (1, "archive/a.luac: verdict valid-for-analysis findings 0 warnings 0\narchive/half.luac: refused 1 at "),
        "lafzimdo check damaged.luac": (4, "verdict invalid\nfindings 1\nwarnings 0\nerror in function 0 at pc 51 (recentre.lua:64, JMP 16777216): "),
        "lafzimdo check --strict odd.luac": (1, ""),
        "find archive -name '*.luac' -print0 | lafzimdo copy --into copies --parents --files-from -": (1, ""),
        "lafzimdo list --json archive/*.luac | jq -r 'select(.refused) | .file'": (0, "archive/half.luac\n"),
    }
    for command, (status, begins) in expected.items():
        assert command in typed, command
        if "jq" not in command or shutil.which("jq"):
            assert run("sh", "-c", command, status=status, cwd=where).startswith(begins), command
    copies = {str(path.relative_to(where / "copies")): path.read_bytes() for path in (where / "copies").rglob("*.*")}
    one, two = sample + b"1", sample + b"2"
    assert copies == {"archive/a.luac": sample, "archive/one/init.luac": one, "archive/two/init.luac": two}
    for command in re.findall(r"^    lafzimdo ([a-z]+) ", readme + rust, re.M):
        run(program, command, "--help")


def links():
    seen = 0
    for name in ("README.md", "CHANGELOG.md", "bindings/rust/README.md", "bindings/python/README.md", "tests/README.md", "compare/README.md", "oracle/README.md", "docs/HOUSE.md", "docs/PROOF.md"):
        path = top / name
        for link in re.findall(r"\]\(([^)#]+)\)", path.read_text()):
            if "://" not in link and re.fullmatch(r"[\w./-]+", link):
                assert (path.parent / link).exists(), f"{name}: {link}"
                seen += 1
    return seen


def main():
    with tempfile.TemporaryDirectory() as folder:
        folder = pathlib.Path(folder)
        in_c(folder)
        in_python(folder)
        in_rust(folder)
        kit = shutil.which("rt")
        if kit:
            in_rattle(folder)
        listing()
        commands(folder)
        seen = links()
    print(f"readme: programs in C, Python, Rust, {'Rattle' if kit else 'not in Rattle (no rt)'}, the listing, the commands, {seen} links")


if __name__ == "__main__":
    main()
