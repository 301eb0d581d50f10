#!/usr/bin/env python3
# Installs into a folder, and uses what is there as a stranger would: programs in C (with the shared library and with the static one), C++, Rust and Python are built against it by pkg-config; the crate for
# Rust runs its tests where it stands alone; then everything is taken away again. Stops at what is wrong.
import os
import pathlib
import re
import shutil
import subprocess
import sys
import tempfile

sys.dont_write_bytecode = True
top = pathlib.Path(__file__).resolve().parent.parent
sample = top / "samples/recentre.luac"
version = re.search(r'LAFZIMDO_VERSION_TEXT "(.*)"', (top / "include/lafzimdo.h").read_text())[1]
FILES = ["bin/lafzimdo", "include/lafzimdo.h", "include/lafzimdo_text.h", "lib/liblafzimdo.a", "lib/liblafzimdo.so", "lib/liblafzimdo.so.0", f"lib/liblafzimdo.so.{version}",
         "lib/pkgconfig/lafzimdo.pc", "share/man/man1/lafzimdo.1", "share/man/man3/lafzimdo.3"]


def run(*command, **options):
    ran = subprocess.run(command, capture_output=True, text=True, **options)
    assert ran.returncode == 0, f"{command}\n{ran.stdout}{ran.stderr}"
    return ran.stdout


def make(*arguments):
    run("make", "-C", top, *arguments)


def files_in(folder):
    return sorted(str(path.relative_to(folder)) for path in folder.rglob("*") if not path.is_dir())


def installed(folder):
    """Into a folder of packages first, then to where it is used."""
    packages, prefix = folder / "packages", folder / "prefix"
    make("install", "PREFIX=/opt/lafzimdo", f"DESTDIR={packages}")
    assert files_in(packages) == sorted(f"opt/lafzimdo/{name}" for name in FILES), files_in(packages)
    assert "prefix=/opt/lafzimdo\n" in (packages / "opt/lafzimdo/lib/pkgconfig/lafzimdo.pc").read_text()
    make("uninstall", "PREFIX=/opt/lafzimdo", f"DESTDIR={packages}")
    assert files_in(packages) == []
    make("install", f"PREFIX={prefix}")
    assert files_in(prefix) == sorted(FILES)
    return prefix


def looked_at(prefix):
    """The shared library: its name, what it shows, and that its code is shared."""
    library = prefix / "lib/liblafzimdo.so"
    told = run("readelf", "-d", library)
    assert "Library soname: [liblafzimdo.so.0]" in told and "TEXTREL" not in told, told
    assert re.search(r"GNU_STACK .* RW ", run("readelf", "-lW", library)), "its stack may be executed"
    needed = re.findall(r"Shared library: \[(.*)\]", told)
    assert set(needed) <= {"libc.so.6"}, needed
    shown = set(re.findall(r" T (\w+)", run("nm", "-D", "--defined-only", library)))
    headers = "".join((prefix / f"include/{name}.h").read_text() for name in ("lafzimdo", "lafzimdo_text"))
    declared = set(re.findall(r"^(?:uint64_t |const char \*)(lafzimdo_\w+)\(", headers, re.M))
    assert shown == declared, shown ^ declared
    assert run(prefix / "bin/lafzimdo", "--version") == f"lafzimdo {version}\n"
    for page in ("1", "3"):
        assert run("groff", "-man", "-Tutf8", "-ww", "-z", prefix / f"share/man/man{page}/lafzimdo.{page}") == ""


def man_pages(prefix):
    """They name every command and option of the program, and every call."""
    page = (prefix / "share/man/man1/lafzimdo.1").read_text().replace("\\-", "-")
    for command in re.findall(r"^  ([a-z]+) ", run(prefix / "bin/lafzimdo", "--help"), re.M):
        assert f"\n.B lafzimdo {command}\n" in page, command
        if command != "help":
            for option in re.findall(r"--[a-z-]+", run(prefix / "bin/lafzimdo", command, "--help")):
                assert re.search(rf"{option}\b", page), f"{command} {option}"
    page = (prefix / "share/man/man3/lafzimdo.3").read_text()
    for call in re.findall(r"^(?:uint64_t |const char \*)(lafzimdo_\w+)\(", (prefix / "include/lafzimdo.h").read_text() + (prefix / "include/lafzimdo_text.h").read_text(), re.M):
        assert re.search(rf"\b{call}\b", page), call


def from_c(prefix, folder, environment):
    flags = run("pkg-config", "--cflags", "--libs", "lafzimdo", env=environment).split()
    compile_only = run("pkg-config", "--cflags", "lafzimdo", env=environment).split()
    assert run("pkg-config", "--modversion", "lafzimdo", env=environment).strip() == version
    shared = {**environment, "LD_LIBRARY_PATH": str(prefix / "lib")}
    walked = {}
    for name, source, command in [("walk", "walk.c", "cc"), ("copy", "copy.c", "cc"), ("functions", "functions.cpp", "c++")]:
        run(command, "-Wall", "-Werror", top / "examples" / source, *flags, "-o", folder / name)
        assert "liblafzimdo.so.0" in run("ldd", folder / name, env=shared)
        run(command, top / "examples" / source, *compile_only, prefix / "lib/liblafzimdo.a", "-o", folder / f"{name}-static")
        arguments = [sample] + ([folder / "copied"] if name == "copy" else [])
        walked[name] = run(folder / name, *arguments, env=shared)
        assert walked[name] == run(folder / f"{name}-static", *arguments), name
    assert walked["functions"] == f"{sample}: 7\n" and walked["walk"].startswith("function 0 depth 0 lines 0 to 0\n")
    assert (folder / "copied").read_bytes() == sample.read_bytes()


def from_rust(folder, environment):
    """The crate and the example, taken out of the repository: the library is found by pkg-config alone."""
    (folder / "bindings").mkdir()
    shutil.copytree(top / "bindings/rust", folder / "bindings/rust", ignore=shutil.ignore_patterns(".cargo", "target"))
    shutil.copytree(top / "examples/rust", folder / "examples/rust")
    environment = {**environment, "CARGO_TARGET_DIR": str(folder / "cargo")}
    environment.pop("LAFZIMDO_LIB", None)
    told = run("cargo", "run", "-q", "--offline", "--", sample, cwd=folder / "examples/rust", env=environment)
    assert told.startswith(f"{sample}: 7 functions, valid-for-analysis\n  0 from line 0: freq, level, "), told
    told = run("cargo", "test", "--offline", cwd=folder / "bindings/rust", env=environment)
    results = [int(n) for n in re.findall(r"test result: ok\. (\d+) passed; 0 failed", told)]
    assert sum(results) >= 40, told
    # Another version is not taken.
    pc = pathlib.Path(environment["PKG_CONFIG_PATH"]) / "lafzimdo.pc"
    right = pc.read_text()
    pc.write_text(right.replace(f"Version: {version}", "Version: 99.0.0"))
    ran = subprocess.run(["cargo", "check", "--offline"], cwd=folder / "bindings/rust", env={**environment, "CARGO_TARGET_DIR": str(folder / "other")}, capture_output=True, text=True)
    assert ran.returncode != 0 and "pkg-config must find lafzimdo" in ran.stderr, ran.stderr
    pc.write_text(right)
    return sum(results)


def from_python(prefix, folder, environment):
    """The module, taken out of the repository: the library is found as any other, or by LAFZIMDO_SO."""
    (folder / "python").mkdir()
    shutil.copy(top / "bindings/python/lafzimdo.py", folder / "python")
    script = "import lafzimdo, sys; print(len(lafzimdo.Chunk.read(open(sys.argv[1], 'rb').read()).functions))"
    environment = {**environment, "PYTHONPATH": str(folder / "python"), "PYTHONDONTWRITEBYTECODE": "1"}
    for found in ({"LD_LIBRARY_PATH": str(prefix / "lib")}, {"LAFZIMDO_SO": str(prefix / "lib")}, {"LAFZIMDO_SO": str(prefix / "lib/liblafzimdo.so")}):
        assert run(sys.executable, "-c", script, sample, env={**environment, **found}) == "7\n"
    ran = subprocess.run([sys.executable, "-c", script, sample], env=environment, capture_output=True, text=True)
    assert ran.returncode != 0 and "liblafzimdo is not found" in ran.stderr, ran


def main():
    with tempfile.TemporaryDirectory(dir="/dev/shm" if os.path.isdir("/dev/shm") else None) as folder:
        folder = pathlib.Path(folder)
        prefix = installed(folder)
        environment = {**os.environ, "PKG_CONFIG_PATH": str(prefix / "lib/pkgconfig")}
        looked_at(prefix)
        man_pages(prefix)
        from_c(prefix, folder, environment)
        tests = from_rust(folder, environment)
        from_python(prefix, folder, environment)
        make("uninstall", f"PREFIX={prefix}")
        assert files_in(prefix) == []
    print(f"install: {len(FILES)} files; programs in C, C++, Rust and Python built against them; {tests} tests of the crate by itself; nothing left behind")


if __name__ == "__main__":
    main()
