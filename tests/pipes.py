#!/usr/bin/env python3
# A pipe that nobody writes to, or reads the copy from, is told on standard error, and once somebody does the run goes
# on. The pipes of a shell, which are open already, are read in silence. Needs bash.
import os
import pathlib
import subprocess
import tempfile
import threading

top = pathlib.Path(__file__).resolve().parent.parent
program = pathlib.Path(os.environ.get("LAFZIMDO", top / "target/rust/release/lafzimdo")).absolute()
sample = top / "samples/recentre.luac"


def told(folder):
    """By each command that opens what a user names; the name in one line."""
    pipe = folder / "a\npipe"
    os.mkfifo(pipe)
    for arguments, filled, prints in (
        (["check", "-H", "a\npipe"], sample.read_bytes(), b"verdict valid-for-analysis"),
        (["copy", "a\npipe", "-"], sample.read_bytes(), sample.read_bytes()),
        (["list", "--files-from", "a\npipe"], bytes(sample), b": chunk 2372 "),
        (["sweep", sample, "0", "a\npipe"], b"1\n", b"deltas "),
    ):
        child = subprocess.Popen([program, *arguments], cwd=folder, stdout=subprocess.PIPE, stderr=subprocess.PIPE)
        line = said_by(child)
        assert line.startswith(b"lafzimdo: a"), line
        assert line.endswith(b"pipe: a pipe that nobody writes to yet; waiting\n"), line
        pipe.write_bytes(filled)
        out, more = child.communicate()
        assert (child.returncode, more) == (0, b"") and prints in out, (arguments, out, more)


def said_by(child):
    """Its first line on standard error. A program that says nothing is not waited for."""
    watch = threading.Timer(60, child.kill)
    watch.start()
    line = child.stderr.readline()
    watch.cancel()
    return line


def target(folder):
    """A pipe in the place of a copy, that nobody reads from."""
    pipe = folder / "init.luac"
    os.mkfifo(pipe)
    (folder / "from").mkdir()
    (folder / "from/init.luac").write_bytes(sample.read_bytes())
    for arguments, prints in (
        (["--into", ".", "from/init.luac"], b"from/init.luac: copy of 2372 bytes\n"),
        (["from/init.luac", "init.luac"], b""),
    ):
        command = [program, "copy", "--force", *arguments]
        child = subprocess.Popen(command, cwd=folder, stdout=subprocess.PIPE, stderr=subprocess.PIPE)
        line = said_by(child)
        assert line.endswith(b"init.luac: a pipe that nobody reads from yet; waiting\n"), line
        assert pipe.read_bytes() == sample.read_bytes()
        assert (child.communicate(), child.returncode) == ((prints, b""), 0), arguments
        assert pipe.is_fifo()


def silent(folder):
    for line in ("cat {0} | {1} check -H /dev/stdin", "{1} check -H <(cat {0})", "{1} check -H /dev/stdin < {0}"):
        line = line.format(f"'{sample}'", f"'{program}'")
        ran = subprocess.run(["bash", "-c", line], cwd=folder, capture_output=True, text=True)
        assert (ran.returncode, ran.stderr) == (0, "") and "valid-for-analysis" in ran.stdout, ran


def main():
    with tempfile.TemporaryDirectory() as folder:
        told(pathlib.Path(folder))
        target(pathlib.Path(folder))
        silent(pathlib.Path(folder))
    print("pipes: told where nobody writes or reads, then read or written; those of a shell in silence")


if __name__ == "__main__":
    main()
