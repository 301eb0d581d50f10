#!/usr/bin/env python3
# How far a long run has come is told on standard error where that is a terminal and standard output is none, not before a second has passed, and is taken away again. A pipe that is filled late makes the run long.
import os
import pathlib
import pty
import subprocess
import sys
import tempfile
import threading
import time

top = pathlib.Path(__file__).resolve().parent.parent
program = os.environ.get("LAFZIMDO", top / "target/rust/release/lafzimdo")
sample = (top / "samples/recentre.luac").read_bytes()


def told(folder, late, terminal_out=False):
    """What is told of a run on three files, of which one comes so many seconds late."""
    names = [folder / "one", folder / "late", folder / "two"]
    os.mkfifo(names[1])

    def fill():
        time.sleep(late)
        names[1].write_bytes(sample)
    writer = threading.Thread(target=fill)
    writer.start()
    ours, theirs = pty.openpty()
    run = subprocess.Popen([program, "list", *names], stdout=theirs if terminal_out else subprocess.PIPE, stderr=theirs)
    os.close(theirs)
    shown = b""
    while True:
        try:
            part = os.read(ours, 4096)
        except OSError:  # the other side is closed
            break
        if not part:
            break
        shown += part
    lines = b"" if terminal_out else run.stdout.read()
    writer.join()
    assert run.wait() == 0
    names[1].unlink()
    return shown, lines


def main():
    with tempfile.TemporaryDirectory() as folder:
        folder = pathlib.Path(folder)
        for name in ("one", "two"):
            (folder / name).write_bytes(sample)
        shown, lines = told(folder, 1.3)
        assert lines.count(b"\n") == 3 and lines.count(b"verdict") == 3
        assert shown == b"\r2 of 3 files\r\x1b[K", shown
        shown, lines = told(folder, 0.1)
        assert (shown, lines.count(b"\n")) == (b"", 3), shown
        shown, _ = told(folder, 1.3, terminal_out=True)
        assert b"of 3 files" not in shown and shown.count(b"verdict") == 3, shown
    print("progress: told of a long run, not of a short one, nor where the files' lines show it")


if __name__ == "__main__":
    main()
