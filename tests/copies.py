#!/usr/bin/env python3
# Copies are whole or not there: whenever a run is killed, wherever the disk is full, and where two run at once, no
# final name has a half; the same command again goes on, and leaves nothing beside. Needs cc: steps.c kills the program
# at each of its steps on the disk, or makes the step fail.
import errno
import os
import pathlib
import random
import resource
import signal
import subprocess
import sys
import tempfile
import time

sys.dont_write_bytecode = True
from scene import KINDS, PART, Scene, chunk, defaults, files_in, program, top

LONGEST = 1 << 24
chance = random.Random(1)


class Steps:
    """A run's steps on the disk, counted by steps.c."""

    def __init__(self, folder):
        self.library, self.log = folder / "steps.so", folder / "log"
        command = ["cc", "-shared", "-fPIC", "-Wall", "-Werror", top / "tests/steps.c", "-o", self.library, "-ldl"]
        subprocess.run(command, check=True)

    def environment(self, **told):
        return {**os.environ, "LD_PRELOAD": str(self.library), **{name: str(value) for name, value in told.items()}}

    def of(self, folder, kind, **told):
        """The calls of a run of this kind."""
        self.log.write_text("")
        scene = Scene(folder, kind)
        scene.run(env=self.environment(STEP_LOG=self.log, **told))
        assert scene.ended(), (kind, sorted(files_in(scene.out)))
        return self.log.read_text().split()


def judged(what, wrong, runs):
    assert not wrong, f"{what}: wrong in {len(wrong)} of {runs} runs, such as\n" + "\n".join(wrong[:5])
    return runs


def flushed_before_named(folder, steps):
    """A file is flushed between its writing and its naming; last its folders, with those that lead to them."""
    new, old = "open write fsync linkat unlink ", "open fchmod write fsync rename unlink "
    expected = {
        "one": new + "fsync",
        "force": old + "fsync",
        "link": old + "fsync",
        "into": new * 3 + "fsync",
        "into force": old * 3 + "fsync",
        "parents": f"mkdir {new}mkdir mkdir {new}" + "fsync " * 4,
    }
    for kind in KINDS:
        calls = steps.of(folder, kind)
        assert calls == expected[kind].split(), (kind, calls)


def killed_at_each_step(folder, steps):
    wrong, runs = [], 0
    for kind in KINDS:
        for at in range(1, len(steps.of(folder, kind)) + 1):
            scene = Scene(folder, kind)
            scene.run(status=-signal.SIGKILL, env=steps.environment(STEP_AT=at))
            wrong += [f"{kind}, step {at}: {what}" for what in scene.again()]
            runs += 1
    return judged("killed at each step", wrong, runs)


def failing_at_each_step(folder, steps):
    """A full disk: each call fails in turn. What cannot be written stops no other file, and nothing is left beside."""
    runs, seen = 0, set()
    for kind in KINDS:
        for call in ("open", "write", "fsync", "fchmod", "linkat", "rename", "mkdir"):
            for at in range(1, len(steps.of(folder, kind, STEP_CALL=call)) + 1):
                scene = Scene(folder, kind)
                full = steps.environment(STEP_CALL=call, STEP_AT=at, STEP_ERROR=errno.ENOSPC)
                ran, there = scene.run(status=None, env=full), files_in(scene.out)
                where = f"{kind}, {call} {at}: {ran.returncode} {ran.stdout}{ran.stderr}{sorted(there)}"
                # Where no link can be made the file is renamed.
                assert ran.returncode == (0 if call == "linkat" else 3), where
                assert call == "linkat" or "No space left on device" in ran.stdout + ran.stderr, where
                assert not scene.halves() and not any(PART.search(name) for name in there), where
                assert sum(there.get(name) != bytes for name, bytes in scene.final.items()) <= 1, where
                assert not scene.again(), where
                seen.add(call)
                runs += 1
    assert len(seen) == 7, seen
    return runs


def harmless_steps(folder, steps):
    """What somebody takes away is written again; a folder that its file system cannot flush is no trouble."""
    for kind in KINDS:
        last = len(steps.of(folder, kind, STEP_CALL="fsync"))
        for told in ({"STEP_AT": 1, "STEP_TAKE": 1}, {"STEP_AT": last, "STEP_ERROR": errno.EINVAL}):
            scene = Scene(folder, kind)
            scene.run(env=steps.environment(STEP_CALL="fsync", **told))
            assert scene.ended(), (kind, told, sorted(files_in(scene.out)))


def another_is_first(folder, steps):
    """Between the look at the name and the naming: the very copy is as good as ours, another file stays."""
    for bytes, status in ((None, 0), (b"other", 3)):
        scene, first = Scene(folder, "one"), folder / "first"
        first.write_bytes(bytes or scene.final["a.luac"])
        ran = scene.run(status=status, env=steps.environment(STEP_FIRST=first))
        assert os.path.samefile(first, scene.out / "a.luac") and len(files_in(scene.out)) == 1, ran
        assert status == 0 or "it exists already, and is no such copy" in ran.stderr, ran


def limited(length, number):
    """No file may grow beyond this length: a write beyond it is answered by SIGXFSZ, or fails where that is ignored."""
    def limit():
        resource.setrlimit(resource.RLIMIT_FSIZE, (length, length))
        resource.setrlimit(resource.RLIMIT_CORE, (0, 0))
        signal.signal(signal.SIGXFSZ, number)
    return limit


def without_room(folder):
    """Killed within the writing, at this byte; and an error there."""
    wrong, runs = [], 0
    for kind in KINDS:
        for length in (0, 1, 4096, 99_999):
            scene = Scene(folder, kind, 100_000)
            scene.run(status=-signal.SIGXFSZ, preexec_fn=limited(length, signal.SIG_DFL))
            wrong += [f"{kind}, {length} bytes: {what}" for what in scene.again()]
            scene = Scene(folder, kind, 100_000)
            before = files_in(scene.out)
            ran = scene.run(status=3, preexec_fn=limited(length, signal.SIG_IGN))
            assert "File too large" in ran.stdout + ran.stderr, ran
            assert files_in(scene.out) == before, (kind, length, sorted(files_in(scene.out)))
            runs += 2
    return judged("killed within the writing", wrong, runs)


def bytes_in(folder):
    """The lengths of all files, also of one that is being written; -1 where one is renamed meanwhile."""
    try:
        return sum(1 + entry.stat(follow_symlinks=False).st_size for entry in os.scandir(folder))
    except FileNotFoundError:
        return -1


def killed_by_signals(folder):
    """By real signals, on long files: when something of the copy is seen, when it has grown, and by chance."""
    wrong, runs = [], 0
    for kind, length in (("one", LONGEST), ("force", LONGEST), ("into", LONGEST // 4)):
        began = time.monotonic()
        Scene(folder, kind, length).run()
        took = time.monotonic() - began
        for number in (signal.SIGKILL, signal.SIGTERM, signal.SIGINT):
            for round in range(6):
                scene = Scene(folder, kind, length)
                seen = bytes_in(scene.out) + (0 if round % 3 == 0 else chance.randrange(length))
                command = [program, "copy", *scene.arguments]
                child = subprocess.Popen(command, cwd=folder / "from", stdout=subprocess.DEVNULL, preexec_fn=defaults)
                if round % 3 == 2:
                    time.sleep(chance.uniform(0, took))
                while round % 3 != 2 and bytes_in(scene.out) <= seen and child.poll() is None:
                    pass
                child.send_signal(number)
                assert child.wait() in (0, -number), child.returncode
                wrong += [f"{kind}, {number.name}: {what}" for what in scene.again()]
                runs += 1
    return judged("killed by signals", wrong, runs)


def two_at_once(folder):
    """The same files into one folder: what one run has copied is there already for the other."""
    (folder / "from").mkdir(parents=True)
    copies = {f"{number}.luac": chunk(b"a", 20_000) for number in range(300)}
    for name, bytes in copies.items():
        (folder / "from" / name).write_bytes(bytes)
    for options in ([], ["--force"]):
        out = folder / f"out{len(options)}"
        out.mkdir()
        command = [program, "copy", *options, "--into", out, *copies]
        both = [subprocess.Popen(command, cwd=folder / "from", stdout=subprocess.PIPE, text=True) for _ in range(2)]
        lines = [child.communicate()[0].splitlines() for child in both]
        wrong = [line for told in lines for line in told if ": copy of 20000 bytes" not in line]
        assert [child.returncode for child in both] == [0, 0], wrong
        assert files_in(out) == copies
        copied = [line for told in lines for line in told if line.endswith(": copy of 20000 bytes")]
        assert [len(told) for told in lines] == [300, 300] and len(copied) == (600 if options else 300), len(copied)


def main():
    with tempfile.TemporaryDirectory() as folder:
        folder = pathlib.Path(folder)
        steps = Steps(folder)
        flushed_before_named(folder / "calls", steps)
        killed = killed_at_each_step(folder / "steps", steps)
        failing = failing_at_each_step(folder / "failing", steps)
        harmless_steps(folder / "harmless", steps)
        another_is_first(folder / "first", steps)
        room = without_room(folder / "room")
        signals = killed_by_signals(folder / "signals")
        two_at_once(folder / "two")
    print(f"copies: whole or not there, in {killed} runs killed at each step, {failing} with a step that fails, "
          f"{room} without room, {signals} killed by signals; two at once")


if __name__ == "__main__":
    main()
