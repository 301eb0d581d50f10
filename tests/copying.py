#!/usr/bin/env python3
# What `copy` does with what is there: its own copy, other files, links, permissions, the longest name, what a dead run
# has left, what is no folder; and that it goes on where nobody reads its lines. Needs bash.
import os
import pathlib
import subprocess
import sys
import tempfile

sys.dont_write_bytecode = True
from scene import KINDS, Scene, chunk, files_in, program, run


def what_is_there(folder):
    scene = Scene(folder, "one")
    target, copy = scene.out / "a.luac", scene.final["a.luac"]
    scene.run()
    before = target.stat()
    assert (scene.run().stdout, target.stat()) == ("", before)
    assert run(folder, "copy", "--into", "../out", "a.luac").stdout == "a.luac: copy of 10000 bytes, there already\n"
    # Cut in its trailing bytes it is a chunk as well, but no such copy.
    for other in (copy[:-1], copy[:-1] + b"x", copy + b"x", b""):
        target.write_bytes(other)
        why = "it exists already, and is no such copy; --force overwrites it\n"
        assert scene.run(status=3).stderr == f"lafzimdo: ../out/a.luac: {why}"
        assert run(folder, "copy", "--into", "../out", "a.luac", status=3).stdout == f"a.luac: ../out/a.luac: {why}"
        assert target.read_bytes() == other
    target.chmod(0o604)
    run(folder, "copy", "--force", "a.luac", "../out/a.luac")
    assert (target.read_bytes(), target.stat().st_mode & 0o777) == (copy, 0o604)


def links(folder):
    """A link stays, and what it leads to is replaced, with its permissions; one that leads nowhere takes no copy."""
    scene = Scene(folder, "one")
    target, link, copy = scene.out / "a.luac", scene.out / "link", scene.final["a.luac"]
    link.symlink_to("../out/a.luac")
    for force in ([], ["--force"]):
        ran = run(folder, "copy", *force, "a.luac", "../out/link", status=3)
        assert ran.stderr == "lafzimdo: ../out/link: it is a link to a file that is not there\n", ran
        assert files_in(scene.out) == {"link": "../out/a.luac"}
    target.write_bytes(b"old")
    target.chmod(0o460)
    assert "it exists already" in run(folder, "copy", "a.luac", "../out/link", status=3).stderr
    run(folder, "copy", "--force", "a.luac", "../out/link")
    assert files_in(scene.out) == {"link": "../out/a.luac", "a.luac": copy}
    assert target.stat().st_mode & 0o777 == 0o460
    run(folder, "copy", "a.luac", "../out/link")


def the_longest_name(folder):
    scene, longest = Scene(folder, "one"), "n" * 250 + ".luac"
    for old, force in ((None, []), (None, ["--force"]), (scene.final["a.luac"], []), (b"old", ["--force"])):
        for there in scene.out.iterdir():
            there.unlink()
        if old is not None:
            (scene.out / longest).write_bytes(old)
        run(folder, "copy", *force, "a.luac", f"../out/{longest}")
        assert files_in(scene.out) == {longest: scene.final["a.luac"]}
    assert "File name too long" in run(folder, "copy", "a.luac", f"../out/n{longest}", status=3).stderr


def leftovers(folder):
    """What a dead run has left is taken away, also where all is there, and where another program has its number by now
    (1, and the test's own); what a living run writes stays, and what only looks like it."""
    folder.mkdir()
    os.mkfifo(folder / "pipe")
    # It waits for the pipe.
    living = subprocess.Popen([program, "check", folder / "pipe"], stderr=subprocess.DEVNULL)
    dead = subprocess.Popen(["true"])
    dead.wait()
    part = lambda process, chance="0123456789abcdef": f".lafzimdo-{process}-{chance}.part"
    left, other = [part(process) for process in (dead.pid, 1, os.getpid())], part(dead.pid, "fedcba9876543210")
    kept = [part(living.pid), left[0][1:], left[0].replace("abcdef", ""), f"{left[0]}.luac"]
    try:
        left_of_each_kind(folder / "scene", left, other, kept)
        assert living.poll() is None
    finally:
        living.kill()
        living.wait()


def left_of_each_kind(folder, left, other, kept):
    for kind in KINDS:
        scene = Scene(folder, kind)
        beside = scene.out / "far" if kind == "link" else scene.out
        for _ in range(2):
            for name in (*left, *kept):
                (beside / name).write_bytes(b"half")
            (beside / other).symlink_to(left[0])
            scene.run()
            for name in (other, *kept):
                (beside / name).unlink()
            assert scene.ended(), (kind, sorted(files_in(scene.out)))


def no_folders(folder):
    """With --parents, a file, a pipe, or a link to nothing or to a pipe, where a folder should be: told, not waited
    for; the others are copied."""
    scene = Scene(folder, "parents")
    one = scene.out / "one"
    makers = (one.touch, lambda: os.mkfifo(one), lambda: one.symlink_to("nowhere"), lambda: one.symlink_to("pipe"))
    os.mkfifo(scene.out / "pipe")
    for make in makers:
        make()
        ran = scene.run(status=3, timeout=60)
        assert ran.stderr == "", ran
        assert ran.stdout.startswith("one/init.luac: ../out/one/init.luac: ../out/one is no folder\ntwo/deep/"), ran
        assert (scene.out / "two/deep/init.luac").read_bytes() == scene.final["two/deep/init.luac"]
        one.unlink()
    (scene.out / "pipe").unlink()
    scene.run()
    assert scene.ended()


def without_a_reader(folder):
    """As behind `| head -1`: copying goes on, and the status is that of the files. Another error is told at the end."""
    (folder / "from").mkdir(parents=True)
    names = [f"{number}.luac" for number in range(300)]
    for name in names:
        (folder / "from" / name).write_bytes(chunk(b"a", 3000))
    ours, closed = os.pipe()
    os.close(ours)
    full = os.open("/dev/full", os.O_WRONLY)
    for number, (out, more, status, says) in enumerate((
        (closed, [], 0, ""),
        (closed, ["no.luac"], 3, ""),
        (full, [], 3, "lafzimdo: standard output: No space left on device (os error 28)\n"),
    )):
        into = folder / str(number)
        into.mkdir()
        command = [program, "copy", "--into", into, *more, *names]
        ran = subprocess.run(command, cwd=folder / "from", stdout=out, stderr=subprocess.PIPE, text=True)
        assert (ran.returncode, ran.stderr) == (status, says), ran
        assert sorted(files_in(into)) == sorted(names)
    into = folder / "head"
    into.mkdir()
    line = f"'{program}' copy --into '{into}' *.luac | head -1; exit ${{PIPESTATUS[0]}}"
    subprocess.run(["bash", "-c", line], cwd=folder / "from", stdout=subprocess.DEVNULL, check=True)
    assert sorted(files_in(into)) == sorted(names)
    os.close(closed)
    os.close(full)


def main():
    with tempfile.TemporaryDirectory() as folder:
        folder = pathlib.Path(folder)
        what_is_there(folder / "there")
        links(folder / "links")
        the_longest_name(folder / "longest")
        leftovers(folder / "left")
        no_folders(folder / "folders")
        without_a_reader(folder / "unread")
    print("copying: what is there, links, the longest name, what dead runs have left, what is no folder, no reader")


if __name__ == "__main__":
    main()
