# A folder in which `copy` runs, for copies.py and copying.py: what is there before, and what is to be there afterwards.
import os
import pathlib
import re
import shutil
import signal
import subprocess

top = pathlib.Path(__file__).resolve().parent.parent
program = pathlib.Path(os.environ.get("LAFZIMDO", top / "target/rust/release/lafzimdo")).absolute()
sample = (top / "samples/recentre.luac").read_bytes()
PART = re.compile(r"\.lafzimdo-\d+-[0-9a-f]{16}\.part")

# Runs, and whether older copies are there before.
KINDS = {
    "one": (["a.luac", "../out/a.luac"], False),
    "force": (["--force", "a.luac", "../out/a.luac"], True),
    "link": (["--force", "a.luac", "../out/link"], True),
    "into": (["--into", "../out", "a.luac", "b.luac", "c.luac"], False),
    "into force": (["--force", "--into", "../out", "a.luac", "b.luac", "c.luac"], True),
    "parents": (["--into", "../out", "--parents", "one/init.luac", "two/deep/init.luac"], False),
}


def chunk(mark, length):
    """A chunk with trailing bytes. It is its own archive copy."""
    return (sample + mark * length)[:length]


def defaults():
    """Signals as from a terminal."""
    for number in (signal.SIGINT, signal.SIGTERM, signal.SIGXFSZ):
        signal.signal(number, signal.SIG_DFL)


def run(folder, *arguments, status=0, **options):
    """Runs the program in `from`, and gives what came of it."""
    options = {"preexec_fn": defaults, **options}
    ran = subprocess.run([program, *arguments], cwd=folder / "from", capture_output=True, text=True, **options)
    assert status is None or ran.returncode == status, f"{arguments}: {ran.returncode}\n{ran.stdout}{ran.stderr}"
    return ran


def files_in(folder):
    """Each file's name and bytes; of a link where it leads to."""
    def held(path):
        return os.readlink(path) if path.is_symlink() else path.read_bytes()
    paths = [pathlib.Path(around) / name for around, _, names in os.walk(folder) for name in names]
    return {str(path.relative_to(folder)): held(path) for path in paths}


class Scene:
    """A fresh folder with `from` and `out`, for one kind of run on files of this length."""

    def __init__(self, folder, kind, length=10_000):
        self.folder, self.out, (self.arguments, older) = folder, folder / "out", KINDS[kind]
        shutil.rmtree(folder, ignore_errors=True)
        self.out.mkdir(parents=True)
        self.older = chunk(b"-", length)
        names = [name for name in self.arguments if name.endswith(".luac") and not name.startswith("../")]
        self.final = {name: chunk(name[:1].encode(), length) for name in names}
        for name, bytes in self.final.items():
            (folder / "from" / name).parent.mkdir(parents=True, exist_ok=True)
            (folder / "from" / name).write_bytes(bytes)
        if kind == "link":
            (self.out / "far").mkdir()
            (self.out / "link").symlink_to("far/a.luac")
            self.final = {"far/a.luac": self.final["a.luac"], "link": "far/a.luac"}
        for name in self.final if older else ():
            if name != "link":
                (self.out / name).write_bytes(self.older)

    def run(self, **options):
        return run(self.folder, "copy", *self.arguments, **options)

    def halves(self):
        """What has a final name and is neither the copy nor the older one."""
        whole, files = {*self.final.values(), self.older}, files_in(self.out)
        named = [name for name in files if not PART.fullmatch(os.path.basename(name))]
        return [f"{name} is a half: {len(files[name])} bytes" for name in named if files[name] not in whole]

    def ended(self):
        """Whether all is there, and nothing besides."""
        return files_in(self.out) == self.final

    def again(self):
        """What is wrong after a run was stopped: halves, or that the same command does not go on from there."""
        wrong = self.halves()
        ran = self.run(status=None)
        if (ran.returncode, ran.stderr) != (0, ""):
            wrong.append(f"again: {ran.returncode} {ran.stdout}{ran.stderr}")
        elif not self.ended():
            wrong.append(f"again: {sorted(files_in(self.out))}")
        return wrong[:1]
