"""Cases: what a command is given, and what it must write.

A case in a folder has `in` (standard input), `args` (the words, one a line), `out` (standard output) and `status`.
`err`, where it stands, is what standard error must have. A large `in` or `out` is printed by `in.py` or `out.py`.

Where sessions or workers race, a case has `runs` in place of `out`: it is played so many times, and the judge must take
each output for a run of the policy machine. Its `status` is `-` where that depends on the race.
"""
import difflib
import pathlib
import subprocess
import sys

from judge import script_options
from judge.runs import wrong_with

TOP = pathlib.Path(__file__).resolve().parent.parent
SECONDS = 60


def lines_of(data):
    return data.decode("utf-8", errors="backslashreplace").splitlines(keepends=True)


def difference(name, wanted, got):
    """What two texts differ in, in lines; none where they are equal."""
    if wanted == got:
        return []
    return list(difflib.unified_diff(lines_of(wanted), lines_of(got), f"{name}, as it must be", f"{name}, as it is", n=2))


class Case:
    """A case in a folder."""

    def __init__(self, kind, folder):
        self.folder, self.name = folder, f"{kind} {folder.name}"

    def part(self, name):
        """The bytes of a part, and None where the case has none."""
        if (self.folder / f"{name}.py").is_file():
            return subprocess.run([sys.executable, self.folder / f"{name}.py"], stdout=subprocess.PIPE, check=True).stdout
        return (self.folder / name).read_bytes() if (self.folder / name).is_file() else None

    def given(self):
        return self.part("in") or b""

    def words(self):
        return (self.part("args") or b"").decode().splitlines()

    def out(self):
        return self.part("out")

    def status(self):
        """The status that it must end with, and None where that isn't fixed."""
        told = self.part("status").decode().strip()
        return None if told == "-" else int(told)

    def runs(self):
        """How often it is played and judged, 0 where its output is fixed."""
        return int(self.part("runs") or b"0")

    def play(self, command):
        """Runs the command on the case, at the top of the repository, and returns what is wrong, in lines."""
        for _ in range(self.runs() or 1):
            found = self.play_once(command)
            if found:
                return found
        return []

    def play_once(self, command):
        try:
            ended = subprocess.run([*command, *self.words()], cwd=TOP, input=self.given(), stdout=subprocess.PIPE, stderr=subprocess.PIPE, timeout=SECONDS)
        except subprocess.TimeoutExpired:
            return [f"no end within {SECONDS} seconds"]
        found = []
        if self.status() not in (None, ended.returncode):
            found += [f"status {ended.returncode}, and not {self.status()}", *lines_of(ended.stderr)[-5:]]
        if self.runs():
            wrong = wrong_with(self.given(), ended.stdout, ended.returncode, *script_options(self.words()))
            found += [f"no run of the policy machine: {wrong}"] if wrong else []
        for name, got in (("out", ended.stdout), ("err", ended.stderr)):
            wanted = self.part(name)
            if wanted is not None:
                found += difference(name, wanted, got)
        return found


def cases(kind, folder):
    """The cases in a folder of tests/."""
    return [Case(kind, it.parent) for it in sorted((TOP / "tests" / folder).glob("*/status"))]
