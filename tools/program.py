#!/usr/bin/env python3
"""The builds of the programs: what each is made of, whether a proved build of that stands, and the ways to one.

The proved build of policyd is crates/policyd/out/policyd. The note beside it, policyd.note, has two checksums: of the
sources that were proved, and of the program that was built from them; and behind them, where the gate kept it, how many
edits it saw refused. A build without such a note, or whose sources or program have changed since, is never used. The same
goes for connections and policyd_kept.

Whether a build is that of the sources is asked by each question of the front door. So the checksum of sources is kept in
policyd.sources, with the place, size and times of each file that it was taken of, and where these are the same it isn't
taken anew. What the gate notes is always taken anew.

    tools/program.py sources      prints the checksums of the sources as they stand, of each program
    tools/program.py keep SUMS [LOG]
        after `rt ci` passed, whose words are in the file LOG: notes its builds, where the sources still have these checksums
"""
import contextlib
import functools
import hashlib
import os
import pathlib
import re
import shutil
import subprocess
import sys
import time

TOP = pathlib.Path(__file__).resolve().parent.parent
# A file that was changed less than so many seconds ago may be changed once more without other times.
SETTLED = 2


def crate_of(line):
    """The crate that a line of crates.txt names, and the libraries that it names; None where it names none."""
    head, _, libraries = line.partition("#")[0].partition(":")
    return (head.split()[0], libraries.split()) if head.strip() else None


def crates():
    """The crates of crates.txt in its order, each with the libraries that it names."""
    return dict(it for it in map(crate_of, (TOP / "crates.txt").read_text().splitlines()) if it)


def sum_of(path):
    return hashlib.sha256(path.read_bytes()).hexdigest() if path.is_file() else "none"


def walked(folder):
    """The files below a folder, in whatever order."""
    return (f"{at}/{name}" for at, _, names in os.walk(folder) for name in names)


def looked_at(folder):
    """The place, size and times of each file below a folder, in whatever order."""
    found, folders = [], [folder]
    while folders:
        # (what is gone meanwhile isn't looked at)
        with contextlib.suppress(OSError), os.scandir(folders.pop()) as listed:
            for it in listed:
                if it.is_dir(follow_symlinks=False):
                    folders.append(it.path)
                else:
                    found += look(it.path)
    return found


def look(path):
    """The place, size and times of a file, in a list; an empty one where it isn't there."""
    try:
        it = os.stat(path)
    except OSError:
        return []
    return [(path, it.st_ino, it.st_size, it.st_mtime_ns, it.st_ctime_ns)]


def files_in(folder):
    return sorted(it for it in map(pathlib.Path, walked(folder)) if it.is_file())


def write_whole(path, text):
    """Writes a file so that whoever reads it meanwhile has it as it was, or whole."""
    made = path.with_name(f"{path.name}.{os.getpid()}")
    made.write_text(text)
    os.replace(made, path)


@functools.lru_cache(maxsize=None)
def kit():
    try:
        return subprocess.run(["rt", "version"], stdout=subprocess.PIPE, stderr=subprocess.DEVNULL).stdout
    except OSError:
        return b"no kit"


def refused_in(said):
    """How many must-fail edits `rt ci` says were refused, as it says it last; empty where it tells of none."""
    found = re.findall(r"must-fail edits: (\d+) refused", said)
    return found[-1] if found else ""


def run_in(words, folder):
    """The status of a command in a folder, and what it wrote."""
    done = subprocess.run(words, cwd=folder, stdin=subprocess.DEVNULL, stdout=subprocess.PIPE, stderr=subprocess.STDOUT)
    return done.returncode, done.stdout


class Build:
    """A program of the repository, and the proved build of it, where one stands."""

    def __init__(self, name):
        self.name, self.crate = name, TOP / "crates" / name
        self.program, self.note, self.seen = (self.crate / "out" / f"{name}{end}" for end in ("", ".note", ".sources"))

    def parts(self):
        """The crates that the program stands on, lowest first, and the program last."""
        listed, found = crates(), []

        def visit(name):
            if name in listed and name not in found:
                for below in listed[name]:
                    visit(below)
                found.append(name)

        visit(self.name)
        return found

    def sources(self):
        """The checksum of all that the proved program is made from: the kit, the crates' lines, their code, definitions and proofs."""
        total, listed = hashlib.sha256(kit()), crates()
        for name in sorted(self.parts()):
            total.update(repr((name, listed[name])).encode())
            for part in ("src", "specs", "proofs"):
                for path in files_in(TOP / "crates" / name / part):
                    total.update(repr((str(path.relative_to(TOP)), path.read_bytes())).encode())
        return total.hexdigest()

    def known_sources(self, looks=None):
        """That checksum as it was taken last, where no file has been changed since; else it is taken anew."""
        stamp, newest = self.stamp({} if looks is None else looks)
        kept = self.seen.read_text().split() if self.seen.is_file() else []
        if kept[:1] == [stamp]:
            return kept[1]
        found = self.sources()
        if self.seen.parent.is_dir() and newest + SETTLED < time.time() and self.stamp({})[0] == stamp:
            # (where it can't be kept, each question sums anew)
            with contextlib.suppress(OSError):
                write_whole(self.seen, f"{stamp}\n{found}\n")
        return found

    def stamp(self, looks):
        """A checksum of the places, sizes and times of what the program is made from, and when the last of it was changed.

        `looks` has the crates that were looked at just now, and gets those that are looked at here.
        """
        rt, listed = os.path.realpath(shutil.which("rt") or "no kit"), crates()
        found = [*look(rt), *look(os.path.join(os.path.dirname(rt), "..", "KIT-ID"))]
        names = sorted(self.parts())
        for name in names:
            if name not in looks:
                looks[name] = [it for part in ("src", "specs", "proofs") for it in looked_at(f"{TOP}/crates/{name}/{part}")]
            found += looks[name]
        newest = max((time for it in found for time in it[-2:]), default=0)
        return hashlib.sha256(repr([[(name, listed[name]) for name in names], found]).encode()).hexdigest(), newest / 1e9

    def is_proved(self, looks=None):
        """Whether a proved build of the sources, as they stand now, is there; of `looks` see `stamp`."""
        if not self.note.is_file() or not self.program.is_file():
            return False
        return self.note.read_text().split()[:2] == [self.known_sources(looks), sum_of(self.program)]

    def edits_refused(self):
        """How many must-fail edits the gate that kept the build saw refused; None where no gate did."""
        told = self.note.read_text().split()[2:] if self.note.is_file() else []
        return int(told[0]) if told else None

    def keep(self, before, edits=""):
        """Notes that the program was proved and built from sources of that checksum; no, where they aren't those any more.

        `edits` is how many must-fail edits were refused beside, where that is known.
        """
        if not self.program.is_file() or before != self.sources():
            return False
        self.note.write_text("".join(f"{it}\n" for it in (before, sum_of(self.program), edits) if it))
        return True

    def prove(self, say, run=run_in):
        """Proves the program's crates, lowest first, and builds it. Returns what went wrong, or None."""
        before, names = self.sources(), self.parts()
        self.note.unlink(missing_ok=True)
        for at, name in enumerate(names):
            left = len(names) - at
            say(f"proving {name} ({left} {'crates are' if left > 1 else 'crate is'} left) ..")
            start = time.monotonic()
            status, said = run(["rt", "run" if name == self.name else "lib"], TOP / "crates" / name)
            if status:
                return f"{name} is not proved:\n{said.decode(errors='replace')[-4000:]}"
            say(f"proved {name} in {time.monotonic() - start:.0f} seconds")
        if not self.keep(before):
            return "the sources changed while they were proved: run this again"
        return None


POLICYD, CONNECTIONS, OVER_FILE = Build("policyd"), Build("connections"), Build("policyd_kept")
NAME, CRATE, PROGRAM, NOTE = POLICYD.name, POLICYD.crate, POLICYD.program, POLICYD.note
parts, sources, is_proved, edits_refused, prove = POLICYD.parts, POLICYD.sources, POLICYD.is_proved, POLICYD.edits_refused, POLICYD.prove


def listed():
    """The programs that crates.txt lists."""
    return [it for it in (POLICYD, CONNECTIONS, OVER_FILE) if it.name in crates()]


def main(words):
    if words == ["sources"]:
        print(":".join(it.sources() for it in listed()))
        return 0
    if len(words) in (2, 3) and words[0] == "keep":
        edits = [refused_in(pathlib.Path(it).read_text(errors="replace")) for it in words[2:]]
        kept = [it.keep(before, *edits) for it, before in zip(listed(), words[1].split(":"))]
        if all(kept):
            return 0
        print("the sources of a program changed while they were proved, or it wasn't built: run this again", file=sys.stderr)
        return 1
    print(__doc__.split("\n\n")[-1], file=sys.stderr)
    return 2


if __name__ == "__main__":
    sys.dont_write_bytecode = True
    sys.exit(main(sys.argv[1:]))
