"""The builds of the programs without proof, each kept until a source changes.

`rt try` builds the program in a folder of its own, runs it there, and removes it. A link to that program is taken while
it runs, so what is kept is the very program that `rt try` ran: not optimised, with its stops at each overflow, bad
index and bad access, and checked by no proof. It is crates/policyd/out/policyd.unproved. The note beside it has two
checksums, of the sources that it was built from and of the program, and it is used only where both are as they were.
It is kept only where, run once more by itself, it gives the answers that it gave under `rt try`. The same goes for
connections and policyd_kept.

Where a kit lays its work out otherwise there is no program to keep, and `rt try` builds it for each run.

    tools/unproved.py build [PROGRAM]      builds and keeps policyd, or connections or policyd_kept; standard error says what went wrong
"""
import os
import pathlib
import re
import shutil
import signal
import subprocess
import sys
import tempfile
import threading

import program

# What `rt try` calls the program that it runs.
RUN = "program"
SECONDS = 600
PODS, SYNCS = 40, 20_000
ENDED = re.compile(r"^run=ended status=(\d+) .*$", re.M)
# What `rt try` says of a run that ended, which tells a reader of answers nothing.
NOISE = re.compile(r"^(interpreter|checked|run|races)[:=].*\n", re.M)


def take_links(folder, ended):
    """Links each program that appears below the folder to a name of its own there, until the event is set."""
    taken = set()
    while not ended.wait(0.02):
        for at in folder.glob(f"*/*/{RUN}"):
            if at not in taken:
                try:
                    os.link(at, folder / f"taken.{len(taken)}")
                    taken.add(at)
                except OSError:
                    continue


def told(data):
    """What a run by `rt try` said on standard error, and its status, None where it has no answer."""
    said = data.decode(errors="replace")
    ended = ENDED.search(said)
    return NOISE.sub("", said) if ended else said, int(ended[1]) if ended else None


class Unproved:
    """A program's build without proof. While its link is taken it is run with these words on this input, for about a second."""

    def __init__(self, build, words, given=lambda: b""):
        self.of, self.words, self.given = build, words, given
        self.out = build.crate / "out"
        self.kept, self.note = self.out / f"{build.name}.unproved", self.out / f"{build.name}.unproved.note"

    def is_kept(self):
        """Whether a build of the sources, as they stand now, is there."""
        return self.note.is_file() and self.kept.is_file() and self.note.read_text().split() == [self.of.known_sources(), program.sum_of(self.kept)]

    def tried(self, folder, given):
        """What `rt try` answers to a file of input, while links to what it runs are taken in the folder."""
        ended = threading.Event()
        watcher = threading.Thread(target=take_links, args=(folder, ended))
        watcher.start()
        try:
            with given.open("rb") as script:
                return self.run(script, stdout=subprocess.PIPE, env={**os.environ, "TMPDIR": str(folder)})
        finally:
            ended.set()
            watcher.join()

    def run(self, script, **how):
        """A run of `rt try`: its answers where they are asked for, what it said, and its status, None where it has no answer."""
        done = subprocess.run(command(self.words), cwd=self.of.crate, stdin=script, stderr=subprocess.PIPE, **how)
        return (done.stdout, *told(done.stderr))

    def build(self):
        """Builds and keeps the program, where the kit lets it be kept. Returns what went wrong with the build, or None."""
        before = self.of.sources()
        self.out.mkdir(exist_ok=True)
        folder = pathlib.Path(tempfile.mkdtemp(prefix="unproved-", dir=self.out))
        try:
            given = folder / "given"
            given.write_bytes(self.given())
            answers, said, status = self.tried(folder, given)
            if status is None:
                return said
            for path in sorted(folder.glob("taken.*"))[-1:]:
                with given.open("rb") as script:
                    again = subprocess.run([path, *self.words], stdin=script, stdout=subprocess.PIPE, stderr=subprocess.DEVNULL)
                if (again.stdout, again.returncode) == (answers, status) and before == self.of.sources():
                    os.replace(path, self.kept)
                    self.note.write_text(f"{before}\n{program.sum_of(self.kept)}\n")
        except OSError as error:
            return f"{error.filename}: {error.strerror}\n"
        finally:
            shutil.rmtree(folder, ignore_errors=True)
        return None


def command(words):
    """What runs a program by `rt try`, in its crate's folder."""
    return ["rt", "try", "--seconds", str(SECONDS), "--", *words]


def pods():
    """A script of some pods, in a state of which all connections are open."""
    line = '{"op":"endpoint","name":"p%d","labels":["k8s:p=%d"],"address":"10.0.0.%d"}\n'
    return "".join(line % (it, it, it) for it in range(PODS)).encode()


# policyd makes a script of so many rounds itself.
POLICYD = Unproved(program.POLICYD, ["--generate", "100"])
CONNECTIONS = Unproved(program.CONNECTIONS, [], pods)
# Lines that leave the journal as it was, so that the second run answers as the first.
OVER_FILE = Unproved(program.OVER_FILE, [str(program.OVER_FILE.crate / "out" / "tried.journal")], lambda: b'{"op":"sync"}\n' * SYNCS)
KEPT, is_kept, build = POLICYD.kept, POLICYD.is_kept, POLICYD.build


def main(words):
    builds = {"": POLICYD, "connections": CONNECTIONS, "policyd_kept": OVER_FILE}
    if words[:1] != ["build"] or len(words) > 2 or "".join(words[1:]) not in builds:
        print(__doc__.split("\n\n")[-1], file=sys.stderr)
        return 2
    # (so that what was laid aside is removed where it is told to end)
    signal.signal(signal.SIGTERM, lambda *_: sys.exit(143))
    try:
        wrong = builds["".join(words[1:])].build()
    except FileNotFoundError as error:
        wrong = f"{error.filename} isn't there: the Rattle kit's command rt builds the program\n"
    sys.stderr.write(wrong or "")
    return 1 if wrong else 0


if __name__ == "__main__":
    sys.dont_write_bytecode = True
    sys.exit(main(sys.argv[1:]))
