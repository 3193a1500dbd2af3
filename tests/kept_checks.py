#!/usr/bin/env python3
"""Runs of policyd_kept over a journal in a file, which are killed, cut, damaged, refused room and files, and held.

    tests/kept_checks.py PROGRAM [KILLS]     with 200 kills where no number is given

A run is killed at random moments of a long script and started again: each request whose `ok` line was seen is in the journal, and at
most one more. The end of a journal is cut at each byte and changed at each byte; the file may grow no further, by a limit and by a disk
that is full; it can't be opened, can't be written, and is held by another run. Each ends with its status, loses no request that was
acknowledged, and leaves a journal that is damaged as it was. What is answered is what tests/judge says, over restarts too. The journals
are read here as docs/RULES.md has their form. The last line is 'N passed, M failed'.
"""
import contextlib
import json
import os
import pathlib
import random
import resource
import shutil
import signal
import subprocess
import sys
import tempfile
import time

sys.dont_write_bytecode = True
sys.path.append(str(pathlib.Path(__file__).resolve().parent.parent / "tools"))
import compare  # noqa: E402
import documents  # noqa: E402
import random_scripts  # noqa: E402
from judge import options  # noqa: E402
from judge.runs import is_marked  # noqa: E402
from judge.serial import Serial, lines_of  # noqa: E402

NAMESPACE = "k8s:io.kubernetes.pod.namespace=default"
SYNC = b'{"op":"sync"}\n'
CLEAN, MARKED, USAGE, WRITE, TOO_LONG, DISK, DAMAGED, NOT_OPENED, HELD = 0, 1, 2, 4, 6, 7, 8, 9, 10
SAID = {USAGE: "usage", WRITE: "write failed", TOO_LONG: "input too long", DISK: "disk failed", DAMAGED: "journal damaged", NOT_OPENED: "journal can't be opened", HELD: "journal is held"}
# How long a run may take, and how many bytes of a journal's end are cut and changed.
SECONDS, TAIL = 120, 150
# How many runs are killed in the gate, so that all takes less than a minute there, and how many by a build without proof.
KILLS, KILLS_UNPROVED = 60, 10
SEEDS = (1, 2, 3)
# Whoever isn't root: a file that may not be written is one for such a user alone.
NOBODY = 65534


# ---- scripts


def line(**members):
    return json.dumps(members, separators=(",", ":")).encode() + b"\n"


def requests(count, first=0):
    """So many requests without a fault, whatever requests of these came before."""
    found = []
    for n in range(first, first + count):
        kind = n % 4
        if kind == 0:
            found.append(line(op="identity", name=f"i{n}", labels=[NAMESPACE, f"k8s:app=a{n}"]))
        elif kind == 1:
            rule = {"endpointSelector": {"matchLabels": {"app": f"a{n}"}}, "ingress": [{"fromCIDR": [f"10.{n // 250 % 250}.{n % 250}.0/24"]}]}
            found.append(line(op="apply", policy={"apiVersion": "cilium.io/v2", "kind": "CiliumNetworkPolicy", "metadata": {"name": f"p{n % 40}"}, "spec": rule}))
        elif kind == 2:
            found.append(line(op="mode", enable=("always", "never", "default")[n % 3]))
        else:
            found.append(line(op="remove-identity", name=f"i{n - 3}"))
    return found


# ---- journals


def journal(lines):
    """The bytes of a journal of these lines, each with its newline."""
    return b"".join(b"\1" + len(it[:-1]).to_bytes(4, "big") + it[:-1] for it in lines) + b"\0"


def records(data):
    """The lines of a journal's records, and where its closed gate stands; None where they don't lie in the bytes."""
    if len(data) <= 1:
        return [], 0
    found, at = [], 0
    while data[at]:
        end = at + 5 + int.from_bytes(data[at + 1 : at + 5], "big")
        if at + 5 > len(data) or end >= len(data):
            return None
        found.append(data[at + 5 : end] + b"\n")
        at = end
    return found, at


# ---- runs


class Runs:
    """Runs of the program over one journal."""

    def __init__(self, program, path):
        self.words, self.path = [program, str(path)], path

    def played(self, script, *words, **how):
        """The answers of a run to the end, its status, and what it said."""
        done = subprocess.run([*self.words, *words], input=script, stdout=subprocess.PIPE, stderr=subprocess.PIPE, timeout=SECONDS, **how)
        return done.stdout.splitlines(keepends=True), done.returncode, done.stderr.decode()

    def count(self):
        """How many requests the journal has; None where it isn't opened."""
        found, status, _ = self.played(SYNC)
        return int(found[0].split()[1]) if status == CLEAN else None

    def killed(self, script, at):
        """The whole answers of a run that is killed after so many seconds, or as soon as so many answers have come."""
        with tempfile.TemporaryFile() as given:
            given.write(script)
            given.seek(0)
            with subprocess.Popen(self.words, stdin=given, stdout=subprocess.PIPE, stderr=subprocess.DEVNULL) as run:
                told = b""
                if isinstance(at, int):
                    while told.count(b"\n") < at and (piece := os.read(run.stdout.fileno(), 4096)):
                        told += piece
                else:
                    time.sleep(at)
                run.kill()
                told += run.stdout.read()
        return told[: told.rfind(b"\n") + 1].splitlines()


def ends(name, run, status, answers=()):
    """What is wrong with how a run ended: its status, what it said and what it answered, where that is fixed."""
    found, ended, said = run
    wanted = f"policyd: {SAID[status]}\n" if status in SAID else ""
    wrong = [] if ended == status else [f"{name}: status {ended}, and not {status}"]
    wrong += [] if ended != status or said == wanted else [f"{name}: {said!r} is said"]
    return wrong + ([] if answers is None or list(answers) == found else [f"{name}: {found[:4]} are answered"])


# ---- checks


def killed(runs, kills, tell=lambda text: None):
    """What is wrong with runs that are killed and started again; it tells how many requests that were."""
    chance, script, done, unseen = random.Random(1), requests(40 * kills), 0, 0
    started = time.monotonic()
    wrong = ends("no script", runs.played(b""), CLEAN)
    least = time.monotonic() - started
    for kill in range(kills):
        at = chance.randrange(1, 40) if kill % 2 else least + chance.random() * least
        told = runs.killed(b"".join(script[done:]), at)
        numbers = [int(it.split()[1]) for it in told]
        if numbers != list(range(done + 1, done + 1 + len(told))):
            return [*wrong, f"kill {kill}: the answers aren't ok {done + 1} and so on: {told[:2]}"]
        found, left = runs.count(), records(runs.path.read_bytes())
        if found is None or left is None or found not in (done + len(told), done + len(told) + 1) or left[0] != script[:found]:
            return [*wrong, f"kill {kill}: {done + len(told)} were acknowledged, {found} are there, in {left and len(left[0])} records"]
        unseen += found - done - len(told)
        done = found
    tell(f"{kills} kills: {done} requests are there, {unseen} of them without an answer that was seen")
    return wrong if done else ["no run came to a request before it was killed"]


def cut_and_changed(runs):
    """What is wrong with journals whose end is cut, changed, or followed by other bytes, at each byte."""
    lines = requests(12)
    whole, wrong = journal(lines), []
    for at in range(1, min(TAIL, len(whole))):
        changed = whole[:-at] + bytes([whole[-at] ^ 0x55]) + whole[len(whole) - at + 1 :]
        for name, data in (f"cut {at} before the end", whole[:-at]), (f"changed {at} before the end", changed), (f"{at} bytes behind the end", whole + b"\x55" * at):
            runs.path.write_bytes(data)
            found, status, said = runs.played(SYNC)
            after, left = runs.path.read_bytes(), records(data)
            if status == DAMAGED:
                wrong += [] if after == data and not found else [f"{name}: a damaged journal was written or answered over"]
                wrong += [] if left is None or left[0] != lines[: len(left[0])] else [f"{name}: a journal of {len(left[0])} requests is damaged"]
            elif left is None or (found, status) != ([b"synced %d\n" % len(left[0])], CLEAN) or after != data[: left[1] + 1]:
                wrong.append(f"{name}: status {status}, {found}, {said!r}")
    return wrong


def limited(size):
    """What lets the files of a process grow no further than that."""

    def limit():
        signal.signal(signal.SIGXFSZ, signal.SIG_IGN)
        resource.setrlimit(resource.RLIMIT_FSIZE, (size, size))

    return limit


def refused_room(name, runs, lines, script, **how):
    """What is wrong with a run whose journal can't grow: what was acknowledged stays, and the next run goes on from it."""
    run = runs.played(b"".join(script), **how)
    acknowledged = len(lines) + len(run[0])
    wrong = ends(name, run, DISK, None)
    wrong += [] if all(it.startswith(b"ok ") for it in run[0]) and len(run[0]) < len(script) else [f"{name}: {run[0][-2:]} are answered"]
    there = runs.count()
    if there not in (acknowledged, acknowledged + 1):
        return [*wrong, f"{name}: {acknowledged} were acknowledged, and {there} are there"]
    return wrong + ends(f"{name}, once there is room", runs.played(SYNC), CLEAN, [b"synced %d\n" % there])


def no_room(runs):
    """What is wrong where the file may grow so far and no further, at each byte of a record."""
    lines = requests(8)
    wrong = []
    for more in (0, 1, 2, 5, 6, 40, 90, 91, 92, 300):
        runs.path.write_bytes(journal(lines))
        wrong += refused_room(f"{more} bytes more", runs, lines, requests(20, 8), preexec_fn=limited(len(journal(lines)) + more))
    return wrong


@contextlib.contextmanager
def small_disk(at):
    """A folder on a disk of 64 KiB; None where this process may make none."""
    at.mkdir()
    made = subprocess.run(["mount", "-t", "tmpfs", "-o", "size=64k", "none", str(at)], stderr=subprocess.DEVNULL).returncode == 0
    try:
        yield at if made else None
    finally:
        if made:
            subprocess.run(["umount", str(at)])


def full(program, folder):
    """What is wrong where the disk is full."""
    with small_disk(folder / "full") as at:
        if at is None:
            print("left out, since this process may mount no disk: kept full disk", flush=True)
            return []
        runs, filler = Runs(program, at / "journal"), at / "filler"
        runs.path.write_bytes(journal(requests(8)))
        filler.write_bytes(b"\0" * 32768)
        run = runs.played(b"".join(requests(2000, 8)))
        filler.unlink()
        there = runs.count()
        wrong = ends("a disk that is full", run, DISK, None)
        return wrong + ([] if there in (8 + len(run[0]), 9 + len(run[0])) else [f"{8 + len(run[0])} were acknowledged, and {there} are there"])


def as_nobody():
    os.setgroups([])
    os.setgid(NOBODY)
    os.setuid(NOBODY)


def unwritable(program, folder):
    """What is wrong with a file that may be read and not written."""
    runs, root = Runs(program, folder / "unwritable"), os.geteuid() == 0
    runs.path.write_bytes(journal(requests(3)))
    runs.path.chmod(0o444)
    run = runs.played(SYNC, **({"preexec_fn": as_nobody} if root else {}))
    return ends("a file that may not be written", run, NOT_OPENED) + ([] if runs.path.read_bytes() == journal(requests(3)) else ["it was written"])


def refused(program, folder):
    """What is wrong with files that can't be opened, and with words that don't fit: those touch no file."""
    wrong, none = [], folder / "none"
    for path in folder, none / "journal", pathlib.Path("/dev/null"):
        wrong += ends(str(path), Runs(program, path).played(SYNC), NOT_OPENED)
    for words in ["--map", "a"], ["--generate=1"], ["--audit"], ["--crash-at=1"], ["x"], ["--workers", "9"]:
        wrong += ends(str(words), Runs(program, none).played(SYNC, *words), USAGE)
    done = subprocess.run([program], input=SYNC, stdout=subprocess.PIPE, stderr=subprocess.PIPE, timeout=SECONDS)
    wrong += ends("no words", (done.stdout.splitlines(), done.returncode, done.stderr.decode()), USAGE)
    return wrong + (["a file was made by words that don't fit"] if none.exists() else [])


def held(runs):
    """What is wrong where another run holds the journal, and with answers that don't come before the next line is sent."""
    with subprocess.Popen(runs.words, stdin=subprocess.PIPE, stdout=subprocess.PIPE, bufsize=0) as first:
        wrong = []
        for n, request in enumerate(requests(4), 1):
            first.stdin.write(request[:10])
            time.sleep(0.01)
            first.stdin.write(request[10:])
            told = first.stdout.readline()
            wrong += [] if told.startswith(b"ok %d" % n) else [f"{told} answers request {n}"]
            wrong += [] if records(runs.path.read_bytes()) == (requests(n), len(journal(requests(n))) - 1) else [f"request {n} isn't in the file once it is answered"]
        wrong += ends("a journal that is held", runs.played(SYNC), HELD)
        first.stdin.close()
        first.wait()
    return wrong + ends("once it is let go", runs.played(SYNC), CLEAN, [b"synced 4\n"])


def unread(runs):
    """What is wrong where nobody reads the answers any more: what was committed stays, and nothing more is."""
    reading, writing = os.pipe()
    os.close(reading)
    with os.fdopen(writing, "wb") as out:
        done = subprocess.run(runs.words, input=b"".join(requests(4)), stdout=out, stderr=subprocess.PIPE, timeout=SECONDS)
    wrong = ends("answers that nobody reads", ([], done.returncode, done.stderr.decode()), WRITE)
    return wrong + ends("after them", runs.played(SYNC), CLEAN, [b"synced 1\n"])


def many_lines(runs):
    """What is wrong with more lines than a script has: those before are answered."""
    found, *end = runs.played(requests(1)[0] + b"\n" * 1_000_000)
    wrong = ends("1,000,001 lines", ([], *end), TOO_LONG)
    return wrong + ([] if len(found) == 1_000_000 and found[0] == b"ok 1 identity 256\n" else [f"{len(found)} answers"])


def small_journals(runs):
    """What is wrong with journals of no bytes, a closed gate, and an open gate with no record."""
    wrong = []
    for data, status in (b"", CLEAN), (b"\0", CLEAN), (b"\1", CLEAN), (b"\0\1", CLEAN), (b"\1\0", DAMAGED):
        runs.path.write_bytes(data)
        wrong += ends(str(data), runs.played(SYNC), status, [] if status else [b"synced 0\n"])
        wrong += [] if runs.path.read_bytes() == (data if status else b"\0") else [f"{data}: the file is {runs.path.read_bytes()}"]
    return wrong


def restarted(runs, seed):
    """What is wrong with the answers to a random script in several runs: a run knows the requests of those before, and no map of theirs."""
    words, script = random_scripts.script(seed)
    chance, told = random.Random(seed), lines_of(script)
    places = sorted(chance.randrange(len(told)) for _ in range(3))
    before, wrong = None, []
    for start, end in zip([0, *places], [*places, len(told)]):
        serial = Serial(*options(words))
        serial.states = before.states if before else serial.states
        answers = [f"{serial.answer(it)}\n".encode() for it in told[start:end]]
        part = b"".join(it + b"\n" for it in told[start:end])
        status = MARKED if any(is_marked(it.decode()[:-1]) for it in answers) else CLEAN
        wrong += ends(f"lines {start} to {end}", runs.played(part, *words), status, answers)
        before = serial
    return wrong


def shown(program, folder):
    """What is wrong with the commands that docs/TRY.md shows of the program, one after another in a folder of their own."""
    wrong, at = [], folder / "shown"
    at.mkdir()
    (at / "examples").symlink_to(compare.TOP / "examples")
    commands = [it for it in documents.shown(compare.TOP / "docs" / "TRY.md") if it.is_over_file]
    for it in commands:
        path = f"{pathlib.Path(program).parent}:{os.environ['PATH']}"
        given = {"cwd": at, "env": {**os.environ, "PATH": path}, "stdin": subprocess.DEVNULL, "stderr": subprocess.DEVNULL}
        done = subprocess.run(["bash", "-c", it.text], stdout=subprocess.PIPE, timeout=SECONDS, **given)
        wrong += compare.difference(it.name, it.printed, done.stdout)
    return wrong if commands else ["docs/TRY.md shows none"]


def checks(program, folder, kills=KILLS, whole=False, tell=lambda text: None):
    """Pairs of a name and what finds out what is wrong, in lines; with the longest where the whole is wanted."""
    over = lambda name: Runs(program, folder / name)
    yield f"kept {kills} kills", lambda: killed(over("killed"), kills, tell)
    yield "kept ends cut and changed", lambda: cut_and_changed(over("cut"))
    yield "kept no room", lambda: no_room(over("no_room"))
    yield "kept full disk", lambda: full(program, folder)
    yield "kept unwritable", lambda: unwritable(program, folder)
    yield "kept refused", lambda: refused(program, folder)
    yield "kept held", lambda: held(over("held"))
    yield "kept unread", lambda: unread(over("unread"))
    yield "kept small journals", lambda: small_journals(over("small"))
    yield "kept commands of documents", lambda: shown(program, folder)
    for seed in SEEDS:
        yield f"kept restarts {seed}", lambda seed=seed: restarted(over(f"restarted{seed}"), seed)
    if whole:
        yield "kept many lines", lambda: many_lines(over("many"))


def names():
    return [name for name, _ in checks("", pathlib.Path())]


def play(program, wanted=lambda name: True, **how):
    """Yields the name of each check and what is wrong with it, over a copy of the program that any user may run."""
    with tempfile.TemporaryDirectory() as at:
        folder = pathlib.Path(at)
        folder.chmod(0o755)
        copy = shutil.copy(program, folder / "policyd_kept")
        os.chmod(copy, 0o755)
        for name, check in checks(str(copy), folder, **how):
            if wanted(name):
                try:
                    yield name, check()
                except subprocess.TimeoutExpired:
                    yield name, [f"no end within {SECONDS} seconds"]


def main(words):
    failed = passed = 0
    for name, wrong in play(words[0], kills=int((words[1:] or ["200"])[0]), whole=True, tell=print):
        failed, passed = failed + bool(wrong), passed + (not wrong)
        print(f"{'FAILED' if wrong else 'passed'} {name}", *(f"  {it}" for it in wrong[:10]), sep="\n", flush=True)
    print(f"{passed} passed, {failed} failed")
    return 1 if failed or not passed else 0


if __name__ == "__main__":
    sys.exit(main(sys.argv[1:]))
