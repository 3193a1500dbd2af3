#!/usr/bin/env python3
"""Runs that have too little memory: each ends with status 5 and nothing written, or with its answers.

    tests/little_memory.py PROGRAM

The script has sixteen endpoints whose maps have 65,536 entries each. It is played with as much memory as there is, and
then with half as many addresses for the process again and again, down to fewer than the entries of the maps take.
"""
import resource
import subprocess
import sys

sys.dont_write_bytecode = True
from compare import TOP  # noqa: E402

WORDS = ("--policy-map-max", "65536", "--workers", "0")
CASE = TOP / "tests" / "cases" / "map-at-the-greatest-limit" / "in.py"
ENDPOINTS, ENTRIES = 16, 65_536
# An entry has a node of 16 bytes in each of the two copies of its map, so that so many addresses are too few.
TOO_FEW = ENDPOINTS * ENTRIES * 16 * 2
LIMITS = [TOO_FEW << doublings for doublings in range(6, -1, -1)]
SECONDS = 60


def script():
    """The script of the case before its first `sync`, with more endpoints of the same labels, and one `sync`."""
    lines = subprocess.run([sys.executable, CASE], stdout=subprocess.PIPE, check=True).stdout.splitlines(keepends=True)
    front = lines[:[b'"sync"' in it for it in lines].index(True)]
    more = [front[0].replace(b'"web"', b'"web%d"' % at).replace(b"10.0.0.1", b"10.0.1.%d" % at) for at in range(1, ENDPOINTS)]
    return b"".join([*front, *more, b'{"op":"sync"}\n'])


def played(program, given, most):
    """The answers and the status of a run, whose process has so many bytes of addresses at most where there is a limit."""
    limit = lambda: most and resource.setrlimit(resource.RLIMIT_AS, (most, most))
    ended = subprocess.run([program, *WORDS], input=given, stdout=subprocess.PIPE, stderr=subprocess.DEVNULL, timeout=SECONDS, preexec_fn=limit)
    return ended.stdout, ended.returncode


def wrong_with(ended, whole):
    """What is wrong with answers and a status, where those of a run with all memory are known."""
    answers, status = ended
    if status == 5:
        return [f"status 5, and {len(answers)} bytes are written"] if answers else []
    return [] if ended == whole else [f"status {status}, and other answers than with all memory"]


def play(program, wanted=lambda name: True):
    """Yields the name of each run and what is wrong with it, in lines."""
    if not wanted("little memory"):
        return
    given = script()
    whole = played(program, given, None)
    rows = f"synced {len(given.splitlines()) - 1}\n".encode()
    yield "little memory: none is wanting", [] if whole[1] == 0 and whole[0].endswith(rows) else [f"status {whole[1]}, and no maps"]
    for most in LIMITS:
        ended = played(program, given, most)
        wrong = wrong_with(ended, whole)
        if most == TOO_FEW and ended[1] != 5:
            wrong = [f"status {ended[1]} where memory can't suffice"]
        yield f"little memory: {most >> 20} MiB, status {ended[1]}", wrong


def main(words):
    failed = 0
    for name, wrong in play(words[0]):
        failed += bool(wrong)
        print(f"{name}: {'; '.join(wrong) or 'right'}", flush=True)
    return 1 if failed else 0


if __name__ == "__main__":
    sys.exit(main(sys.argv[1:]))
