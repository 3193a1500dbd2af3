#!/usr/bin/env python3
"""Drills of crashes: `policyd --crash-at N` writes what the judge of tests/judge says, and ends with the status that it says.

    tests/drills.py PROGRAM [FIRST [LAST]]     plays drills of the random scripts of the seeds FIRST to LAST, 1 to 3 without them

`cases` drills the first script of the examples at each of the calls that its requests make, and at the first behind them.
"""
import random
import subprocess
import sys

sys.dont_write_bytecode = True
import compare  # noqa: E402
import random_scripts  # noqa: E402
from judge import options  # noqa: E402
from judge.serial import ACCEPTED, OPENING, drilled  # noqa: E402

SCRIPT = compare.TOP / "tests" / "cases" / "star-wars" / "in"
# How many requests it has, which are all accepted.
REQUESTS = 4
SEEDS = (1, 2, 3)
# How many calls of each random script are drawn.
CALLS = 8


class Drill(compare.Case):
    """A drill of a script at a call, as a case."""

    def __init__(self, call):
        self.name, self.call = f"drill at {call}", call

    def part(self, name):
        output, status = drilled(SCRIPT.read_bytes(), self.call)
        parts = {"in": SCRIPT.read_bytes(), "args": f"--crash-at\n{self.call}\n".encode(), "out": output, "status": b"%d\n" % status}
        return parts.get(name)


def cases():
    return [Drill(call) for call in range(1, OPENING + ACCEPTED * REQUESTS + 2)]


def drill(command, words, script, call):
    """What is wrong with a drill of a script at a call, in lines."""
    words = [*words, "--crash-at", str(call)]
    try:
        ended = subprocess.run([*command, *words], input=script, stdout=subprocess.PIPE, stderr=subprocess.PIPE, timeout=random_scripts.SECONDS)
    except subprocess.TimeoutExpired:
        return [f"no end within {random_scripts.SECONDS} seconds"]
    output, status = drilled(script, call, *options(words))
    wrong = [] if ended.returncode == status else [f"call {call}: status {ended.returncode}, and not {status}"]
    return [*wrong, *compare.difference(f"call {call}", output, ended.stdout)]


def play(command, seed):
    """What is wrong with drills of the random script of that seed, in lines."""
    words, script = random_scripts.script(seed)
    pick = random.Random(seed)
    return [line for _ in range(CALLS) for line in drill(command, words, script, pick.randrange(1, 1000))]


def main(words):
    first, last = int((words[1:] or ["1"])[0]), int((words[2:] or words[1:] or ["3"])[0])
    failed = 0
    for seed in range(first, last + 1):
        wrong = play(words[:1], seed)
        failed += bool(wrong)
        print(f"seed {seed}: {'; '.join(wrong) or 'as it must be'}", flush=True)
    return 1 if failed else 0


if __name__ == "__main__":
    sys.exit(main(sys.argv[1:]))
