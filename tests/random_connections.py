#!/usr/bin/env python3
"""Random scripts, and random pairs of them: what connections writes must be what the model of tests/judge tells.

    tests/random_connections.py PROGRAM [FIRST [LAST]]     plays those of the seeds FIRST to LAST, 1 to 3 without them

Of an odd seed there are two scripts, of which the second is the first with some lines left out, doubled or new. The lines
are those of tests/random_scripts.py; of two seeds of four, without those that are refused. Of four seeds of eight, halves
are told. A play that takes over two minutes has failed.
"""
import random
import subprocess
import sys

sys.dont_write_bytecode = True
import compare  # noqa: E402
from judge import opened  # noqa: E402
from random_scripts import line  # noqa: E402

LINES = 120
SECONDS = 120
SEEDS = range(1, 25)
MODES = ["default"] * 4 + ["always", "never"]


def script(pick):
    return [line(pick, 2) for _ in range(pick.randrange(LINES))]


def edited(pick, lines):
    """The lines of another script, near to these."""
    found = []
    for it in lines:
        found += [it] * pick.choice([0] + [1] * 12 + [2])
        found += [line(pick, 2)] if pick.random() < 0.1 else []
    return found


def without_refusals(lines):
    """The lines but for those that are refused where they are played without the ones before that are."""
    refused = {at for at, _ in opened.left(text(lines), "default", True)[1]}
    return [it for at, it in enumerate(lines, 1) if at not in refused]


def text(lines):
    return "".join(f"{it}\n" for it in lines).encode()


def given(seed):
    """The words and the input of a seed."""
    pick = random.Random(seed)
    lines = script(pick)
    scripts = [lines, edited(pick, lines)] if seed % 2 else [lines]
    if seed % 4 > 1:
        scripts = [without_refusals(it) for it in scripts]
    words = ["--enable-policy", pick.choice(MODES), "--allow-localhost", pick.choice(["always", "policy"])]
    return words + ["--halves"] * (seed % 8 > 3), b"--\n".join(text(it) for it in scripts)


def play(command, seed):
    """What is wrong with what the command writes of the input of that seed, in lines."""
    words, scripts = given(seed)
    try:
        ended = subprocess.run([*command, *words], input=scripts, stdout=subprocess.PIPE, stderr=subprocess.PIPE, timeout=SECONDS)
    except subprocess.TimeoutExpired:
        return [f"no end within {SECONDS} seconds"]
    told, status = opened.told(scripts, words[1], words[3] == "always", "--halves" in words)
    wrong = [] if status == ended.returncode else [f"status {ended.returncode}, and not {status}", *compare.lines_of(ended.stderr)[-5:]]
    return wrong + compare.difference(f"seed {seed}", told, ended.stdout)[:40]


def main(words):
    first, last = int((words[1:] or ["1"])[0]), int((words[2:] or words[1:] or ["3"])[0])
    failed = 0
    for seed in range(first, last + 1):
        wrong = play(words[:1], seed)
        failed += bool(wrong)
        print(f"seed {seed}: {'; '.join(wrong) or 'as the model tells'}", flush=True)
    return 1 if failed else 0


if __name__ == "__main__":
    sys.exit(main(sys.argv[1:]))
