#!/usr/bin/env python3
"""Writes down what the gate came to: crates/policyd/out/gate.tsv, a header and one row, which the next run replaces.

A row has the day on which the gate ended, the commit (with a + where files were changed since), the kit, how many passed and
failed, how many must-fail edits were refused, the minutes that it took by the clock, and the names of what failed. A field is
empty where nothing is known.

    tools/gate.py SECONDS PASSED FAILED LOG ..
        of a run that took so many seconds, and whose words are in these files: those of `rt ci` and of tests/run
"""
import datetime
import pathlib
import re
import subprocess
import sys

sys.dont_write_bytecode = True
import program  # noqa: E402

AT = program.POLICYD.crate / "out" / "gate.tsv"
FIELDS = ("date", "commit", "kit", "passed", "failed", "edits", "minutes", "what failed")


def commit():
    """The commit of this checkout, with a + where files were changed since; empty where there is none."""
    said = lambda *words: subprocess.run(["git", *words], cwd=program.TOP, stdout=subprocess.PIPE, stderr=subprocess.DEVNULL, text=True).stdout.strip()
    return said("rev-parse", "--short=8", "HEAD") + ("+" if said("status", "--porcelain") else "")


def edits_in(said):
    """How many must-fail edits `rt ci` saw refused: what it tells at its end, and else one by one, where something failed."""
    return program.refused_in(said) or str(len(re.findall(r"(?m)^(?:rt: )?must-fail .*?\.edit: refused,", said)) or "")


def failed_in(said):
    """The names of what failed: `rt ci` tells all in one line, and tests/run each in its own."""
    return "; ".join(re.findall(r"(?m)^(?:rt: )?FAILED:? (.*?)\s*$", said)) or "nothing tells it"


def row(seconds, passed, failed, said):
    """The fields of the row."""
    day, kit = datetime.datetime.now(datetime.timezone.utc).date().isoformat(), " ".join(program.kit().decode(errors="replace").split())
    return day, commit(), kit, passed, failed, edits_in(said), str(round(seconds / 60, 1)), failed_in(said) if int(failed) else ""


def main(words):
    if len(words) < 3 or not all(it.isdecimal() for it in words[:3]):
        print(__doc__.split("\n\n")[-1], file=sys.stderr)
        return 2
    said = "\n".join(pathlib.Path(it).read_text(errors="replace") for it in words[3:])
    AT.parent.mkdir(exist_ok=True)
    program.write_whole(AT, "".join("\t".join(it) + "\n" for it in (FIELDS, row(int(words[0]), *words[1:3], said))))
    return 0


if __name__ == "__main__":
    sys.exit(main(sys.argv[1:]))
