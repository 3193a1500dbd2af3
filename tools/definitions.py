#!/usr/bin/env python3
"""Where each definition lives, by the tables 'Definitions' of the crates' READMEs.

    tools/definitions.py [WORD ..]      prints what has all WORDs in its row, with its files

A row of such a table is `| WHAT | [FILE](FILE), .. |`, with files of the crate.
"""
import re
import sys

import program

SECTION = re.compile(r"(?ms)^## Definitions\n(.*?)(?=^## |\Z)")
HEAD = ["| What | Where |", "|---|---|"]
ROW = re.compile(r"\| ([^|]+) \| ([^|]+) \|")
FILE = re.compile(r"\]\(([^)]+)\)")


def table(name):
    """The lines of the section of a crate's README."""
    page = program.TOP / "crates" / name / "README.md"
    found = SECTION.search(page.read_text()) if page.is_file() else None
    return [it for it in found[1].splitlines() if it] if found else []


def rows(name):
    """What stands in the table, each with its files from the top of the repository."""
    found = [it.groups() for it in map(ROW.fullmatch, table(name)[len(HEAD) :]) if it]
    return [(what, [f"crates/{name}/{it}" for it in FILE.findall(where)]) for what, where in found]


def has_definitions(name):
    """Whether a crate has definitions of its own; `Lib.antt` only lists them."""
    return any(it.name != "Lib.antt" for it in (program.TOP / "crates" / name / "specs").rglob("*.antt"))


def listed(name):
    """A crate that has definitions has the table, and each row of it names a file."""
    lines, named = table(name), rows(name)
    if not lines:
        return ["it has no section Definitions"] if has_definitions(name) else []
    is_whole = lines[: len(HEAD)] == HEAD and len(named) == len(lines) - len(HEAD) and all(files for _, files in named)
    return [] if is_whole else [f"the section Definitions isn't rows '| WHAT | [FILE](FILE) |' below {HEAD[0]}"]


def checks():
    for name in program.crates():
        yield f"definitions crates/{name}", lambda name=name: listed(name)


def main(words):
    for name in program.crates():
        for what, files in rows(name):
            line = f"{what}: {' '.join(files)}"
            if all(it.lower() in line.lower() for it in words):
                print(line)
    return 0


if __name__ == "__main__":
    sys.dont_write_bytecode = True
    sys.exit(main(sys.argv[1:]))
