"""A clause of a contract is read without a line that runs out of sight: no line of it is wider than 120 columns.

A line that has a text in it may be wider, since a text isn't broken.
"""
import re

import program

WIDE = 120
CLAUSE = re.compile(r"^\s*(?:ensures|requires)\b")


def clauses(lines):
    """The lines of each clause of a file, numbered from 1: a clause goes on until its braces are closed."""
    depth = 0
    for number, line in enumerate(lines, 1):
        if depth > 0 or CLAUSE.match(line):
            depth += line.count("{") - line.count("}")
            yield number, line


def wide():
    """The lines of clauses that are wider, in the crates' sources."""
    for path in sorted((program.TOP / "crates").glob("*/src/**/*.rt")):
        for number, line in clauses(path.read_text().split("\n")):
            if len(line) > WIDE and '"' not in line:
                yield f"{path.relative_to(program.TOP)}:{number}: a clause's line of {len(line)} columns, where {WIDE} is the most"


def checks():
    yield "widths of clauses", lambda: list(wide())
