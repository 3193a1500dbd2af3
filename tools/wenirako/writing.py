"""A report as a table, JSON or Markdown: forms that every question has. `drawing` and `page` have those of connections."""
from __future__ import annotations

import json
from typing import Sequence

from .report import Report

SCHEMA = "wenirako/2"
# Cells are padded up to so many letters; a longer one shifts its line alone.
WIDEST = 60
# What a forge takes of a comment, with room for a heading, and how many rows stand unfolded.
COMMENT_MOST, UNFOLDED = 60_000, 30


def table(report: Report) -> str:
    """A line a row, whose cells two blanks or more part; nothing where there is no row. What is unsure stands above."""
    above = f"{report.above}\n\n" if report.above else ""
    if not report.cells:
        return above
    lines = [list(report.heads), *report.cells]
    widths = [max(len(line[at]) if len(line[at]) <= WIDEST else 0 for line in lines) for at in range(len(report.heads))]
    return above + "".join("  ".join(cell.ljust(width) for cell, width in zip(line, widths)).rstrip() + "\n" for line in lines)


def as_json(report: Report, commit: str, is_proved: bool) -> str:
    """The form of docs/answer.schema.json, with a line for each row."""
    whole = {"schema": SCHEMA, "question": report.question, "summary": report.summary, "program": {"commit": commit, "proved": is_proved}}
    members = {**whole, "rows": report.rows, **report.more, "notes": report.notes}
    return "{\n" + ",\n".join(f"  {json.dumps(name)}: {by_item(value)}" for name, value in members.items()) + "\n}\n"


def by_item(value: object) -> str:
    """A value in JSON, a list with an item a line."""
    return "[\n" + ",\n".join(f"    {json.dumps(it)}" for it in value) + "\n  ]" if isinstance(value, list) and value else json.dumps(value)


def markdown(report: Report) -> str:
    """A comment on a pull request: a summary line, a table, and details folded."""
    parts = [f"**{escaped(report.summary[:1].upper() + report.summary[1:])}.**\n", *([f"{escaped(report.above)}\n"] if report.above else [])]
    if report.cells:
        parts.append(rows_of(report.heads, report.cells[:UNFOLDED]))
    size = sum(map(len, parts))
    rest, fits = report.cells[UNFOLDED:], 0
    for it in rest:
        size += sum(map(len, it)) + 4 * len(it)
        fits += size < COMMENT_MOST
    if rest:
        parts.append(folded(f"{len(rest)} more", rows_of(report.heads, rest[:fits]) + (f"\nAnd {len(rest) - fits} more, which a comment can't hold.\n" if fits < len(rest) else "")))
    if report.notes:
        parts.append(folded("What to mind", "".join(f"- {escaped(it)}\n" for it in report.notes)[: COMMENT_MOST // 10]))
    return "\n".join(parts)


def folded(head: str, text: str) -> str:
    return f"<details><summary>{escaped(head)}</summary>\n\n{text}\n</details>\n"


def rows_of(heads: Sequence[str], cells: Sequence[Sequence[str]]) -> str:
    lines = [[it.capitalize() for it in heads], ["---"] * len(heads), *([escaped(cell) for cell in line] for line in cells)]
    return "".join(f"| {' | '.join(line)} |\n" for line in lines)


def escaped(text: str) -> str:
    """Text that Markdown shows as it is."""
    for it in "\\`*_{}[]<>#|~":
        text = text.replace(it, f"\\{it}" if it not in "<>" else {"<": "&lt;", ">": "&gt;"}[it])
    return text
