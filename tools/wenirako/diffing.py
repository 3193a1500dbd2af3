"""`diff`: the answer about what a change opens and shuts."""
from __future__ import annotations

from typing import Iterable

from lib.cluster import NAMED_MOST

from .asked import Asked
from .core import ALLOWED
from .diff import Diff
from .listing import for_programs
from .naming import Names, some
from .report import Report, counted, doubt
from .rows import Line, listed, written_ports
from .statuses import NOTHING, TELLS, UNSURE

HEADS = ("FROM", "TO", "PORTS", "BEFORE", "AFTER", "DECIDED BY")
# What stands behind a change that may be, for what isn't read, and isn't by what is.
MAY = "unsure"


def report(asked: Asked) -> Report:
    """The connections that change, and what is said of halves that do so alone."""
    found = Diff(asked.states, asked.halves, asked.opened)
    lines, others = found.lines(asked.names), found.lines(asked.names, False)
    notes = [*alone(asked.names, others), *asked.notes(), *missing(asked)]
    doubts = list(dict.fromkeys(name for it in lines for name in it.told.unsure))
    more = {"halves": [row(it) for it in others], "unsure": doubts}
    status = UNSURE if doubts else TELLS if lines else NOTHING
    return Report("diff", summary(lines), HEADS, by_line(asked.names, lines), [row(it) for it in lines], notes, status, lines, asked.names, more, doubt(doubts))


def summary(lines: list[Line]) -> str:
    changing = [it.told for it in lines if it.told.changes]
    opened, others = sum(it.after == ALLOWED for it in changing), len(lines) - len(changing)
    parts = [counted(opened, "line of connections opens", "lines of connections open")] if opened else []
    parts += [counted(len(changing) - opened, "line of connections shuts", "lines of connections shut")] if len(changing) > opened else []
    parts += [f"{counted(others, 'line', 'lines')} of connections may change"] if others else []
    return " and ".join(parts) or "no connection changes"


def row(it: Line) -> dict:
    return {"from": listed(it.froms), "to": listed(it.tos), "ports": for_programs(it.ports), "before": it.told.before, "after": it.told.after, **it.told.for_programs()}


def by_line(names: Names, lines: Iterable[Line]) -> list[list[str]]:
    """A line for each target, in the order of targets."""
    cells = []
    for it in lines:
        sources, after = ", ".join(names.side(it.froms, it.tos)), it.told.after if it.told.changes else MAY
        rest = [written_ports(it.ports), it.told.before, after, it.told.written()]
        cells += [[sources, target, *rest] for target in names.side(it.tos, it.froms)]
    return sorted(cells, key=lambda it: (it[1], it[0], it[2]))


def alone(names: Names, lines: list[Line]) -> Iterable[str]:
    """What is said of halves that change where the connection doesn't."""
    for it in lines[:NAMED_MOST]:
        ends = [some(names.side(*both), NAMED_MOST) for both in ((it.froms, it.tos), (it.tos, it.froms))]
        yield f"{ends[0]} to {ends[1]}, {written_ports(it.ports)}: a half changes, and the connection stays {it.told.after} ({'; '.join(it.told.reasons)})"
    if len(lines) > NAMED_MOST:
        yield f"and so do {len(lines) - NAMED_MOST} more"


def missing(asked: Asked) -> Iterable[str]:
    """What is said of pods that one of two states lacks."""
    for pods, where in zip(asked.universe.alone, ("before", "after")):
        names = sorted(it.name for it in pods)
        if names:
            yield f"only in the state {where}, and so not compared: {counted(len(names), 'pod', 'pods')} ({', '.join(names[:NAMED_MOST])}{', ..' if len(names) > NAMED_MOST else ''})"
