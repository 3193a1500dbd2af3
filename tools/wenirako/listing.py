"""`list`: what is open, between pods, workloads or namespaces; and, marked, what may be open for what isn't read."""
from __future__ import annotations

from typing import Any, Iterable, Optional

from .asked import Asked
from .coarse import coarse
from .connections import wanted
from .core import ALLOWED
from .ends import End
from .naming import Names
from .report import Report, counted, doubt
from .resolving import EVERY_PORT, Named, PortRange, everything, named, pairs, port_range
from .rows import Line, Ports, Rows, Told, listed, written_ports
from .statuses import NOTHING, UNSURE

HEADS = ("FROM", "TO", "PORTS", "ALLOWED BY")


def report(asked: Asked, source: Optional[str], target: Optional[str], port: Optional[str], by: str) -> Report:
    """What is open from one end to another; None stands for every end and every port."""
    universe = asked.universe
    ends = [named(universe, text, word) if text is not None else everything(universe) for word, text in (("--from", source), ("--to", target))]
    ports = port_range(port, "--port") if port is not None else EVERY_PORT
    lines = asked.halves.foreseen(lambda: found(asked, all_pairs(asked, *ends), ports))
    open_ones, others = ([it for it in lines if (it.told.after == ALLOWED) == is_open] for is_open in (True, False))
    written = lambda listed: by_line(asked.names, listed) if by == "pod" else coarse(listed, by, *(it.groups for it in ends))
    cells, more = written(open_ones), written(others)
    heads = HEADS if by == "pod" else ("FROM", "TO", "PORTS", "BETWEEN")
    rows = [{"from": listed(it.froms), "to": listed(it.tos), "ports": for_programs(it.ports), "verdict": it.told.after, **it.told.for_programs()} for it in lines]
    summary = f"{counted(len(cells), 'line', 'lines')} of open connections" if cells else "nothing is open"
    summary += f", and {counted(len(more), 'line', 'lines')} of some that may be" if more else ""
    doubts = list(dict.fromkeys(name for it in lines for name in it.told.unsure))
    return Report("list", summary, heads, [*cells, *more], rows, asked.notes(), UNSURE if doubts else NOTHING, lines, asked.names, above=doubt(doubts))


def all_pairs(asked: Asked, sources: Named, targets: Named) -> list[tuple[End, End]]:
    """The connections that are asked about, of pods that all rules judge alike as one."""
    return list(pairs(asked.halves, sources.by_kind(asked.halves), targets.by_kind(asked.halves)))


def found(asked: Asked, listed_pairs: list[tuple[End, End]], ports: PortRange) -> list[Line]:
    """The connections that are open, and those that may be."""
    about = asked.about(listed_pairs, ports, is_open=True)
    rows, told = Rows(), {}
    for pair in listed_pairs:
        for it in about.stretches(*pair):
            if id(it) not in told:
                told[id(it)] = Told(it.word, it.word, about.reasons(it), marks=about.marks(it))
            more: dict[str, Any] = {"names": about.names_beside(*pair, it), "unsure": about.unsure(*pair, it)}
            rows.add(*pair, it.protocol, it.low, it.high, told[id(it)]._replace(**more) if any(more.values()) else told[id(it)])
    may_be_open(asked, listed_pairs, ports, rows)
    return rows.lines(asked.names)


def may_be_open(asked: Asked, listed_pairs: list[tuple[End, End]], ports: PortRange, rows: Rows) -> None:
    """Adds what is denied by what is read, and may be open for what isn't."""
    beside = asked.halves.beside
    if not beside.has_doubts:
        return
    touched = [pair for pair in listed_pairs if any(beside.number(*it[:3]) for it in wanted(*pair, 0))]
    about = asked.about(touched, ports, is_open=False, explains=False)
    doubted = [(pair, it, doubts) for pair in touched for it in about.stretches(*pair) for doubts in [about.unsure(*pair, it)] if doubts]
    about.explain(it for _, it, _ in doubted)
    for pair, it, doubts in doubted:
        rows.add(*pair, it.protocol, it.low, it.high, Told(it.word, it.word, about.reasons(it), unsure=doubts))


def by_line(names: Names, lines: Iterable[Line]) -> list[list[str]]:
    """A line for each target."""
    cells = []
    for it in lines:
        sources = ", ".join(names.side(it.froms, it.tos))
        cells += [[sources, target, written_ports(it.ports), it.told.written()] for target in names.side(it.tos, it.froms)]
    return sorted(cells, key=lambda it: (it[1], it[0], it[2]))


def for_programs(ports: Ports) -> list[dict]:
    return [{"protocols": list(protocols), "ranges": [list(pair) for pair in ranges]} for protocols, ranges in ports]
