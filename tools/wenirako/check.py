"""`check`: whether expectations hold, which stand in a file, one a line.

    # who may call the ledger
    pay/teller -> pay/ledger TCP 8443 always
    web -> pay/ledger TCP 8443 never
    world -> pay/* any never

`always` holds where every such packet is allowed, `never` where none is.
"""
from __future__ import annotations

import re
from typing import Iterable, NamedTuple

from lib.reading import Bad

from .asked import About, Asked
from .connections import Stretch
from .ends import End, Outside
from .report import Report, counted
from .resolving import Named, PortRange, named, pairs, port_range
from .rows import Told, listed
from .statuses import NOTHING, TELLS, UNSURE

HEADS = ("LINE", "EXPECTED", "FROM", "TO", "PACKET", "VERDICT", "DECIDED BY")
ALWAYS, NEVER = "always", "never"
LINE = re.compile(r"(\S+)\s*->\s*(\S+)\s+(.+?)\s+(always|never)")


class Expectation(NamedTuple):
    """What is promised of connections."""

    number: int
    text: str
    source: Named
    target: Named
    ports: PortRange
    word: str


def read(asked: Asked, text: str, name: str) -> list[Expectation]:
    """The expectations of a text; Bad where a line isn't one, or names nobody."""
    found = []
    for number, line in enumerate(text.split("\n"), 1):
        line, place = line.partition("#")[0].strip(), f"{name}, line {number}"
        if not line:
            continue
        parts = LINE.fullmatch(line)
        if not parts:
            raise Bad(f"{place}: {line!r} is no expectation: it is FROM -> TO PROTOCOL PORT always|never, such as `web -> pay/ledger TCP 8443 never`")
        source, target = (named(asked.universe, parts[at], place) for at in (1, 2))
        found.append(Expectation(number, line, source, target, port_range(parts[3], place), parts[4]))
    if not found:
        raise Bad(f"{name}: no expectation is in it")
    return found


def report(asked: Asked, text: str, name: str) -> Report:
    """The expectations that don't hold, each with a packet that shows it."""
    expected = read(asked, text, name)
    found = asked.halves.foreseen(lambda: broken_of(asked, expected))
    cells, rows = [], []
    for it in found:
        ends = [written(asked, it.pair, at) for at in (0, 1)]
        told = Told(it.stretch.word, it.stretch.word, it.reasons, unsure=it.unsure)
        cells.append([str(it.of.number), it.of.text, *ends, f"{it.stretch.protocol} {it.stretch.low}", it.stretch.word, told.written()])
        packet = {"from": one_of(it.pair[0]), "to": one_of(it.pair[1]), "protocol": it.stretch.protocol, "port": it.stretch.low}
        rows.append({"line": it.of.number, "expectation": it.of.text, "packet": packet, "verdict": it.stretch.word, **told.for_programs()})
    broken = sum(not it.unsure for it in found)
    held = f"{len(expected) - len(found)} of {counted(len(expected), 'expectation holds', 'expectations hold')}"
    doubtful = f", and of {len(found) - broken} that isn't sure" if len(found) > broken else ""
    return Report("check", held + doubtful, HEADS, cells, rows, asked.notes(), TELLS if broken else UNSURE if found else NOTHING)


class Shown(NamedTuple):
    """A packet that shows that an expectation doesn't hold, or that it may not, where `unsure` says what isn't read."""

    of: Expectation
    pair: tuple[End, End]
    stretch: Stretch
    reasons: tuple[str, ...]
    unsure: tuple[str, ...]


def broken_of(asked: Asked, expected: list[Expectation]) -> list[Shown]:
    """What shows that expectations don't hold: all are asked about at once."""
    by_line = [(it, list(pairs(asked.halves, it.source, it.target))) for it in expected]
    asked.about((pair for _, each in by_line for pair in each), explains=False)
    return [found for it, each in by_line for found in shown_by(asked, it, each)]


def shown_by(asked: Asked, it: Expectation, each: list[tuple[End, End]]) -> Iterable[Shown]:
    """A packet that shows that an expectation doesn't hold, else one that may show it, where there is one."""
    broken = asked.about(each, it.ports, is_open=it.word == NEVER, explains=False)
    for pair, stretch in stretches_of(broken):
        broken.explain([stretch])
        yield Shown(it, pair, stretch, broken.reasons(stretch), ())
        return
    about = asked.about(each, it.ports, is_open=it.word != NEVER, explains=False)
    for pair, stretch in stretches_of(about) if asked.halves.beside.has_doubts else ():
        doubts = about.unsure(*pair, stretch)
        if doubts:
            about.explain([stretch])
            yield Shown(it, pair, stretch, about.reasons(stretch), doubts)
            return


def stretches_of(about: About) -> Iterable[tuple[tuple[End, End], Stretch]]:
    for pair in about.pairs:
        yield from ((pair, it) for it in about.stretches(*pair))


def one_of(end: End) -> dict:
    """One pod, or one address, of an end."""
    return listed([end])[0]


def written(asked: Asked, pair: tuple[End, End], at: int) -> str:
    """An end of a packet: one pod's name, or what isn't a pod."""
    end = pair[at]
    return asked.names.side(frozenset([end]))[0] if isinstance(end, Outside) else end.pods[0].name
