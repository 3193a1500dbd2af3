"""`why`: whether a packet passes, and what allows or denies each half of its connection."""
from __future__ import annotations

from .asked import About, Asked
from .connections import Stretch
from .ends import End, of_both
from .report import Report
from .resolving import Named, named, one_port, pairs
from .rows import listed
from .selecting import EGRESS
from .statuses import NOTHING, TELLS, UNSURE

HEADS = ("FROM", "TO", "PORT", "VERDICT", "HALF", "IS", "SINCE")


def report(asked: Asked, source: str, target: str, port: str) -> Report:
    """Why a packet passes from one end to another, or doesn't."""
    ends = [named(asked.universe, text, place) for place, text in (("FROM", source), ("TO", target))]
    ports = one_port(port, "PROTOCOL/PORT")
    phase = 0 if asked.states.is_one else 1
    return asked.halves.foreseen(lambda: told(asked, ends, ports, phase))


def told(asked: Asked, ends: list[Named], ports, phase: int) -> Report:
    cells: list[list[str]] = []
    rows: list[dict] = []
    listed_pairs = list(pairs(asked.halves, ends[0], ends[1], phase))
    about = asked.about(listed_pairs, ports, phase)
    before = asked.about(listed_pairs, ports, 0) if phase else about
    asked.halves.explain((segment for pair in listed_pairs for it in about.stretches(*pair) for _, segment in it.halves), "asking for reasons")
    seen: dict[tuple, list[tuple[Stretch, tuple[End, End]]]] = {}
    for pair in listed_pairs:
        for it in about.stretches(*pair):
            was = next(iter(before.stretches(*pair)), it).word if phase else it.word
            unsure = about.unsure(*pair, it)
            seen.setdefault((told_as(asked, about, pair, it), was, unsure), []).append((it, pair))
    words, doubts = set(), [name for *_, unsure in seen for name in unsure]
    for (_, was, unsure), found in seen.items():
        it, alike = found[0][0], [pair for _, pair in found]
        froms, tos = (frozenset(pair[at] for pair in alike) for at in (0, 1))
        halves = {direction: (segment, asked.why(asked.halves.half_of(segment), segment)) for direction, segment in it.halves}
        words.add(it.word)
        written = [", ".join(asked.names.side(froms, tos)), ", ".join(asked.names.side(tos, froms)), f"{it.protocol} {it.low}"]
        verdict = (it.word if was == it.word else f"{it.word}, and {was} before") + (f", unsure: {', '.join(unsure)} isn't read whole" if unsure else "")
        cells += [[*written, verdict, of_whom(direction, written), segment.word, why] for direction, (segment, why) in sorted(halves.items())]
        parts = [{"direction": direction, "verdict": segment.word, "reason": why} for direction, (segment, why) in sorted(halves.items())]
        rows.append(
            {"from": listed(froms), "to": listed(tos), "protocol": it.protocol, "port": it.low, "before": was, "verdict": it.word, "halves": parts, **({"unsure": list(unsure)} if unsure else {})}
        )
    status = UNSURE if doubts else NOTHING if words == {"allowed"} else TELLS
    return Report("why", summary(ends, ports, words), HEADS, cells, rows, asked.notes(), status)


def told_as(asked: Asked, about: About, pair: tuple[End, End], it: Stretch) -> tuple:
    """What tells a stretch of a connection from others: with the world of one family, its answer; else what was asked."""
    both = [*map(of_both, pair)]
    if not any(both):
        return (it,)
    halves = tuple((direction, segment.word, asked.why(asked.halves.half_of(segment), segment)) for direction, segment in it.halves)
    return it.protocol, it.low, halves, *(one or kind for one, kind in zip(both, about.kind(*pair)))


def of_whom(direction: str, written: list[str]) -> str:
    return f"{direction} of {written[0 if direction == EGRESS else 1]}"


def summary(ends: list[Named], ports, words: set[str]) -> str:
    verdict = "no such packet" if not words else next(iter(words)) if len(words) == 1 else f"it depends: {', '.join(sorted(words))}"
    return f"{ends[0].text} to {ends[1].text}, {ports.protocols[0]} {ports.low}: {verdict}"
