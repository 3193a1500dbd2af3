"""Connections that are told alike, as few lines as may be."""
from __future__ import annotations

from collections import Counter
from typing import Iterable, NamedTuple

from lib import ports
from lib.addresses import known, written

from .core import ALLOWED
from .ends import ENTITIES, End, Group, Outside, of_both
from .naming import Names, of_names, of_regions

# Protocols that have the same ranges of ports, with these.
Ports = tuple[tuple[tuple[str, ...], tuple[tuple[int, int], ...]], ...]


class Told(NamedTuple):
    """What a line says of its connections: a verdict before and after, and what decides, a text for each half."""

    before: str
    after: str
    reasons: tuple[str, ...]
    # Names whose unknown addresses are meant beside the world, and what isn't read and may turn a verdict.
    names: tuple[str, ...] = ()
    unsure: tuple[str, ...] = ()
    # What lets it pass beside the entries, where no entry without a mark does: a proxy (`L7`), say.
    marks: tuple[str, ...] = ()

    @property
    def changes(self) -> bool:
        """Whether it is open before and not after, or after and not before, as far as it is read."""
        return (self.before == ALLOWED) != (self.after == ALLOWED)

    def written(self) -> str:
        names = [f"and names: {', '.join(self.names)}"] if self.names else []
        return "; ".join([*self.reasons, *names, *([f"unsure: {', '.join(self.unsure)} isn't read whole"] if self.unsure else [])])

    def for_programs(self) -> dict:
        more = {name: list(value) for name, value in (("names", self.names), ("unsure", self.unsure), ("marks", self.marks)) if value}
        return {"decided_by": list(self.reasons), **more}


class Line(NamedTuple):
    """Connections that are told alike: each of `froms` with each of `tos`, on each of the ports."""

    froms: frozenset
    tos: frozenset
    ports: Ports
    told: Told


class Rows:
    """Packets between two ends, joined: by their ports, then by what they come from, then by where they go."""

    def __init__(self) -> None:
        self.by_ports: dict[tuple, dict[str, list]] = {}
        self.by_from: dict[tuple, set] = {}

    def add(self, source: End, target: End, protocol: str, low: int, high: int, told: Told) -> None:
        self.by_ports.setdefault((source, target, told), {}).setdefault(protocol, []).append((low, high))

    def join(self, source: End, target: End, of_ports: Ports, told: Told) -> None:
        """All packets between two ends that are told so, by their ports."""
        self.by_from.setdefault((target, of_ports, told), set()).add(source)

    def lines(self, names: Names) -> list[Line]:
        by_to: dict[tuple, set] = {}
        for (source, target, told), stretches in self.by_ports.items():
            self.join(source, target, alike(stretches), told)
        for (target, of_ports, told), sources in self.by_from.items():
            by_to.setdefault((frozenset(sources), of_ports, told), set()).add(target)
        made = [Line(froms, frozenset(tos), of_ports, told) for (froms, of_ports, told), tos in by_to.items()]
        return sorted(made, key=lambda it: (names.side(it.tos, it.froms), names.side(it.froms, it.tos), it.ports, it.told))


def with_one_world(lines: Iterable[Line]) -> list[Line]:
    """Lines in which both families' worlds are one end, where no line has that of one family alone; and so with names."""
    lines = list(lines)
    counts = [Counter(filter(None, map(of_both, side))) for line in lines for side in (line.froms, line.tos)]
    apart = {it for each in counts for it, count in each.items() if count == 1}
    joint = lambda side: frozenset(it if both is None or both in apart else both for it in side for both in [of_both(it)])
    return [it._replace(froms=joint(it.froms), tos=joint(it.tos)) for it in lines]


def alike(stretches: dict[str, list]) -> Ports:
    """Protocols with the stretches that they have; those that have the same stand together."""
    found: dict[tuple, list[str]] = {}
    for protocol in ports.PROTOCOLS:
        if protocol in stretches:
            found.setdefault(ports.merged(stretches[protocol]), []).append(protocol)
    return tuple((tuple(protocols), ranges) for ranges, protocols in found.items())


def written_ports(stretches: Ports) -> str:
    parts = []
    for protocols, ranges in stretches:
        if len(protocols) == len(ports.PROTOCOLS):
            parts.append("every protocol and port" if ranges == ((0, ports.LAST),) else f"every protocol, {ports.written(ranges)}")
        else:
            parts.append(f"{' and '.join(protocols)} {ports.written(ranges)}")
    return "; ".join(parts)


def listed(ends: Iterable[End]) -> list[dict]:
    """Ends for a program: each pod, prefix and entity."""
    ends = list(ends)
    all_pods = [pod for it in ends if isinstance(it, Group) for pod in it.pods]
    pods = sorted(it.name for it in all_pods if not it.stands_for)
    others = sorted((it.name, it.stands_for) for it in all_pods if it.stands_for)
    addresses: list[dict] = [{"cidr": written(known(str(it.value))), "except": []} for it in ends if isinstance(it, Outside) and it.kind == "address"]
    prefixes = [{"cidr": written(whole), "except": list(map(written, but))} for whole, but in of_regions(ends)]
    entities = sorted(it.value for it in ends if isinstance(it, Outside) and it.kind == "entity")
    more: list[dict] = [*addresses, *prefixes, *({"entity": ENTITIES[it]} for it in entities), *({"name": name, **({"family": family} if family else {})} for name, family in of_names(ends))]
    return [*({"pod": it} for it in pods), *({"pods": name, "stands_for": kind} for name, kind in others), *more]
