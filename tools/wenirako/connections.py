"""Connections: from an end to another one, by what its source may send and what its target may receive.

One from pod to pod has two halves, and passes where both allow it; one with a node, an entity or an address outside the
cluster has one.
"""
from __future__ import annotations

import bisect
from typing import Iterable, Mapping, NamedTuple, Optional, Sequence

from lib import ports

from .core import ALLOWED, BY_RULE, NoAnswer
from .ends import End, Group
from .halves import Halves, Profile, Segment, Side, joined
from .selecting import EGRESS, INGRESS

# A half as it is asked for: its phase, its endpoint's set of labels, its direction and the other side.
Wanted = tuple[int, int, str, Side]
# First and last ports, ascending.
Ranges = Sequence[tuple[int, int]]


class Stretch(NamedTuple):
    """A stretch of ports of a protocol, in which a connection has one verdict, with the segments of its halves."""

    protocol: str
    low: int
    high: int
    halves: tuple[tuple[str, Segment], ...]

    @property
    def is_allowed(self) -> bool:
        return all(it.is_allowed for _, it in self.halves)

    @property
    def word(self) -> str:
        """The verdict: allowed, or that of the half that doesn't allow it."""
        words = [it.word for _, it in self.halves if not it.is_allowed]
        return min(words, key=lambda it: it != BY_RULE, default=ALLOWED)


def side(end: End, phase: int) -> Side:
    """An end as the other side of a half."""
    return end.number(phase) if isinstance(end, Group) else end


def wanted(source: End, target: End, phase: int) -> list[Wanted]:
    """The halves of a connection."""
    found: list[Wanted] = []
    if isinstance(source, Group):
        found.append((phase, source.number(phase), EGRESS, side(target, phase)))
    if isinstance(target, Group):
        found.append((phase, target.number(phase), INGRESS, side(source, phase)))
    return found


def profiles(halves: Halves, asked: Sequence[Wanted]) -> Optional[list[Profile]]:
    """What was answered of halves; None where no packet has such an end."""
    found = [it for it in (halves.profile(*one) for one in asked) if it is not None]
    return found if len(found) == len(asked) else None


def stretches(halves: Halves, source: End, target: End, phase: int) -> Iterable[Stretch]:
    """A connection's stretches, once its halves have been asked about."""
    asked = wanted(source, target, phase)
    found = profiles(halves, asked)
    for protocol, low, high, segments in joined(found) if found else ():
        yield Stretch(protocol, low, high, tuple((it[2], segment) for it, segment in zip(asked, segments)))


def open_stretches(halves: Halves, source: End, target: End, phase: int, told: Mapping[str, Ranges]) -> Iterable[Stretch]:
    """A connection's stretches that are open, where it is told at which ports of which protocol it is."""
    asked = wanted(source, target, phase) if told else []
    for protocol, low, high, segments in joined([halves.unasked(*it, ALLOWED) for it in asked]) if asked else ():
        if is_within(told.get(protocol, ()), low, high):
            halves.words.update((it.question, ALLOWED) for it in segments)
            yield Stretch(protocol, low, high, tuple((it[2], segment) for it, segment in zip(asked, segments)))


def is_within(ranges: Ranges, low: int, high: int) -> bool:
    """Whether a stretch lies in one of the ranges; it lies in one, or apart from all."""
    found = bisect.bisect_right(ranges, (high, ports.LAST)) - 1
    if found < 0 or ranges[found][1] < low:
        return False
    first, last = ranges[found]
    if first > low or high > last:
        raise NoAnswer(f"connections tells the ports {first} to {last} from others, and {low} to {high} were thought to be judged alike")
    return True


def pairs_with(source: End, target: End, is_noded: bool) -> bool:
    """Whether a connection between two ends is told of: not that of a pod to itself, and with a node's pod where one is named."""
    if isinstance(source, Group) and isinstance(target, Group) and len(source.pods) == len(target.pods) == 1 and source.pods[0].name == target.pods[0].name:
        return False
    return not is_noded or any(isinstance(it, Group) and it.is_local for it in (source, target))
