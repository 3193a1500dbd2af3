"""What a state says beside its policies as they are read: unknown addresses of names, and what isn't read of policies."""
from __future__ import annotations

from typing import Any, Iterable, NamedTuple, Sequence

from lib import ports, unsure

from .core import ALLOWED, BY_RULE
from .ends import Universe


class Plain(NamedTuple):
    """A half's verdict as far as doubts about it ask: its word, and whether it passes since nothing isolates it."""

    word: str
    passes_free: bool

    @property
    def is_allowed(self) -> bool:
        return self.word == ALLOWED

    def is_free(self) -> bool:
        return self.passes_free


class Beside:
    """What is said of sets of labels, each asked once."""

    def __init__(self, universe: Universe):
        self.universe = universe
        self.kept: dict[tuple, list] = {}
        self.numbers: dict[frozenset, int] = {frozenset(): 0}
        self.has_doubts = any(it.all_unsure for it in universe.states)
        self.has_names = any(it.all_names for it in universe.states)

    def names(self, phase: int, at: int, direction: str) -> list:
        """The entries that open unknown addresses to pods with the labels, or from them."""
        return self.asked("names", phase, at, direction) if self.has_names else []

    def unsure(self, phase: int, at: int, direction: str) -> list:
        """What isn't read and may change what pods with the labels may receive, or send."""
        return self.asked("unsure", phase, at, direction) if self.has_doubts else []

    def number(self, phase: int, at: int, direction: str) -> int:
        """A number for what `unsure` gives: 0 for nothing, and the same for the same."""
        return self.numbers.setdefault(frozenset(self.unsure(phase, at, direction)), len(self.numbers)) if self.has_doubts else 0

    def turning(self, asked: tuple, plain: Plain) -> frozenset:
        """What isn't read and may turn the verdict of a half."""
        return frozenset(unsure.of_half(plain, self.unsure(*asked)))

    def may_differ(self, before: tuple, after: tuple, one: Plain, other: Plain) -> bool:
        """Whether a half, asked about before and after a change, may be judged otherwise for what isn't read.

        What is the same in both does the same there to pods of the same labels.
        """
        turning = self.turning(before[:3], one), self.turning(after[:3], other)
        return any(turning) and (turning[0] != turning[1] or one != other or before[1:] != after[1:])

    def asked(self, what: str, phase: int, at: int, direction: str) -> list:
        key = (what, phase, at, direction)
        if key not in self.kept:
            self.kept[key] = getattr(self.universe.states[phase], what)(self.universe.sets[at].labels, direction)
        return self.kept[key]

    def doubts(self, halves: Iterable[tuple]) -> list[str]:
        """The names of what isn't read and may turn the verdict on a connection, given by its halves in one state."""
        if not self.has_doubts:
            return []
        pairs = [(plain, self.unsure(phase, at, direction)) for phase, at, direction, plain in halves]
        return [it.policy for it in unsure.of_connection(pairs)]

    def listed_names(self, asked: Iterable[tuple]) -> list[str]:
        """The names of unknown addresses at the other side of halves."""
        return list(dict.fromkeys(name for it in asked for entry in self.names(*it) for name in entry.names))

    def names_at(self, asked: Iterable[tuple], protocol: str, port: int) -> tuple[str, ...]:
        """The names whose addresses are opened at a port beside the world's."""
        listed = [entry for it in asked for entry in self.names(*it) if has_port(entry.ports, protocol, port)]
        return tuple(dict.fromkeys(name for entry in listed for name in entry.names))


def has_port(entry: dict, protocol: str, port: int) -> bool:
    """Whether an entry that has ports alone covers one."""
    return not entry.get("toPorts") or any(low <= port <= high for low, high in ports.ranges(entry)[protocol])


def parted(profile: dict, entries: Sequence) -> dict:
    """The world's profile, with a cut wherever an entry that opens unknown addresses begins or has just ended."""
    found = {}
    for protocol, segments in profile.items():
        cuts = sorted({cut for it in entries for low, high in ranges(it.ports, protocol) for cut in (low, high + 1)})
        found[protocol] = [part for it in segments for part in cut_at(it, cuts)]
    return found


def named(profile: dict, entries: Sequence) -> dict:
    """The world's profile as it is for the addresses of a name, which these entries open beside what opens the world."""
    return {protocol: [opened(it, entries, protocol) for it in segments] for protocol, segments in parted(profile, entries).items()}


def ranges(entry: dict, protocol: str) -> list[tuple[int, int]]:
    return ports.ranges(entry)[protocol] if entry.get("toPorts") else [(0, ports.LAST)]


def cut_at(segment: Any, cuts: Sequence[int]) -> Iterable:
    """A segment in parts."""
    lows = [segment.low, *(it for it in cuts if segment.low < it <= segment.high)]
    yield from (segment._replace(low=low, high=after - 1) for low, after in zip(lows, [*lows[1:], segment.high + 1]))


def opened(segment: Any, entries: Sequence, protocol: str) -> Any:
    """A segment with the entries that open it to the addresses of a name."""
    places = tuple(it.place for it in entries if has_port(it.ports, protocol, segment.low))
    return segment._replace(word=ALLOWED, names=places) if places and segment.word != BY_RULE else segment
