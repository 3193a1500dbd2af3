"""What the questions about connections share: a universe, the halves, names, and the reasons of a stretch."""
from __future__ import annotations

from typing import Callable, Iterable, Optional, Sequence

from .connections import Stretch, open_stretches, stretches, wanted
from .core import Core
from .ends import End, Outside, Universe
from .halves import Halves, Segment
from .naming import Names
from .opened import Opened
from .children import nothing
from .programs import Program
from .progress import Progress
from .reasons import of_half
from .resolving import EVERY_PORT, PortRange
from .selecting import Half
from .states import States

# Protocol, first and last port, verdict, and the segments of the halves.
Piece = tuple


class Asked:
    """A question's states, and the way to answers about them."""

    def __init__(
        self,
        states: States,
        find: Callable[[], Program],
        progress: Progress,
        node: Optional[str] = None,
        lists: Callable[[], Optional[Program]] = lambda: None,
        meanwhile: Callable[[], None] = nothing,
    ):
        """`find` gives policyd, and `lists` connections, where that is there; `meanwhile` is called while connections works."""
        self.states, self.progress = states, progress
        self.universe = Universe(states.ends(), node, states.are_whole)
        self.halves = Halves(self.universe, Core(find, self.universe.sets, progress), states.phases())
        self.opened = Opened(lists, self.halves, progress, meanwhile)
        self.names = Names(self.universe.groups)

    def about(self, pairs: Iterable[tuple[End, End]], ports: PortRange = EVERY_PORT, phase: int = 0, is_open: Optional[bool] = None, explains: bool = True) -> "About":
        """What is so between ends at some ports; where `is_open` is given, only what is open, or only what isn't."""
        found = About(self, list(pairs), ports, phase, is_open)
        if explains:
            found.explain(it for pair in found.pairs for it in found.stretches(*pair))
        return found

    def notes(self) -> list[str]:
        """What is said of what answers lack."""
        return [*self.states.notes(), *self.opened.notes]

    def why(self, half: Half, segment: Segment) -> str:
        return of_half(half, self.halves.why(segment), self.states.written)


class About:
    """Connections of one state with their stretches, each asked and explained."""

    def __init__(self, asked: Asked, pairs: Sequence[tuple[End, End]], ports: PortRange, phase: int, is_open: Optional[bool]):
        self.asked, self.pairs, self.ports, self.phase, self.is_open = asked, pairs, ports, phase, is_open
        self.kept: dict[tuple, list[Stretch]] = {}
        self.kinds: dict[int, tuple[int, End]] = {}
        # (of all connections between ends of two kinds one is asked about)
        alike = {self.kind(*pair): pair for pair in pairs}
        self.told = asked.opened.told(alike, phase) if is_open is True else {}
        asked.halves.ask((it for kind, pair in alike.items() if kind not in self.told for it in wanted(*pair, phase)), "asking about connections")

    def kind(self, *pair: End) -> tuple[int, ...]:
        """What the verdicts on a connection depend on: the numbers of its ends' kinds."""
        kinds = self.kinds
        for it in pair:
            if id(it) not in kinds:
                # (the end is kept too, so that no other has its place in memory)
                kinds[id(it)] = (self.asked.halves.kind(self.phase, it), it)
        return kinds[id(pair[0])][0], kinds[id(pair[1])][0]

    def explain(self, found: Iterable[Stretch]) -> None:
        """Asks for the reasons of stretches."""
        alone = {id(it): it for it in found}
        self.asked.halves.explain((segment for it in alone.values() for _, segment in self.deciding(it)), "asking for reasons")

    def stretches(self, source: End, target: End) -> list[Stretch]:
        """The stretches of a connection that are asked for, made once for all that are judged alike."""
        kind = self.kind(source, target)
        found = self.kept.get(kind)
        if found is None:
            found = self.kept[kind] = list(self.judged(source, target))
        return found

    def judged(self, source: End, target: End) -> Iterable[Stretch]:
        halves, told = self.asked.halves, self.told.get(self.kind(source, target))
        if told is not None:
            return self.cut(open_stretches(halves, source, target, self.phase, told))
        # (most connections of an isolated pod are denied whole, and need no look at each stretch)
        if self.is_open is True and any(halves.is_shut(*it) for it in wanted(source, target, self.phase)):
            return ()
        return self.cut(stretches(halves, source, target, self.phase))

    def cut(self, found: Iterable[Stretch]) -> Iterable[Stretch]:
        for it in found:
            part = self.ports.cut(it.protocol, it.low, it.high)
            if part and self.is_open in (None, it.is_allowed):
                yield it._replace(low=part[0], high=part[1])

    def deciding(self, it: Stretch) -> list[tuple[str, Segment]]:
        """The halves that decide a stretch: both where it is allowed, and else those that deny."""
        return [half for half in it.halves if it.is_allowed or not half[1].is_allowed]

    def reasons(self, it: Stretch) -> tuple[str, ...]:
        halves = self.asked.halves
        return tuple(f"{direction}: {self.asked.why(halves.half_of(segment), segment)}" for direction, segment in sorted(self.deciding(it), key=lambda half: half[0]))

    def marks(self, it: Stretch) -> tuple[str, ...]:
        """The marks of what lets a stretch pass, where no entry without a mark does."""
        halves = self.asked.halves
        found = [one for _, segment in it.halves for one in self.asked.states.marks(halves.why(segment).allows)] if it.is_allowed else []
        return tuple(dict.fromkeys(found))

    def unsure(self, source: End, target: End, it: Stretch) -> tuple[str, ...]:
        """The names of what isn't read and may turn the verdict on a stretch."""
        halves = self.asked.halves
        if not halves.beside.has_doubts:
            return ()
        asked = zip(wanted(source, target, self.phase), it.halves)
        return tuple(dict.fromkeys(halves.beside.doubts((*one[:3], halves.plain(one, segment)) for one, (_, segment) in asked)))

    def names_beside(self, source: End, target: End, it: Stretch) -> tuple[str, ...]:
        """The names whose addresses are reached beside the world, where a connection is with the world."""
        halves = self.asked.halves
        if not halves.beside.has_names or not any(isinstance(end, Outside) and end.is_world for end in (source, target)):
            return ()
        return halves.beside.names_at((one[:3] for one in wanted(source, target, self.phase)), it.protocol, it.low)
