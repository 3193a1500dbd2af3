"""What a change opens and shuts: connections that are allowed before and not after, or after and not before.

A half can change only where the rules that select its endpoint differ, or the labels at its other side. So those halves
are asked about first, and where one changes, the other half of its connections.

What isn't read of a policy that is there before and after does the same in both to pods whose labels are the same. So a
half may change for it only where it may turn one verdict and not the other, or where labels differ: then its connection
is shown too, and marked, though both verdicts are alike.
"""
from __future__ import annotations

from typing import Iterable, Mapping, Optional

from lib.reading import Bad

from .both import Both, Boths, wanted_of
from .changes import HALVES, Changes, Heard
from .connections import Wanted, pairs_with, profiles
from .ends import End, Group, Outside
from .halves import Halves, Segment, joined
from .holding import hold
from .naming import Names
from .opened import NoWord, Opened, Untold
from .reasons import NO_ENTRY, of_change
from .rows import Line, Ports, Rows, Told
from .rows import alike as alike_ports
from .selecting import DIRECTIONS, EGRESS, INGRESS, Half
from .states import States
from .stretch import Changed, Stretch, joined_alike, word_of


def new_of(halves: tuple[Half, Half]) -> list[str]:
    """The policies that isolate after a change and didn't before."""
    before, after = halves
    old = {*before.rules}
    return list(dict.fromkeys(it.policy.name for it in after.rules if it not in old and after.direction in it.part.isolates()))


class Diff:
    """The connections that change, and those of which a half alone does."""

    def __init__(self, states: States, halves: Halves, opened: Opened):
        self.states, self.halves, self.opened, self.universe = states, halves, opened, halves.universe
        self.found: list[Changed] = halves.foreseen(self.find)
        self.hold_unforeseen()

    def find(self) -> list[Changed]:
        # (what isn't read is known anew where the core refuses what was thought to be read)
        self.beside, self.boths = self.halves.beside, Boths(self.halves)
        self.kept: dict[tuple, list[Stretch]] = {}
        self.texts: dict[tuple, Optional[str]] = {}
        self.groups = self.halves.merged(it for it in self.universe.groups if it.before is not None and it.after is not None)
        changes = Changes(self.opened, self.groups) if self.opened.program() is not None else None
        heard = self.heard(changes) if changes is not None else None
        found = [(*pair, self.of_heard(*pair, it)) for pair, it in heard.items() if not self.is_untold(*pair)] if heard is not None else []
        if heard is None or self.beside.has_names or self.beside.has_doubts:
            found += self.judged({pair: self.boths.of(*pair) for pair in self.candidates() if heard is None or self.is_untold(*pair)})
        if changes is not None and heard is None and self.opened.program() is not None:
            self.hold(changes, found)
        once = (it for listed in self.kept.values() for it in listed)
        self.halves.explain((segment for it in once for pair in it.segments() if it.asks(*pair) for segment in pair), "asking for reasons")
        return found

    # What connections tells.

    def heard(self, changes: Changes) -> Optional[Mapping[tuple[End, End], Heard]]:
        """What connections tells of halves that change; None where it can't."""
        try:
            return changes.told(HALVES)
        except NoWord:
            return None
        except Untold as why:
            self.opened.lacks("what opens and shuts is by policyd alone", why)
            return None

    def is_untold(self, source: End, target: End) -> bool:
        """Whether connections can't tell of a connection: an end is the unknown addresses of a name, or something isn't read."""
        if self.beside.has_names and any(isinstance(it, Outside) and it.kind == "name" for it in (source, target)):
            return True
        return self.beside.has_doubts and any(it.is_unsure for it in self.boths.of(source, target))

    def of_heard(self, source: End, target: End, heard: Heard) -> list[Stretch]:
        """The stretches in which a connection changes that connections tells of, made once for all that are told alike."""
        ways: tuple[tuple[End, str, End], ...] = ((source, EGRESS, target), (target, INGRESS, source))
        # (where nothing is asked of a half's entries, its words are all that is told of it)
        key = (heard, *(self.boths.one(one, way, other) if is_asked else way for (one, way, other), is_asked in zip(ways, heard.asks) if isinstance(one, Group)))
        if key not in self.kept:
            self.kept[key] = joined_alike((it for it in self.cut(self.boths.of(source, target), heard) if it.is_shown or it.is_half), self.names_beside)
        return self.kept[key]

    def cut(self, boths: tuple[Both, ...], heard: Heard) -> Iterable[Stretch]:
        """What connections tells of, in parts in each of which the same entries decide."""
        before, after = [it.before for it in boths], [it.after for it in boths]
        for protocol, low, high, segments in joined([self.halves.beside_names(*it) for it in (*before, *after)]):
            said = heard.at(protocol, low, high)
            if said is not None:
                words = [each[it[2] == INGRESS] for each in (said.before, said.after) for it in before]
                known = [self.halves.told(*it) for it in zip(segments, words)]
                halves = tuple(zip(before, after, known, known[len(before) :]))
                yield Stretch(protocol, low, high, halves, (word_of(known[: len(before)]), word_of(known[len(before) :])), ())

    def hold(self, changes: Changes, found: Iterable[Changed]) -> None:
        """Complains where a `connections` that doesn't tell of halves says that other connections change."""
        told = (it for it in found if not any(isinstance(end, Outside) and end.kind == "name" for end in it[:2]))
        known = ((source, target, it) for source, target, listed in told for it in listed if it.changes)
        try:
            hold(changes, ((source, target, it.protocol, it.low, it.high, it.is_allowed) for source, target, it in known))
        except Untold as why:
            self.opened.lacks("what opens and shuts is by policyd alone", why)

    def hold_unforeseen(self) -> None:
        """Of a policy that comes or goes and that is refused for an unforeseen reason, nothing can be said."""
        changed = self.states.change.changed()
        for state in self.states.ends():
            for key, it in state.policies.items():
                if key in changed and it.name in self.halves.unforeseen:
                    raise Bad(f"{it.name} isn't read: {self.halves.unforeseen[it.name]}. Nothing can be said of it")

    # Which connections may change.

    def candidates(self) -> list[tuple[End, End]]:
        """Pairs of a source and a target of which a half may change."""
        groups = self.groups
        relabelled = [it for it in groups if it.before != it.after]
        found: dict[tuple[End, End], None] = {}
        for direction in DIRECTIONS:
            for group in groups:
                asked = [(phase, group.number(phase), direction) for phase in (0, 1)]
                others: list[End] = [*groups, *self.halves.outer(*asked)] if self.boths.is_touched(group, direction) else [*relabelled]
                for other in others:
                    pair = (group, other) if direction == EGRESS else (other, group)
                    if pairs_with(*pair, self.universe.node is not None):
                        found[pair] = None
        return list(found)

    # What policyd says.

    def judged(self, candidates: Mapping[tuple[End, End], tuple[Both, ...]]) -> list[Changed]:
        """The connections of these that change, or of which a half does."""
        self.halves.ask(wanted_of(it for boths in candidates.values() for it in boths if it.may_change), "asking about what may change")
        moving = {pair: boths for pair, boths in candidates.items() if any(it.may_change and self.boths.moves(it) for it in boths)}
        self.halves.ask(wanted_of(it for boths in moving.values() for it in boths), "asking about other halves")
        return [(*pair, self.changed(boths)) for pair, boths in moving.items()]

    def changed(self, boths: tuple[Both, ...]) -> list[Stretch]:
        """The stretches in which a connection changes, made once for all that are told alike."""
        key = tuple(map(self.boths.shape, boths))
        if key not in self.kept:
            self.kept[key] = joined_alike((it for it in self.stretches(boths) if it.is_shown or it.is_half), self.names_beside)
        return self.kept[key]

    def stretches(self, boths: tuple[Both, ...]) -> Iterable[Stretch]:
        before, after = [it.before for it in boths], [it.after for it in boths]
        found = profiles(self.halves, [*before, *after])
        for protocol, low, high, segments in joined(found) if found else ():
            halves = tuple(zip(before, after, segments, segments[len(before) :]))
            if any(self.halves.differ(*it) for it in halves):
                words = word_of(segments[: len(before)]), word_of(segments[len(before) :])
                yield Stretch(protocol, low, high, halves, words, self.doubts(halves))

    def doubts(self, halves: tuple) -> tuple[str, ...]:
        """The names of what isn't read and may turn a verdict of the connection, before or after."""
        told = [name for at in (0, 1) for name in self.beside.doubts((*it[at][:3], self.halves.plain(it[at], it[2 + at])) for it in halves)]
        return tuple(dict.fromkeys(told))

    # What is told.

    def lines(self, names: Names, is_shown: bool = True) -> list[Line]:
        """The connections that change; or those that don't, though a half of them does."""
        rows = Rows()
        told: dict[int, list[tuple[Ports, Told]]] = {}
        for source, target, listed in self.found:
            if id(listed) not in told:
                told[id(listed)] = self.all_told(it for it in listed if it.is_shown == is_shown)
            for ports, one in told[id(listed)]:
                rows.join(source, target, ports, one)
        return rows.lines(names)

    def all_told(self, listed: Iterable[Stretch]) -> list[tuple[Ports, Told]]:
        """What is told of a connection, each with its ports."""
        found: dict[Told, dict[str, list]] = {}
        for it in listed:
            found.setdefault(self.told(it), {}).setdefault(it.protocol, []).append((it.low, it.high))
        return [(alike_ports(stretches), told) for told, stretches in found.items()]

    def told(self, it: Stretch) -> Told:
        texts = [text for half in sorted(it.halves, key=lambda half: half[1][2]) for text in [self.text(it, *half)] if text]
        marked = [one for half in it.halves for one in self.states.marks(self.halves.why(half[3]).allows)] if it.is_allowed else []
        return Told(*it.words, tuple(texts), self.names_beside(it), it.unsure, tuple(dict.fromkeys(marked)))

    def text(self, it: Stretch, was: Wanted, asked: Wanted, before: Segment, after: Segment) -> Optional[str]:
        """What decides a half, where that decides its connection; worked out once for two segments."""
        if not it.asks(before, after):
            return None if after.is_allowed else f"{asked[2]}: {NO_ENTRY}"
        # (segments are kept by their halves' profiles and by the stretches that have them, so none takes another's place)
        key = id(before), id(after), it.is_allowed
        if key not in self.texts:
            new = self.halves.once(new_of, (self.halves.half(*was[:3]), self.halves.half(*asked[:3])))
            why = of_change(self.halves.why(before), self.halves.why(after), it.is_allowed, new, self.states.written)
            self.texts[key] = f"{asked[2]}: {why}" if why else None
        return self.texts[key]

    def names_beside(self, it: Stretch) -> tuple[str, ...]:
        """The names whose addresses are reached beside the world, where the connection is with the world."""
        sides = [half[0][3] for half in it.halves] if self.beside.has_names else []
        if not any(isinstance(side, Outside) and side.is_world for side in sides):
            return ()
        return self.beside.names_at((one[:3] for half in it.halves for one in half[:2]), it.protocol, it.low)
