"""Halves of connections before and after a change: one for all that are judged alike, and doubted alike.

There are as many of them as there are halves that differ, and not as there are connections.
"""
from __future__ import annotations

from typing import Iterable, Sequence

from .connections import Wanted, profiles, side
from .core import BY_DEFAULT
from .ends import End, Group, Outside
from .halves import Halves, joined
from .selecting import EGRESS, INGRESS


class Both:
    """A half before and after a change, with those of one connection that has it, and whether it may change."""

    def __init__(self, before: Wanted, after: Wanted, may_change: bool, is_unsure: bool):
        """`is_unsure` is so where something that isn't read touches it, before or after."""
        self.before, self.after, self.may_change, self.is_unsure = before, after, may_change, is_unsure


class Whose:
    """The endpoint of halves before and after a change, and what its rules tell of other sides."""

    def __init__(self, halves: Halves, group: Group, direction: str, made: dict[tuple, dict[tuple, Both]]):
        """`made` has the halves that were made so far, by what they are of: endpoints that are judged alike share them."""
        self.halves, self.asked = halves, [(phase, group.number(phase), direction) for phase in (0, 1)]
        self.of_rules = [halves.half(*it) for it in self.asked]
        self.numbers = [halves.beside.number(*it) for it in self.asked]
        self.is_relabelled, self.has_other_rules = group.before != group.after, self.of_rules[0] != self.of_rules[1]
        self.made = made.setdefault((*self.of_rules, *self.numbers), {})
        self.known: dict[End, Both] = {}

    def of(self, other: End) -> Both:
        """The half with another side."""
        found = self.known.get(other)
        if found is None:
            found = self.known[other] = self.make(other)
        return found

    def make(self, other: End) -> Both:
        if isinstance(other, Group):
            seen: list = [self.halves.alike(half, other.number(phase)) for phase, half in enumerate(self.of_rules)]
        else:
            seen = [self.halves.key(*it, other)[1:] for it in self.asked]
        is_same = not self.is_relabelled and (not isinstance(other, Group) or other.before == other.after)
        key = (*seen, is_same)
        if key not in self.made:
            before, after = ((*it, side(other, phase)) for phase, it in enumerate(self.asked))
            self.made[key] = Both(before, after, self.has_other_rules or seen[0] != seen[1] or self.are_doubted(is_same), any(self.numbers))
        return self.made[key]

    def are_doubted(self, is_same: bool) -> bool:
        """Whether something else that isn't read touches a half after, or the same something touches other labels."""
        return self.numbers[0] != self.numbers[1] or bool(self.numbers[0]) and not is_same

    def is_touched(self) -> bool:
        """Whether halves may change, whatever their other sides are."""
        return self.has_other_rules or self.are_doubted(not self.is_relabelled)


class Boths:
    """Makes them, each once, and says what is so of them."""

    def __init__(self, halves: Halves):
        self.halves, self.beside = halves, halves.beside
        self.known: dict[tuple[Group, str], Whose] = {}
        self.made: dict[tuple, dict[tuple, Both]] = {}
        self.moved: dict[Both, bool] = {}
        self.shapes: dict[Both, object] = {}

    def of(self, source: End, target: End) -> tuple[Both, ...]:
        """The halves of a connection."""
        first = (self.one(source, EGRESS, target),) if isinstance(source, Group) else ()
        return (*first, self.one(target, INGRESS, source)) if isinstance(target, Group) else first

    def one(self, group: Group, direction: str, other: End) -> Both:
        return self.whose(group, direction).of(other)

    def whose(self, group: Group, direction: str) -> Whose:
        found = self.known.get((group, direction))
        if found is None:
            found = self.known[group, direction] = Whose(self.halves, group, direction, self.made)
        return found

    def is_touched(self, group: Group, direction: str) -> bool:
        """Whether halves of a group in a direction may change, whatever their other sides are."""
        return self.whose(group, direction).is_touched()

    def moves(self, it: Both) -> bool:
        """Whether some packet of a half that may change is judged otherwise after, once it has been asked about."""
        if it not in self.moved:
            found = profiles(self.halves, (it.before, it.after))
            self.moved[it] = found is not None and any(self.halves.differ(it.before, it.after, *pair) for *_, pair in joined(found))
        return self.moved[it]

    def shape(self, it: Both) -> object:
        """What tells a half from others in what is said of its connections.

        One with a pod that no entry speaks of, before or after, is denied by default at each port: all such are one.
        """
        if it not in self.shapes:
            self.shapes[it] = it.before[2] if self.is_shut(it) else it
        return self.shapes[it]

    def is_shut(self, it: Both) -> bool:
        found = profiles(self.halves, (it.before, it.after))
        if found is None or isinstance(it.before[3], Outside) or any(self.beside.number(*each[:3]) for each in (it.before, it.after)):
            return False
        return all(segment.word == BY_DEFAULT for profile in found for segments in profile.values() for segment in segments)


def wanted_of(boths: Iterable[Both]) -> Iterable[Wanted]:
    """What is asked about halves, each once."""
    for it in dict.fromkeys(boths):
        yield from (it.before, it.after)
