"""Stretches of ports in which a connection changes, or a half of it does."""
from __future__ import annotations

from typing import Callable, Iterable, NamedTuple

from .connections import Wanted
from .core import ALLOWED, BY_RULE
from .ends import End
from .halves import Segment


class Stretch(NamedTuple):
    """A stretch of ports in which a connection changes, or a half of it does, with its halves before and after."""

    protocol: str
    low: int
    high: int
    halves: tuple[tuple[Wanted, Wanted, Segment, Segment], ...]
    # The verdicts before and after, and what isn't read and may turn one of them.
    words: tuple[str, str]
    unsure: tuple[str, ...]

    @property
    def is_shown(self) -> bool:
        """Whether the connection changes, or may for what isn't read."""
        return self.changes or bool(self.unsure)

    @property
    def changes(self) -> bool:
        """Whether the connection is open before or after alone, as far as it is read."""
        return (self.words[0] == ALLOWED) != (self.words[1] == ALLOWED)

    @property
    def is_half(self) -> bool:
        """Whether a half of it changes."""
        return any(before.is_allowed != after.is_allowed for *_, before, after in self.halves)

    @property
    def is_allowed(self) -> bool:
        return self.words[1] == ALLOWED

    def asks(self, before: Segment, after: Segment) -> bool:
        """Whether what is told of a half depends on the entries that decide it."""
        return is_asked(self.is_allowed, before.word, after.word)

    def is_told_as(self, other: Stretch) -> bool:
        """Whether another stretch of the same connection has the same verdicts, and is told alike."""
        if (self.protocol, self.words, self.unsure) != (other.protocol, other.words, other.unsure):
            return False
        return all(alike(*one, *two, self.asks(*one) or other.asks(*two)) for one, two in zip(self.segments(), other.segments()))

    def segments(self) -> list[tuple[Segment, Segment]]:
        return [it[2:] for it in self.halves]


# A connection by its ends, and its stretches.
Changed = tuple[End, End, list[Stretch]]


def is_asked(is_allowed: bool, before: str, after: str) -> bool:
    """Whether the entries of a half with these words decide what is told of a connection that then is allowed, or isn't:
    not those of what passes where the other half shuts, nor where no entry allowed it before and none does after."""
    return is_allowed or after == BY_RULE or before == ALLOWED and after != ALLOWED


def alike(before: Segment, after: Segment, other_before: Segment, other_after: Segment, is_asked: bool) -> bool:
    """Whether a half is told alike in two stretches: where its entries are asked about, in the same segments alone."""
    if is_asked:
        return before is other_before and after is other_after
    return (before.word, after.word) == (other_before.word, other_after.word)


def joined_alike(found: Iterable[Stretch], names: Callable[[Stretch], tuple]) -> list[Stretch]:
    """Stretches, with those made one that touch and are told alike, with the same names beside the world."""
    made: list[Stretch] = []
    for it in found:
        if made and made[-1].high + 1 == it.low and made[-1].is_told_as(it) and names(made[-1]) == names(it):
            made[-1] = made[-1]._replace(high=it.high)
        else:
            made.append(it)
    return made


def word_of(segments: Iterable[Segment]) -> str:
    """The verdict on a connection by its halves'."""
    words = [it.word for it in segments]
    return BY_RULE if BY_RULE in words else next((it for it in words if it != ALLOWED), ALLOWED)
