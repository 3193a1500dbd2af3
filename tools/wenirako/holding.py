"""Holds what a change opens and shuts against what `connections` says of it.

Rows that are worked out from what policyd says of the halves that may change have to be what `connections` says, and
nothing else. That is asked where it is of a commit that doesn't tell of halves, and by the tests.
"""
from __future__ import annotations

from typing import Iterable, NamedTuple

from .changes import Changes
from .core import NoAnswer
from .ends import End
from .opened import Key


class Change(NamedTuple):
    """Ports at which a connection opens, or shuts, by the names of its ends."""

    source: Key
    target: Key
    protocol: str
    low: int
    high: int
    opens: bool


def hold(changes: Changes, found: Iterable[tuple[End, End, str, int, int, bool]]) -> None:
    """Complains where something opens or shuts that isn't found, or is found and doesn't."""
    ours = joined(change(changes, *it) for it in found)
    told = joined(change(changes, *ends, it.protocol, it.low, it.high, it.opens) for ends, one in changes.told().items() for it in one.said if it.changes)
    other = min(ours ^ told, default=None)
    if other is not None:
        ways = "connections", "policyd"
        one, silent = ways if other not in ours else ways[::-1]
        ports, does = f"{other.protocol} {other.low}-{other.high}", "opens" if other.opens else "shuts"
        raise NoAnswer(f"{one} says that {changes.written(other.source)} to {changes.written(other.target)}, {ports}, {does}, and {silent} doesn't")


def change(changes: Changes, source: End, target: End, protocol: str, low: int, high: int, opens: bool) -> Change:
    return Change(changes.key(source), changes.key(target), protocol, low, high, opens)


def joined(found: Iterable[Change]) -> set[Change]:
    """Changes, with those made one that touch."""
    made: list[Change] = []
    for it in sorted(found):
        if made and made[-1]._replace(low=0, high=0) == it._replace(low=0, high=0) and made[-1].high + 1 == it.low:
            made[-1] = made[-1]._replace(high=it.high)
        else:
            made.append(it)
    return {*made}
