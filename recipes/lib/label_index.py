"""Which of many sets of labels have what is asked of them, found by an index of their values."""
from __future__ import annotations

import typing

if typing.TYPE_CHECKING:
    from .policies import Asked

# The sources that a key without one may mean.
SOURCES = ("k8s", "reserved")


class LabelIndex:
    """Sets of labels by their numbers, with those that have a value of a source and a key."""

    def __init__(self, sets: typing.Sequence[typing.Sequence[str]]):
        self.every = frozenset(range(len(sets)))
        found: typing.Dict[typing.Tuple[str, str], typing.Dict[str, typing.Set[int]]] = {}
        for at, labels in enumerate(sets):
            for text in labels:
                source, _, rest = text.partition(":")
                key, _, value = rest.partition("=")
                found.setdefault((source, key), {}).setdefault(value, set()).add(at)
        self.by_value = {name: {value: frozenset(numbers) for value, numbers in each.items()} for name, each in found.items()}
        self.by_key = {name: frozenset().union(*each.values()) for name, each in self.by_value.items()}
        self.kept: typing.Dict[tuple, typing.FrozenSet[int]] = {}

    def matching(self, asked: typing.Iterable[Asked]) -> typing.FrozenSet[int]:
        """The numbers of the sets of which all that is asked is so."""
        found = self.every
        for it in asked:
            if not found:
                break
            found &= self.having(it)
        return found

    def having(self, asked: Asked) -> typing.FrozenSet[int]:
        """The numbers of the sets of which one thing is so: as policies.holds says of each."""
        source, key, operator, values = asked
        kept = (source, key, operator, *values)
        if kept not in self.kept:
            names = [(it, key) for it in ((source,) if source != "any" else SOURCES)]
            if operator in ("In", "NotIn"):
                parts = [self.by_value.get(name, {}).get(value, frozenset()) for name in names for value in values]
            else:
                parts = [self.by_key.get(name, frozenset()) for name in names]
            found = frozenset().union(*parts)
            self.kept[kept] = {"In": found, "NotIn": self.every - found, "Exists": found, "DoesNotExist": self.every - found}[operator]
        return self.kept[kept]
