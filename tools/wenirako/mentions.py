"""What the rules of a half can tell of labels at the other side.

Selectors compare the values of keys with values that they list, or ask whether a key is there. So labels that agree on
the keys that some selector names, as far as their values are listed, are selected alike, however selectors are judged.
Entities are such labels too: one that nobody names is as the others that nobody names.
"""
from __future__ import annotations

import functools
from typing import Iterable, Mapping, Sequence

from .selecting import Half, Rule

NAMESPACE_KEY = "io.kubernetes.pod.namespace"
NAMESPACE_LABELS = "io.cilium.k8s.namespace.labels."
# What is seen of a value that isn't listed.
THERE = "\0"
CLUSTER_KEY = "io.cilium.k8s.policy.cluster"
# Members below which no further selector stands.
NO_SELECTORS = ("matchLabels", "matchExpressions", "toPorts", "ports")
ENTITIES = ("fromEntities", "toEntities")


class Named:
    """The entities and the keys that selectors name, and the values that they list of each."""

    def __init__(self) -> None:
        self.entities: set[str] = set()
        self.values: dict[str, set[str]] = {}

    def walk(self, value: object) -> None:
        """Takes each selector below a value."""
        if isinstance(value, list):
            for it in value:
                self.walk(it)
        elif isinstance(value, dict):
            for key, text in (value.get("matchLabels") or {}).items():
                self.mention(key, [text])
            for it in value.get("matchExpressions") or []:
                self.mention(it["key"], it.get("values") or [])
            self.entities.update(it for name in ENTITIES for it in value.get(name) or [])
            for name, it in value.items():
                if name not in NO_SELECTORS:
                    self.walk(it)

    def mention(self, key: str, values: Iterable[str]) -> None:
        for it in {key, key.partition(":")[2]} - {""}:
            self.values.setdefault(it, set()).update(map(str, values))

    def take(self, other: Named) -> None:
        """Takes what others name."""
        self.entities |= other.entities
        for key, values in other.values.items():
            self.values.setdefault(key, set()).update(values)


@functools.lru_cache(maxsize=None)
def named_by(rule: Rule, direction: str) -> Named:
    """What a rule names in a direction, found once for all states that have it."""
    found = Named()
    for section in rule.sections(direction):
        found.walk(section)
    return found


class Mentions(Named):
    """The keys that rules name at the other side, and the values that they list of each."""

    def __init__(self, rules: Iterable[Rule], directions: Iterable[str]):
        """`directions` has those whose sections are looked at."""
        super().__init__()
        rules = list(rules)
        # (a selector without a namespace is bound to its policy's, and the entity `cluster` is a label's value)
        self.values = {NAMESPACE_KEY: {it.part.namespace for it in rules}, CLUSTER_KEY: {"default"}}
        for direction in directions:
            for rule in rules:
                self.take(named_by(rule, direction))
        # (a NetworkPolicy's namespaceSelector names the keys of namespaces' labels)
        for it in [it for it in self.values if not it.startswith(NAMESPACE_LABELS)]:
            self.values.setdefault(NAMESPACE_LABELS + it, set()).update(self.values[it])
        self.listed = sorted(self.values.items())

    def seen(self, labels: Sequence[str]) -> tuple:
        """What is seen of labels: of each that is named, its value where that is listed, and else that it is there."""
        values = by_key(labels)
        return tuple((value if value in listed else THERE) if value is not None else None for value, listed in ((values.get(key), listed) for key, listed in self.listed))

    def names(self, entity: str) -> bool:
        """Whether an entity is named by itself; those that have several in them have all but the world's alike."""
        return entity in self.entities


class Sets:
    """Sets of labels by their values, so that what rules can tell of each is found for all at once."""

    def __init__(self, sets: Iterable[Sequence[str]]):
        self.by_value: dict[str, dict[str, list[int]]] = {}
        # The keys of each, by a number.
        self.shapes: list[int] = []
        self.keys: dict[frozenset[str], int] = {}
        for at, labels in enumerate(sets):
            values = by_key(labels)
            self.shapes.append(self.keys.setdefault(frozenset(values), len(self.keys)))
            for key, value in values.items():
                self.by_value.setdefault(key, {}).setdefault(value, []).append(at)

    def told_by(self, mentions: Mentions) -> Told:
        """What rules can tell of each."""
        listed: dict[int, tuple] = {}
        for key, values in mentions.listed:
            having = self.by_value.get(key, {})
            for value in values & having.keys():
                # (one that all have tells none apart)
                for at in having[value] if len(having[value]) < len(self.shapes) else ():
                    listed[at] = (*listed.get(at, ()), key, value)
        return Told(self.shapes, [frozenset(mentions.values.keys() & it) for it in self.keys], listed)


class Told:
    """What rules can tell of sets of labels: it is the same of those of which `seen` gives the same."""

    def __init__(self, shapes: Sequence[int], keys: Sequence[frozenset[str]], listed: Mapping[int, tuple]):
        """The number of each set's keys, which of these keys are named, and the values that are listed, where there are some."""
        self.shapes, self.keys, self.listed = shapes, keys, listed

    def __getitem__(self, at: int) -> tuple:
        return self.keys[self.shapes[at]], self.listed.get(at, ())


def of_half(half: Half) -> Mentions:
    """What the rules of a half name."""
    return Mentions(half.rules, (half.direction,))


def by_key(labels: Iterable[str]) -> dict[str, str]:
    """The values of labels by their keys: those of pods are all of one source."""
    return dict(it.partition(":")[2].partition("=")[::2] for it in labels)
