"""Which rules select which sets of labels.

It is worked out from the labels alone, once for a state, and held against the core: `halves` asks whether something
isolates a half, where `policyd` is asked of it, and each entry that an answer names must be of a rule that was thought to select.
"""
from __future__ import annotations

import json
from typing import Any, Iterable, NamedTuple

from lib.label_index import LabelIndex
from lib.policies import NAMESPACE_KEY

EGRESS, INGRESS = "egress", "ingress"
DIRECTIONS = (EGRESS, INGRESS)
SUBJECTS = ("endpointSelector", "podSelector", "nodeSelector")
OPPOSITE = {INGRESS: EGRESS, EGRESS: INGRESS}


class Rule(NamedTuple):
    """A rule by itself, and the policy that the core is given and that it is of.

    Rules with equal lines say the same, whatever state they are of.
    """

    line: str
    part: Any
    given: Any

    @property
    def policy(self) -> Any:
        """The policy as it was written."""
        found = self.given
        while found.whole is not found:
            found = found.whole
        return found

    def sections(self, direction: str) -> list:
        """What it says of a direction, as its document has it."""
        document = self.part.document
        rules = [document.get("spec"), *(document.get("specs") or [])]
        return [it[name] for it in rules if isinstance(it, dict) for name in (direction, f"{direction}Deny") if it.get(name)]

    def said(self) -> str:
        """All that it says to whom it selects: its document without its names and its subject."""
        document = self.part.document
        bare = lambda it: {name: value for name, value in it.items() if name not in SUBJECTS} if isinstance(it, dict) else it
        rest = {**document, "metadata": self.part.namespace, "spec": bare(document.get("spec")), "specs": [*map(bare, document.get("specs") or [])]}
        return json.dumps(rest, sort_keys=True)

    def __eq__(self, other: object) -> bool:
        return isinstance(other, Rule) and self.line == other.line and self.given.line == other.given.line

    def __hash__(self) -> int:
        return hash(self.line)


# A rule, and what it selects: the numbers of sets of labels, with the directions of which it says something.
Selecting = tuple[Rule, list[tuple[int, str]]]


def selected(index: LabelIndex, part: Any) -> frozenset[int]:
    """The sets of labels that some rule of a policy selects; a subject that isn't read may select each of its namespace."""
    of_namespace = [("k8s", NAMESPACE_KEY, "In", [part.namespace])] if part.namespace else []
    return frozenset().union(*(index.matching(of_namespace if it is None else it) for it in part.subjects()))


class Half:
    """A direction with the rules that select an endpoint and say something of it: endpoints of one half are judged alike.

    Where one `Interned` makes them, two that are equal are one.
    """

    def __init__(self, direction: str, rules: tuple[Rule, ...]):
        self.direction, self.rules = direction, rules

    def entries(self) -> list[dict]:
        """What its rules say of the direction: ports and prefixes."""
        return [entry for rule in self.rules for way, entry in rule.part.entries() if way == self.direction]


class Interned:
    """Makes halves, each once, and finds whom each policy selects, once for all states that have it."""

    def __init__(self, index: LabelIndex) -> None:
        """`index` has the sets of labels."""
        self.index = index
        self.made: dict[tuple, Half] = {}
        self.known: dict[Any, list[Selecting]] = {}

    def half(self, direction: str, rules: tuple[Rule, ...]) -> Half:
        if (direction, rules) not in self.made:
            self.made[direction, rules] = Half(direction, rules)
        return self.made[direction, rules]

    def selecting(self, policy: Any) -> list[Selecting]:
        """The rules of a policy with the halves that each selects, by their sets of labels and directions."""
        if policy not in self.known:
            self.known[policy] = [(Rule(it.line, it, policy), self.keys(it)) for it in policy.parts()]
        return self.known[policy]

    def keys(self, part: Any) -> list[tuple[int, str]]:
        ways = part.directions()
        return [(at, way) for at in selected(self.index, part) for way in ways] if ways else []


class Selection:
    """The rules of one state of policies, and the sets of labels that each selects."""

    def __init__(self, policies: Iterable, refused: set[str], interned: Interned):
        found = [each for it in policies if it.line not in refused for each in interned.selecting(it)]
        self.rules = [rule for rule, _ in found]
        selecting: dict[tuple[int, str], list[Rule]] = {}
        for rule, keys in found:
            for key in keys:
                selecting.setdefault(key, []).append(rule)
        self.halves = {key: interned.half(key[1], tuple(found)) for key, found in selecting.items()}
        self.free = {it: interned.half(it, ()) for it in DIRECTIONS}

    def half(self, at: int, direction: str) -> Half:
        return self.halves.get((at, direction)) or self.free[direction]

    def at_work(self) -> set[str]:
        """The lines of the policies that select somebody."""
        return {rule.policy.line for half in self.halves.values() for rule in half.rules}
