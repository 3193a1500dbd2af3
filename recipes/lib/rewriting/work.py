"""What the steps of a rewriting share: the policy, the state that it is judged in, and what was found so far."""
from __future__ import annotations

import json
import typing

from ..policies import DIRECTIONS, Policy, requirements
from .results import Names, Rewritten, Unsure

if typing.TYPE_CHECKING:
    from ..state import State

MARKS = ("L7", "auth", "nodes")


class Refused(Exception):
    """Why Cilium, or the API server before it, refuses a policy: what is wrong, with the path."""


class Entry(typing.NamedTuple):
    """An entry of a section, with its number as it was written."""

    number: int
    value: dict
    marks: typing.Tuple[str, ...] = ()
    # The label without which a pod of the subject isn't meant: it has a port of some name and number.
    port_label: str = ""

    def with_value(self, value: dict, marks: typing.Optional[typing.Tuple[str, ...]] = None) -> Entry:
        """The entry with another value, and with other marks where some are given."""
        return Entry(self.number, value, self.marks if marks is None else marks, self.port_label)


class Rule(typing.NamedTuple):
    """A rule, with its number as it was written."""

    number: int
    selector: dict
    sections: typing.Dict[str, typing.List[Entry]]
    # Its other members, which are as they were.
    rest: dict

    def document(self) -> dict:
        sections = {name: [it.value for it in entries] for name, entries in self.sections.items()}
        return {"endpointSelector": self.selector, **sections, **self.rest}


class Work:
    """A rewriting that goes on."""

    def __init__(self, policy: Policy, state: State, found: Rewritten):
        self.policy, self.state, self.found = policy, state, found
        # The place of the entry that is being rewritten, its direction, whether it denies, and what its subject asks.
        self.place = self.path = self.direction = ""
        self.denies = False
        self.subject: typing.Optional[dict] = None

    @property
    def namespace(self) -> str:
        """The policy's namespace, empty where it is cluster-wide."""
        return self.policy.namespace

    def asked(self) -> typing.Optional[tuple]:
        """What the subject asks of labels, or None where it can't be told."""
        if self.subject is None:
            return None
        return tuple((*it[:3], tuple(it[3])) for it in requirements(self.subject, self.namespace))

    def is_unsure(self, whole: dict, what: str, path: str, **how: typing.Any) -> None:
        """Notes what isn't read of a whole: a document, a rule or an entry."""
        said = json.dumps([whole, self.state.around()], sort_keys=True, default=str)
        how = {"namespace": self.namespace, "asked": self.asked(), "said": said, **how}
        self.found.unsure.append(Unsure(self.policy.name, what, path, **how))

    def rules_are_unsure(self, whole: dict, what: str, path: str, rules: typing.Iterable[dict]) -> None:
        """Notes what isn't read beside the entries of rules: then what these deny isn't sure either."""
        denies = any(rule.get(f"{it}Deny") for rule in rules for it in DIRECTIONS)
        self.is_unsure(whole, what, path, isolates=True, overrides=denies)

    def entry_is_unsure(self, entry: dict, what: str, path: str = "") -> None:
        """Notes what isn't read of the entry that is being rewritten; what it requires may shut what others allow."""
        requires = any(name.endswith("Requires") and it for name, it in entry.items())
        how = {"directions": frozenset((self.direction,)), "allows": not self.denies, "denies": self.denies or requires}
        self.is_unsure(entry, what, path or self.path, **how)

    def names(self, names: typing.Sequence[str], ports: dict) -> None:
        """Notes addresses that nobody knows here."""
        self.found.names.append(Names(self.place, self.direction, tuple(names), ports, self.asked() or ()))

    def lacks(self, what: str) -> None:
        text = f"{self.policy.name}: {what}"
        if text not in self.found.lacking:
            self.found.lacking.append(text)


def with_expressions(selector: dict, more: typing.Sequence[dict]) -> dict:
    """A selector that asks for more."""
    return {**selector, "matchExpressions": [*(selector.get("matchExpressions") or []), *more]}
