"""What a rewriting gives."""
from __future__ import annotations

import collections
import typing

from ..policies import NAMESPACE_KEY, Policy, holds


class Unsure(typing.NamedTuple):
    """What isn't read in a policy, so that what it changes can't be told."""

    # The policy's name, as answers have it, what isn't read, and the path to it in the document.
    policy: str
    what: str
    path: str
    # The directions that it may change, and whether it may allow, deny, or isolate what nothing read isolates.
    directions: typing.FrozenSet[str] = frozenset(("ingress", "egress"))
    allows: bool = True
    denies: bool = True
    isolates: bool = False
    # Whether it may let pass what an entry denies.
    overrides: bool = False
    # Whom it selects: what is asked of their labels, or None where it can't be told; and the namespace that it is of.
    asked: typing.Optional[tuple] = None
    namespace: str = ""
    # What isn't read with all that it stands in: where that is the same in two states, it does the same to the same pods.
    said: str = ""
    # An object that decides and isn't a policy says by itself whom it selects.
    selector: typing.Optional[typing.Callable[[typing.Sequence[str]], bool]] = None

    def __eq__(self, other: object) -> bool:
        # (whom it selects is in what it says)
        return isinstance(other, Unsure) and self[:-1] == other[:-1]

    def __ne__(self, other: object) -> bool:
        return not self == other

    def __hash__(self) -> int:
        return hash(self[:-1])

    def touches(self, labels: typing.Sequence[str], direction: str) -> bool:
        """Whether it may change what pods with the labels receive, or send."""
        if direction not in self.directions:
            return False
        if self.selector is not None:
            return self.selector(labels)
        if self.asked is not None:
            return all(holds(it, labels) for it in self.asked)
        return not self.namespace or holds(("k8s", NAMESPACE_KEY, "In", [self.namespace]), labels)

    def __str__(self) -> str:
        return f"{self.policy}: {self.what} at {self.path}" if self.path else f"{self.policy}: {self.what}"


class Names(typing.NamedTuple):
    """Addresses that an entry opens and that nobody knows here: those of names, or of a cloud's groups."""

    # The entry's place, its direction, what it names, and an entry with its ports alone.
    place: str
    direction: str
    names: typing.Tuple[str, ...]
    ports: dict
    asked: tuple = ()

    def touches(self, labels: typing.Sequence[str], direction: str) -> bool:
        return direction == self.direction and all(holds(it, labels) for it in self.asked)


class Rewritten:
    """A policy as policyd is given it. `policy` is it as it was written."""

    def __init__(self, policy: Policy, refused: typing.Optional[str] = None):
        """`refused` is why Cilium refuses the policy too, or None: it is never in force there."""
        self.policy, self.refused = policy, refused
        # What is applied in its place: most often one policy, none where no rule of it can be in force. Each has `whole`,
        # which is `policy`.
        self.parts: typing.List[Policy] = []
        # A place of an answer, such as `pay/web#0.ingress[1]`, and the place in the policy as it was written.
        self.places: typing.Dict[str, str] = {}
        # Marks of entries by their places as written: `L7`, `auth`, `nodes`.
        self.marks: typing.Dict[str, typing.Tuple[str, ...]] = {}
        # Addresses that nobody knows here, and what isn't read.
        self.names: typing.List[Names] = []
        self.unsure: typing.List[Unsure] = []
        # What was left out, by what it is, with how often, and what the state lacks for it to be rewritten.
        self.counted: typing.Counter[str] = collections.Counter()
        self.lacking: typing.List[str] = []
