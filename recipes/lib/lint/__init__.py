"""Slips: what a policy says that is read, and that its writer can hardly mean.

`slips` is asked about a whole state, or about the policies that come. Nothing here judges a packet: labels and prefixes
are compared, as docs/RULES.md has it.
"""
from __future__ import annotations

import typing

from . import covered, peers, prefixes, subjects
from .ground import Ground

if typing.TYPE_CHECKING:
    from ..policies import Policy
    from ..state import State

KINDS = ("peer-matches-none", "subject-selects-none", "deny-denies-none", "prefix-means-none", "entry-changes-nothing", "policy-without-effect")


class Slip(typing.NamedTuple):
    """One slip. `kind` is a word for programs: one of KINDS."""

    kind: str
    # The policy's name and the place of the entry or rule, as answers have them; the text says it in a line.
    policy: str
    place: str
    text: str


def slips(state: State, only: typing.Optional[typing.Collection[typing.Tuple[str, str, str]]] = None) -> typing.List[Slip]:
    """The slips of the state's policies, in the order of the policies; `only` has the keys of those that are asked about."""
    ground, found = Ground(state, only), []
    for key, policy in state.policies.items():
        if (only is None or key in only) and not state.rewritten[key].refused:
            found += [Slip(kind, policy.name, place, text) for kind, place, text in of_policy(ground, policy)]
    return found


def of_policy(ground: Ground, policy: Policy) -> typing.List[typing.Tuple[str, str, str]]:
    """The slips of one policy, as triples of kind, place and text."""
    whole = list(subjects.of_policy(ground, policy))
    if any(kind == "policy-without-effect" for kind, _, _ in whole):
        return whole
    found = [*whole, *peers.of_policy(ground, policy), *prefixes.of_policy(ground, policy)]
    return [*found, *covered.of_policy(ground, policy)]
