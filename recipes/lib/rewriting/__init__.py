"""What a policy has and policyd's profile doesn't, rewritten into what the profile has: the table of docs/RULES.md,
'What the bridge rewrites', with a module for each idea.

A rule's entries are rewritten one by one (`entries.py`), and a rule may become several (`rules.py`); here they are put
together into what policyd is given, with the way back from the places in its answers.
"""
from __future__ import annotations

import typing

from ..policies import NAMESPACED, Policy
from ..unread import SECTIONS, SHAPES, Unread, walk
from . import network, rules
from .results import Names, Rewritten, Unsure  # noqa: F401
from .work import Refused, Rule, Work

if typing.TYPE_CHECKING:
    from ..state import State


def rewrite(policy: Policy, state: State) -> Rewritten:
    """A policy of the state rewritten, with what was rewritten and what wasn't.

    `policy` is a policies.Policy or network.NetworkPolicy, `state` the state.State that it is judged in: its Services,
    pods, prefix groups and the cluster's name decide what some members become.
    """
    found = Rewritten(policy)
    work = Work(policy, state, found)
    try:
        check_names(policy)
        is_network = network.is_network(policy.document)
        if is_network and not network.is_rewritten(policy, state):
            found.parts, policy.is_read = [policy], True
            return found
        note_unknown(work, "network policy" if is_network else "policy")
        written = network.as_rules(work) if is_network else rules.written(work)
        made = [one for number, rule in written for one in rules.rewritten(work, number, rule)]
    except Refused as refused:
        return Rewritten(policy, refused=str(refused))
    name = f"{network.FRONT}{policy.key[2]}" if is_network else policy.key[2]
    if made:
        part = assembled(work, made, name)
        found.parts, part.is_read = [part], True
    return found


def check_names(policy: Policy) -> None:
    """Refused where a name or a namespace is none that the API server takes."""
    try:
        walk(policy.document["metadata"], "metadata", "metadata")
    except Unread as wrong:
        raise Refused(f"{wrong.what} at {wrong.path}")


def note_unknown(work: Work, form: str) -> None:
    """Notes the members of a document that nobody knows."""
    document = work.policy.document
    for name in sorted(it for it in document if document[it] is not None and it not in SHAPES[form]):
        work.rules_are_unsure(document, "unknown-member", name, work.policy.rules())


def assembled(work: Work, made: typing.List[Rule], name: str) -> Policy:
    """The policy of rules that were rewritten, and the places of its entries as they were written."""
    policy = work.policy
    documents = [it.document() for it in made]
    if name == policy.key[2] and documents == policy.rules() and not {*policy.document} - {*SHAPES["policy"]}:
        note_places(work, made, policy.name)
        return policy
    document: typing.Dict[str, typing.Any] = {it: value for it, value in policy.document.items() if it in ("apiVersion", "kind", "metadata")}
    if len(documents) == 1:
        document["spec"] = documents[0]
    else:
        document["specs"] = documents
    if name != policy.key[2]:
        document.update({"apiVersion": "cilium.io/v2", "kind": NAMESPACED})
        document["metadata"] = {"name": name, "namespace": policy.namespace}
    found = Policy(policy.place, document)
    found.whole = policy
    note_places(work, made, found.name)
    return found


def note_places(work: Work, made: typing.List[Rule], name: str) -> None:
    """Notes where each entry of an answer stands in the policy as it was written."""
    front = "" if work.policy.namespace else "/"
    for number, rule in enumerate(made):
        for section in SECTIONS:
            for at, entry in enumerate(rule.sections.get(section, [])):
                place = f"{work.policy.name}#{rule.number}.{section}[{entry.number}]"
                work.found.places[f"{front}{name}#{number}.{section}[{at}]"] = place
                if entry.marks:
                    work.found.marks[place] = tuple(dict.fromkeys([*work.found.marks.get(place, ()), *entry.marks]))
