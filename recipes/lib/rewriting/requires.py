"""What is required of peers: `fromRequires` and `toRequires`, in each peer selector of their section.

Cilium, `FromRequires` of the API: constraints on who may reach the endpoints that the rule selects, which grant nothing
by themselves. So they stand in the peer selectors of every rule, as far as it selects endpoints of the one that
requires: such pods have a label of the bridge's own that says which requirements are theirs.
"""
from __future__ import annotations

import functools
import typing

from ..pods import OWN_PREFIX, REQUIRED_KEY
from ..policies import NAMESPACE_KEY, holds, requirements, source_and_key
from ..unread import SECTIONS
from .work import Entry, Rule, Work, with_expressions

if typing.TYPE_CHECKING:
    from ..policies import Policy

Expressions = typing.List[dict]


class Requirement(typing.NamedTuple):
    """Something that is required of the peers of a section's entries, where their rule selects some pods."""

    number: int
    section: str
    # What is asked of the labels of those pods, and of their peers.
    asked: tuple
    expressions: tuple

    def is_of(self, labels: typing.Sequence[str]) -> bool:
        return all(holds(it, labels) for it in self.asked)


def gather(policies: typing.Iterable) -> typing.List[Requirement]:
    """What the policies of Cilium's require."""
    return [Requirement(number, *it) for number, it in enumerate(one for policy in policies for one in required_by(policy))]


@functools.lru_cache(maxsize=None)
def required_by(policy: Policy) -> typing.List[tuple]:
    """What a policy requires, looked for once for all states that have it: a section, whose peers are meant, and what is required."""
    found = []
    for rule in policy.rules() if policy.key[0] != "NetworkPolicy" else []:
        for section in SECTIONS:
            try:
                listed = [it for entry in rule.get(section) or [] for it in entry.get(member(section)) or []]
                asked = tuple(requirements(rule["endpointSelector"], policy.namespace)) if listed else ()
                more = tuple(one for it in listed for one in expressions(it, policy.namespace))
            except (AttributeError, KeyError, TypeError, ValueError):
                continue
            if more:
                found.append((section, asked, more))
    return found


def member(section: str) -> str:
    return "fromRequires" if section.startswith("ingress") else "toRequires"


def expressions(selector: dict, namespace: str) -> Expressions:
    """What a selector asks of a peer, its namespace included."""
    found = [{"key": key, "operator": "In", "values": [it]} for key, it in (selector.get("matchLabels") or {}).items()]
    found += selector.get("matchExpressions") or []
    return found if not namespace or any(says_namespace(it) for it in found) else [*found, of_namespace(namespace)]


def of_namespace(namespace: str) -> dict:
    return {"key": f"k8s:{NAMESPACE_KEY}", "operator": "In", "values": [namespace]}


def says_namespace(expression: dict) -> bool:
    source, key = source_and_key(expression["key"])
    is_of = source in ("any", "k8s") and (key == NAMESPACE_KEY or key.startswith(f"{OWN_PREFIX}namespace.labels."))
    return is_of or source == "reserved"


def label_of(requirements: typing.Sequence[Requirement], labels: typing.Sequence[str]) -> typing.Dict[str, str]:
    """The label of a pod of which something is required of its peers."""
    numbers = [str(it.number) for it in requirements if it.is_of(labels)]
    return {REQUIRED_KEY: "-".join(numbers)} if numbers else {}


def rewrite(work: Work, entry: Entry, word: str) -> typing.List[Entry]:
    """The entry without what it requires, which by itself grants nothing."""
    if f"{word}Requires" not in entry.value:
        return [entry]
    value = dict(entry.value)
    listed = value.pop(f"{word}Requires")
    has_peers = any(name.startswith(word) and it for name, it in value.items() if name != "toPorts")
    return [entry.with_value({} if listed and not has_peers else value)]


def by_subject(work: Work, rule: Rule) -> typing.List[Rule]:
    """A rule for each set of requirements that pods of the state have, and one for the pods of which none is required."""
    known = {it.number: it for it in work.state.requirements}
    if not known:
        return [rule]
    key = f"k8s:{REQUIRED_KEY}"
    found = [rule._replace(selector=with_expressions(rule.selector, [{"key": key, "operator": "DoesNotExist"}]))]
    for text in sorted(work.state.required):
        mine = [known[int(it)] for it in text.split("-")]
        selector = with_expressions(rule.selector, [{"key": key, "operator": "In", "values": [text]}])
        sections = {name: [required(work, name, it, mine) for it in entries] for name, entries in rule.sections.items()}
        found.append(rule._replace(selector=selector, sections=sections))
    return found


def required(work: Work, section: str, entry: Entry, mine: typing.Sequence[Requirement]) -> Entry:
    """An entry whose peer selectors ask for what is required too."""
    name = "fromEndpoints" if section.startswith("ingress") else "toEndpoints"
    more = [it for one in mine if one.section == section for it in one.expressions]
    if not more or not entry.value.get(name):
        return entry
    return entry.with_value({**entry.value, name: [with_required(work, it, more) for it in entry.value[name]]})


def with_required(work: Work, selector: dict, more: Expressions) -> dict:
    """A peer selector that asks for more, and is bound to the namespace that it was bound to."""
    own = expressions(selector, work.namespace)
    bound = [of_namespace(work.namespace)] if work.namespace and len(own) and own[-1] == of_namespace(work.namespace) else []
    return with_expressions(selector, [*bound, *more])
