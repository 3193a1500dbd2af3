"""Why a selector matches no pod: the likely slip."""
from __future__ import annotations

import typing

from ..pods import NAMESPACE_KEY, OWN_PREFIX
from ..policies import holds
from .ground import Asked, Ground

if typing.TYPE_CHECKING:
    from ..policies import Policy

NAMED_MOST = 2


def likely(ground: Ground, policy: Policy, asked: Asked, is_bound: bool) -> str:
    """The likely cause, as the end of a line; empty where none is seen."""
    own = tuple(it for it in asked if not (is_bound and it[1] == NAMESPACE_KEY))
    for find in (of_another_namespace, of_no_namespace, of_no_identity, of_the_host, of_one_letter):
        found = find(ground, policy, asked, own, is_bound)
        if found:
            return found
    return ""


def of_another_namespace(ground: Ground, policy: Policy, asked: Asked, own: Asked, is_bound: bool) -> str:
    pods = ground.pods_of(ground.matching(own)) if is_bound and own else []
    if not pods:
        return ""
    names = list(dict.fromkeys(it.namespace for it in pods))
    return f"the namespace {named(names)} has pods with {ground.written(own)}, and without a namespace a peer is of {policy.namespace}"


def of_no_namespace(ground: Ground, policy: Policy, asked: Asked, own: Asked, is_bound: bool) -> str:
    known = {*ground.cluster.namespaces, *(it.namespace for it in ground.pods)}
    for source, key, operator, values in own:
        gone = [it for it in values if it not in known] if key == NAMESPACE_KEY and operator == "In" else []
        if gone:
            near = nearest(gone[0], known)
            return f"the state has no namespace {gone[0]}" + (f", and one letter off is {near}" if near else "")
    return ""


def of_no_identity(ground: Ground, policy: Policy, asked: Asked, own: Asked, is_bound: bool) -> str:
    for _, key, _, _ in own:
        if not ground.cluster.choice.counts(key) and any(f"k8s:{key}=" in it for pod in ground.pods for it in ground.all_labels(pod)):
            return f"the label {key} is no part of identities"
    return ""


def of_the_host(ground: Ground, policy: Policy, asked: Asked, own: Asked, is_bound: bool) -> str:
    pods = [it for it in ground.cluster.pods.values() if it.is_host and all(holds(one, ground.all_labels(it)) for one in asked)]
    if not pods:
        return ""
    return f"{named([it.name for it in pods])} on the host's network alone has these labels; name it by the entity `host` or `remote-node`"


def of_one_letter(ground: Ground, policy: Policy, asked: Asked, own: Asked, is_bound: bool) -> str:
    for at, (source, key, operator, values) in enumerate(own):
        if key.startswith(OWN_PREFIX) or operator not in ("In", "Exists"):
            continue
        others = ground.pods_of(ground.matching((*own[:at], *own[at + 1 :], *(it for it in asked if it not in own))))
        texts = {it.own[key] for it in others if key in it.own}
        for value in values:
            near = nearest(value, texts)
            if value not in texts and near:
                return f"{key}={value} is one letter off {key}={near}"
        near = nearest(key, {name for it in others for name in it.own}) if not texts else ""
        if near:
            return f"the key {key} is one letter off {near}"
    return ""


def named(names: typing.Sequence[str]) -> str:
    more = f" and {len(names) - NAMED_MOST} more" if len(names) > NAMED_MOST else ""
    return ", ".join(names[:NAMED_MOST]) + more


def nearest(text: str, others: typing.Iterable[str]) -> str:
    """One of the others that is one letter off: one more, one less, another, or two changed about."""
    return next((it for it in sorted(others) if is_near(text, it)), "")


def is_near(one: str, other: str) -> bool:
    if one == other or abs(len(one) - len(other)) > 1 or min(len(one), len(other)) < 2:
        return False
    if len(one) > len(other):
        one, other = other, one
    at = next((at for at, letter in enumerate(one) if letter != other[at]), len(one))
    if len(one) < len(other):
        return one[at:] == other[at + 1 :]
    swapped = one[at : at + 2][::-1] == other[at : at + 2] and one[at + 2 :] == other[at + 2 :]
    return one[at + 1 :] == other[at + 1 :] or swapped
