"""Subjects that select no pod, and policies that say nothing."""
from __future__ import annotations

import typing

from .causes import likely
from .ground import Ground

if typing.TYPE_CHECKING:
    from ..policies import Policy

Found = typing.Iterator[typing.Tuple[str, str, str]]


def of_policy(ground: Ground, policy: Policy) -> Found:
    """A rule that selects none; a policy without a section, or of which no rule selects a pod, is one slip."""
    state = ground.state
    whole = state.rewritten[policy.key]
    if not policy.directions():
        if not whole.unsure and not whole.counted:
            yield "policy-without-effect", policy.name, f"{policy.name} has no section that isn't empty, so it changes nothing"
        return
    listed = ground.rules(policy)
    none = [(number, asked) for number, rule in listed for asked in [ground.subject(policy, rule)] if not ground.pods_of(ground.matching(asked))]
    if len(none) == len(listed) and listed:
        known = {it.namespace for it in ground.pods}
        if policy.namespace and policy.namespace not in known:
            text = f"{policy.name} selects nobody: no pod of the state is in the namespace {policy.namespace}"
        else:
            text = f"{policy.name} selects no pod of the state{behind(ground, policy, none[0][1])}"
        yield "policy-without-effect", policy.name, text
        return
    for number, asked in none:
        text = f"{policy.name}#{number}: its rule selects no pod of the state: {ground.written(asked)}{behind(ground, policy, asked)}"
        yield "subject-selects-none", f"{policy.name}#{number}", text


def behind(ground: Ground, policy: Policy, asked: tuple) -> str:
    """The likely cause, behind a colon; a subject is always of its policy's namespace."""
    found = likely(ground, policy, asked, bool(policy.namespace))
    return f": {found}".replace("a peer is of", "a subject is of").replace(", and without a namespace", ", and") if found else ""
