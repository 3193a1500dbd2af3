"""Peers that match no pod, and denies that deny nobody."""
from __future__ import annotations

import typing

from .causes import likely
from .ground import Ground, Written, is_reserved

if typing.TYPE_CHECKING:
    from ..policies import Policy

Found = typing.Iterator[typing.Tuple[str, str, str]]


def of_policy(ground: Ground, policy: Policy) -> Found:
    for entry in ground.entries(policy):
        listed = [it for it in entry.value.get(f"{entry.word}Endpoints") or [] if isinstance(it, dict)]
        told = [it for selector in listed for it in [told_of(ground, policy, entry, selector)] if it]
        if entry.denies and (is_nothing(entry) or listed and len(told) == len(listed)):
            why = "it has neither peers nor ports" if is_nothing(entry) else "; ".join(told)
            yield "deny-denies-none", entry.place, f"{entry.place} denies nobody: {why}"
        else:
            for text in told:
                yield "peer-matches-none", entry.place, f"{entry.place}: {text}"


def is_nothing(entry: Written) -> bool:
    """Whether an entry has neither peers nor ports, so that it covers nothing."""
    return not any(it or name != "toPorts" for name, it in entry.value.items() if it is not None)


def told_of(ground: Ground, policy: Policy, entry: Written, selector: dict) -> str:
    """What is said of a peer that matches no pod, or nothing."""
    try:
        asked, is_bound = ground.peer(policy, selector)
        if is_reserved(asked) or ground.pods_of(ground.matching(asked)):
            return ""
    except (AttributeError, KeyError, TypeError, ValueError):
        return ""
    cause = likely(ground, policy, asked, is_bound)
    own = asked[:-1] if is_bound else asked
    return f"no pod matches the peer {ground.written(own)}" + (f": {cause}" if cause else "")
