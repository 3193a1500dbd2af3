"""One entry of a section, rewritten idea by idea.

Each step takes the entry and gives what it becomes: itself, another one, or several; `NOTHING` isolates and opens
nothing, as an entry does that has neither peers nor ports.
"""
from __future__ import annotations

import typing

from .. import unread
from ..unread import Unread
from . import clusters, endings, groups, icmp, layer7, named_ports, names, nodes, refusals, requires, services, unknown
from .work import Entry, Refused, Work

NOTHING: dict = {}
Step = typing.Callable[[Work, Entry, str], typing.List[Entry]]
# (members that aren't the profile's are gone behind these, so that each later step sees those of the profile alone)
STEPS = (layer7.rewrite, icmp.rewrite, names.rewrite, nodes.rewrite, requires.rewrite, services.rewrite, groups.rewrite, endings.rewrite, clusters.rewrite)
# Those that change an entry which has members of the profile alone, and numbers for ports: such an entry stays one.
STEPS_OF_PROFILE = (icmp.rewrite, nodes.rewrite, endings.rewrite, clusters.rewrite)


def rewritten(work: Work, number: int, value: dict) -> typing.List[Entry]:
    """What an entry becomes; one that isn't read isolates, and opens nothing."""
    word = "from" if work.direction == "ingress" else "to"
    value = {name: it for name, it in value.items() if it is not None}
    refusals.check(work, value, word)
    try:
        return stepwise(work, Entry(number, value), word)
    except Unread as wrong:
        if refusals.refused_by_cilium(wrong.what):
            raise Refused(f"{wrong.what} at {wrong.path}")
        work.entry_is_unsure(value, wrong.what, wrong.path)
        return [Entry(number, dict(NOTHING))]
    except (AttributeError, KeyError, TypeError, ValueError):
        raise Refused(f"wrong-shape at {work.path}")


def stepwise(work: Work, entry: Entry, word: str) -> typing.List[Entry]:
    """What the steps make of an entry; Unread where something of it isn't read."""
    is_plain = is_of_profile(entry.value, word)
    if is_plain:
        found = in_steps(work, entry, word, STEPS_OF_PROFILE)
    else:
        unknown.check(entry.value, word, work.path)
        found = [it for one in in_steps(work, entry, word, STEPS) for it in named_ports.rewrite(work, one, word)]
    for it in found:
        if not is_plain:
            unread.walk(it.value, word, work.path)
        unread.judge_entry(it.value, work.path)
    return found


def in_steps(work: Work, entry: Entry, word: str, steps: typing.Iterable[Step]) -> typing.List[Entry]:
    found = [entry]
    for step in steps:
        found = [it for one in found for it in step(work, one, word)]
    return found


def is_of_profile(value: dict, word: str) -> bool:
    """Whether an entry has members of the profile alone."""
    try:
        unread.walk(value, word, "")
    except Unread:
        return False
    return True
