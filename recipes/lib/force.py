"""What is said of policies that aren't in force, or not as they are written: not read, refused, rewritten but for something."""
from __future__ import annotations

import typing

from .cluster import NAMED_MOST

if typing.TYPE_CHECKING:
    from .state import State


def said(state: State, answers: typing.Dict[str, list], pods: typing.Iterable) -> typing.Iterator[str]:
    """The summary of what isn't read, and which endpoints, and which answers by their lines, it may change."""
    unread: typing.Dict[str, list] = {}
    for it in state.all_unsure:
        unread.setdefault(it.policy, []).append(it)
    if unread:
        each = "; ".join(str(it) for listed in unread.values() for it in listed)
        yield f"{counted(len(unread))} {'is' if len(unread) == 1 else 'are'}n't read whole: {each}"
    for name, listed in unread.items():
        names = [pod.name for pod in pods if any(it.touches(pod.labels, way) for it in listed for way in it.directions)]
        numbers = sorted(number for one in names for number in answers.get(one, []))
        if names:
            told = f"; answer{'s' * (len(numbers) != 1)} {some(numbers)} too" if numbers else ""
            yield f"the verdicts of {some(names)} may be others by {name}, which selects {'it' if len(names) == 1 else 'them'}{told}"


def beside(state: State) -> typing.Iterator[str]:
    """What is said of policies that Cilium refuses too, and of what was left out or is lacking where one is rewritten."""
    for it in state.rewritten.values():
        if it.refused:
            yield f"{it.policy.name} is never in force: Cilium refuses it: {it.refused}"
    total: typing.Dict[str, int] = {}
    for it in state.rewritten.values():
        for what, count in it.counted.items():
            total[what] = total.get(what, 0) + count
    for what, count in sorted(total.items()):
        yield f"left out: {what}: {count}"
    for it in state.rewritten.values():
        yield from it.lacking


def renamed(state: State) -> typing.Iterator[str]:
    """What is said of places in answers that aren't those of the policies as they are written."""
    others = [(answer.removeprefix("/"), place) for answer, place in state.places.items() if answer.removeprefix("/") != place]
    for answer, place in others[:NAMED_MOST]:
        yield f"in answers {answer} is {place}"
    if len(others) > NAMED_MOST:
        yield f"and {len(others) - NAMED_MOST} more places in answers are others, since policies were rewritten"


def counted(count: int) -> str:
    return f"{count} {'policy' if count == 1 else 'policies'}"


def some(values: typing.Sequence) -> str:
    """Some of the values, and how many there are if they are many."""
    more = f" and {len(values) - NAMED_MOST} more" if len(values) > NAMED_MOST else ""
    return ", ".join(map(str, values[:NAMED_MOST])) + more
