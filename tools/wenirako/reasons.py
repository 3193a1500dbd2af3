"""Why a half is as it is, in words: the entries that decide, and where no entry does, the policies that isolate."""
from __future__ import annotations

from typing import Callable, Iterable, Optional

from .core import Answer
from .selecting import Half

# An answer's place of an entry to that in the policy as it was written, with its marks, before (0) or after (1) a change.
Places = Callable[[str, int], str]
NO_ENTRY = "no entry allows it"


def places(listed: Iterable[str], written: Places, phase: int = 1) -> str:
    """Entries by their places; a cluster-wide policy has no namespace before its name."""
    return ", ".join(dict.fromkeys(written(it, phase).removeprefix("/") for it in listed))


def isolating(half: Half) -> list[str]:
    """The policies that isolate an endpoint in a direction: those that select it and isolate in that direction."""
    return list(dict.fromkeys(it.policy.name for it in half.rules if half.direction in it.part.isolates()))


def of_half(half: Half, answer: Answer, written: Places) -> str:
    """Why a half is allowed or denied."""
    if answer.denies:
        return places(answer.denies, written)
    if answer.is_allowed:
        return places(answer.allows, written) or ("its own node always may" if isolating(half) else "no policy isolates it")
    return f"{NO_ENTRY}; isolated by {', '.join(isolating(half))}"


def of_change(before: Answer, after: Answer, is_allowed: bool, new: Iterable[str], written: Places) -> Optional[str]:
    """Why a half is as it is after a change, where that decides its connection, which then is allowed or isn't."""
    if after.is_allowed:
        return (places(after.allows, written) or ("" if before.is_free() else "no rule limits it any more")) if is_allowed else None
    if after.denies:
        return places(after.denies, written)
    if not before.is_allowed:
        return NO_ENTRY
    if before.allows:
        return f"{NO_ENTRY} without {places(before.allows, written, 0)}"
    names = ", ".join(new)
    return f"{NO_ENTRY}; enforced by {names}" if names else NO_ENTRY
