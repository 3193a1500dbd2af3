"""What a proxy decides behind the ports: its layers 3 and 4 are kept, and marked."""
from __future__ import annotations

import typing

from .work import Entry, Work

MEMBERS = frozenset(("rules", "listener", "terminatingTLS", "originatingTLS", "serverNames"))


def rewrite(work: Work, entry: Entry, word: str) -> typing.List[Entry]:
    """The entry without rules of layer 7 and without authentication: open to the proxy, or to who authenticates."""
    items = entry.value.get("toPorts")
    has_members = isinstance(items, list) and not all(isinstance(it, dict) and MEMBERS.isdisjoint(it) for it in items)
    if not has_members and "authentication" not in entry.value:
        return [entry]
    value, marks = dict(entry.value), list(entry.marks)
    if isinstance(items, list):
        if any(isinstance(it, dict) and it.get(name) for it in items for name in MEMBERS):
            marks.append("L7")
        value["toPorts"] = [without(it) if isinstance(it, dict) else it for it in items]
    mode = value.pop("authentication", None)
    if mode is not None and mode.get("mode") != "disabled":
        marks.append("auth")
    return [entry.with_value(value, tuple(marks))]


def without(item: dict) -> dict:
    return {name: it for name, it in item.items() if name not in MEMBERS}
