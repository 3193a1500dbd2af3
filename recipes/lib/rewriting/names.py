"""Addresses that nobody knows here: those of names, and those of a cloud's groups."""
from __future__ import annotations

import typing

from .. import unread
from . import named_ports
from .work import Entry, Refused, Work

MEMBERS = ("toFQDNs", "toGroups", "fromGroups")


def rewrite(work: Work, entry: Entry, word: str) -> typing.List[Entry]:
    """An entry that isolates and opens nothing, and a note of what it opens besides."""
    value = dict(entry.value)
    lists = {it: value.pop(it) for it in MEMBERS if it in value}
    if not lists:
        return [entry]
    if not any(lists.values()):
        return [entry.with_value({f"{word}Endpoints": [], **value})]
    ports = numbers(work, value.get("toPorts") or [], word)
    for member, listed in lists.items():
        if listed and ports is not None:
            work.names([written(work, member, at, it) for at, it in enumerate(listed)], ports)
    return [entry.with_value({})]


def numbers(work: Work, items: typing.List[dict], word: str) -> typing.Optional[dict]:
    """The ports of an entry by number: an address outside has none by name. None where it has no other."""
    kept = [{**item, "ports": left} for item in items for left in [[it for it in item["ports"] if not named_ports.is_named(it.get("port"))]] if left]
    found = {"toPorts": kept} if kept else {}
    unread.walk(found, word, work.path)
    unread.judge_entry(found, work.path)
    if items and not kept:
        work.found.counted[named_ports.OF_NO_POD] += 1
        return None
    return found


def written(work: Work, member: str, at: int, item: dict) -> str:
    """A name or a pattern as it stands; a group by what it lists."""
    path = f"{work.path}.{member}[{at}]"
    if not isinstance(item, dict):
        raise Refused(f"wrong-shape at {path}")
    if member != "toFQDNs":
        inner: dict = next((it for it in item.values() if isinstance(it, dict)), {})
        texts = [str(one) for it in inner.values() for one in (it if isinstance(it, list) else [it])]
        return f"group {', '.join(texts)}"
    text = item.get("matchName") or item.get("matchPattern")
    if not isinstance(text, str):
        raise Refused(f"wrong-shape at {path}")
    return text
