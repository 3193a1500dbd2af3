"""IPv6 texts that end in an IPv4 address (RFC 4291, section 2.2), which policyd doesn't read: written as groups alone."""
from __future__ import annotations

import typing

from ..addresses import without_ending
from .work import Entry, Work


def rewrite(work: Work, entry: Entry, word: str) -> typing.List[Entry]:
    if not entry.value.get(f"{word}CIDR") and not entry.value.get(f"{word}CIDRSet"):
        return [entry]
    value = dict(entry.value)
    if value.get(f"{word}CIDR"):
        value[f"{word}CIDR"] = [*map(text_of, value[f"{word}CIDR"])]
    if value.get(f"{word}CIDRSet"):
        value[f"{word}CIDRSet"] = [*map(block_of, value[f"{word}CIDRSet"])]
    return [entry.with_value(value)]


def block_of(block: object) -> object:
    """A prefix with its exceptions, of an entry of Cilium's or of a NetworkPolicy."""
    if not isinstance(block, dict):
        return block
    found = {**block, **({"cidr": text_of(block["cidr"])} if "cidr" in block else {})}
    if isinstance(block.get("except"), list):
        found["except"] = [*map(text_of, block["except"])]
    return found


def text_of(text: object) -> object:
    return without_ending(text) if isinstance(text, str) else text
