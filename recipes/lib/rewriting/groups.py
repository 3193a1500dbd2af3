"""Groups of prefixes as peers: the prefixes of the CiliumCIDRGroups of the state (Cilium, Network Policy, 'CIDR based')."""
from __future__ import annotations

import typing

from ..addresses import Network, lies_in, prefix, without_ending
from ..policies import holds, requirements
from .work import Entry, Work


def rewrite(work: Work, entry: Entry, word: str) -> typing.List[Entry]:
    """The entry with each prefix of a group in the group's place."""
    listed = entry.value.get(f"{word}CIDRSet")
    if not listed:
        return [entry]
    sets = [it for one in listed for it in prefixes(work, one)]
    return [entry.with_value({**entry.value, f"{word}CIDRSet": sets})]


def prefixes(work: Work, item: dict) -> typing.List[dict]:
    name, selector = item.get("cidrGroupRef"), item.get("cidrGroupSelector")
    if name is None and selector is None:
        return [item]
    rest = {key: it for key, it in item.items() if key not in ("cidrGroupRef", "cidrGroupSelector")}
    groups = work.state.cluster.groups
    if name is not None and name not in groups:
        work.lacks(f"the CiliumCIDRGroup {name} isn't in the state")
    names = [name] if name in groups else []
    if selector is not None:
        asked = [("k8s", *it[1:]) for it in requirements(selector, "")]
        names = [it for it, (labels, _) in groups.items() if all(holds(one, [f"k8s:{key}={text}" for key, text in labels.items()]) for one in asked)]
        if not names:
            work.lacks("no CiliumCIDRGroup of the state has the labels that it asks for")
    return [it for one in names for text in groups[one][1] for it in with_exceptions(text, rest)]


def with_exceptions(text: str, rest: dict) -> typing.Iterator[dict]:
    """A prefix of a group with those of the exceptions that lie in it, or nothing where one of them has all of it."""
    whole, listed = read(text), [(it, read(it)) for it in rest.get("except") or []]
    outer = [(it, found) for it, found in listed if found is not None]
    if whole is None or len(outer) < len(listed):
        yield {**rest, "cidr": text}
    elif not any(lies_in(whole, found) for _, found in outer):
        inside = [it for it, found in outer if lies_in(found, whole)]
        yield {**{key: it for key, it in rest.items() if key != "except"}, "cidr": text, **({"except": inside} if inside else {})}


def read(text: str) -> typing.Optional[Network]:
    """The prefix of a text, which may end in an IPv4 address: that goes in a later step."""
    return prefix(without_ending(text))
