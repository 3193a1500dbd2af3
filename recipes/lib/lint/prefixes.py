"""Prefixes that hold addresses of the cluster: pods, nodes and Services, which a prefix doesn't mean."""
from __future__ import annotations

import bisect
import typing

from ..addresses import Network, is_one, order, prefix, written
from ..sides import whose
from .ground import Ground, Written

if typing.TYPE_CHECKING:
    from ..policies import Policy

Found = typing.Iterator[typing.Tuple[str, str, str]]
# What is in a prefix, one and many.
WORDS = {"pods": ("pod", "pods"), "nodes": ("node's address", "nodes' addresses"), "services": ("ClusterIP", "ClusterIPs"), "balancers": ("load balancer's address", "load balancers' addresses")}


def of_policy(ground: Ground, policy: Policy) -> Found:
    for entry in ground.entries(policy):
        for whole, out in sorted(listed(entry), key=lambda it: order(it[0])):
            text = told_of(ground, whole, out)
            if text:
                front = policy.name if is_one(whole) else entry.place
                yield "prefix-means-none", entry.place, f"{front}: the prefix {written(whole)} {text}"


def listed(entry: Written) -> typing.Iterator[tuple]:
    """The prefixes of an entry, each with its exceptions."""
    for it in entry.value.get(f"{entry.word}CIDR") or []:
        if isinstance(it, str) and prefix(it):
            yield prefix(it), []
    for it in entry.value.get(f"{entry.word}CIDRSet") or []:
        if isinstance(it, dict) and isinstance(it.get("cidr"), str) and prefix(it["cidr"]):
            yield prefix(it["cidr"]), [prefix(out) for out in it.get("except") or [] if isinstance(out, str) and prefix(out)]


def told_of(ground: Ground, whole: Network, out: list) -> str:
    """What is said of a prefix, or nothing."""
    if is_one(whole):
        found = whose(ground.cluster, written(whole.network_address))
        return f"does nothing: it is {found}" if found else ""
    counts = {name: inside(by_family[whole.version], whole, out) for name, by_family in ground.addresses.items()}
    parts = [f"{count} {WORDS[name][count > 1]}" for name, count in counts.items() if count]
    return f"holds {', '.join(parts)}, and doesn't mean {'them' if sum(counts.values()) > 1 else 'it'}" if parts else ""


def inside(addresses: typing.Sequence[int], whole: Network, out: typing.Iterable[Network]) -> int:
    """How many of ascending addresses of a prefix's family lie in it, and in none of its exceptions."""
    holes = [bounds(it) for it in out if it.version == whole.version]
    low, high = bounds(whole)
    listed = addresses[bisect.bisect_left(addresses, low) : bisect.bisect_right(addresses, high)]
    return sum(not any(first <= it <= last for first, last in holes) for it in listed)


def bounds(it: Network) -> typing.Tuple[int, int]:
    return int(it.network_address), int(it.broadcast_address)
