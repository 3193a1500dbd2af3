"""Addresses outside the cluster: the worlds of both families, and the prefixes that policies name.

A region is a prefix without the prefixes in it that are named too, and the world of a family is the region of 0.0.0.0/0 or
of ::/0. Entries name whole prefixes, so all addresses of a region have the same verdicts, and one that is no pod's and no
node's stands for it. Where both worlds are meant, they are told as one.
"""
from __future__ import annotations

import functools
import itertools
import typing

from .addresses import WORLDS, Network, is_world, known, order
from .addresses import written as text_of

# A region as a prefix and its exceptions.
Joined = typing.Tuple[Network, typing.List[Network]]


def named(entries: typing.Iterable[dict]) -> typing.Set[Network]:
    """The prefixes that entries name, those of their exceptions too, and the worlds."""
    entries = list(entries)
    texts = {text for entry in entries for it in sets(entry) for text in it.get("except") or []}
    return {*WORLDS, *listed(entries), *map(known, texts)}


def listed(entries: typing.Iterable[dict]) -> typing.Set[Network]:
    """The prefixes that are peers of entries."""
    texts: typing.Set[str] = set()
    for entry in entries:
        texts.update(it for name in ("fromCIDR", "toCIDR") for it in entry.get(name) or [])
        texts.update(it["cidr"] for it in sets(entry))
    return {*map(known, texts)}


def sets(entry: dict) -> typing.List[dict]:
    return [it for name in ("fromCIDRSet", "toCIDRSet") for it in entry.get(name) or []]


class Prefixes(typing.FrozenSet[Network]):
    """A set of prefixes that is known again at once.

    ipaddress hashes a prefix and the half of it that ends it alike, so that the two leave no trace in the hash of a set.
    """

    @functools.cached_property
    def number(self) -> int:
        return hash(frozenset(map(order, self)))

    def __hash__(self) -> int:
        return self.number


class Nested:
    """Prefixes, and which of them lies in which."""

    def __init__(self, prefixes: typing.FrozenSet[Network]):
        self.prefixes = prefixes
        self.places = {place(it, it.prefixlen): it for it in prefixes}
        self.lengths = {world.version: sorted({it.prefixlen for it in prefixes if it.version == world.version}, reverse=True) for world in WORLDS}
        self.inner: typing.Dict[typing.Optional[Network], typing.List[Network]] = {}
        for it in sorted(prefixes, key=order):
            self.inner.setdefault(self.around(it), []).append(it)

    def around(self, it: Network) -> typing.Optional[Network]:
        """The nearest of the prefixes in which another one lies, or None."""
        return self.nearest(it, it.prefixlen - 1)

    def nearest(self, it: Network, most: int) -> typing.Optional[Network]:
        """The longest of the prefixes that has all addresses of another one and no more than so many bits, or None."""
        found = (self.places.get(place(it, length)) for length in self.lengths[it.version] if length <= most)
        return next((one for one in found if one is not None), None)

    def of(self, it: Network) -> typing.Optional[Network]:
        """The longest of the prefixes that has all addresses of one, which may be that one; or None."""
        return self.nearest(it, it.prefixlen)

    def inside(self, whole: Network) -> typing.List[Network]:
        """The widest of the prefixes that lie in one of them, in order."""
        return self.inner.get(whole, [])


def place(it: Network, length: int) -> tuple:
    """The first bits of a prefix, with how many they are."""
    return it.version, length, int(it.network_address) >> it.max_prefixlen - length


@functools.lru_cache(maxsize=None)
def nested(prefixes: typing.FrozenSet[Network]) -> Nested:
    """Prefixes with which of them lies in which, worked out once."""
    return Nested(prefixes)


def joined(regions: typing.Collection[Network], prefixes: typing.FrozenSet[Network]) -> typing.List[Joined]:
    """Regions as pairs of a prefix and its exceptions: a region in which another of them lies takes that one in."""
    among = nested(prefixes)
    return [(it, sorted(missing(it, regions, among), key=order)) for it in sorted(regions, key=order) if among.around(it) not in regions]


def missing(whole: Network, regions: typing.Collection[Network], among: Nested) -> typing.Iterator[Network]:
    """The prefixes inside a region that aren't among the regions, and through which it isn't left."""
    for it in among.inside(whole):
        if it in regions:
            yield from missing(it, regions, among)
        else:
            yield it


def written(pairs: typing.Iterable[Joined]) -> typing.Iterator[str]:
    """Regions in words: first the worlds, those of both families as one, and then the others."""
    pairs = list(pairs)
    of_worlds = ([but for whole, but in pairs if whole == world] for world in WORLDS)
    for each in itertools.zip_longest(*of_worlds):
        names = [f"world-ipv{world.version}" for world, but in zip(WORLDS, each) if but is not None]
        yield without("world" if len(names) == len(WORLDS) else names[0], [it for but in each for it in but or ()])
    for whole, but in pairs:
        if not is_world(whole):
            yield without(text_of(whole), but)


def without(name: str, but: typing.Sequence[Network]) -> str:
    more = f" and {len(but) - 3} more" if len(but) > 3 else ""
    return name + (f" but for {', '.join(map(text_of, but[:3]))}{more}" if but else "")
