"""Entries that change nothing, since another one allows or denies all of it already, and policies of such entries."""
from __future__ import annotations

import typing

from .. import ports
from ..addresses import lies_in, prefix
from ..policies import requirements
from ..unread import ENTITIES, SECTIONS
from .ground import Ground

if typing.TYPE_CHECKING:
    from ..policies import Policy
    from ..rewriting.results import Rewritten

Found = typing.Iterator[typing.Tuple[str, str, str]]
# What lies outside the cluster, by the family of its address; `world` is both.
WORLD, FAMILIES = "world", {4: "world-ipv4", 6: "world-ipv6"}


class Cover(typing.NamedTuple):
    """What an entry covers: pods of its subject, their peers by sets of labels, entities and prefixes, and ports."""

    place: str
    order: int
    policy: str
    direction: str
    denies: bool
    subject: frozenset
    is_every: bool
    sets: frozenset
    entities: frozenset
    prefixes: tuple
    ranges: dict
    is_marked: bool
    # Whether its rule is read whole.
    is_sure: bool

    def has(self, other: "Cover") -> bool:
        """Whether all that the other covers is covered."""
        if self.direction != other.direction or not other.subject <= self.subject or not self.has_ports(other):
            return False
        if self.is_every:
            return True
        if other.is_every or not (other.sets <= self.sets and other.entities <= self.entities):
            return False
        return all(FAMILIES[it[0].version] in self.entities or any(holds_prefix(one, it) for one in self.prefixes) for it in other.prefixes)

    def has_ports(self, other: "Cover") -> bool:
        for protocol in ports.PROTOCOLS:
            mine = ports.merged(self.ranges[protocol])
            if not all(any(low <= start and end <= high for low, high in mine) for start, end in ports.merged(other.ranges[protocol])):
                return False
        return True


def holds_prefix(mine: tuple, other: tuple) -> bool:
    """Whether a prefix without its exceptions has all of another one without its own."""
    whole, out = mine
    inner, inner_out = other
    return lies_in(inner, whole) and all(not it.overlaps(inner) or any(lies_in(it, one) for one in inner_out) for it in out)


def of_policy(ground: Ground, policy: Policy) -> Found:
    """The entries of a policy that another one covers, and the policy where that is so of all of them."""
    listed = covers(ground)
    mine = [it for it in listed if it.policy == policy.name and it.is_sure]
    told = [(it, other) for it in mine for other in [other_of(listed, it)] if other]
    for it, other in told:
        word = "denies" if other.denies else "allows"
        yield "entry-changes-nothing", it.place, f"{it.place} changes nothing: {other.place} {word} it already"
    is_whole = len(mine) == sum(1 for _ in ground.entries(policy)) and not ground.state.rewritten[policy.key].unsure
    if mine and is_whole and len(told) == len(mine) and all(other.policy != policy.name for _, other in told):
        yield "policy-without-effect", policy.name, f"{policy.name} changes nothing: each of its entries is covered by another policy's"


def other_of(listed: typing.List[Cover], mine: Cover) -> typing.Optional[Cover]:
    """The first other entry that covers all of one: a deny covers an allow too."""
    for it in listed:
        if it is mine or mine.denies and not it.denies or it.is_marked and not it.denies or not it.is_sure or not it.has(mine):
            continue
        is_same = it.denies == mine.denies and mine.has(it)
        if not is_same or it.order < mine.order:
            return it
    return None


def covers(ground: Ground) -> typing.List[Cover]:
    """What the entries of the state cover, as policyd is given them, of those that may cover what is asked about; one that became several is left out."""
    if ground.covers is None:
        asked = asked_about(ground)
        found: typing.Dict[str, typing.List[typing.Optional[Cover]]] = {}
        for whole in ground.state.rewritten.values():
            marked = {*whole.marks, *(it.place for it in whole.names)}
            for part in whole.parts:
                for place, cover in of_part(ground, whole, part, marked, len(found), asked):
                    found.setdefault(place, []).append(cover)
        ground.covers = [it for listed in found.values() if len(listed) == 1 for it in listed if it is not None and it.subject]
    return ground.covers


def asked_about(ground: Ground) -> typing.FrozenSet[int]:
    """The sets of labels that the policies which are asked about select: an entry for none of them covers none of theirs."""
    if ground.only is None:
        return ground.index.every
    parts = [part for key in ground.only if key in ground.state.rewritten for part in ground.state.rewritten[key].parts]
    return frozenset().union(*(subject_of(ground, part, rule) for part in parts for rule in rules_of(ground, part)))


def subject_of(ground: Ground, part: Policy, rule: dict) -> typing.FrozenSet[int]:
    return ground.matching(tuple(requirements(rule["endpointSelector"], part.namespace)))


def of_part(ground: Ground, whole: Rewritten, part: Policy, marked: typing.Container[str], order: int, asked: frozenset) -> typing.Iterator[tuple]:
    """What the entries of a rule cover, by their places: None for one that no set of labels which is asked about has."""
    front = "" if part.namespace else "/"
    for number, rule in enumerate(rules_of(ground, part)):
        subject = subject_of(ground, part, rule)
        for section in SECTIONS:
            for at, entry in enumerate(rule.get(section) or []):
                answer = f"{front}{part.name}#{number}.{section}[{at}]"
                place = whole.places.get(answer, answer.lstrip("/"))
                order += 1
                if subject.isdisjoint(asked):
                    yield place, None
                    continue
                value = {name: it for name, it in entry.items() if name}
                yield place, cover_of(ground, part, place, order, whole, section, subject, value, place in marked)


def rules_of(ground: Ground, part: Policy) -> typing.List[dict]:
    """The rules of a policy that policyd is given, a NetworkPolicy's in Cilium's terms."""
    if part.document.get("apiVersion") == "cilium.io/v2":
        return part.rules()
    return [rule for _, rule in ground.rules(part)]


def cover_of(ground: Ground, part: Policy, place: str, order: int, whole: Rewritten, section: str, subject: frozenset, value: dict, is_marked: bool) -> Cover:
    word = "from" if section.startswith("ingress") else "to"
    peers = [name for name in value if name.startswith(word) and name != "toPorts"]
    sets = frozenset().union(*(ground.matching(ground.peer(part, it)[0]) for it in value.get(f"{word}Endpoints") or []))
    entities = value.get(f"{word}Entities") or []
    is_nothing = not peers and not value.get("toPorts")
    if "cluster" in entities:
        sets, entities = frozenset(range(len(ground.sets))), [*entities, *(it for it in ENTITIES if it not in ("all", "cluster", WORLD, *FAMILIES.values()))]
    prefixes: typing.List[tuple] = [(prefix(it), ()) for it in value.get(f"{word}CIDR") or []]
    prefixes += [(prefix(it["cidr"]), tuple(map(prefix, it.get("except") or []))) for it in value.get(f"{word}CIDRSet") or []]
    ranges = ports.ranges(value) if value.get("toPorts") else {it: [(0, ports.LAST)] for it in ports.PROTOCOLS}
    is_every = "all" in entities or not peers and not is_nothing
    named = frozenset(one for it in entities if it not in ("all", "cluster") for one in (FAMILIES.values() if it == WORLD else [it]))
    # (an entry that covers nothing is no slip here: it isolates)
    subject = frozenset() if is_nothing or not (is_every or sets or named or prefixes) else subject
    is_sure = not any(it.isolates for it in whole.unsure)
    return Cover(place, order, whole.policy.name, section.replace("Deny", ""), section.endswith("Deny"), subject, is_every, sets, named, tuple(prefixes), ranges, is_marked, is_sure)
