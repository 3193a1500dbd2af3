"""Names of ends and of ports, as people write them.

An end is `NAMESPACE/POD`, `NAMESPACE/WORKLOAD`, `NAMESPACE/*`, `NAMESPACE/KEY=VALUE`, `*` for every pod, a workload's name
in whatever namespace, an entity such as `host`, `world`, `world-ipv4` or `world-ipv6`, an address or a prefix.
"""
from __future__ import annotations

import re
from typing import Callable, Iterable, NamedTuple, Optional, Union

from lib import ports
from lib.addresses import WORLDS, Network, is_one, parsed, prefix, written
from lib.pods import Pod
from lib.reading import Bad

from .connections import pairs_with
from .ends import ENTITIES, End, Group, Outside, Universe, entity
from .halves import Halves
from .naming import ANY_OTHER, NAMED_MOST, some
from .selecting import EGRESS, INGRESS

NUMBERS = {name: number for number, name in ENTITIES.items()}
# What isn't a pod, named: an entity, an address, or a prefix whose regions depend on the half at the other side.
Outer = Union[Outside, Network]
# The worlds by name.
NAMED_WORLDS = {"world": [*WORLDS], **{f"world-ipv{it.version}": [it] for it in WORLDS}}


class Named(NamedTuple):
    """The ends that a text names."""

    text: str
    groups: list[Group]
    outer: list[Outer]

    def by_kind(self, halves: Halves) -> Named:
        """The same ends, with pods that all rules judge alike in one group."""
        return self._replace(groups=halves.merged(self.groups))

    def outside(self, halves: Halves, asked: tuple[int, int, str]) -> list[Outside]:
        """What isn't a pod of these, as far as the half at the other side tells it apart."""
        found: list[Outside] = []
        for it in self.outer:
            found += [it] if isinstance(it, Outside) else halves.outer(asked, within=it)
        return found


def everything(universe: Universe) -> Named:
    """Every end that there is."""
    return Named("everything", universe.groups, [*map(entity, ENTITIES), *WORLDS])


def named(universe: Universe, text: str, place: str) -> Named:
    """The ends that a text names; Bad where it names nothing."""
    if text in NUMBERS:
        return Named(text, [], [entity(NUMBERS[text])])
    if text in NAMED_WORLDS:
        return Named(text, [], [*NAMED_WORLDS[text]])
    network = network_of(text)
    if network is not None:
        return of_addresses(universe, text, network, place)
    groups = restricted(universe.groups, wanted(text))
    if not groups:
        raise Bad(f"{place}: {text} {of_the_host(universe, text) or f'names nobody: {close_to(universe, text)}'}")
    return Named(text, groups, [])


def of_the_host(universe: Universe, text: str) -> str:
    """What stands for pods that are on the host's network alone, where a text names these; empty where it names none."""
    cluster = universe.states[-1].cluster
    pods = [it for it in cluster.pods.values() if it.is_host and wanted(text)(it)]
    if not pods:
        return ""
    others = sorted({"kube-apiserver" if it.node in cluster.api_nodes else "remote-node" for it in pods})
    nodes = sorted({it.node for it in pods})
    return f"is on the host's network, so it stands with its node: name it `host` for the pods of {some(nodes, NAMED_MOST)}, and {' or '.join(f'`{it}`' for it in others)} for those of other nodes"


def network_of(text: str) -> Optional[Network]:
    """The prefix of a text that has no host bits."""
    found = prefix(text)
    return found if found is not None and found.network_address == parsed(text.partition("/")[0]) else None


def of_addresses(universe: Universe, text: str, network: Network, place: str) -> Named:
    """A prefix, or an address, which may be a pod's or a node's."""
    if not is_one(network):
        return Named(text, [], [network])
    address = written(network.network_address)
    owner = universe.by_address(1).get(address)
    groups = restricted(universe.groups, lambda pod: pod is owner)
    if groups:
        return Named(text, groups, [])
    cluster = universe.states[-1].cluster
    if address in cluster.services:
        raise Bad(f"{place}: {address} is the ClusterIP of the Service {cluster.services[address]}, which is a pod's address before policies are asked: name the pod")
    if address in cluster.nodes:
        raise Bad(f"{place}: {address} is the address of the node {cluster.nodes[address]}: name it `host` or `remote-node`")
    return Named(text, [], [Outside("address", address, frozenset())])


def restricted(groups: Iterable[Group], fits: Callable[[Pod], bool]) -> list[Group]:
    """The groups with those of their pods that fit."""
    found = []
    for it in groups:
        pods = [pod for pod in it.pods if fits(pod)]
        if len(pods) == len(it.pods):
            found.append(it)
        elif pods:
            found.append(Group(it.before, it.after, pods, it.is_local))
    return found


def wanted(text: str) -> Callable[[Pod], bool]:
    """Whether a pod is one that a text names."""
    namespace, slash, name = text.rpartition("/")
    # (a key of a label may have a slash too)
    if "=" in text:
        namespace, slash, name = text.partition("/") if "/" in text.partition("=")[0] else ("", "", text)
        pairs = [it.partition("=")[::2] for it in name.split(",")]
        return lambda pod: (not slash or pod.namespace == namespace) and all(pod.own.get(key) == value for key, value in pairs)
    fits = lambda pod: name in (pod.workload, pod.name.rpartition("/")[2]) or name == "*" and pod.stands_for != ANY_OTHER
    return lambda pod: (not slash or pod.namespace == namespace) and fits(pod)


def close_to(universe: Universe, text: str) -> str:
    """What there is where a text names nobody."""
    namespaces = sorted({pod.namespace for it in universe.groups for pod in it.pods})
    namespace = text.partition("/")[0]
    if "/" in text and namespace not in namespaces:
        return f"there are the namespaces {', '.join(namespaces)}"
    pods = [pod for it in universe.groups for pod in it.pods if pod.stands_for != ANY_OTHER]
    workloads = sorted({f"{it.namespace}/{it.workload}" for it in pods if "/" not in text or it.namespace == namespace})
    return f"there are {', '.join(workloads[:8])}{' ..' if len(workloads) > 8 else ''}"


class PortRange(NamedTuple):
    """Ports of some protocols."""

    protocols: tuple[str, ...]
    low: int
    high: int

    def cut(self, protocol: str, low: int, high: int) -> Optional[tuple[int, int]]:
        """What of a stretch lies in it, or None."""
        low, high = max(low, self.low), min(high, self.high)
        return (low, high) if protocol in self.protocols and low <= high else None


EVERY_PORT = PortRange(ports.PROTOCOLS, 0, ports.LAST)


def port_range(text: str, place: str) -> PortRange:
    """`TCP/8443`, `8443/TCP`, `UDP/8000-8100`, `8443` of every protocol, `TCP`, or `any`."""
    words = [it for it in re.split(r"[/\s]+", text.strip()) if it]
    protocols = [it.upper() for it in words if re.fullmatch("[A-Za-z]+", it)]
    numbers = [it for it in words if re.fullmatch(r"\d{1,5}(-\d{1,5})?", it)]
    if not words or len(protocols) > 1 or len(numbers) > 1 or len(protocols) + len(numbers) != len(words):
        raise Bad(f"{place}: {text!r} is no port: it is PROTOCOL/PORT, such as TCP/8443 or UDP/8000-8100, or a part of that")
    if protocols and protocols[0] not in (*ports.PROTOCOLS, "ANY"):
        raise Bad(f"{place}: {protocols[0]} is no protocol that policies are asked about: there are TCP, UDP and SCTP")
    low, _, high = (numbers[0] if numbers else f"0-{ports.LAST}").partition("-")
    bounds = int(low), int(high or low)
    if not bounds[0] <= bounds[1] <= ports.LAST:
        raise Bad(f"{place}: {text!r} is no port: ports are 0 to {ports.LAST}")
    return PortRange(ports.PROTOCOLS if not protocols or protocols[0] == "ANY" else (protocols[0],), *bounds)


def one_port(text: str, place: str) -> PortRange:
    found = port_range(text, place)
    if len(found.protocols) != 1 or found.low != found.high:
        raise Bad(f"{place}: {text!r} is no single port: it is PROTOCOL/PORT, such as TCP/8443")
    return found


def pairs(halves: Halves, sources: Named, targets: Named, phase: int = 0) -> Iterable[tuple[End, End]]:
    """The connections between two ends: those between pods, and those of pods with what is none; with a node's where one is named."""
    is_noded = halves.universe.node is not None
    return (it for it in every_two(halves, sources, targets, phase) if pairs_with(*it, is_noded))


def every_two(halves: Halves, sources: Named, targets: Named, phase: int) -> Iterable[tuple[End, End]]:
    there = [it for it in targets.groups if it.at(phase) is not None]
    for source in (it for it in sources.groups if it.at(phase) is not None):
        yield from ((source, target) for target in there)
        at = source.number(phase)
        yield from ((source, it) for it in targets.outside(halves, (phase, at, EGRESS)))
    for target in there:
        at = target.number(phase)
        yield from ((it, target) for it in sources.outside(halves, (phase, at, INGRESS)))
