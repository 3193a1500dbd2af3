"""The ends of connections: pods that are judged alike, nodes and other entities, and addresses outside the cluster."""
from __future__ import annotations

import ipaddress
from typing import Any, Iterable, NamedTuple, Optional, Sequence, Union

from lib import addresses, regions
from lib.addresses import Network
from lib.pods import Pod
from lib.rewriting import Unsure

from .selecting import Half

ENTITIES = {1: "host", 6: "remote-node", 7: "kube-apiserver", 8: "ingress", 4: "health", 5: "init", 3: "unmanaged"}
# The one that its own pods always let in.
HOST = 1
# Addresses that stand for sets of labels whose pods have none of their own are taken from here.
SPARE = ipaddress.IPv4Address("255.255.0.0")


class LabelSet(NamedTuple):
    """Labels that pods have, the namespace that they name, and an address that nobody else here has."""

    labels: tuple
    namespace: str
    address: str


class Group:
    """Pods whose labels were the same before and are the same after, so that they are judged alike.

    `before` and `after` are the numbers of their sets of labels, None where they aren't there. Where a node is named,
    the pods that are on it and those that aren't are two groups.
    """

    def __init__(self, before: Optional[int], after: Optional[int], pods: Sequence, is_local: bool):
        self.before, self.after, self.pods, self.is_local = before, after, list(pods), is_local

    def at(self, phase: int) -> Optional[int]:
        return self.after if phase else self.before

    def number(self, phase: int) -> int:
        """The number of its set of labels in a phase in which it is there."""
        found = self.at(phase)
        assert found is not None
        return found


class Outside(NamedTuple):
    """What isn't a pod: an entity by its number, one address, the region of a prefix without those of `prefixes` in it, or
    the unknown addresses of a name, which lie in the region of a family's world among these prefixes.

    Where the worlds of both families are told as one they are an end of the kind `worlds`, and so is a name without a world.
    """

    kind: str
    value: Any
    prefixes: frozenset
    # The world of a name's addresses.
    world: Optional[Network] = None

    def remote(self, taken: set[str]) -> Optional[tuple]:
        """How a question names it, or None where no address is left of it but those that are taken."""
        if self.kind == "entity":
            return "identity", self.value
        if self.kind == "address":
            return "address", str(self.value)
        address = first_free(self.region, regions.nested(self.prefixes).inside(self.region), taken)
        return None if address is None else ("address", address)

    @property
    def region(self) -> Network:
        found = self.world if self.kind == "name" else self.value
        assert found is not None
        return found

    @property
    def is_world(self) -> bool:
        """Whether it is the region of a family's world."""
        return self.kind == "region" and addresses.is_world(self.region)


End = Union[Group, Outside]


class Universe:
    """The pods of one state, or of two, by their labels."""

    def __init__(self, states: Sequence, node: Optional[str] = None, are_whole: bool = False):
        """Of two states that are whole, pods that one of them lacks aren't compared; in a change they stand in both."""
        self.states, self.node = states, node
        self.sets: list[LabelSet] = []
        self.numbers: dict[tuple, int] = {}
        self.taken = {it for state in states for it in addresses_of(state)}
        self.groups: list[Group] = []
        # Pods that one of two states lacks, and whose workload gives no other pod in their place: by the state's number.
        self.alone: tuple[list, list] = ([], [])
        pairs = matched(states[0].ends, states[-1].ends)
        pairs = pairs if are_whole else [(before or after, after or before) for before, after in pairs]
        used: set[str] = set()
        for pair in pairs:
            for pod in (it for it in pair if it is not None):
                self.add(pod, used)
        self.taken |= used
        self.group(pairs)
        self.of_set: tuple[dict, dict] = ({}, {})
        for it in self.groups:
            for phase in (0, 1):
                self.of_set[phase].setdefault(it.at(phase), []).append(it)

    def add(self, pod, used: set[str]) -> None:
        """Gives a pod's labels a number, and an address that no other set has."""
        if pod.labels in self.numbers:
            return
        at = self.numbers[pod.labels] = len(self.sets)
        address = pod.address if pod.address and pod.address not in used else str(SPARE + at)
        used.add(address)
        self.sets.append(LabelSet(pod.labels, pod.namespace, address))

    def more(self, labels: tuple, namespace: str) -> int:
        """The number of a set of labels that no pod of the states has."""
        if labels not in self.numbers:
            at = self.numbers[labels] = len(self.sets)
            self.sets.append(LabelSet(labels, namespace, str(SPARE + at)))
            self.taken.add(str(SPARE + at))
        return self.numbers[labels]

    def mistrust(self, policies: Iterable[tuple]) -> None:
        """Takes policies that the core refuses, each with why, and that were thought to be read, for such that aren't."""
        for part, why in policies:
            found = Unsure(part.name, f"it isn't in force: policyd refused it: {why}", "", isolates=True, selector=part.selects, said=part.line)
            for state in self.states:
                if any(it.line == part.line for it in state.parts()):
                    state.all_unsure.append(found)

    def group(self, pairs: Sequence[tuple]) -> None:
        found: dict[tuple, list] = {}
        for before, after in pairs:
            pod = after or before
            if before is None or after is None:
                self.alone[1 if before is None else 0].append(pod)
            key = (*(it and self.numbers[it.labels] for it in (before, after)), self.node is None or pod.node == self.node)
            found.setdefault(key, []).append(pod)
        self.groups = [Group(before, after, pods, is_local) for (before, after, is_local), pods in found.items()]

    def by_address(self, phase: int) -> dict[str, Pod]:
        """The pod that has each address: one that is there, of this phase before the other, else what stands for pods that come."""
        found: dict[str, list] = {}
        for pod in (pod for it in self.groups for pod in it.pods):
            for address in pod.addresses:
                found.setdefault(address, []).append(pod)
        first, other = (self.states[at].cluster for at in ((-1, 0) if phase else (0, -1)))
        rank = lambda address, it: (bool(it.stands_for), first.pod_at(address) is not it, other.pod_at(address) is not it)
        return {address: min(pods, key=lambda it: rank(address, it)) for address, pods in found.items()}

    def outside(self, halves: Iterable[Half]) -> list[Outside]:
        """What isn't a pod at the other side of halves, as far as their entries tell it apart."""
        return [*map(entity, ENTITIES), *inside(halves, *addresses.WORLDS)]


def first_free(whole: Network, holes: Sequence[Network], taken: set[str]) -> Optional[str]:
    """The first address of a prefix that lies in none of its holes, which are apart and ascend, and isn't taken; or None."""
    make, at = type(whole.network_address), int(whole.network_address)
    ends = [*((int(it.network_address), int(it.broadcast_address)) for it in holes), (int(whole.broadcast_address) + 1, 0)]
    for low, high in ends:
        free = next((text for text in (addresses.written(make(it)) for it in range(at, low)) if text not in taken), None)
        if free is not None:
            return free
        at = high + 1
    return None


def of_both(end: End) -> Optional[Outside]:
    """What stands for an end with that of the other family, where it is a world or the addresses of a name; or None."""
    if isinstance(end, Outside) and end.is_world:
        return Outside("worlds", None, end.prefixes)
    return end._replace(world=None) if isinstance(end, Outside) and end.kind == "name" else None


def entity(number: int) -> Outside:
    return Outside("entity", number, frozenset())


def inside(halves: Iterable[Half], *wholes: Network) -> list[Outside]:
    """The regions of prefixes, as far as the entries of halves tell them apart."""
    named = regions.Prefixes({*regions.named(entry for it in halves for entry in it.entries()), *wholes})
    # (those of equal prefixes have the same ones)
    prefixes = regions.nested(named).prefixes
    return [Outside("region", it, prefixes) for it in sorted(prefixes, key=addresses.order) if any(addresses.lies_in(it, whole) for whole in wholes)]


def addresses_of(state) -> Iterable[str]:
    """The addresses that are inside a cluster: of pods, nodes and Services."""
    yield from (it for pod in state.ends for it in pod.addresses)
    for listed in ("nodes", "services", "balancers", "api_addresses"):
        yield from getattr(state.cluster, listed)


def matched(before: Sequence, after: Sequence) -> list[tuple]:
    """The pods of two states in pairs: by their names, else by their workload where it has one set of labels in each state."""
    if before is after:
        return [(it, it) for it in before]
    old = {it.name: it for it in before}
    new = {it.name: it for it in after}
    pairs = [(old.get(name), it) for name, it in new.items()]
    left = [it for name, it in old.items() if name not in new]
    by_workload: dict[tuple, set] = {}
    for pod in left:
        by_workload.setdefault((pod.namespace, pod.workload), set()).add(pod.labels)
    first = {(it.namespace, it.workload): it for it in left}
    replaced: set[tuple] = set()
    for at, (one, pod) in enumerate(pairs):
        key = (pod.namespace, pod.workload)
        if one is None and len(by_workload.get(key, ())) == 1:
            pairs[at] = (first[key], pod)
            replaced.add(key)
    return [*pairs, *((it, None) for it in left if (it.namespace, it.workload) not in replaced)]
