"""What is open between workloads or namespaces, in some or in every pod of them."""
from __future__ import annotations

from typing import Iterable

from lib import ports as port_sets

from .ends import ENTITIES, End, Group, Outside
from .naming import ANY_OTHER, outer, workload_of
from .rows import Line, Ports, Told, alike, with_one_world, written_ports

# The pods of an end that stand under a name; of what is no pod, one that is none.
Members = dict[str, frozenset]


def members(end: End, by: str) -> Members:
    """The workloads or namespaces of an end, each with its pods."""
    if isinstance(end, Outside):
        name = ENTITIES[end.value] if end.kind == "entity" else outer([end])[0]
        return {name: frozenset([("", name)])}
    found: dict[str, set] = {}
    for pod in end.pods:
        found.setdefault(name_of(pod, by), set()).add(pod.name)
    return {name: frozenset(pods) for name, pods in found.items()}


def name_of(pod, by: str) -> str:
    if by == "workload":
        return f"{pod.namespace}/{workload_of(pod)}"
    return pod.name if pod.stands_for == ANY_OTHER else pod.namespace


def all_members(groups: Iterable[Group], by: str) -> Members:
    """The pods of each name that are asked about."""
    found: dict[str, set] = {}
    for group in groups:
        for name, pods in members(group, by).items():
            found.setdefault(name, set()).update(pods)
    return {name: frozenset(pods) for name, pods in found.items()}


def count(sources: frozenset, targets: frozenset) -> int:
    """How many connections there are between pods: none of a pod to itself."""
    return len(sources) * len(targets) - len(sources & targets)


def coarse(lines: list[Line], by: str, sources: Iterable[Group], targets: Iterable[Group]) -> list[list[str]]:
    """What is open between some pods of two names, and whether it is so between every two of those that are asked about."""
    known: dict[End, Members] = {}
    between: dict[tuple[str, str], dict[tuple[End, End], list]] = {}
    doubts: dict[tuple[str, str], dict[str, None]] = {}
    for line in with_one_world(lines):
        for source in line.froms:
            for target in line.tos:
                for end in (source, target):
                    if end not in known:
                        known[end] = members(end, by)
                for one in known[source]:
                    for other in known[target]:
                        between.setdefault((one, other), {}).setdefault((source, target), []).append(line.ports)
                        doubts.setdefault((one, other), {}).update(dict.fromkeys(line.told.unsure))
    asked = [all_members(groups, by) for groups in (sources, targets)]
    cells = []
    for (one, other), by_pair in sorted(between.items(), key=lambda it: (it[0][1], it[0][0])):
        whole = {pair: union(parts) for pair, parts in by_pair.items()}
        open_ones = sum(count(known[source][one], known[target][other]) for source, target in whole)
        whole_count = count(asked[0].get(one, frozenset([one])), asked[1].get(other, frozenset([other])))
        is_every = len({*whole.values()}) == 1 and open_ones >= whole_count
        told = Told("", "", ("every pod" if is_every else "some pods",), unsure=tuple(doubts[one, other]))
        cells.append([one, other, written_ports(union(whole.values())), told.written()])
    return cells


def union(parts: Iterable[Ports]) -> Ports:
    """Ports that some of several have."""
    found: dict[str, list] = {}
    for part in parts:
        for protocols, ranges in part:
            for protocol in protocols:
                found.setdefault(protocol, []).extend(ranges)
    return alike({protocol: flat(ranges) for protocol, ranges in found.items()})


def flat(ranges: Iterable[tuple[int, int]]) -> list[tuple[int, int]]:
    """Ranges without those that lie in another one, and with those that overlap made one."""
    made: list[tuple[int, int]] = []
    for low, high in sorted(ranges):
        if made and low <= made[-1][1] + 1:
            made[-1] = (made[-1][0], max(high, made[-1][1]))
        else:
            made.append((low, high))
    return list(port_sets.merged(made))
