"""How ends are written: all pods of a namespace or all but few, all replicas of a workload, single pods, and what is no pod."""
from __future__ import annotations

from typing import Any, Iterable, Optional

from lib import addresses, regions
from lib.sides import ANY_OTHER

from .ends import ENTITIES, End, Group, Outside

# How many namespaces are named where any other pod of them is meant.
NAMED_MOST = 3


class Names:
    """Names for the pods of groups."""

    def __init__(self, groups: Iterable[Group]):
        self.workload_of: dict[str, str] = {}
        self.workloads: dict[tuple[str, str], set[str]] = {}
        self.namespaces: dict[str, set[str]] = {}
        self.kept: dict[tuple, list[str]] = {}
        groups = list(groups)
        self.others = {pod.namespace for it in groups for pod in it.pods if pod.stands_for == ANY_OTHER}
        for group in groups:
            for pod in (it for it in group.pods if not it.stands_for):
                self.workload_of[pod.name] = pod.workload
                self.workloads.setdefault((pod.namespace, pod.workload), set()).add(pod.name)
                self.namespaces.setdefault(pod.namespace, set()).add(pod.name)
        self.counts = {it: sum(key[0] == it for key in self.workloads) for it in self.namespaces}

    def side(self, ends: frozenset, other: frozenset = frozenset()) -> list[str]:
        """An end, written, in parts. A pod's own connection to itself never meets a policy: where `other` is that pod alone, it counts as listed."""
        alone = [pod.name for it in other if isinstance(it, Group) for pod in it.pods]
        key = (ends, alone[0] if len(alone) == 1 else None)
        if key not in self.kept:
            self.kept[key] = [*self.pods(ends, key[1]), *self.stand_ins(ends), *outer(ends)]
        return self.kept[key]

    def pods(self, ends: Iterable[End], alone: Optional[str]) -> Iterable[str]:
        by_namespace: dict[str, set[str]] = {}
        for it in ends:
            for pod in it.pods if isinstance(it, Group) else ():
                if not pod.stands_for:
                    by_namespace.setdefault(pod.namespace, set()).add(pod.name)
        for namespace, mine in sorted(by_namespace.items()):
            others = self.namespaces[namespace] - mine
            missing = sorted(others - {alone})
            if self.counts[namespace] > 2 and len(mine) > 3 * len(missing) and len(missing) < 4:
                yield f"{namespace}/* ({how_many(len(mine), missing, others != {*missing})})"
            else:
                yield from self.single(namespace, mine)

    def stand_ins(self, ends: Iterable[End]) -> Iterable[str]:
        """What stands for pods that come, each with what it is; any other pod of every namespace is one."""
        pods = [pod for it in ends if isinstance(it, Group) for pod in it.pods if pod.stands_for]
        yield from (f"{it.name} ({it.stands_for})" for it in sorted(pods, key=lambda it: it.name) if it.stands_for != ANY_OTHER)
        spaces = sorted({it.namespace for it in pods if it.stands_for == ANY_OTHER})
        if spaces:
            yield "any other pod" if {*spaces} == self.others and len(spaces) > 1 else f"any other pod of {some(spaces, NAMED_MOST)}"

    def single(self, namespace: str, names: set[str]) -> list[str]:
        """Pods by their names, or by their workload where all its replicas are there."""
        found: dict[str, None] = {}
        for name in sorted(names):
            whole = self.workloads[namespace, self.workload_of[name]]
            if len(whole) > 1 and whole <= names:
                name = f"{namespace}/{self.workload_of[name]} ({len(whole)} pods)"
            found[name] = None
        return list(found)


def workload_of(pod: Any) -> str:
    """The workload of a pod, as a cell of a matrix has it."""
    return "any other pod" if pod.stands_for == ANY_OTHER else pod.workload


def some(values: list[str], most: int) -> str:
    return ", ".join(values[:most]) + (f" and {len(values) - most} more" if len(values) > most else "")


def how_many(count: int, missing: list[str], is_of_others: bool) -> str:
    if missing:
        return f"{count} pods, all {'others ' if is_of_others else ''}but {', '.join(missing)}"
    return f"{'its other' if is_of_others else 'all'} {count} pods"


def outer(ends: Iterable[End]) -> list[str]:
    """What is no pod, written."""
    ends = list(ends)
    entities = {it.value for it in ends if isinstance(it, Outside) and it.kind == "entity"}
    listed = ", ".join(name for number, name in ENTITIES.items() if number in entities)
    single = sorted(str(it.value) for it in ends if isinstance(it, Outside) and it.kind == "address")
    names = ", ".join(f"{name} ({family})" if family else name for name, family in of_names(ends))
    return [*single, *regions.written(of_regions(ends)), *([listed] if listed else []), *([f"names: {names}"] if names else [])]


def of_names(ends: Iterable[End]) -> list[tuple[str, str]]:
    """The names whose unknown addresses are an end, each with their family, which is empty where both are meant."""
    found: dict[str, set] = {}
    for it in ends:
        if isinstance(it, Outside) and it.kind == "name":
            found.setdefault(str(it.value), set()).update(one.version for one in ([it.world] if it.world else addresses.WORLDS))
    return sorted((name, "" if len(versions) == len(addresses.WORLDS) else f"IPv{min(versions)}") for name, versions in found.items())


def of_regions(ends: Iterable[End]) -> list[regions.Joined]:
    """The regions, joined, as pairs of a prefix and its exceptions."""
    by_prefixes: dict[frozenset, set] = {}
    for it in ends:
        if isinstance(it, Outside) and it.kind in ("region", "worlds"):
            by_prefixes.setdefault(it.prefixes, set()).update([it.region] if it.kind == "region" else addresses.WORLDS)
    pairs = [pair for prefixes, values in by_prefixes.items() for pair in regions.joined(values, prefixes)]
    return sorted(pairs, key=lambda it: (addresses.order(it[0]), [*map(addresses.order, it[1])]))
