"""`replay`: which flows that were seen would be dropped, how often and when they were seen, and by what."""
from __future__ import annotations

from typing import NamedTuple, Optional

from lib.reading import Bad

from .asked import About, Asked
from .connections import Stretch, wanted
from .ends import End, Group, Outside, entity
from .flows import Flow, FlowEnd, Flows, Seen
from .halves import Halves
from .naming import Names
from .report import Report, counted, doubt
from .resolving import PortRange
from .rows import Told, listed
from .statuses import NOTHING, TELLS, UNSURE

NAMESPACE_LABEL = "k8s:io.kubernetes.pod.namespace"
HEADS = ("FROM", "TO", "PORT", "FLOWS", "FIRST", "LAST", "VERDICT", "DROPPED BY")


class Dropped(NamedTuple):
    """Flows that would be dropped alike, or may be for what isn't read: `unsure` has the policies that may turn it."""

    ends: tuple[End, End]
    protocol: str
    port: int
    word: str
    why: str
    unsure: tuple[str, ...]


def report(asked: Asked, text: str, name: str) -> Report:
    """The flows that would be dropped."""
    flows = Flows(text, name)
    if not flows.seen and not flows.left_out:
        raise Bad(f"{name}: no flow is in it")
    ends = Ends(asked)
    phase = 0 if asked.states.is_one else 1
    placed = {it: (ends.of(it.source), ends.of(it.target)) for it in flows.seen}
    if ends.gone:
        asked.halves.reselect()
    found, already = asked.halves.foreseen(lambda: dropped(asked, placed, phase))
    names = Names([*asked.universe.groups, *ends.gone.values()])
    cells, rows = [], []
    for it, seen in sorted(joined(found, flows).items(), key=lambda pair: (-pair[1].count, pair[0].port)):
        froms, tos = (frozenset([end]) for end in it.ends)
        sides = [", ".join(names.side(*both)) for both in ((froms, tos), (tos, froms))]
        told = Told(it.word, it.word, (it.why,) if it.why else (), unsure=it.unsure)
        cells.append([*sides, f"{it.protocol} {it.port}", str(seen.count), seen.first, seen.last, it.word, told.written()])
        times = {"count": seen.count, "first": seen.first, "last": seen.last}
        more = {"unsure": list(it.unsure)} if it.unsure else {}
        rows.append({"from": listed(froms), "to": listed(tos), "protocol": it.protocol, "port": it.port, **times, "verdict": it.word, "dropped_by": it.why, **more})
    doubts = list(dict.fromkeys(name for it in found.values() for name in it.unsure))
    status = TELLS if any(not it.unsure for it in found.values()) else UNSURE if found else NOTHING
    notes = [*asked.notes(), *flows.notes(), *ends.notes(), *denied_already(already, flows)]
    return Report("replay", summary(found, flows), HEADS, cells, rows, notes, status, above=doubt(doubts))


def summary(found: dict[Flow, Dropped], flows: Flows) -> str:
    """How many flows would be dropped, and how many may be for what isn't read."""
    total = counted(sum(it.count for it in flows.seen.values()), "flow", "flows")
    lost, others = (sum(flows.seen[it].count for it, how in found.items() if bool(how.unsure) == is_unsure) for is_unsure in (False, True))
    return f"{lost or 'none'} of {total} would be dropped" + (f", and {others} may be" if others else "")


def denied_already(already: list[Flow], flows: Flows) -> list[str]:
    count = sum(flows.seen[it].count for it in already)
    return [f"{counted(count, 'flow is', 'flows are')} denied before the change too, so the policies or labels of the state aren't those of that time"] if count else []


def dropped(asked: Asked, placed: dict[Flow, tuple[End, End]], phase: int) -> tuple[dict[Flow, Dropped], list[Flow]]:
    """The flows that are denied after the change and not before, or may be, and those that are denied before it too."""
    pairs = list(dict.fromkeys(placed.values()))
    after, before = (asked.about(pairs, phase=it, explains=False) for it in (phase, 0))
    found: dict[Flow, tuple[Stretch, tuple[str, ...]]] = {}
    already: list[Flow] = []
    for flow, pair in placed.items():
        now, was = (stretch_of(it, pair, flow) for it in (after, before))
        if now is None:
            continue
        if phase and was is not None and not was.is_allowed and not before.unsure(*pair, was):
            already.append(flow)
            continue
        unsure = after.unsure(*pair, now)
        # (what was seen to pass passes where nothing changes, whatever isn't read)
        if phase and was is not None and is_same(asked.halves, pair, was, now):
            continue
        if unsure or not now.is_allowed:
            found[flow] = now, unsure
    after.explain(it for it, _ in found.values())
    why = lambda it: "" if it.is_allowed else "; ".join(after.reasons(it))
    return {flow: Dropped(placed[flow], flow.protocol, flow.port, it.word, why(it), unsure) for flow, (it, unsure) in found.items()}, already


def is_same(halves: Halves, pair: tuple[End, End], was: Stretch, now: Stretch) -> bool:
    """Whether a flow is judged after a change as it was before, whatever isn't read."""
    both = zip(wanted(*pair, 0), wanted(*pair, 1), was.halves, now.halves)
    return not any(halves.differ(before, after, one, other) for before, after, (_, one), (_, other) in both)


def stretch_of(about: About, pair: tuple[End, End], flow: Flow) -> Optional[Stretch]:
    """The stretch of a connection in which a flow is; None where no such packet is asked about."""
    ports = PortRange((flow.protocol,), flow.port, flow.port)
    return next((it for it in about.stretches(*pair) if ports.cut(it.protocol, it.low, it.high)), None)


def joined(found: dict[Flow, Dropped], flows: Flows) -> dict[Dropped, Seen]:
    """Flows of the same ends and port, counted together."""
    made: dict[Dropped, Seen] = {}
    for flow, it in found.items():
        total, seen = made.setdefault(it, Seen()), flows.seen[flow]
        total.count += seen.count
        total.first = min(filter(None, (total.first, seen.first)), default="")
        total.last = max(total.last, seen.last)
    return made


class Ends:
    """The ends of flows: pods of the state by their names, others by their labels, entities, and addresses."""

    def __init__(self, asked: Asked):
        self.asked, self.universe = asked, asked.universe
        self.group_of = {pod.name: it for it in asked.universe.groups for pod in it.pods}
        self.by_labels = {asked.universe.sets[it.number(phase)].labels: it for it in asked.universe.groups for phase in (0, 1) if it.at(phase) is not None}
        of_pod = {id(pod): it for it in asked.universe.groups for pod in it.pods}
        self.by_address = {address: of_pod[id(pod)] for address, pod in asked.universe.by_address(0).items()}
        self.gone: dict[tuple, Group] = {}

    def of(self, end: FlowEnd) -> End:
        if end.pod in self.group_of:
            return self.group_of[end.pod]
        if end.entity is not None:
            return entity(end.entity)
        labels = tuple(sorted((it for it in end.labels if it.startswith("k8s:")), key=lambda it: it.partition("=")[0]))
        if labels and not end.is_world:
            return self.by_set(labels, end)
        of_pod = None if end.labels else self.by_address.get(end.address)
        return of_pod or Outside("address", end.address, frozenset())

    def by_set(self, labels: tuple, end: FlowEnd) -> Group:
        """The group of pods with the labels, or one that stands for a pod that is gone."""
        known = self.by_labels.get(labels) or self.gone.get(labels)
        if known is None:
            pod = GonePod(end)
            at = self.universe.more(labels, pod.namespace)
            known = self.gone[labels] = Group(at, at, [pod], False)
        return known

    def notes(self) -> list[str]:
        names = [it.pods[0].name for it in self.gone.values()]
        return [f"not in the state, and so asked about by their labels: {len(names)} ({', '.join(names[:4])}{', ..' if len(names) > 4 else ''})"] if names else []


class GonePod:
    """A pod of a flow that the state doesn't have."""

    def __init__(self, end: FlowEnd):
        values = dict(it.partition("=")[::2] for it in end.labels)
        self.namespace = values.get(NAMESPACE_LABEL) or end.namespace
        self.name = end.pod or f"{self.namespace}/{values.get('k8s:app', 'pod')}"
        self.stands_for, self.workload, self.labels = "gone", self.name.partition("/")[2], end.labels
