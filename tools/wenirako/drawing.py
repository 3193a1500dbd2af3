"""Connections as a graph in the language of Graphviz: a box a namespace, a node a workload, an arrow with its ports."""
from __future__ import annotations

import json

from .coarse import union
from .core import ALLOWED
from .ends import ENTITIES, End, Outside
from .naming import outer, workload_of
from .report import Report
from .rows import Line, with_one_world, written_ports

COLOURS = {"open": "#1f6feb", "opens": "#1a7f37", "shuts": "#cf222e", "unsure": "#6e7781"}
PORTS_SHOWN = 60


def what(line: Line, is_change: bool) -> str:
    """Whether a line's connections open, shut, or are open; or whether that is unsure, for what isn't read."""
    is_open = line.told.after == ALLOWED
    if line.told.changes:
        return "opens" if is_open else "shuts"
    return "open" if is_open and not is_change else "unsure"


def places_of(end: End) -> list[tuple[str, str]]:
    """The namespace and workload of an end; of what is no pod, a name without a namespace."""
    if isinstance(end, Outside):
        return [("", ENTITIES[end.value] if end.kind == "entity" else outer([end])[0])]
    return sorted({(pod.namespace, workload_of(pod)) for pod in end.pods})


def edges(report: Report) -> dict[tuple, list]:
    """The ports of each arrow: by what its connections do and whether that is marked, from which workload and to which."""
    found: dict[tuple, list] = {}
    for line in with_one_world(report.lines or []):
        does = what(line, report.question == "diff"), bool(line.told.unsure)
        sources, targets = (sorted({it for end in ends for it in places_of(end)}) for ends in (line.froms, line.tos))
        for source in sources:
            for target in targets:
                found.setdefault((does, source, target), []).append(line.ports)
    return found


def dot(report: Report) -> str:
    """The graph's text."""
    found = edges(report)
    nodes = sorted({it for _, source, target in found for it in (source, target)})
    text = ["digraph wenirako {", "  rankdir=LR; node [shape=box, style=rounded, fontname=Helvetica]; edge [fontname=Helvetica, fontsize=10];"]
    for number, namespace in enumerate(sorted({it[0] for it in nodes})):
        names = "; ".join(f"{quoted(name_of(it))} [label={quoted(it[1])}]" for it in nodes if it[0] == namespace)
        text.append(f"  subgraph cluster_{number} {{ label={quoted(namespace)}; {names} }}" if namespace else f"  {names}")
    for ((does, is_unsure), source, target), parts in sorted(found.items()):
        ports = written_ports(union(parts))
        label = ports if len(ports) <= PORTS_SHOWN else f"{ports[:PORTS_SHOWN]} .."
        more = ", style=dashed" if is_unsure else ""
        text.append(f"  {quoted(name_of(source))} -> {quoted(name_of(target))} [label={quoted(label)}, color={quoted(COLOURS[does])}, tooltip={quoted(does)}{more}]")
    return "\n".join([*text, "}"]) + "\n"


def name_of(place: tuple[str, str]) -> str:
    return f"{place[0]}/{place[1]}" if place[0] else place[1]


def quoted(text: str) -> str:
    return json.dumps(text, ensure_ascii=False)
