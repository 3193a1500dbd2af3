"""Nodes: peers that are some nodes become every node, and the entity of other nodes has those of the API server too; the
entity of nobody goes."""
from __future__ import annotations

import typing

from .work import Entry, Work

NOBODY = "none"
ALL_NODES = ["host", "remote-node", "kube-apiserver"]


def rewrite(work: Work, entry: Entry, word: str) -> typing.List[Entry]:
    """The entry without peers that are nodes by their labels, and with the two labels of identity 7.

    Cilium, Terminology, 'Special Identities': remote-node is any node that isn't the local one, and kube-apiserver is
    for the API server's nodes and addresses.
    """
    if f"{word}Nodes" not in entry.value and f"{word}Entities" not in entry.value:
        return [entry]
    value, marks = dict(entry.value), entry.marks
    listed = value.pop(f"{word}Nodes", None)
    if listed:
        value[f"{word}Entities"], marks = ALL_NODES, (*marks, "nodes")
    elif listed is not None:
        value.setdefault(f"{word}Entities", [])
    entities = value.get(f"{word}Entities") or []
    if NOBODY in entities:
        entities = value[f"{word}Entities"] = [it for it in entities if it != NOBODY]
    if "remote-node" in entities and "kube-apiserver" not in entities:
        value[f"{word}Entities"] = [*entities, "kube-apiserver"]
    return [entry.with_value(value, marks)]
