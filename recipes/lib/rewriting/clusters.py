"""The cluster's own name, which policyd calls `default`: so the entity `cluster` means the pods of this cluster."""
from __future__ import annotations

import typing

from ..pods import CLUSTER_KEY, CORE_CLUSTER
from ..policies import source_and_key
from .work import Entry, Work

# In the place of `default` where the cluster has another name: no label has a value with a slash.
ANOTHER = "/default"


def rewrite(work: Work, entry: Entry, word: str) -> typing.List[Entry]:
    """The entry with the cluster's name in its selectors as policyd calls it."""
    listed = entry.value.get(f"{word}Endpoints")
    if not isinstance(listed, list) or work.state.cluster.cluster == CORE_CLUSTER:
        return [entry]
    made = [selector(work, it) if isinstance(it, dict) else it for it in listed]
    return [entry.with_value({**entry.value, f"{word}Endpoints": made})]


def selector(work: Work, written: dict) -> dict:
    """A selector with the cluster's name as policyd calls it."""
    name = work.state.cluster.cluster
    if name == CORE_CLUSTER:
        return written
    become = lambda text: {name: CORE_CLUSTER, CORE_CLUSTER: ANOTHER}.get(text, text)
    found = dict(written)
    if isinstance(found.get("matchLabels"), dict):
        found["matchLabels"] = {key: become(it) if is_cluster(key) else it for key, it in found["matchLabels"].items()}
    if isinstance(found.get("matchExpressions"), list):
        found["matchExpressions"] = [of_expression(it, become) for it in found["matchExpressions"]]
    return found


def of_expression(written: object, become: typing.Callable[[str], str]) -> object:
    if not isinstance(written, dict) or not is_cluster(written.get("key")) or not isinstance(written.get("values"), list):
        return written
    return {**written, "values": [become(it) if isinstance(it, str) else it for it in written["values"]]}


def is_cluster(key: object) -> bool:
    source, rest = source_and_key(key) if isinstance(key, str) else ("", "")
    return source in ("any", "k8s") and rest == CLUSTER_KEY
