"""The script of a cluster: endpoints, identities and policies."""
from __future__ import annotations

import typing

from .cluster import ENDPOINTS_MOST, IDENTITIES_FROM, IDENTITIES_MOST
from .reading import Bad, line_of

if typing.TYPE_CHECKING:
    from .cluster import Cluster
    from .pods import Pod

BYTES_MOST, LINES_MOST = 67_108_864, 1_000_000


def chosen(cluster: Cluster, node: typing.Optional[str]) -> typing.List[Pod]:
    """The pods that are endpoints."""
    nodes: typing.Dict[str, int] = {}
    for pod in cluster.live:
        nodes[pod.node] = nodes.get(pod.node, 0) + 1
    told = ", ".join(f"{name or 'none'} ({count})" for name, count in sorted(nodes.items()))
    if node is not None and node not in nodes:
        raise Bad(f"--node {node}: no pod of the input is on it; pods by node: {told or 'there are none'}")
    pods = [it for it in cluster.live if node is None or it.node == node]
    if len(pods) > ENDPOINTS_MOST:
        raise Bad(f"{len(pods)} pods would be endpoints, and policyd takes {ENDPOINTS_MOST}: name a node by --node; pods by node: {told}")
    return pods


def numbers_of(cluster: Cluster, pods: typing.Sequence[Pod]) -> typing.Dict[tuple, int]:
    """The numbers that policyd gives the label sets: the least free one, in the order of the lines."""
    numbers: typing.Dict[tuple, int] = {}
    for pod in [*pods, *cluster.live]:
        numbers.setdefault(pod.labels, IDENTITIES_FROM + len(numbers))
    return numbers


def lines_about(cluster: Cluster, pods: typing.Sequence[Pod]) -> typing.List[str]:
    """The lines of endpoints and of the other pods' identities."""
    lines, seen = [], set()
    for pod in pods:
        seen.add(pod.labels)
        lines.append(line_of(pod.place, {"op": "endpoint", "name": pod.name, "labels": pod.labels, "address": pod.address}))
    for pod in cluster.live:
        if pod.labels not in seen:
            seen.add(pod.labels)
            lines.append(line_of(pod.place, {"op": "identity", "name": pod.name, "labels": pod.labels}))
    if len(seen) > IDENTITIES_MOST:
        raise Bad(f"the pods have {len(seen)} sets of labels, and policyd takes {IDENTITIES_MOST}")
    return lines


def joined(lines: typing.Sequence[str]) -> str:
    """The text of a script, which isn't larger than policyd takes."""
    text = "".join(f"{it}\n" for it in lines)
    if len(lines) > LINES_MOST or len(text) > BYTES_MOST:
        raise Bad(f"the script has {len(lines)} lines and {len(text)} bytes, and policyd takes {LINES_MOST} and {BYTES_MOST}")
    return text
