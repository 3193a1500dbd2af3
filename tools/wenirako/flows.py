"""Flows as `hubble observe -o jsonpb` prints them, one JSON object a line.

Only those count that were forwarded and aren't replies: a reply passes with the connection that it belongs to. What is
asked of a flow is its two ends, its protocol and the port that it goes to (Cilium, Hubble, `flow.proto`).
"""
from __future__ import annotations

import json
from typing import Iterable, NamedTuple, Optional

from lib.addresses import address as address_of
from lib.reading import Bad

from .ends import ENTITIES

RESERVED = {f"reserved:{name}": number for number, name in ENTITIES.items()}
WORLDS = ("reserved:world", "reserved:world-ipv4", "reserved:world-ipv6")


class FlowEnd(NamedTuple):
    """An end of a flow: the pod's name where it has one, its identity's labels, and its address."""

    pod: str
    namespace: str
    labels: tuple[str, ...]
    address: str

    @property
    def entity(self) -> Optional[int]:
        """The number of the entity that it is, kube-apiserver before all else, or None."""
        found = [RESERVED[it] for it in self.labels if it in RESERVED]
        return 7 if 7 in found else found[0] if found else None

    @property
    def is_world(self) -> bool:
        return any(it in WORLDS for it in self.labels)


class Flow(NamedTuple):
    """What is asked of a flow."""

    source: FlowEnd
    target: FlowEnd
    protocol: str
    port: int


class Seen:
    """How often a flow was seen, first and at last: times as Hubble writes them, which sort as texts."""

    def __init__(self) -> None:
        self.count, self.first, self.last = 0, "", ""

    def take(self, time: str) -> None:
        self.count += 1
        if time:
            self.first = min(self.first or time, time)
            self.last = max(self.last, time)


class Flows:
    """The flows of a text, each once, and how many lines were left out, by why."""

    def __init__(self, text: str, name: str):
        self.seen: dict[Flow, Seen] = {}
        self.left_out: dict[str, int] = {}
        for number, line in enumerate(text.split("\n"), 1):
            if line.strip():
                self.take(line, f"{name}, line {number}")

    def take(self, line: str, place: str) -> None:
        try:
            value = json.loads(line)
        except (ValueError, RecursionError) as error:
            raise Bad(f"{place}: no JSON: {error}. It takes what `hubble observe -o jsonpb` prints")
        found = value.get("flow", value) if isinstance(value, dict) else None
        if not isinstance(found, dict):
            raise Bad(f"{place}: it has no flow. It takes what `hubble observe -o jsonpb` prints")
        why = why_left_out(found)
        if why:
            self.left_out[why] = self.left_out.get(why, 0) + 1
            return
        self.seen.setdefault(flow_of(found, place), Seen()).take(str(found.get("time") or value.get("time") or ""))

    def notes(self) -> Iterable[str]:
        for why, count in sorted(self.left_out.items()):
            yield f"left out: {why}: {count}"


def object_of(found: dict, name: str) -> dict:
    """A member that is an object, or an empty one."""
    value = found.get(name)
    return value if isinstance(value, dict) else {}


def why_left_out(found: dict) -> Optional[str]:
    """Why a flow isn't asked about, or None."""
    layer = object_of(found, "l4")
    if "node_status" in found or "lost_events" in found or not (found.get("source") or found.get("IP")):
        return "lines that are no flows"
    if found.get("verdict") not in (None, "FORWARDED", "REDIRECTED", 1, 5):
        return "flows that weren't forwarded"
    if found.get("is_reply") is True or found.get("reply") is True:
        return "replies"
    if found.get("Type") == "L7" or found.get("l7"):
        return "flows of layer 7"
    if not any(it in layer for it in ("TCP", "UDP", "SCTP")):
        return "flows that aren't of TCP, UDP or SCTP"
    return None


def flow_of(found: dict, place: str) -> Flow:
    addresses = object_of(found, "IP")
    protocol = next(it for it in ("TCP", "UDP", "SCTP") if it in found["l4"])
    port = object_of(found["l4"], protocol).get("destination_port")
    if not isinstance(port, int) or not 0 <= port <= 65_535:
        raise Bad(f"{place}: its l4.{protocol}.destination_port is no port")
    source, target = (end_of(found.get(name) or {}, str(addresses.get(name) or ""), f"{place}: {name}") for name in ("source", "destination"))
    return Flow(source, target, protocol, port)


def end_of(value: object, address: str, place: str) -> FlowEnd:
    if not isinstance(value, dict):
        raise Bad(f"{place} is no object")
    labels = value.get("labels") or []
    if not isinstance(labels, list) or not all(isinstance(it, str) for it in labels):
        raise Bad(f"{place}: labels is no list of texts")
    namespace, pod = (str(value.get(it) or "") for it in ("namespace", "pod_name"))
    address = address_of(address)
    if not pod and not address and (not labels or any(it in WORLDS for it in labels)):
        raise Bad(f"{place} has neither labels nor a pod's name nor an address")
    return FlowEnd(f"{namespace}/{pod}" if pod else "", namespace, tuple(labels), address)
