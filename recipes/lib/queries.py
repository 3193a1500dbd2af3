"""Query lines: their form, and what stands in the place of pods and addresses."""
from __future__ import annotations

import json
import typing

from .addresses import address as address_of
from .reading import Bad, line_of, text_of
from .script import numbers_of

if typing.TYPE_CHECKING:
    from .cluster import Cluster
    from .pods import Pod

OPERATIONS, DIRECTIONS, PROTOCOLS = ("verdict", "trace"), ("ingress", "egress"), ("TCP", "UDP", "SCTP")
REMOTES = ("pod", "identity", "address")
MEMBERS = {"op", "endpoint", "direction", *REMOTES, "protocol", "port", "session"}


class Queries:
    """What turns the query lines of a file into those of policyd."""

    def __init__(self, cluster: Cluster, pods: typing.Sequence[Pod], node: typing.Optional[str]):
        self.cluster, self.node, self.numbers = cluster, node, numbers_of(cluster, pods)
        self.endpoints = {it.name: it for it in pods}
        # policyd knows the addresses of endpoints alone, and would take those of other pods for the world's
        self.notes: typing.List[str] = []

    def lines(self, name: str) -> typing.Iterator[typing.Tuple[str, str]]:
        """The query lines of a file, each with the name of its endpoint."""
        for number, text in enumerate(text_of(name).split("\n"), 1):
            if text.strip():
                place = f"{name}, line {number}"
                value = self.query(place, text)
                yield value["endpoint"], line_of(place, value)

    def query(self, place: str, text: str) -> dict:
        try:
            value = json.loads(text)
        except (ValueError, RecursionError) as error:
            raise Bad(f"{place}: no JSON: {error}")
        if not isinstance(value, dict) or value.get("op") not in OPERATIONS:
            raise Bad(f"{place}: it is no verdict or trace line")
        value = {key: it for key, it in value.items() if it is not None}
        checked(place, value)
        endpoint = self.endpoint(place, value["endpoint"])
        found = {}
        for key, it in value.items():
            if key in ("pod", "address"):
                key, it = self.remote(place, endpoint, it) if key == "pod" else self.address(place, endpoint, it)
            found[key] = it
        return found

    def endpoint(self, place: str, name: str) -> Pod:
        if name in self.endpoints:
            return self.endpoints[name]
        pod = self.cluster.pods.get(name)
        if pod is None:
            raise Bad(f"{place}: no pod of the input is named {name!r}")
        if not pod.labels:
            raise Bad(f"{place}: the pod {name} is left out: {pod.reason()}")
        raise Bad(f"{place}: {name} is on {pod.node or 'no node'}, and the endpoints are the pods of {self.node}")

    def remote(self, place: str, endpoint: Pod, name: str) -> typing.Tuple[str, int]:
        """The identity of a pod, as the endpoint sees it."""
        pod = self.cluster.pods.get(name)
        if pod is None:
            raise Bad(f"{place}: no pod of the input is named {name!r}")
        if pod.is_host:
            return "identity", self.cluster.node_number(pod.node, endpoint.node)
        if not pod.labels:
            raise Bad(f"{place}: the pod {name} is left out: {pod.reason()}")
        return "identity", self.numbers[pod.labels]

    def address(self, place: str, endpoint: Pod, address: str) -> typing.Tuple[str, typing.Union[int, str]]:
        """What an address is: a node's is the node's identity, and that of a pod or a Service isn't the world's.

        A pod's further addresses are answered as its first one, which alone policyd knows.
        """
        pod = self.cluster.pod_at(address_of(address))
        if pod is not None and pod.name not in self.endpoints:
            raise Bad(f'{place}: {address} is the address of {pod.name}, which is no endpoint here: write "pod":"{pod.name}" in its place')
        address = pod.address if pod is not None else address_of(address)
        if address in self.cluster.services:
            service = self.cluster.services[address]
            raise Bad(f"{place}: {address} is the ClusterIP of the Service {service}, which is a pod's address before policies are asked: name the pod")
        number = self.cluster.number_of(address, endpoint.node)
        if number is not None:
            return "identity", number
        if pod is None and not self.cluster.has_services:
            self.notes = ["note: no Service is in the input, so that the ClusterIP of one would be taken for the world's"]
        return "address", address


def checked(place: str, value: dict) -> None:
    """The form of a query."""
    unknown = sorted({*value} - MEMBERS)
    if unknown:
        raise Bad(f"{place}: a query has no member {unknown[0]!r}")
    if len([it for it in REMOTES if it in value]) != 1:
        raise Bad(f"{place}: it takes exactly one of pod, identity and address")
    for name, fits, what in (
        ("endpoint", lambda it: isinstance(it, str), "a pod's name"),
        ("direction", lambda it: it in DIRECTIONS, "ingress or egress"),
        ("pod", lambda it: isinstance(it, str), "a pod's name"),
        ("identity", lambda it: is_number(it, 0, 4_294_967_295), "a number from 0 to 4294967295"),
        ("address", lambda it: bool(address_of(it)), "an IP address"),
        ("protocol", lambda it: isinstance(it, str) and it.upper() in PROTOCOLS, "TCP, UDP or SCTP"),
        ("port", lambda it: is_number(it, 0, 65_535), "a number from 0 to 65535"),
        ("session", lambda it: is_number(it, 1, 8), "a number from 1 to 8"),
    ):
        is_needed = name not in (*REMOTES, "session")
        if (is_needed or name in value) and not fits(value.get(name)):
            raise Bad(f"{place}: {name} is {what}" + ("" if name in value else ", and is missing"))


def is_number(value: object, least: int, most: int) -> bool:
    return isinstance(value, int) and not isinstance(value, bool) and least <= value <= most
