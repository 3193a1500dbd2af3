"""Services, the addresses behind them, nodes and groups of prefixes."""
from __future__ import annotations

import typing

from .addresses import address
from .reading import addresses_of, labels_of, member, name_of

SLICES, ENDPOINTS = ("discovery.k8s.io/v1", "EndpointSlice"), ("v1", "Endpoints")
SERVICE_LABEL = "kubernetes.io/service-name"
API_SERVER = "default/kubernetes"
GROUPS = {("cilium.io/v2alpha1", "CiliumCIDRGroup"), ("cilium.io/v2", "CiliumCIDRGroup")}


class Service:
    """What is known of a Service."""

    def __init__(self, place: str, value: dict):
        metadata, name = name_of(place, value)
        self.namespace = member(f"{place}: metadata", metadata, "namespace", str, "default")
        self.name = f"{self.namespace}/{name}"
        place = f"{place}: Service {self.name}"
        self.labels = labels_of(place, metadata)
        spec, status = (member(place, value, it, dict, {}) for it in ("spec", "status"))
        self.selector = member(f"{place}: spec", spec, "selector", dict, {})
        self.is_name = spec.get("type") == "ExternalName"
        self.own = addresses_of(f"{place}: spec", spec, "clusterIPs", "clusterIP")
        balancer = member(f"{place}: status", status, "loadBalancer", dict, {})
        self.outer = addresses_of(f"{place}: status.loadBalancer", balancer, "ingress", "ip")
        listed = member(f"{place}: spec", spec, "externalIPs", list, [])
        self.outer += filter(None, map(address, listed))


def slice_of(place: str, value: dict) -> typing.Tuple[str, typing.List[str]]:
    """The Service of an EndpointSlice or of Endpoints, and its addresses."""
    metadata, name = name_of(place, value)
    namespace = member(f"{place}: metadata", metadata, "namespace", str, "default")
    found = []
    if (value["apiVersion"], value["kind"]) == SLICES:
        name = labels_of(place, metadata).get(SERVICE_LABEL, "")
        for at, it in enumerate(member(place, value, "endpoints", list, [])):
            found += member(f"{place}: endpoints[{at}]", it if isinstance(it, dict) else {}, "addresses", list, [])
    else:
        for at, it in enumerate(member(place, value, "subsets", list, [])):
            listed = member(f"{place}: subsets[{at}]", it if isinstance(it, dict) else {}, "addresses", list, [])
            found += [one.get("ip") for one in listed if isinstance(one, dict)]
    return f"{namespace}/{name}", [*filter(None, map(address, found))]


def group_of(place: str, value: dict) -> typing.Tuple[str, typing.Dict[str, str], typing.List[str]]:
    """The name, the labels and the prefixes of a CiliumCIDRGroup."""
    metadata, name = name_of(place, value)
    spec = member(f"{place}: CiliumCIDRGroup {name}", value, "spec", dict, {})
    listed = member(f"{place}: CiliumCIDRGroup {name}: spec", spec, "externalCIDRs", list, [])
    return name, labels_of(place, metadata), [it for it in listed if isinstance(it, str)]
