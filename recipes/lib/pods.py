"""Pods, and what stands for pods that aren't there yet: those of a workload's template, and any other of a namespace."""
from __future__ import annotations

import re
import typing

from .reading import VALUE, Bad, addresses_of, labels_of, member, name_of

if typing.TYPE_CHECKING:
    from .labels import Filter

NAME = re.compile(r"[A-Za-z0-9._/-]{1,253}")
NAMESPACE_KEY = "io.kubernetes.pod.namespace"
OWN_PREFIX = "io.cilium.k8s."
CLUSTER_KEY = f"{OWN_PREFIX}policy.cluster"
# What policyd calls the cluster, whatever its name is.
CORE_CLUSTER = "default"
# The key of the label by which a pod has a port of a name, and that of what is required of it: labels of the bridge's own.
PORT_PREFIX, REQUIRED_KEY = "io.wenirako.port.", "io.wenirako.required"
# Why a pod or a template is no end, in the words of standard error.
ON_HOST = "pods on the host's network, which share the identity of their node"
FINISHED, NO_ADDRESS = "pods that have finished", "pods without an address"
LONG_NAME = "pods whose NAMESPACE/POD is no name for policyd: over 253 bytes, say"
SAME_ADDRESS = "pods whose address another pod has, as one that is ending may"


class Pod:
    """What is known of a pod."""

    def __init__(self, place: str, value: dict):
        metadata, name = name_of(place, value)
        self.namespace = member(f"{place}: metadata", metadata, "namespace", str, "default")
        self.name = f"{self.namespace}/{name}"
        place = f"{place}: Pod {self.name}"
        spec, status = (member(place, value, it, dict, {}) for it in ("spec", "status"))
        self.place, self.own = place, labels_of(place, metadata)
        self.workload, self.is_owned = workload_of(place, metadata, name, self.own)
        self.is_ending = metadata.get("deletionTimestamp") is not None
        self.node = member(f"{place}: spec", spec, "nodeName", str, "")
        self.is_host = member(f"{place}: spec", spec, "hostNetwork", bool, False)
        self.account = member(f"{place}: spec", spec, "serviceAccountName", str, "")
        if not VALUE.fullmatch(f"{self.namespace}{self.account}"):
            raise Bad(f"{place}: its namespace or its service account is no label's value")
        self.ports = ports_of(f"{place}: spec", spec)
        self.phase = member(f"{place}: status", status, "phase", str, "")
        # The rules have one address an endpoint: that of IPv4 where there is one.
        self.addresses = addresses_of(f"{place}: status", status, "podIPs", "podIP")
        self.address = min(self.addresses, key=lambda it: ":" in it, default="")
        self.has_address = bool(self.address or status.get("podIP"))
        self.of_node = addresses_of(f"{place}: status", status, "hostIPs", "hostIP")
        # Why it stands for pods that come, such as `finished`; empty for a pod that is there.
        self.stands_for = ""
        self.labels: typing.Tuple[str, ...] = ()

    def reason(self) -> typing.Optional[str]:
        """Why it is no endpoint and no identity, or None."""
        if self.is_host:
            return ON_HOST
        if self.phase in ("Succeeded", "Failed"):
            return FINISHED
        if not self.address:
            return NO_ADDRESS
        return LONG_NAME if not NAME.fullmatch(self.name) else None

    def comes(self) -> str:
        """How a pod that isn't there now is one that comes, or again; empty where it isn't."""
        if self.is_host or not NAME.fullmatch(self.name):
            return ""
        if self.phase in ("Succeeded", "Failed"):
            return "finished" if self.is_owned else ""
        return "" if self.has_address or self.is_ending else "pending"

    def derive(self, of_namespace: typing.Dict[str, str], choice: Filter) -> None:
        """The labels that Cilium derives and that make the identity. A pod can't give itself those that Cilium writes."""
        labels = {key: value for key, value in self.own.items() if not key.startswith(OWN_PREFIX)}
        labels[NAMESPACE_KEY] = self.namespace
        labels[CLUSTER_KEY] = CORE_CLUSTER
        if self.account:
            labels[f"{OWN_PREFIX}policy.serviceaccount"] = self.account
        for key, value in of_namespace.items():
            labels[f"{OWN_PREFIX}namespace.labels.{key}"] = value
        self.labels = tuple(f"k8s:{key}={value}" for key, value in sorted(labels.items()) if choice.counts(key))

    def add_labels(self, more: typing.Dict[str, str]) -> None:
        """Labels of the bridge's own, which no selector of a user's names."""
        if more:
            listed = {*self.labels, *(f"k8s:{key}={value}" for key, value in more.items())}
            self.labels = tuple(sorted(listed, key=lambda it: it.partition("=")[0]))


def ports_of(place: str, spec: dict) -> typing.FrozenSet[typing.Tuple[str, str, int]]:
    """The ports of a pod's containers that have a name: triples of name, protocol and number."""
    found = set()
    for kind in ("containers", "initContainers"):
        for at, container in enumerate(member(place, spec, kind, list, [])):
            if not isinstance(container, dict) or kind == "initContainers" and container.get("restartPolicy") != "Always":
                continue
            for port in member(f"{place}: {kind}[{at}]", container, "ports", list, []):
                name, number = (port.get("name"), port.get("containerPort")) if isinstance(port, dict) else (None, None)
                if isinstance(name, str) and name and isinstance(number, int) and 0 < number < 65_536:
                    found.add((name, str(port.get("protocol") or "TCP"), number))
    return frozenset(found)


def workload_of(place: str, metadata: dict, name: str, labels: typing.Dict[str, str]) -> typing.Tuple[str, bool]:
    """The name of what a pod is a replica of (its controller, a Deployment's without the hash; else the pod's own), and
    whether it has a controller."""
    found, is_owned = name, False
    for number, owner in enumerate(member(f"{place}: metadata", metadata, "ownerReferences", list, [])):
        if isinstance(owner, dict) and member(f"{place}: ownerReferences[{number}]", owner, "controller", bool, False):
            found, is_owned = member(f"{place}: ownerReferences[{number}]", owner, "name", str, "") or name, True
    head, cut, _ = f"{found}-".partition(f"-{labels.get('pod-template-hash') or '/'}-")
    return (head if cut else found), is_owned


class AnyOther(Pod):
    """In the place of any other pod of a namespace: its labels are the namespace's alone."""

    def __init__(self, namespace: str):
        super().__init__("", {"kind": "Pod", "metadata": {"name": "..", "namespace": namespace}})
        self.name, self.stands_for = f"any other pod of {namespace}", "any other"
        self.workload = self.name
