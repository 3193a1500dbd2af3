"""Kinds that decide beside those that are read: the admin's policies of Kubernetes' network policy API."""
from __future__ import annotations

import typing

from .policies import NAMESPACE_KEY, holds, requirements
from .reading import name_of

GROUP = "policy.networking.k8s.io/"
# The kinds, and whether one overrides what other policies say; the others speak where no other policy isolates.
KINDS = {"AdminNetworkPolicy": True, "BaselineAdminNetworkPolicy": False, "ClusterNetworkPolicy": True}


def decides(api: str, kind: str) -> bool:
    return api.startswith(GROUP) and kind in KINDS


class Deciding:
    """An object that decides and isn't read: whom it selects, and in which directions."""

    def __init__(self, place: str, value: dict):
        _, name = name_of(place, value)
        self.kind, self.name, self.overrides = value["kind"], f"{value['kind']}/{name}", KINDS[value["kind"]]
        spec = value.get("spec")
        self.spec = spec if isinstance(spec, dict) else {}

    def directions(self) -> typing.FrozenSet[str]:
        return frozenset(it for it in ("ingress", "egress") if self.spec.get(it))

    def selects(self, labels: typing.Sequence[str]) -> bool:
        """Whether it selects the labels of a pod; a subject that isn't read counts as selecting."""
        try:
            subject = self.spec["subject"]
            pods = subject.get("pods") or {"namespaceSelector": subject["namespaces"], "podSelector": {}}
            of_namespace = requirements(pods.get("namespaceSelector") or {}, "")
            asked = [("k8s", f"io.cilium.k8s.namespace.labels.{it[1]}", *it[2:]) for it in of_namespace]
            asked += [("k8s", *it[1:]) for it in requirements(pods.get("podSelector") or {}, "")]
            return all(holds(it, labels) for it in [*asked, ("k8s", NAMESPACE_KEY, "Exists", [])])
        except (AttributeError, KeyError, TypeError, ValueError):
            return True
