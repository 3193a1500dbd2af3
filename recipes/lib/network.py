"""NetworkPolicies of Kubernetes as kubectl prints them: which labels they select, and what their entries say."""
from __future__ import annotations

import typing

from .policies import NAMESPACE_KEY, Asked, Policy, asked_of_subject, listed

API, KIND = "networking.k8s.io/v1", "NetworkPolicy"
SECTIONS = {"ingress": "Ingress", "egress": "Egress"}


class NetworkPolicy(Policy):
    """A NetworkPolicy. Its name stands in answers as NAMESPACE/networkpolicy/NAME."""

    def __init__(self, place: str, value: dict):
        super().__init__(place, value)
        self.name = f"{self.namespace}/networkpolicy/{self.key[2]}"

    def spec(self) -> dict:
        found = self.document.get("spec")
        return found if isinstance(found, dict) else {}

    def parts(self) -> typing.List[Policy]:
        return [self]

    def subjects(self) -> typing.List[typing.Optional[typing.List[Asked]]]:
        """What it asks of the labels that it selects, or None where its selector isn't read."""
        found = asked_of_subject({"endpointSelector": self.spec().get("podSelector")}, "")
        own = ("k8s", NAMESPACE_KEY, "In", [self.namespace])
        return [None if found is None else [*(("k8s", *it[1:]) for it in found), own]]

    def entries(self) -> typing.Iterator[typing.Tuple[str, dict]]:
        """Its entries, each with its direction, as far as the recipes ask: prefixes and ports, as an entry of Cilium's."""
        for section, word in (("ingress", "from"), ("egress", "to")):
            for entry in listed(self.spec(), section):
                if section in self.directions() and isinstance(entry, dict):
                    blocks = [it["ipBlock"] for it in listed(entry, word) if isinstance(it, dict) and it.get("ipBlock") is not None]
                    yield section, {f"{word}CIDRSet": blocks, "toPorts": [{"ports": [port_of(it) for it in listed(entry, "ports") if isinstance(it, dict)]}]}

    def directions(self) -> typing.Set[str]:
        """The directions in which it isolates."""
        listed = self.spec().get("policyTypes")
        types = listed if isinstance(listed, list) and listed else ["Ingress", *(["Egress"] if self.spec().get("egress") else [])]
        return {section for section, word in SECTIONS.items() if word in types}

    def names_cluster(self) -> bool:
        return False


def port_of(value: dict) -> dict:
    """A port as Cilium's are written, where 0 is every port."""
    return {"port": str(value.get("port") or 0), "protocol": value.get("protocol") or "TCP", "endPort": value.get("endPort")}
