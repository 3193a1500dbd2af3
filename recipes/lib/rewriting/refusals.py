"""Which faults of a policy Cilium has too, or the API server before it: such a policy is never in force there.

Sources: the schema of Cilium's custom resources, and what its documentation of the fields says can't stand together
("CiliumNetworkPolicy"; Network Policy, "Layer 3 Examples", "Layer 4 Examples", "Deny Policies").
"""
from __future__ import annotations

from .work import Refused, Work

FAULTS = {
    "wrong-shape",
    "no-name",
    "no-spec",
    "no-selector",
    "combining",
    "bad-selector",
    "bad-cidr",
    "except-outside",
    "unknown-entity",
    "bad-port",
    "bad-protocol",
    "too-many-ports",
    "bad-policy-type",
    "bad-peer",
    "bad-end-port",
}
KINDS = ("Endpoints", "CIDR", "CIDRSet", "Entities", "Nodes", "Groups", "FQDNs", "Services")
PEERS = {word: [f"{word}{it}" for it in KINDS] for word in ("from", "to")}
# The ports of one item at most: Cilium, `PortRule` of the API.
PORTS_MOST = 40
# What deny sections don't have: Cilium, 'Deny Policies'.
NOT_IN_DENIES = ("toFQDNs", "authentication")
NOT_IN_DENIED_PORTS = ("rules", "listener", "terminatingTLS", "originatingTLS", "serverNames")


def refused_by_cilium(what: str) -> bool:
    return what in FAULTS


def check(work: Work, value: dict, word: str) -> None:
    """Refused where an entry has what can't stand together, or in a section that denies."""
    kinds = [it for it in PEERS[word] if value.get(it)]
    if len(kinds) > 1:
        raise Refused(f"combining {kinds[0]} and {kinds[1]} at {work.path}")
    if value.get("icmps") and value.get("toPorts"):
        raise Refused(f"combining icmps and toPorts at {work.path}")
    if any(len(it.get("ports") or []) > PORTS_MOST for it in value.get("toPorts") or [] if isinstance(it, dict)):
        raise Refused(f"too-many-ports at {work.path}")
    if work.denies:
        items = [it for it in value.get("toPorts") or [] if isinstance(it, dict)]
        for name in [it for it in NOT_IN_DENIES if value.get(it)] + [it for it in NOT_IN_DENIED_PORTS for item in items if item.get(it)]:
            raise Refused(f"{name} in a section that denies, at {work.path}")
