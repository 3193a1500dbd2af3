"""A NetworkPolicy as a policy of Cilium's, where it has what policyd doesn't read: a port by name, or an address of IPv6
that ends in one of IPv4.

What it means is in docs/RULES.md, 'NetworkPolicies'; policyd reads all other NetworkPolicies as they are.
"""
from __future__ import annotations

import typing

from .. import unread
from ..pods import OWN_PREFIX
from ..policies import NAMESPACE_KEY
from ..unread import Unread, why_unread
from . import endings, named_ports
from .refusals import refused_by_cilium
from .work import Refused, Work, with_expressions

if typing.TYPE_CHECKING:
    from ..policies import Policy
    from ..state import State

# The names of policies that NetworkPolicies become: no object of Kubernetes has two dots in its name.
FRONT = "networkpolicy.."
WORDS = (("ingress", "from"), ("egress", "to"))
PORTS_MOST = 40
Rules = typing.List[typing.Tuple[int, dict]]


def is_network(document: dict) -> bool:
    return unread.is_network_policy(document)


def is_rewritten(policy: Policy, state: State) -> bool:
    return bool(why_unread(policy.document) or state.requirements)


def as_rules(work: Work) -> Rules:
    """The rule that a NetworkPolicy means, with its number."""
    spec = work.policy.document.get("spec")
    if not isinstance(spec, dict):
        raise Refused("no-spec at spec")
    if not is_subject_read(work, spec):
        return []
    work.subject = of_labels(spec["podSelector"])
    for name in sorted(spec):
        if spec[name] is not None and name not in unread.SHAPES["network spec"]:
            work.rules_are_unsure(spec, "unknown-member", f"spec.{name}", [])
    rule: dict = {"endpointSelector": work.subject, "": "spec"}
    for section, word in WORDS:
        if section not in work.policy.directions():
            continue
        work.direction, rule[section] = section, []
        listed = spec.get(section) or []
        if not isinstance(listed, list) or not all(isinstance(it, dict) for it in listed):
            raise Refused(f"wrong-shape at spec.{section}")
        for at, entry in enumerate(listed):
            work.path = f"spec.{section}[{at}]"
            rule[section] += [{**it, "": at} for it in entries(work, entry, word)]
        rule[section] = rule[section] or [{"": 0}]
    return [(0, rule)]


def is_subject_read(work: Work, spec: dict) -> bool:
    """Whether it can be told whom the object selects; Refused where the API server doesn't keep it."""
    try:
        for name in ("podSelector", "policyTypes"):
            if spec.get(name) is not None:
                unread.walk(spec[name], unread.SHAPES["network spec"][name], f"spec.{name}")
        unread.judge_network({"podSelector": spec.get("podSelector"), "policyTypes": spec.get("policyTypes")})
    except Unread as found:
        if refused_by_cilium(found.what):
            raise Refused(f"{found.what} at {found.path}")
        work.is_unsure(spec, found.what, found.path, directions=frozenset(work.policy.directions()), isolates=True)
        return False
    return True


def entries(work: Work, entry: dict, word: str) -> typing.List[dict]:
    """The entries of Cilium's that one of a NetworkPolicy means: one for its pods, and one for its prefixes."""
    if isinstance(entry.get(word), list):
        entry = {**entry, word: [{**it, "ipBlock": endings.block_of(it["ipBlock"])} if isinstance(it, dict) and "ipBlock" in it else it for it in entry[word]]}
    try:
        check(entry, word, work.path)
    except Unread as unread:
        if refused_by_cilium(unread.what):
            raise Refused(f"{unread.what} at {unread.path}")
        work.entry_is_unsure(entry, unread.what, unread.path)
        return [{}]
    peers, ports = entry.get(word) or [], [port_of(it) for it in entry.get("ports") or []]
    items = [{"ports": ports[at : at + PORTS_MOST]} for at in range(0, len(ports), PORTS_MOST)]
    rest: typing.Dict[str, list] = {"toPorts": items} if items else {}
    if not peers:
        return [rest or {f"{word}Entities": ["all"]}]
    pods = [of_peer(work, it) for it in peers if it.get("ipBlock") is None]
    blocks = [it["ipBlock"] for it in peers if it.get("ipBlock") is not None]
    found = [{f"{word}Endpoints": pods, **rest}] if pods else []
    return [*found, {f"{word}CIDRSet": blocks, **rest}] if blocks else found


def check(entry: dict, word: str, path: str) -> None:
    """What policyd says of the entry without its ports by name."""
    number = lambda it: {**it, "port": 1} if isinstance(it, dict) and named_ports.is_named(it.get("port")) else it
    copy = dict(entry)
    if isinstance(entry.get("ports"), list):
        copy["ports"] = [number(it) for it in entry["ports"]]
    unread.walk(copy, f"network {word}", path)
    unread.judge_network_entry(copy.get(word) or [], copy.get("ports") or [], path)


def port_of(value: dict) -> dict:
    port, end = value.get("port"), value.get("endPort")
    found = {"port": "0" if port is None else str(port), "protocol": value.get("protocol") or "TCP"}
    return found if end is None else {**found, "endPort": end}


def of_labels(selector: dict, front: str = "") -> dict:
    """A selector of Kubernetes' labels as one of Cilium's."""
    labels = {f"k8s:{front}{key}": it for key, it in (selector.get("matchLabels") or {}).items()}
    asked = [{**it, "key": f"k8s:{front}{it['key']}"} for it in selector.get("matchExpressions") or []]
    return {**({"matchLabels": labels} if labels else {}), **({"matchExpressions": asked} if asked else {})}


def of_peer(work: Work, peer: dict) -> dict:
    """Pods by their own labels, and their namespace by its name or by its labels."""
    pods = of_labels(peer.get("podSelector") or {})
    if peer.get("namespaceSelector") is None:
        return with_expressions(pods, [{"key": f"k8s:{NAMESPACE_KEY}", "operator": "In", "values": [work.namespace]}])
    spaces = of_labels(peer["namespaceSelector"], f"{OWN_PREFIX}namespace.labels.")
    labels = {**pods.get("matchLabels", {}), **spaces.get("matchLabels", {})}
    whole = {"matchLabels": labels, "matchExpressions": [*pods.get("matchExpressions", []), *spaces.get("matchExpressions", [])]}
    return with_expressions(whole, [{"key": f"k8s:{NAMESPACE_KEY}", "operator": "Exists"}])
