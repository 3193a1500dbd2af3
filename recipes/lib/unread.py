"""Which policies policyd doesn't read, and where: the tables of docs/RULES.md, 'Policy documents' and 'Documents of
NetworkPolicies', walked once more.

policyd alone decides. This says beforehand, and with the path, what it will refuse: `tests/recipes_checks.py` compares
it with the answers of every case.
"""
from __future__ import annotations

import re
import typing

from .addresses import known, lies_in, prefix

ANY, TEXT, NAME, NUMBER, BOOL = "any", "text", "name", "number", "bool"
# The name of a shape of the table, of a text or a number, or a list of one: its items are of that.
Shape = typing.Union[str, typing.List[str]]
SHAPES: typing.Dict[str, typing.Dict[str, Shape]] = {
    "policy": {"apiVersion": TEXT, "kind": TEXT, "metadata": "metadata", "spec": "rule", "specs": ["rule"], "status": ANY},
    "metadata": {"name": NAME, "namespace": NAME},
    "rule": {
        "endpointSelector": "selector",
        "ingress": ["from"],
        "ingressDeny": ["from"],
        "egress": ["to"],
        "egressDeny": ["to"],
        "enableDefaultDeny": "default deny",
        "description": TEXT,
        "labels": [ANY],
    },
    "default deny": {"ingress": BOOL, "egress": BOOL},
    "selector": {"matchLabels": "texts", "matchExpressions": ["expression"]},
    "expression": {"key": TEXT, "operator": TEXT, "values": [TEXT]},
    "from": {"fromEndpoints": ["selector"], "fromCIDR": ["cidr"], "fromEntities": [TEXT], "fromCIDRSet": ["set"], "toPorts": ["item"]},
    "to": {"toEndpoints": ["selector"], "toCIDR": ["cidr"], "toEntities": [TEXT], "toCIDRSet": ["set"], "toPorts": ["item"]},
    "set": {"cidr": "cidr", "except": ["cidr"]},
    "item": {"ports": ["port"]},
    "port": {"port": "port text", "protocol": "protocol", "endPort": NUMBER},
    "network policy": {"apiVersion": TEXT, "kind": TEXT, "metadata": "metadata", "spec": "network spec", "status": ANY},
    "network spec": {"podSelector": "selector", "policyTypes": [TEXT], "ingress": ["network from"], "egress": ["network to"]},
    "network from": {"from": ["peer"], "ports": ["network port"]},
    "network to": {"to": ["peer"], "ports": ["network port"]},
    "peer": {"podSelector": "selector", "namespaceSelector": "selector", "ipBlock": "block"},
    "block": {"cidr": "cidr", "except": ["cidr"]},
    "network port": {"port": "port number", "protocol": TEXT, "endPort": NUMBER},
}
NEEDED = {"expression": ("key", "operator"), "set": ("cidr",), "port": ("port",), "block": ("cidr",)}
LEFT_OUT = {
    "rule": ("nodeSelector",),
    "from": ("fromRequires", "fromNodes", "fromGroups", "icmps", "authentication"),
    "to": ("toRequires", "toNodes", "toGroups", "toFQDNs", "toServices", "icmps", "authentication"),
    "set": ("cidrGroupRef", "cidrGroupSelector"),
    "item": ("rules", "terminatingTLS", "originatingTLS", "listener", "serverNames"),
}
SECTIONS = ("ingress", "ingressDeny", "egress", "egressDeny")
ENTITIES = "all world world-ipv4 world-ipv6 host remote-node kube-apiserver ingress init health unmanaged cluster".split()
PROTOCOLS = ("", "TCP", "UDP", "SCTP", "ANY")
# What stands in the place of a byte of a name that isn't printed.
UNPRINTED = "?"
LETTER, PORT, OBJECT_NAME = re.compile("[A-Za-z]"), re.compile("[0-9]{1,5}"), re.compile("[a-z0-9.-]{1,253}")
# The way to a value: its path as a text, or the way to what it is in, with its name or its number there.
Way = typing.Union[str, typing.Tuple[typing.Any, typing.Union[str, int]]]


class Unread(Exception):
    """What isn't read, and its path."""

    def __init__(self, what: str, way: Way):
        self.what, self.path = what, path_of(way)


def why_unread(document: dict) -> typing.Optional[typing.Tuple[str, str]]:
    """The first thing that policyd refuses in a policy's document, and its path; None where it reads all."""
    is_network = is_network_policy(document)
    try:
        name = document["metadata"].get("name")
        if not isinstance(name, str) or not name:
            raise Unread("no-name", "metadata.name")
        if document.get("spec") is None and (is_network or document.get("specs") in (None, [])):
            raise Unread("no-spec", "spec")
        walk(document, "network policy" if is_network else "policy", "")
        judge_network(document["spec"]) if is_network else judge(document)
    except Unread as found:
        return found.what, found.path
    return None


def is_network_policy(document: dict) -> bool:
    return document.get("apiVersion") == "networking.k8s.io/v1" and document.get("kind") == "NetworkPolicy"


# What the document's members are.


def below(path: str, name: str) -> str:
    """The path of a member."""
    return f"{path}.{printed(name)}" if path else printed(name)


def path_of(way: Way) -> str:
    """The path of a way; few are asked for it."""
    if isinstance(way, str):
        return way
    around, last = way
    return f"{path_of(around)}[{last}]" if isinstance(last, int) else below(path_of(around), last)


def printed(name: str) -> str:
    """A name as policyd's answers have it."""
    return "".join(chr(it) if 0x21 <= it <= 0x7E else UNPRINTED for it in name.encode(errors="surrogatepass"))


def walk(value: object, shape: Shape, way: Way) -> None:
    """Visits a value before what it holds: the members of an object by their bytes, and items in order."""
    if isinstance(shape, list):
        if not isinstance(value, list):
            raise Unread("wrong-shape", way)
        for at, item in enumerate(value):
            if item is None and shape[0] != ANY:
                raise Unread("wrong-shape", (way, at))
            walk(item, shape[0], (way, at))
    elif shape in SHAPES or shape == "texts":
        if not isinstance(value, dict):
            raise Unread("wrong-shape", way)
        visit(value, shape, way)
    else:
        leaf(value, shape, way)


def visit(value: dict, shape: str, way: Way) -> None:
    left_out = LEFT_OUT.get(shape, ())
    for name in left_out if shape == "set" else ():
        if value.get(name) is not None:
            raise Unread(name, way)
    for name in NEEDED.get(shape, ()):
        if value.get(name) is None:
            raise Unread("wrong-shape", (way, name))
    # (texts are in the order of their bytes)
    for name in sorted(value):
        if value[name] is None:
            continue
        known = TEXT if shape == "texts" else SHAPES[shape].get(name)
        if name in left_out:
            raise Unread(name, way)
        if known is not None:
            walk(value[name], known, (way, name))
        elif shape != "metadata":
            raise Unread("unknown-member", (way, name))


def leaf(value: object, shape: str, way: Way) -> None:
    if shape == ANY:
        return
    if shape == "port number" and isinstance(value, str):
        raise Unread("named-port", way)
    if shape in (NUMBER, "port number"):
        fits = isinstance(value, int) and not isinstance(value, bool) and 0 <= value < 1 << 64
    elif shape == BOOL:
        fits = isinstance(value, bool)
    else:
        fits = isinstance(value, str) and (shape != NAME or OBJECT_NAME.fullmatch(value) is not None)
    if not fits:
        raise Unread("wrong-shape", way)
    if shape == "port text" and LETTER.search(str(value)):
        raise Unread("named-port", way)
    if shape == "protocol" and str(value).upper() in ("ICMP", "ICMPV6"):
        raise Unread("icmp", way)


# What its rules say.


def judge(document: dict) -> None:
    rules = [("spec", document["spec"])] if document.get("spec") is not None else []
    rules += [(f"specs[{at}]", it) for at, it in enumerate(document.get("specs") or [])]
    for path, rule in rules:
        if rule.get("endpointSelector") is None:
            raise Unread("no-selector", path)
        judge_selector(rule["endpointSelector"], below(path, "endpointSelector"))
        for section in SECTIONS:
            for at, entry in enumerate(rule.get(section) or []):
                judge_entry(entry, f"{path}.{section}[{at}]")


def judge_selector(selector: dict, path: str) -> None:
    asked = [(key, "In", [value]) for key, value in (selector.get("matchLabels") or {}).items() if value is not None]
    asked += [(it["key"], it["operator"], it.get("values") or []) for it in selector.get("matchExpressions") or []]
    for key, operator, values in asked:
        source, colon, rest = key.partition(":")
        fits = {"In": bool(values), "NotIn": bool(values), "Exists": not values, "DoesNotExist": not values}
        if not (rest if colon else key) or (colon and not source) or not fits.get(operator):
            raise Unread("bad-selector", path)


def peers(entry: dict, kind: str) -> list:
    return entry.get(f"from{kind}") or entry.get(f"to{kind}") or []


def judge_entry(entry: dict, path: str) -> None:
    """The faults of an entry, by their numbers."""
    sets, listed = peers(entry, "CIDRSet"), peers(entry, "CIDR")
    kinds = [it for it in (peers(entry, "Endpoints"), listed, sets, peers(entry, "Entities")) if it]
    if len(kinds) > 1:
        raise Unread("combining", path)
    for it in peers(entry, "Endpoints"):
        judge_selector(it, path)
    if any(prefix(it) is None for it in listed):
        raise Unread("bad-cidr", path)
    judge_blocks(sets, path)
    if any(it not in ENTITIES for it in peers(entry, "Entities")):
        raise Unread("unknown-entity", path)
    judge_ports([it.get("ports") or [] for it in entry.get("toPorts") or []], path)


def judge_ports(items: typing.Sequence[list], path: str) -> None:
    ports = [port for item in items for port in item]
    if any(not PORT.fullmatch(it["port"]) or int(it["port"]) > 65535 or (it.get("endPort") or 0) > 65535 for it in ports):
        raise Unread("bad-port", path)
    if any((it.get("protocol") or "").upper() not in PROTOCOLS for it in ports):
        raise Unread("bad-protocol", path)
    if any(len(it) > 40 for it in items):
        raise Unread("too-many-ports", path)
    if any(not it for it in items):
        raise Unread("empty-ports", path)


# What a NetworkPolicy says.


def judge_network(spec: dict) -> None:
    if spec.get("podSelector") is None:
        raise Unread("no-selector", "spec")
    judge_pod_selector(spec["podSelector"], "spec.podSelector")
    if any(it not in ("Ingress", "Egress") for it in spec.get("policyTypes") or []):
        raise Unread("bad-policy-type", "spec.policyTypes")
    for section, word in (("ingress", "from"), ("egress", "to")):
        for at, entry in enumerate(spec.get(section) or []):
            judge_network_entry(entry.get(word) or [], entry.get("ports") or [], f"spec.{section}[{at}]")


def judge_pod_selector(selector: dict, path: str) -> None:
    keys = [*without_nulls(selector.get("matchLabels") or {}), *(it["key"] for it in selector.get("matchExpressions") or [])]
    if any(":" in it for it in keys):
        raise Unread("bad-selector", path)
    judge_selector(selector, path)


def judge_network_entry(listed: typing.Sequence[dict], ports: typing.Sequence[dict], path: str) -> None:
    """The faults of an entry, by their numbers."""
    for selector in (peer.get(name) for peer in listed for name in ("podSelector", "namespaceSelector")):
        if selector is not None:
            judge_pod_selector(selector, path)
    blocks = [it["ipBlock"] for it in listed if it.get("ipBlock") is not None]
    judge_blocks(blocks, path)
    if any(not 1 <= it.get("port", 1) <= 65535 or it.get("endPort", 0) > 65535 for it in map(without_nulls, ports)):
        raise Unread("bad-port", path)
    if any(it.get("protocol", "TCP") not in ("TCP", "UDP", "SCTP") for it in map(without_nulls, ports)):
        raise Unread("bad-protocol", path)
    for peer in map(without_nulls, listed):
        if ("ipBlock" in peer) == ("podSelector" in peer or "namespaceSelector" in peer):
            raise Unread("bad-peer", path)
    if any("endPort" in it and it["endPort"] < it.get("port", 65536) for it in map(without_nulls, ports)):
        raise Unread("bad-end-port", path)


def judge_blocks(blocks: typing.Sequence[dict], path: str) -> None:
    if any(prefix(text) is None for it in blocks for text in [it["cidr"], *(it.get("except") or [])]):
        raise Unread("bad-cidr", path)
    if not all(lies_in(known(text), known(it["cidr"])) for it in blocks for text in it.get("except") or []):
        raise Unread("except-outside", path)


def without_nulls(value: dict) -> dict:
    return {key: it for key, it in value.items() if it is not None}
