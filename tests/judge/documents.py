"""Policy documents to policies, written from docs/RULES.md alone: the first fault of a document, or what it says."""
import re

from .rules import ENTITIES, NAMESPACE, NAMESPACE_LABELS, Entry, Peer, Policy, Requirement, Rule, covers, prefix_of

KINDS = ["CiliumNetworkPolicy", "CiliumClusterwideNetworkPolicy"]
NETWORK_API, NETWORK_KIND, NETWORK_FRONT = "networking.k8s.io/v1", "NetworkPolicy", "networkpolicy/"
SECTIONS = ["ingress", "ingressDeny", "egress", "egressDeny"]
PEERS = ["Endpoints", "CIDR", "CIDRSet", "Entities"]
TEXT, NAME, CIDR, PORT, PROTOCOL, NUMBER, IGNORED = "text", "name", "cidr text", "port text", "protocol text", "number", "ignored"
PORT_NUMBER, BOOLEAN = "port number", "boolean"
COMMON_LEFT_OUT = ["icmps", "authentication"]


def entry_table(word, left_out):
    return {f"{word}Endpoints": ["selector"], f"{word}CIDR": [CIDR], f"{word}Entities": [TEXT], f"{word}CIDRSet": ["cidr set"],
            "toPorts": ["port item"]}, left_out + COMMON_LEFT_OUT


# Of each object its members, a list where the member is one, and the names that are left out.
TABLE = {
    "policy": ({"apiVersion": TEXT, "kind": TEXT, "metadata": "metadata", "spec": "rule", "specs": ["rule"], "status": IGNORED}, []),
    "metadata": ({"name": NAME, "namespace": NAME}, []),
    "rule": ({"endpointSelector": "selector", "ingress": ["ingress entry"], "ingressDeny": ["ingress entry"],
              "egress": ["egress entry"], "egressDeny": ["egress entry"], "description": TEXT, "labels": [IGNORED],
              "enableDefaultDeny": "default deny"}, ["nodeSelector"]),
    "default deny": ({"ingress": BOOLEAN, "egress": BOOLEAN}, []),
    "selector": ({"matchLabels": "match labels", "matchExpressions": ["expression"]}, []),
    "match labels": ({}, []),
    "expression": ({"key": TEXT, "operator": TEXT, "values": [TEXT]}, []),
    "ingress entry": entry_table("from", ["fromRequires", "fromNodes", "fromGroups"]),
    "egress entry": entry_table("to", ["toRequires", "toNodes", "toGroups", "toFQDNs", "toServices"]),
    "cidr set": ({"cidr": CIDR, "except": [CIDR]}, ["cidrGroupRef", "cidrGroupSelector"]),
    "port item": ({"ports": ["port"]}, ["rules", "terminatingTLS", "originatingTLS", "listener", "serverNames"]),
    "port": ({"port": PORT, "protocol": PROTOCOL, "endPort": NUMBER}, []),
    "network policy": ({"apiVersion": TEXT, "kind": TEXT, "metadata": "metadata", "spec": "network spec", "status": IGNORED}, []),
    "network spec": ({"podSelector": "selector", "policyTypes": [TEXT], "ingress": ["network ingress"], "egress": ["network egress"]}, []),
    "network ingress": ({"from": ["network peer"], "ports": ["network port"]}, []),
    "network egress": ({"to": ["network peer"], "ports": ["network port"]}, []),
    "network peer": ({"podSelector": "selector", "namespaceSelector": "selector", "ipBlock": "block"}, []),
    "block": ({"cidr": CIDR, "except": [CIDR]}, []),
    "network port": ({"port": PORT_NUMBER, "protocol": TEXT, "endPort": NUMBER}, []),
}
OTHERS = {"metadata": IGNORED, "match labels": TEXT}
NEEDED = {"expression": ["key", "operator"], "cidr set": ["cidr"], "port": ["port"], "block": ["cidr"]}


class Refused(Exception):
    """A line is refused: the rest of the answer behind `refused`."""


def shown(name):
    return "".join(chr(it) if 33 <= it <= 126 else "?" for it in name.encode("utf-8", "surrogatepass"))


def wrong_shape(path):
    return Refused(f"25 wrong-shape {path}")


def left_out(name):
    return Refused(f"14 unsupported {shown(name)}")


# ---- the walk

def walk_text(form, value, path):
    if not isinstance(value, str) or form == NAME and not re.fullmatch("[a-z0-9.-]{1,253}", value):
        raise wrong_shape(path)
    if form == PORT and re.search("[a-zA-Z]", value):
        raise left_out("named-port")
    if form == PROTOCOL and value.encode().upper() in (b"ICMP", b"ICMPV6"):
        raise left_out("icmp")


def is_number(value):
    return isinstance(value, int) and not isinstance(value, bool) and 0 <= value < 2 ** 64


def walk(shape, value, path):
    """Raises the first fault of the value, where this should stand at the path."""
    if shape == IGNORED:
        return
    if isinstance(shape, list):
        if not isinstance(value, list):
            raise wrong_shape(path)
        for at, item in enumerate(value):
            walk(shape[0], item, f"{path}[{at}]")
    elif shape in (NUMBER, PORT_NUMBER):
        if shape == PORT_NUMBER and isinstance(value, str):
            raise left_out("named-port")
        if not is_number(value):
            raise wrong_shape(path)
    elif shape == BOOLEAN:
        if not isinstance(value, bool):
            raise wrong_shape(path)
    elif shape in TABLE:
        walk_object(shape, value, path)
    else:
        walk_text(shape, value, path)


def walk_object(kind, value, path):
    if not isinstance(value, dict):
        raise wrong_shape(path)
    members, unsupported = TABLE[kind]
    front = f"{path}." if path else ""
    if kind == "cidr set":
        for name in unsupported:
            if value.get(name) is not None:
                raise left_out(name)
    for name in NEEDED.get(kind, []):
        if value.get(name) is None:
            raise wrong_shape(front + name)
    for name in sorted(value, key=lambda it: it.encode("utf-8", "surrogatepass")):
        if value[name] is None:
            continue
        if name in unsupported:
            raise left_out(name)
        if name not in members and kind not in OTHERS:
            raise Refused(f"13 unknown-member {front}{shown(name)}")
        walk(members.get(name, OTHERS.get(kind)), value[name], front + shown(name))


def present(value, name):
    return value.get(name) if isinstance(value, dict) else None


def check_name(value):
    name = present(present(value, "metadata"), "name")
    if not isinstance(name, str) or not name:
        raise Refused("11 no-name")


def check_document(value):
    kind = present(value, "kind")
    if present(value, "apiVersion") != "cilium.io/v2" or kind not in KINDS:
        raise Refused("10 not-policy")
    check_name(value)
    if value.get("spec") is None and value.get("specs") in (None, []):
        raise Refused("12 no-spec")
    walk("policy", value, "")


# ---- what a policy says

def items(value, name):
    return [it for it in (value.get(name) or [])]


class Place:
    """A subject or an entry, where faults are told."""

    NAMES = {15: "no-selector", 16: "combining", 17: "bad-selector", 18: "bad-cidr", 19: "except-outside", 20: "unknown-entity",
             21: "bad-port", 22: "bad-protocol", 23: "too-many-ports", 24: "empty-ports", 26: "bad-policy-type",
             27: "bad-peer", 28: "bad-end-port"}

    def __init__(self, rule, at=""):
        self.where, self.found = f"#{rule}{at}", []

    def refuse(self, number):
        self.found.append(number)

    def close(self):
        if self.found:
            raise Refused(f"{min(self.found)} {self.NAMES[min(self.found)]} {self.where}")


def key_of(text):
    """(source, key) of a selector's key; the source None stands for every one."""
    source, colon, key = text.partition(":")
    return (None if source == "any" else source, key) if colon else (None, text)


def requirement(place, text, operator, values):
    source, key = key_of(text)
    fits = {"In": values, "NotIn": values, "Exists": not values, "DoesNotExist": not values}
    if source == "" or not key or not fits.get(operator):
        place.refuse(17)
    return Requirement(source, key, operator, tuple(values))


def is_namespace_key(text):
    source, key = key_of(text)
    return source in (None, "k8s") and key == NAMESPACE


def says_namespace(text):
    source, key = key_of(text)
    return source == "reserved" or source in (None, "k8s") and (key == NAMESPACE or key.startswith(NAMESPACE_LABELS))


class Selector:
    """A selector as it was written, read for its place."""

    def __init__(self, place, value):
        labels = sorted((name, it) for name, it in (value.get("matchLabels") or {}).items() if it is not None)
        self.labels = [(name, requirement(place, name, "In", [it])) for name, it in labels]
        self.expressions = [(it["key"], requirement(place, it["key"], it["operator"], items(it, "values")))
                            for it in items(value, "matchExpressions")]
        self.all = [one for _, one in self.labels + self.expressions]

    def has(self, test):
        return any(test(name) for name, _ in self.labels + self.expressions)

    def subject(self, key):
        if key[0] or self.has(lambda name: key_of(name) == ("reserved", "init")):
            return tuple(self.all)
        kept = [one for name, one in self.labels if not is_namespace_key(name)] + [one for _, one in self.expressions]
        return (*kept, in_namespace(key[1]))

    def peer(self, key):
        if key[0]:
            return tuple(self.all) or (Requirement("k8s", NAMESPACE, "Exists"),)
        return tuple(self.all) if self.has(says_namespace) else (*self.all, in_namespace(key[1]))


def in_namespace(namespace):
    return Requirement("k8s", NAMESPACE, "In", (namespace,))


def cidr_peer(place, value, excepted):
    prefix, exceptions = prefix_of(value), [prefix_of(it) for it in excepted]
    if prefix is None or None in exceptions:
        place.refuse(18)
    if prefix is not None and not all(covers(prefix, it) for it in exceptions if it is not None):
        place.refuse(19)
    return Peer("cidr", prefix=prefix, exceptions=tuple(exceptions))


def entity_peer(place, name):
    if name not in ENTITIES:
        place.refuse(20)
    return Peer("entity", entity=name)


def peers_of(place, key, word, value):
    lists = {kind: value.get(f"{word}{kind}") for kind in PEERS}
    if sum(bool(it) for it in lists.values()) > 1:
        place.refuse(16)
    found = [Peer("labels", selector=Selector(place, it).peer(key)) for it in lists["Endpoints"] or []]
    found += [cidr_peer(place, it, []) for it in lists["CIDR"] or []]
    found += [cidr_peer(place, it["cidr"], items(it, "except")) for it in lists["CIDRSet"] or []]
    found += [entity_peer(place, it) for it in lists["Entities"] or []]
    return None if all(it is None for it in lists.values()) else tuple(found)


def port_of(place, value):
    text, end = value["port"], value.get("endPort") or 0
    protocol = (value.get("protocol") or "").encode().upper().decode()
    if not re.fullmatch("[0-9]{1,5}", text, re.ASCII) or int(text) > 65535 or end > 65535:
        place.refuse(21)
        return None
    if protocol not in ("", "ANY", "TCP", "UDP", "SCTP"):
        place.refuse(22)
    first = int(text)
    return (None if protocol in ("", "ANY") else protocol, first, max(first, end) if first else 65535)


def ports_of(place, value):
    found = []
    for item in items(value, "toPorts"):
        ports = items(item, "ports")
        if len(ports) > 40:
            place.refuse(23)
        if not ports:
            place.refuse(24)
        found += [port_of(place, it) for it in ports]
    return tuple(found)


def entry_of(key, rule, section, at, value):
    place = Place(rule, f".{section}[{at}]")
    word = "from" if section.startswith("ingress") else "to"
    entry = Entry(peers_of(place, key, word, value), ports_of(place, value))
    place.close()
    return entry


def rule_of(key, number, value):
    place = Place(number)
    subject = value.get("endpointSelector")
    if subject is None:
        place.refuse(15)
    selector = Selector(place, subject or {}).subject(key)
    place.close()
    sections = {section: tuple(entry_of(key, number, section, at, it) for at, it in enumerate(items(value, section)))
                for section in SECTIONS}
    return Rule(selector, sections, value.get("enableDefaultDeny") or {})


def policy_key(kind, namespace, name):
    wide = kind == KINDS[1]
    return (wide, "" if wide else namespace or "default", NETWORK_FRONT + name if kind == NETWORK_KIND else name)


# ---- what a NetworkPolicy says

def is_network_policy(value):
    return present(value, "apiVersion") == NETWORK_API and present(value, "kind") == NETWORK_KIND


def pod_selector(place, value, front=""):
    """What a selector asks of the labels of source `k8s` whose keys have this in front."""
    labels = [(name, "In", [it]) for name, it in (value.get("matchLabels") or {}).items() if it is not None]
    expressions = [(it["key"], it["operator"], items(it, "values")) for it in items(value, "matchExpressions")]
    return tuple(pod_requirement(place, front, *it) for it in labels + expressions)


def pod_requirement(place, front, key, operator, values):
    fits = {"In": values, "NotIn": values, "Exists": not values, "DoesNotExist": not values}
    if not key or ":" in key or not fits.get(operator):
        place.refuse(17)
    return Requirement("k8s", front + key, operator, tuple(values))


def network_peer(place, namespace, value):
    pods, namespaces, block = (value.get(it) for it in ("podSelector", "namespaceSelector", "ipBlock"))
    if (block is None) == (pods is None and namespaces is None):
        place.refuse(27)
    of_pods = pod_selector(place, pods or {})
    of_namespaces = (in_namespace(namespace),) if namespaces is None else (
        Requirement("k8s", NAMESPACE, "Exists"), *pod_selector(place, namespaces, NAMESPACE_LABELS))
    if block is not None:
        return cidr_peer(place, block["cidr"], items(block, "except"))
    return Peer("labels", selector=(*of_pods, *of_namespaces))


def network_port(place, value):
    first, end, protocol = value.get("port"), value.get("endPort"), value.get("protocol")
    protocol = "TCP" if protocol is None else protocol
    if first is not None and not 1 <= first <= 65535 or end is not None and end > 65535:
        place.refuse(21)
    if protocol not in ("TCP", "UDP", "SCTP"):
        place.refuse(22)
    if end is not None and (first is None or end < first):
        place.refuse(28)
    return (protocol, 0, 65535) if first is None else (protocol, first, first if end is None else end)


def network_entry(namespace, section, at, value):
    place = Place(0, f".{section}[{at}]")
    peers = tuple(network_peer(place, namespace, it) for it in items(value, "from" if section == "ingress" else "to"))
    ports = tuple(network_port(place, it) for it in items(value, "ports"))
    place.close()
    # an entry with neither is for every packet
    return Entry(peers or None, ports if peers or ports else ((None, 0, 65535),))


def read_network_policy(value):
    check_name(value)
    if value.get("spec") is None:
        raise Refused("12 no-spec")
    walk("network policy", value, "")
    spec, metadata, place = value["spec"], value["metadata"], Place(0)
    key = policy_key(NETWORK_KIND, metadata.get("namespace"), metadata["name"])
    if spec.get("podSelector") is None:
        place.refuse(15)
    subject = (*pod_selector(place, spec.get("podSelector") or {}), in_namespace(key[1]))
    types = items(spec, "policyTypes")
    if any(it not in ("Ingress", "Egress") for it in types):
        place.refuse(26)
    place.close()
    entries = {section: tuple(network_entry(key[1], section, at, it) for at, it in enumerate(items(spec, section)))
               for section in ("ingress", "egress")}
    isolates = {"ingress": "Ingress" in types or not types, "egress": "Egress" in types or not types and bool(entries["egress"])}
    sections = {section: entries[section] if isolates.get(section) else () for section in SECTIONS}
    return Policy(key, (Rule(subject, sections, isolates),))


def read_policy(value):
    """What the document says; raises `Refused` with its first fault."""
    if is_network_policy(value):
        return read_network_policy(value)
    check_document(value)
    metadata = value["metadata"]
    key = policy_key(value["kind"], metadata.get("namespace"), metadata["name"])
    rules = [it for it in [value.get("spec")] if it is not None] + items(value, "specs")
    return Policy(key, tuple(rule_of(key, number, it) for number, it in enumerate(rules)))
