"""What policies mean for a packet, straight from the objects of a cluster, as the documentation of Cilium and Kubernetes
says it: a small model that shares nothing with the recipes, rewrites nothing, and knows no policyd.

The other end of a packet is ("pod", NAME), ("entity", NAME), ("address", TEXT), or ("name", TEXT, FAMILY): an address that a
name has, of family 4 or 6, and that lies in no prefix of a policy but those of all addresses.
"""
import ipaddress
import json

OWN, NAMESPACE = "io.cilium.k8s.", "io.kubernetes.pod.namespace"
SECTIONS = ("ingress", "egress")
IGNORED = ("pod-template-hash", "controller-revision-hash")


def of_kind(objects, *kinds):
    return [it for it in objects if it["kind"] in kinds]


def namespace_of(item):
    return item["metadata"].get("namespace", "default")


class World:
    """A cluster's objects, and what they say of packets."""

    def __init__(self, objects, cluster="default"):
        self.cluster, self.objects = cluster, objects
        self.spaces = {it["metadata"]["name"]: it["metadata"].get("labels", {}) for it in of_kind(objects, "Namespace")}
        self.pods = {f"{namespace_of(it)}/{it['metadata']['name']}": it for it in of_kind(objects, "Pod")}
        self.services = {f"{namespace_of(it)}/{it['metadata']['name']}": it for it in of_kind(objects, "Service")}
        self.groups = {it["metadata"]["name"]: it for it in of_kind(objects, "CiliumCIDRGroup")}
        self.rules = [it for policy in of_kind(objects, "CiliumNetworkPolicy", "CiliumClusterwideNetworkPolicy") for it in rules_of(policy)]
        self.networks = of_kind(objects, "NetworkPolicy")
        self.labels = {name: self.labels_of(it) for name, it in self.pods.items()}

    def labels_of(self, pod):
        own = {key: it for key, it in pod["metadata"].get("labels", {}).items() if key not in IGNORED}
        space = namespace_of(pod)
        more = {f"{OWN}namespace.labels.{key}": it for key, it in self.spaces.get(space, {}).items()}
        account = pod["spec"].get("serviceAccountName")
        named = {f"{OWN}policy.serviceaccount": account} if account else {}
        return {**own, **more, **named, NAMESPACE: space, f"{OWN}policy.cluster": self.cluster}

    # Verdicts.

    def passes(self, source, target, protocol, port):
        """Whether a connection passes: both ends that are pods let it."""
        halves = [(source, "egress", target), (target, "ingress", source)]
        return all(self.lets(pod[1], way, other, protocol, port) for pod, way, other in halves if pod[0] == "pod")

    def lets(self, pod, direction, other, protocol, port):
        """Whether a pod may send to the other end, or receive from it."""
        selecting = [(namespace, rule) for namespace, rule in self.rules if self.selects(namespace, rule, pod)]
        packet = (pod, direction, other, protocol, port)
        if any(self.covers(it, packet, f"{direction}Deny") for it in selecting):
            return False
        if any(self.covers(it, packet, direction) for it in selecting) or any(self.network_allows(it, packet) for it in self.networks):
            return True
        if direction == "ingress" and other == ("entity", "host"):
            return True
        return not any(isolates(rule, direction) for _, rule in selecting) and not any(self.network_isolates(it, pod, direction) for it in self.networks)

    def selects(self, namespace, rule, pod):
        selector = rule.get("endpointSelector")
        if selector is None or namespace is not None and namespace_of(self.pods[pod]) != namespace:
            return False
        return self.matches(selector, self.labels[pod])

    def covers(self, selecting, packet, section):
        namespace, rule = selecting
        return any(self.entry_covers(namespace, it, packet, section) for it in rule.get(section) or [])

    def entry_covers(self, namespace, entry, packet, section):
        pod, direction, other, protocol, port = packet
        word = "from" if direction == "ingress" else "to"
        target = pod if direction == "ingress" else other[1] if other[0] == "pod" else None
        if entry.get("icmps") or not self.port_is_in(entry, target, protocol, port):
            return False
        kinds = [it[len(word) :] for it in entry if it.startswith(word) and it not in ("toPorts", f"{word}Requires") and entry[it] is not None]
        if not kinds:
            return bool(entry.get("toPorts")) and not entry.get(f"{word}Requires")
        return any(self.peers(namespace, kind, entry[f"{word}{kind}"], other) and self.is_met(kind, pod, other, section) for kind in kinds)

    def port_is_in(self, entry, target, protocol, port):
        listed = [it for item in entry.get("toPorts") or [] for it in item["ports"]]
        return not listed or any(self.is_port(it["port"], it.get("endPort"), it.get("protocol") or "ANY", target, protocol, port) for it in listed)

    def is_port(self, text, end, named, target, protocol, port):
        if named.upper() not in ("ANY", protocol):
            return False
        if any(letter.isalpha() for letter in str(text)):
            ports = [it for one in self.pods[target]["spec"].get("containers", []) for it in one.get("ports", [])] if target else []
            return any(it.get("name") == text and it.get("protocol", "TCP") == protocol and it["containerPort"] == port for it in ports)
        return int(text) == 0 or int(text) <= port <= max(int(text), end or 0)

    def mentions(self, pod, name):
        """Whether a rule that selects a pod lets it send to a name, at some port: its addresses have none by name."""
        entries = [it for namespace, rule in self.rules if self.selects(namespace, rule, pod) for it in rule.get("egress") or []]
        ports = lambda entry: [str(it["port"]) for item in entry.get("toPorts") or [] for it in item["ports"]]
        has_port = lambda entry: not ports(entry) or any(it.isdigit() for it in ports(entry))
        return any(name in one.values() for it in entries if has_port(it) for one in it.get("toFQDNs") or [])

    def peers(self, namespace, kind, listed, other):
        """Whether the other end is one of an entry's peers of a kind."""
        if kind == "Endpoints":
            return any(self.is_peer(namespace, it, other) for it in listed)
        if kind == "Entities":
            return any(self.is_entity(it, other) for it in listed)
        if kind == "CIDR":
            return any(is_inside(it, [], other) for it in listed)
        if kind == "CIDRSet":
            return any(is_inside(text, it.get("except") or [], other) for it in listed for text in self.prefixes(it))
        if kind == "Services":
            return any(self.is_behind(it, other) for one in listed for it in self.meant(one))
        if kind == "Nodes":
            return other[0] == "entity" and other[1] in ("host", "remote-node", "kube-apiserver")
        return kind == "FQDNs" and other[0] == "name" and other[1] in [it.get("matchName") or it.get("matchPattern") for it in listed]

    def is_peer(self, namespace, selector, other):
        """Whether a peer selector means the other end. What is no pod has a reserved label alone; one that asks nothing
        means pods, and one of a namespaced policy those of its namespace, unless it says something of namespaces."""
        labels = self.labels[other[1]] if other[0] == "pod" else {f"reserved:{other[1] if other[0] == 'entity' else world_of(other)}": ""}
        text = json.dumps(selector)
        says = NAMESPACE in text or f"{OWN}namespace.labels." in text or '"reserved:' in text
        if namespace is not None and not says:
            return labels.get(NAMESPACE) == namespace and self.matches(selector, labels)
        asks = selector.get("matchLabels") or selector.get("matchExpressions")
        return self.matches(selector, labels) if asks else NAMESPACE in labels

    def is_entity(self, name, other):
        if name == "all":
            return True
        if other[0] == "pod":
            return name == "cluster"
        if other[0] in ("address", "name"):
            return name in ("world", world_of(other))
        return name == other[1] or name == "cluster" or name == "remote-node" and other[1] == "kube-apiserver"

    def prefixes(self, item):
        if item.get("cidrGroupRef"):
            return self.groups.get(item["cidrGroupRef"], {"spec": {"externalCIDRs": []}})["spec"]["externalCIDRs"]
        if item.get("cidrGroupSelector") is not None:
            found = [it for it in self.groups.values() if self.matches(item["cidrGroupSelector"], it["metadata"].get("labels", {}))]
            return [text for it in found for text in it["spec"]["externalCIDRs"]]
        return [item["cidr"]]

    def meant(self, item):
        if item.get("k8sService"):
            one = item["k8sService"]
            return [it for it in self.services.values() if it["metadata"]["name"] == one["serviceName"] and one.get("namespace") in (None, namespace_of(it))]
        one = item["k8sServiceSelector"]
        return [it for it in self.services.values() if one.get("namespace") in (None, namespace_of(it)) and self.matches(one["selector"], it["metadata"].get("labels", {}))]

    def is_behind(self, service, other):
        selector = service["spec"].get("selector")
        if selector:
            return other[0] == "pod" and namespace_of(self.pods[other[1]]) == namespace_of(service) and self.matches({"matchLabels": selector}, self.labels[other[1]])
        for it in of_kind(self.objects, "EndpointSlice"):
            if it["metadata"]["labels"]["kubernetes.io/service-name"] == service["metadata"]["name"] and namespace_of(it) == namespace_of(service):
                if any(is_inside(address, [], other) for one in it["endpoints"] for address in one["addresses"]):
                    return True
        return False

    def is_met(self, kind, pod, other, section):
        """Whether a peer that is a selector's meets what is required of the pod's peers."""
        if kind != "Endpoints":
            return True
        name = "fromRequires" if section.startswith("ingress") else "toRequires"
        for namespace, rule in self.rules:
            if self.selects(namespace, rule, pod):
                for entry in rule.get(section) or []:
                    if not all(self.is_peer(namespace, it, other) for it in entry.get(name) or []):
                        return False
        return True

    def matches(self, selector, labels):
        asked = [(key, "In", [it]) for key, it in (selector.get("matchLabels") or {}).items()]
        asked += [(it["key"], it["operator"], it.get("values") or []) for it in selector.get("matchExpressions") or []]
        return all(is_so(operator, labels.get(bare(key)), values) for key, operator, values in asked)

    # NetworkPolicies of Kubernetes.

    def network_selects(self, policy, pod):
        return namespace_of(policy) == namespace_of(self.pods[pod]) and self.matches(policy["spec"]["podSelector"], self.labels[pod])

    def network_isolates(self, policy, pod, direction):
        spec = policy["spec"]
        types = spec.get("policyTypes") or ["Ingress", *(["Egress"] if spec.get("egress") else [])]
        return direction.capitalize() in types and self.network_selects(policy, pod)

    def network_allows(self, policy, packet):
        pod, direction, other, protocol, port = packet
        if not self.network_isolates(policy, pod, direction):
            return False
        target = pod if direction == "ingress" else other[1] if other[0] == "pod" else None
        for entry in policy["spec"].get(direction) or []:
            ports, peers = entry.get("ports") or [], entry.get("from" if direction == "ingress" else "to") or []
            has_port = not ports or any(self.is_port(it.get("port", 0), it.get("endPort"), it.get("protocol", "TCP"), target, protocol, port) for it in ports)
            if has_port and (not peers or any(self.network_peer(policy, it, other) and self.is_met(kind_of(it), pod, other, direction) for it in peers)):
                return True
        return False

    def network_peer(self, policy, peer, other):
        if peer.get("ipBlock"):
            return is_inside(peer["ipBlock"]["cidr"], peer["ipBlock"].get("except") or [], other)
        if other[0] != "pod":
            return False
        pod = self.pods[other[1]]
        spaces = peer.get("namespaceSelector")
        is_space = namespace_of(pod) == namespace_of(policy) if spaces is None else self.matches(spaces, self.spaces.get(namespace_of(pod), {}))
        return is_space and self.matches(peer.get("podSelector") or {}, self.labels[other[1]])


def rules_of(policy):
    """The rules of a policy, each with the namespace that it is bound to, or None."""
    namespace = None if policy["kind"] == "CiliumClusterwideNetworkPolicy" else namespace_of(policy)
    return [(namespace, it) for it in [policy.get("spec"), *(policy.get("specs") or [])] if it]


def kind_of(peer):
    """The kind of Cilium's peers that a peer of a NetworkPolicy is: one that names pods is a selector."""
    return "CIDRSet" if peer.get("ipBlock") else "Endpoints"


def isolates(rule, direction):
    said = (rule.get("enableDefaultDeny") or {}).get(direction)
    return bool(rule.get(direction) or rule.get(f"{direction}Deny")) if said is None else said


def world_of(other):
    """The world of an address, or of an address of a name."""
    return f"world-ipv{other[2] if other[0] == 'name' else ipaddress.ip_address(other[1]).version}"


def is_inside(text, out, other):
    """Whether an address lies in a prefix and in none of its exceptions; that of a name lies in those of all addresses."""
    if other[0] == "name":
        return text == {4: "0.0.0.0/0", 6: "::/0"}[other[2]]
    if other[0] != "address":
        return False
    address = ipaddress.ip_address(other[1])
    return address in ipaddress.ip_network(text, strict=False) and not any(address in ipaddress.ip_network(it) for it in out)


def bare(key):
    """A key without the sources of a pod's labels."""
    for source in ("k8s:", "any:"):
        if key.startswith(source):
            return key[len(source) :]
    return key


def is_so(operator, value, values):
    return {"In": value is not None and value in values, "NotIn": value is None or value not in values, "Exists": value is not None, "DoesNotExist": value is None}[operator]
