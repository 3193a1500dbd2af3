"""Forty policies, one for each form that Cilium's documentation describes: our own examples, no text of it.

Each has the chapter of Network Policy, its rule, and what the table of docs/RULES.md says of it: `read` where it is read
exactly, else the word for what stands beside it: `L7`, `auth`, `nodes`, `names`.
"""
from .objects import app, ports

PAY = "k8s:io.kubernetes.pod.namespace"
HTTP = lambda **rule: [{"ports": [{"port": "8080", "protocol": "TCP"}], "rules": {"http": [rule]}}]


def to(**entry):
    return {"endpointSelector": app("web"), "egress": [entry]}


def of(**entry):
    return {"endpointSelector": app("web"), "ingress": [entry]}


FORTY = [
    ("Rule Basics: default deny", {"endpointSelector": {}, "ingress": [{}], "egress": [{}]}, "read"),
    ("Rule Basics: no isolation by a rule", {"endpointSelector": {}, "egress": [{"toEntities": ["world"]}], "enableDefaultDeny": {"egress": False}}, "read"),
    ("Endpoints based: of the namespace", of(fromEndpoints=[{}]), "read"),
    ("Endpoints based: by labels", of(fromEndpoints=[app("cart")]), "read"),
    ("Endpoints based: several peers", to(toEndpoints=[app("cart"), app("ledger")]), "read"),
    ("Endpoints based: of another namespace", of(fromEndpoints=[{"matchLabels": {PAY: "shop", "app": "cart"}}]), "read"),
    ("Endpoints based: by labels of the namespace", of(fromEndpoints=[{"matchLabels": {"k8s:io.cilium.k8s.namespace.labels.team": "finance"}}]), "read"),
    ("Endpoints based: by expressions", of(fromEndpoints=[{"matchExpressions": [{"key": "app", "operator": "In", "values": ["cart", "web"]}]}]), "read"),
    ("Endpoints based: requirements", of(fromEndpoints=[{}], fromRequires=[{"matchLabels": {"tier": "t1"}}]), "read"),
    ("Endpoints based: requirements, going out", to(toEndpoints=[{}], toRequires=[{"matchLabels": {"tier": "t1"}}]), "read"),
    ("Services based: by name", to(toServices=[{"k8sService": {"serviceName": "cart", "namespace": "shop"}}]), "read"),
    ("Services based: by labels", to(toServices=[{"k8sServiceSelector": {"selector": {"matchLabels": {"env": "prod"}}, "namespace": "shop"}}]), "read"),
    ("Entities based: the host", of(fromEntities=["host"]), "read"),
    ("Entities based: all nodes", of(fromEntities=["host", "remote-node"]), "read"),
    ("Entities based: the API server", to(toEntities=["kube-apiserver"]), "read"),
    ("Entities based: the world", of(fromEntities=["world"]), "read"),
    ("Entities based: the cluster", of(fromEntities=["cluster"]), "read"),
    ("Entities based: health and init", of(fromEntities=["health", "init"]), "read"),
    ("Node based: coming in", of(fromNodes=[{"matchLabels": {"node-role": "control"}}]), "nodes"),
    ("Node based: going out", to(toNodes=[{"matchLabels": {"node-role": "control"}}], toPorts=ports(6443)), "nodes"),
    ("CIDR based: one address and a prefix", to(toCIDR=["198.51.100.1/32", "192.0.2.0/24"]), "read"),
    ("CIDR based: with exceptions", to(toCIDRSet=[{"cidr": "10.0.0.0/8", "except": ["10.96.0.0/12"]}]), "read"),
    ("CIDR based: of both families", to(toCIDR=["0.0.0.0/0", "::/0"]), "read"),
    ("CIDR based: a group by its name", to(toCIDRSet=[{"cidrGroupRef": "partners"}]), "read"),
    ("CIDR based: groups by labels", of(fromCIDRSet=[{"cidrGroupSelector": {"matchLabels": {"kind": "outer"}}, "except": ["198.51.100.7/32"]}]), "read"),
    ("DNS based: names", to(toFQDNs=[{"matchName": "a.example"}], toPorts=ports(443)), "names"),
    ("DNS based: patterns", to(toFQDNs=[{"matchPattern": "*.b.example"}]), "names"),
    ("Cloud groups", to(toGroups=[{"aws": {"securityGroupsNames": ["db"]}}]), "names"),
    ("Layer 4: ports", to(toPorts=ports(80, 443)), "read"),
    ("Layer 4: a range", to(toPorts=[{"ports": [{"port": "32000", "endPort": 33000, "protocol": "ANY"}]}]), "read"),
    ("Layer 4: by name", of(fromEndpoints=[{}], toPorts=ports("http")), "read"),
    ("Layer 4: with labels", of(fromEndpoints=[app("cart")], toPorts=ports(8080)), "read"),
    ("Layer 4: with prefixes", to(toCIDR=["192.0.2.0/24"], toPorts=ports(5432)), "read"),
    ("Layer 4: ICMP", to(icmps=[{"fields": [{"type": "EchoRequest", "family": "IPv4"}, {"type": 128, "family": "IPv6"}]}]), "read"),
    ("Layer 4: names of servers", to(toPorts=[{"ports": [{"port": "443"}], "serverNames": ["a.example"]}]), "L7"),
    ("Layer 7: HTTP", of(fromEndpoints=[app("cart")], toPorts=HTTP(method="GET", path="/public")), "L7"),
    ("Layer 7: Kafka", of(toPorts=[{"ports": [{"port": "9092", "protocol": "TCP"}], "rules": {"kafka": [{"role": "produce", "topic": "empire"}]}}]), "L7"),
    ("Layer 7: DNS", to(toEndpoints=[{"matchLabels": {PAY: "kube-system", "k8s:k8s-app": "kube-dns"}}], toPorts=[{"ports": [{"port": "53", "protocol": "ANY"}], "rules": {"dns": [{"matchPattern": "*"}]}}]), "L7"),
    ("Deny Policies", {"endpointSelector": {}, "ingress": [{"fromEntities": ["all"]}], "ingressDeny": [{"fromEndpoints": [app("cart")], "toPorts": ports(22)}]}, "read"),
    ("Mutual authentication", of(fromEndpoints=[app("cart")], authentication={"mode": "required"}), "auth"),
]
