"""Policies take each of the 65,535 local numbers. Then a new prefix finds none, until a number has lost its last holder."""
import json

NAMESPACE = "k8s:io.kubernetes.pod.namespace=default"


def line(**value):
    print(json.dumps(value, separators=(",", ":")))


def prefix(i):
    return f"10.{i >> 8}.{i & 255}.0/24"


def apply(name, prefixes):
    spec = {"endpointSelector": {"matchLabels": {"app": "none"}}, "egress": [{"toCIDR": prefixes}]}
    line(op="apply", policy={"apiVersion": "cilium.io/v2", "kind": "CiliumNetworkPolicy", "metadata": {"name": name}, "spec": spec})


def trace(address):
    line(op="trace", endpoint="web", direction="egress", address=address, protocol="TCP", port=80)


def trace_of(i):
    trace(f"10.{i >> 8}.{i & 255}.9")


ALL = [prefix(i) for i in range(65_535)]
LAST = ALL[65_000:]
line(op="endpoint", name="web", labels=[NAMESPACE], address="192.168.0.1")
for k in range(66):
    apply(f"p{k}", ALL[1000 * k : 1000 * (k + 1)])
for i in (0, 7_007, 65_534, 65_535):
    trace_of(i)
apply("new", [prefix(65_535)])
apply("shares", [prefix(7_007), "0.0.0.0/0", "::/0"])
apply("new", [prefix(7_007), prefix(65_535)])
apply("p65", [*LAST[1:], prefix(65_535)])
apply("p65", LAST[1:])
apply("new", [prefix(65_535)])
for i in (65_000, 65_001, 65_535):
    trace_of(i)
apply("newer", ["2001:db8::/32"])
line(op="delete", kind="CiliumNetworkPolicy", name="p7")
for i in (7_006, 7_007, 7_008):
    trace_of(i)
apply("newer", ["11.0.1.0/24", "11.0.0.0/24", "11.0.1.0/24"])
for address in ("11.0.0.9", "11.0.1.9", "11.0.2.9"):
    trace(address)
