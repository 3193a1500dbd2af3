"""Syncs that come again where nothing has happened, by one session and by another: while a map is too large, once it fits,
when its endpoint has gone and when it has come again.

The map has 182 identities with 90 port prefixes each (30 for each of three protocols), one entry for TCP 80, one for UDP 80,
one for the local host and one for egress, and at first one for SCTP 80.
"""
import json

NAMESPACE = "k8s:io.kubernetes.pod.namespace=default"


def line(**value):
    print(json.dumps(value, separators=(",", ":")))


def apply(name, entries):
    spec = {"endpointSelector": {}, "ingress": entries}
    line(op="apply", policy={"apiVersion": "cilium.io/v2", "kind": "CiliumNetworkPolicy", "metadata": {"name": name}, "spec": spec})


def ports(*found):
    return {"toPorts": [{"ports": [dict(zip(("port", "protocol"), it)) for it in found]}]}


def endpoint():
    line(op="endpoint", name="web", labels=[NAMESPACE], address="10.0.0.1", session=2)


def syncs(session):
    for _ in range(3):
        line(op="sync", session=session)


big = {"fromEndpoints": [{"matchLabels": {"app": "big"}}], "toPorts": [{"ports": [{"port": "1", "endPort": 65534}]}]}
line(op="endpoint", name="web", labels=[NAMESPACE], address="10.0.0.1")
for j in range(182):
    line(op="identity", name=f"i{j}", labels=[NAMESPACE, "k8s:app=big", f"k8s:n={j}"])
apply("small", [ports(("80", "TCP"))])
apply("big", [big, ports(("80", "UDP"), ("80", "SCTP"))])
syncs(1)
line(op="phase")
syncs(2)
line(op="identity", name="other", labels=["k8s:x=1"], session=2)
syncs(2)
line(op="phase")
apply("big", [big, ports(("80", "UDP"))])
syncs(1)
line(op="verdict", endpoint="web", direction="ingress", identity=300, protocol="TCP", port=443)
line(op="phase")
line(op="remove-endpoint", name="web", session=2)
syncs(2)
endpoint()
syncs(2)
line(op="verdict", endpoint="web", direction="ingress", identity=300, protocol="TCP", port=443, session=2)
