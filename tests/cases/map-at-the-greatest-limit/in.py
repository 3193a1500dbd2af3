"""A map of as many entries as the greatest limit, of one more, and of as many again.

728 identities with 90 port prefixes each (30 for each of three protocols), an entry for each of 14 ports, one for the
local host and one for egress, and for a while one port more.
"""
import json

NAMESPACE = "k8s:io.kubernetes.pod.namespace=default"


def line(**value):
    print(json.dumps(value, separators=(",", ":")))


def apply(name, entry):
    spec = {"endpointSelector": {}, "ingress": [entry]}
    line(op="apply", policy={"apiVersion": "cilium.io/v2", "kind": "CiliumNetworkPolicy", "metadata": {"name": name}, "spec": spec})


def ports(first, last):
    return {"toPorts": [{"ports": [{"port": str(port), "protocol": "TCP"} for port in range(first, last + 1)]}]}


def sync(port):
    line(op="sync")
    line(op="verdict", endpoint="web", direction="ingress", identity=2, protocol="TCP", port=port)


line(op="endpoint", name="web", labels=[NAMESPACE], address="10.0.0.1")
for j in range(728):
    line(op="identity", name=f"i{j}", labels=[NAMESPACE, "k8s:app=big", f"k8s:n={j}"])
apply("big", {"fromEndpoints": [{"matchLabels": {"app": "big"}}], "toPorts": [{"ports": [{"port": "1", "endPort": 65534}]}]})
apply("ports", ports(1, 14))
sync(14)
apply("one-more", ports(15, 15))
sync(15)
apply("one-more", ports(14, 14))
sync(15)
