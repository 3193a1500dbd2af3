"""A map of more entries than may be published: 182 identities with 90 port prefixes each, and three entries beside them."""
import json

NAMESPACE = "k8s:io.kubernetes.pod.namespace=default"


def line(**value):
    print(json.dumps(value, separators=(",", ":")))


big = {"fromEndpoints": [{"matchLabels": {"app": "big"}}], "toPorts": [{"ports": [{"port": "1", "endPort": 65534}]}]}
small = {"toPorts": [{"ports": [{"port": "80", "protocol": protocol} for protocol in ("TCP", "UDP", "SCTP")]}]}
line(op="endpoint", name="web", labels=[NAMESPACE], address="10.0.0.1")
for j in range(182):
    line(op="identity", name=f"i{j}", labels=[NAMESPACE, "k8s:app=big", f"k8s:n={j}"])
spec = {"endpointSelector": {}, "ingress": [big, small]}
line(op="apply", policy={"apiVersion": "cilium.io/v2", "kind": "CiliumNetworkPolicy", "metadata": {"name": "p"}, "spec": spec})
