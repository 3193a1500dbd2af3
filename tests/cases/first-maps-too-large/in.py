"""Two endpoints whose first maps are too large, so that they have none, and an endpoint beside them that has one.

183 identities may reach all ports of the two but two, so each has 90 port prefixes of theirs: with an entry for the local
host and one for egress that is 16,472. Without two of the identities it is 16,292, which may be published.
"""
import json

NAMESPACE = "k8s:io.kubernetes.pod.namespace=default"


def line(**value):
    print(json.dumps(value, separators=(",", ":")))


def verdict(name):
    line(op="verdict", endpoint=name, direction="ingress", identity=300, protocol="TCP", port=443)


for at, name in enumerate(("b", "a"), 1):
    line(op="endpoint", name=name, labels=[NAMESPACE, "k8s:side=large"], address=f"10.0.0.{at}")
line(op="endpoint", name="c", labels=[NAMESPACE], address="10.0.0.3")
for j in range(183):
    line(op="identity", name=f"i{j}", labels=[NAMESPACE, "k8s:app=big", f"k8s:n={j}"])
entry = {"fromEndpoints": [{"matchLabels": {"app": "big"}}], "toPorts": [{"ports": [{"port": "1", "endPort": 65534}]}]}
spec = {"endpointSelector": {"matchLabels": {"side": "large"}}, "ingress": [entry]}
line(op="apply", policy={"apiVersion": "cilium.io/v2", "kind": "CiliumNetworkPolicy", "metadata": {"name": "p"}, "spec": spec})
line(op="sync")
for name in "abc":
    verdict(name)
line(op="sync")
line(op="remove-endpoint", name="b")
line(op="sync")
line(op="remove-identity", name="i0")
line(op="remove-identity", name="i1")
line(op="sync")
verdict("a")
