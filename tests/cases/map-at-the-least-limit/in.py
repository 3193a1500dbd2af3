"""A map of as many entries as the least limit, of one more, and of as many again.

254 identities may reach TCP 80; beside theirs the map has an entry for the local host and one for egress.
"""
import json

NAMESPACE = "k8s:io.kubernetes.pod.namespace=default"


def line(**value):
    print(json.dumps(value, separators=(",", ":")))


def identity(number):
    line(op="identity", name=f"i{number}", labels=[NAMESPACE, "k8s:app=peer", f"k8s:n={number}"])


def sync(identity):
    line(op="sync")
    line(op="verdict", endpoint="web", direction="ingress", identity=identity, protocol="TCP", port=80)


line(op="endpoint", name="web", labels=[NAMESPACE], address="10.0.0.1")
for number in range(254):
    identity(number)
entry = {"fromEndpoints": [{"matchLabels": {"app": "peer"}}], "toPorts": [{"ports": [{"port": "80", "protocol": "TCP"}]}]}
spec = {"endpointSelector": {}, "ingress": [entry]}
line(op="apply", policy={"apiVersion": "cilium.io/v2", "kind": "CiliumNetworkPolicy", "metadata": {"name": "p"}, "spec": spec})
sync(510)
identity(254)
sync(511)
line(op="remove-identity", name="i254")
sync(510)
