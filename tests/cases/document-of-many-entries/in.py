"""A policy of 8,000 entries, entry i for the ports 6 i + 1 to 6 i + 3, and verdicts at both ends and in a gap."""
import json


def line(value):
    print(json.dumps(value, separators=(",", ":")))


def entry(i):
    return {"toPorts": [{"ports": [{"port": str(6 * i + 1), "endPort": 6 * i + 3, "protocol": "TCP"}]}]}


def verdict(port):
    line({"op": "verdict", "endpoint": "web", "direction": "ingress", "identity": 2, "protocol": "TCP", "port": port})


line({"op": "endpoint", "name": "web", "labels": ["k8s:io.kubernetes.pod.namespace=default"], "address": "10.0.0.1"})
spec = {"endpointSelector": {}, "ingress": [entry(i) for i in range(8_000)]}
line({"op": "apply", "policy": {"apiVersion": "cilium.io/v2", "kind": "CiliumNetworkPolicy", "metadata": {"name": "p"}, "spec": spec}})
line({"op": "sync"})
for port in (1, 3, 4, 47995, 47997, 47998):
    verdict(port)
spec["ingress"].append({"toPorts": [{"ports": [{"port": "66000"}]}]})
line({"op": "apply", "policy": {"apiVersion": "cilium.io/v2", "kind": "CiliumNetworkPolicy", "metadata": {"name": "p"}, "spec": spec}})
