"""Two maps of more than half a million entries, which may not be published, and which then shrink to two: what is cleared
of such a map doesn't stand in the way of the next one. The one endpoint had a map before, the other one had none.

400 identities may reach, by each of three protocols, all ports of 40 blocks of 1,638 but the first and the last of each.
"""
import json

NAMESPACE = "k8s:io.kubernetes.pod.namespace=default"


def line(**value):
    print(json.dumps(value, separators=(",", ":")))


def endpoint(name, address):
    line(op="endpoint", name=name, labels=[NAMESPACE], address=address)


def sync():
    line(op="sync")
    for name in ("first", "second"):
        line(op="verdict", endpoint=name, direction="ingress", identity=300, protocol="TCP", port=443)


endpoint("first", "10.0.0.1")
for j in range(400):
    line(op="identity", name=f"i{j}", labels=[NAMESPACE, "k8s:app=big", f"k8s:n={j}"])
sync()
blocks = [{"port": str(at + 1), "endPort": at + 1636} for at in range(0, 40 * 1638, 1638)]
entry = {"fromEndpoints": [{"matchLabels": {"app": "big"}}], "toPorts": [{"ports": blocks}]}
policy = {"apiVersion": "cilium.io/v2", "kind": "CiliumNetworkPolicy", "metadata": {"name": "p"}}
line(op="apply", policy=policy | {"spec": {"endpointSelector": {}, "ingress": [entry]}})
endpoint("second", "10.0.0.2")
sync()
line(op="delete", kind="CiliumNetworkPolicy", name="p")
sync()
