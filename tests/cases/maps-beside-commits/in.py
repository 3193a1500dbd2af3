"""Two sessions commit and ask at once, without a sync between, and then both sync."""
import json

NAMESPACE = "k8s:io.kubernetes.pod.namespace=default"


def line(**value):
    print(json.dumps(value, separators=(",", ":")))


def apply(session, name, port):
    spec = {"endpointSelector": {}, "ingress": [{"toPorts": [{"ports": [{"port": str(port), "protocol": "TCP"}]}]}]}
    policy = {"apiVersion": "cilium.io/v2", "kind": "CiliumNetworkPolicy", "metadata": {"name": name}, "spec": spec}
    line(op="apply", policy=policy, session=session)


line(op="endpoint", name="a", labels=[NAMESPACE], address="10.0.0.1")
line(op="sync")
line(op="phase")
for turn in range(40):
    for session in (1, 2):
        apply(session, f"p{session}", 80 + turn)
        for port in (80, 80 + turn, 119):
            line(op="verdict", endpoint="a", direction="ingress", identity=2, protocol="TCP", port=port, session=session)
line(op="sync")
line(op="sync", session=2)
line(op="phase")
for session in (1, 2):
    line(op="verdict", endpoint="a", direction="ingress", identity=2, protocol="TCP", port=119, session=session)
