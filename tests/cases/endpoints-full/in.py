"""257 endpoints with distinct names: the last one finds no room, even where its address is taken too."""
import json


def endpoint(name, address):
    labels = ["k8s:io.kubernetes.pod.namespace=default"]
    print(json.dumps({"op": "endpoint", "name": name, "labels": labels, "address": address}))


for i in range(257):
    endpoint(f"e{i}", f"10.0.{i // 250}.{i % 250}")
endpoint("e257", "10.0.0.0")
endpoint("e0", "10.0.0.0")
