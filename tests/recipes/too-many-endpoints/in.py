"""257 pods on two nodes."""
import json

items = []
for i in range(257):
    at = {"nodeName": "n1" if i < 200 else "n2"}
    items.append({"apiVersion": "v1", "kind": "Pod", "metadata": {"name": f"p{i}", "namespace": "default"}, "spec": at, "status": {"podIP": f"10.0.{i // 256}.{i % 256}"}})
print(json.dumps({"apiVersion": "v1", "kind": "List", "items": items}))
