"""256 pods on one node, and one more elsewhere."""
import json

items = [{"apiVersion": "v1", "kind": "Namespace", "metadata": {"name": "default"}}]
for i in range(257):
    at = {"nodeName": "n1" if i < 256 else "n2"}
    items.append({"apiVersion": "v1", "kind": "Pod", "metadata": {"name": f"p{i}", "namespace": "default"}, "spec": at, "status": {"podIP": f"10.0.{i // 256}.{i % 256}"}})
print(json.dumps({"apiVersion": "v1", "kind": "List", "items": items}))
