"""65,281 pods on two nodes, each with labels of its own."""
import json

items = []
for i in range(65281):
    at = {"nodeName": "n2" if i else "n1"}
    items.append({"apiVersion": "v1", "kind": "Pod", "metadata": {"name": f"p{i}", "labels": {"n": str(i)}}, "spec": at, "status": {"podIP": f"10.{i >> 16}.{i >> 8 & 255}.{i & 255}"}})
print(json.dumps({"apiVersion": "v1", "kind": "List", "items": items}))
