"""A policy whose `status` has over ten mebibytes, and one whose annotations have: both are ignored, with all that they hold."""
import json

condition = {"type": "Valid", "spec": [None, {"x": {}}], "message": "x" * 1000}
policy = {"apiVersion": "cilium.io/v2", "kind": "CiliumNetworkPolicy", "metadata": {"name": "p"}, "spec": {"endpointSelector": {}}}
for more in ({"status": {"conditions": [condition] * 10_240}}, {"metadata": {"name": "p", "annotations": [condition] * 10_240}}):
    print(json.dumps({"op": "apply", "policy": {**policy, **more}}, separators=(",", ":")))
