"""Objects of small clusters, as kubectl prints them."""


def namespace(name, **labels):
    return {"apiVersion": "v1", "kind": "Namespace", "metadata": {"name": name, "labels": {"kubernetes.io/metadata.name": name, **labels}}}


def pod(name, labels=None, node="n1", address=None, ports=(), owner=None, phase="Running", **spec):
    """A pod `NAMESPACE/NAME`; its ports are triples of name, number and protocol."""
    space, short = name.split("/")
    metadata = {"name": short, "namespace": space, "labels": labels or {}}
    if owner:
        metadata["ownerReferences"] = [{"kind": owner[0], "name": owner[1], "controller": True}]
    listed = [{"name": it[0], "containerPort": it[1], "protocol": it[2] if len(it) > 2 else "TCP"} for it in ports]
    status = {"phase": phase, "hostIP": f"192.168.0.{node[1:]}", **({"podIP": address, "podIPs": [{"ip": address}]} if address else {})}
    whole = {"nodeName": node, "serviceAccountName": "default", "containers": [{"name": "main", "ports": listed}], **spec}
    return {"apiVersion": "v1", "kind": "Pod", "metadata": metadata, "spec": whole, "status": status}


def dual(one, address):
    """A pod with one more address."""
    one["status"]["podIPs"].append({"ip": address})
    return one


def policy(name, *rules, kind="CiliumNetworkPolicy"):
    """A policy `NAMESPACE/NAME`, or cluster-wide where it has no namespace."""
    space, _, short = name.rpartition("/")
    metadata = {"name": short, **({"namespace": space} if space else {})}
    kind = kind if space else "CiliumClusterwideNetworkPolicy"
    return {"apiVersion": "cilium.io/v2", "kind": kind, "metadata": metadata, **({"spec": rules[0]} if len(rules) == 1 else {"specs": list(rules)})}


def network(name, spec):
    space, short = name.split("/")
    return {"apiVersion": "networking.k8s.io/v1", "kind": "NetworkPolicy", "metadata": {"name": short, "namespace": space}, "spec": spec}


def service(name, selector=None, address="None", labels=None, **spec):
    space, short = name.split("/")
    whole = {"clusterIP": address, **({"selector": selector} if selector else {}), **spec}
    return {"apiVersion": "v1", "kind": "Service", "metadata": {"name": short, "namespace": space, "labels": labels or {}}, "spec": whole}


def behind(name, *addresses):
    """The EndpointSlice of a Service."""
    space, short = name.split("/")
    family = "IPv6" if ":" in addresses[0] else "IPv4"
    metadata = {"name": f"{short}-{family.lower()}", "namespace": space, "labels": {"kubernetes.io/service-name": short}}
    return {"apiVersion": "discovery.k8s.io/v1", "kind": "EndpointSlice", "metadata": metadata, "addressType": family, "endpoints": [{"addresses": list(addresses)}]}


def group(name, *prefixes, **labels):
    return {"apiVersion": "cilium.io/v2alpha1", "kind": "CiliumCIDRGroup", "metadata": {"name": name, "labels": labels}, "spec": {"externalCIDRs": list(prefixes)}}


def deployment(name, labels, kind="Deployment", **spec):
    space, short = name.split("/")
    template = {"metadata": {"labels": labels}, "spec": {"serviceAccountName": "default", **spec}}
    whole = {"jobTemplate": {"spec": {"template": template}}} if kind == "CronJob" else {"template": template}
    api = "batch/v1" if kind in ("Job", "CronJob") else "apps/v1"
    return {"apiVersion": api, "kind": kind, "metadata": {"name": short, "namespace": space}, "spec": whole}


def app(name, **more):
    return {"matchLabels": {"app": name, **more}}


def ports(*numbers, protocol="TCP"):
    return [{"ports": [{"port": str(it), "protocol": protocol} for it in numbers]}]
