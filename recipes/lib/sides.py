"""What ends of connections are called, and whose an address is that lies inside the cluster."""
from __future__ import annotations

import typing

if typing.TYPE_CHECKING:
    from .cluster import Cluster

# What stands for any other pod of a namespace.
ANY_OTHER = "any other"


def whose(cluster: Cluster, address: str) -> typing.Optional[str]:
    """Whose an address is, where it is no address outside the cluster; or None."""
    if address in cluster.services:
        return f"the ClusterIP of the Service {cluster.services[address]}, which is a pod's address before policies are asked; name the pods by their labels"
    if address in cluster.balancers:
        return f"the load balancer's address of the Service {cluster.balancers[address]}, which is a pod's address before policies are asked; name the pods by their labels"
    if address in cluster.api_addresses or cluster.nodes.get(address, "") in cluster.api_nodes:
        return "the address of the API server; name it by the entity `kube-apiserver`"
    if address in cluster.nodes:
        return f"the address of the node {cluster.nodes[address]}; name it by the entity `host` or `remote-node`"
    pod = cluster.pod_at(address)
    return f"the address of the pod {pod.name}; name it by its labels" if pod is not None else None
