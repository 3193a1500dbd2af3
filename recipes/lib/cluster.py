"""The objects of a cluster, as far as the recipes speak of them."""
from __future__ import annotations

import copy
import typing

from . import deciding, network, services, workloads
from .addresses import address
from .pods import SAME_ADDRESS, AnyOther, Pod
from .policies import POLICY_KINDS, Policy
from .reading import Bad, labels_of, member, name_of, objects

if typing.TYPE_CHECKING:
    from .labels import Filter

ENDPOINTS_MOST = 256
IDENTITIES_FROM, IDENTITIES_MOST = 256, 65_280
HOST, REMOTE_NODE, API_SERVER = 1, 6, 7
NAMED_MOST = 4
# The label of the API server's pods on the nodes that they run on, as kubeadm gives it.
API_LABEL = ("component", "kube-apiserver")
# The kinds that decide, or that say what an address is, with the words for none of them.
ASKED_FOR = {
    "Namespace": "Namespaces",
    "Service": "Services",
    "NetworkPolicy": "NetworkPolicies",
    "CiliumNetworkPolicy": "CiliumNetworkPolicies",
    "CiliumClusterwideNetworkPolicy": "CiliumClusterwideNetworkPolicies",
}
APIS = ("v1", network.API, "cilium.io/v2")


class Cluster:
    """The objects of the input."""

    def __init__(self, text: str, choice: Filter, cluster: str = "default", whole: str = "standard input", part: str = "document"):
        self.warned: typing.List[str] = []
        self.begin(choice, cluster, list(objects(text, whole, part, self.warned)))

    @classmethod
    def of(cls, given: list, choice: Filter, cluster: str = "default", relabelled: typing.Sequence = ()) -> Cluster:
        """The cluster of objects with their places; templates that come give their pods other labels."""
        found = cls.__new__(cls)
        found.warned = []
        found.begin(choice, cluster, given, relabelled)
        return found

    def with_policies(self, given: list) -> Cluster:
        """The cluster of these objects, which are its own but for policies; pods and all else are those of this one."""
        found = copy.copy(self)
        known = {id(it.value): it for it in self.policies}
        found.warned, found.given, found.kinds = [], given, {}
        for _, value in given:
            found.count(value)
        found.policies = [known.get(id(value)) or policy_of(place, value) for place, value in given if is_policy(value)]
        return found

    def begin(self, choice: Filter, cluster: str, given: list, relabelled: typing.Sequence = ()) -> None:
        self.namespaces: typing.Dict[str, typing.Dict[str, str]] = {}
        self.pods: typing.Dict[str, Pod] = {}
        self.policies: typing.List[typing.Union[Policy, network.NetworkPolicy]] = []
        self.keys: typing.Set[tuple] = set()
        self.templates: typing.List[Pod] = []
        # What addresses are: the name of a Service by its own ones and by those outside the cluster, the node's name.
        self.services: typing.Dict[str, str] = {}
        self.balancers: typing.Dict[str, str] = {}
        self.nodes: typing.Dict[str, str] = {}
        self.listed_services: typing.Dict[str, services.Service] = {}
        self.behind: typing.Dict[str, typing.List[str]] = {}
        self.groups: typing.Dict[str, typing.Tuple[dict, typing.List[str]]] = {}
        self.deciding: typing.List[deciding.Deciding] = []
        self.left_out: typing.Dict[str, typing.List[str]] = {}
        self.unread: typing.Dict[typing.Tuple[str, str], int] = {}
        self.kinds: typing.Dict[str, int] = {}
        self.cluster, self.choice, self.given = cluster, choice, given
        self.has_services = False
        for place, value in given:
            self.take(place, value)
        for template in relabelled:
            for pod in filter(template.is_of, self.pods.values()):
                pod.own = template.replaces_labels_of(pod)
        self.settle_nodes()
        self.settle_pods()

    def settle_nodes(self) -> None:
        """The addresses of nodes, and which of them are the API server's."""
        for pod in self.pods.values():
            self.nodes.update((it, pod.node) for it in pod.of_node)
        self.api_addresses = {*self.behind.get(services.API_SERVER, [])}
        self.api_nodes = {it.node for it in self.pods.values() if it.is_host and API_LABEL in it.own.items()}
        self.api_nodes |= {self.nodes[it] for it in self.api_addresses if it in self.nodes}

    def settle_pods(self) -> None:
        """The pods that are endpoints, and those that come."""
        self.live: typing.List[Pod] = []
        by_address: typing.Dict[str, typing.List[Pod]] = {}
        coming: typing.List[Pod] = []
        for pod in self.pods.values():
            reason = pod.reason()
            if reason:
                self.leave_out(reason, pod.name)
            else:
                self.derive(pod)
                by_address.setdefault(pod.address, []).append(pod)
            if reason and pod.comes():
                pod.stands_for, pod.account = pod.comes(), pod.account or workloads.ACCOUNT
                coming.append(pod)
        kept = {id(min(pods, key=lambda it: it.is_ending)) for pods in by_address.values()}
        for pods in by_address.values():
            for pod in pods:
                self.live.append(pod) if id(pod) in kept else self.leave_out(SAME_ADDRESS, pod.name)
        order = {id(it): at for at, it in enumerate(self.pods.values())}
        self.live.sort(key=lambda it: order[id(it)])
        self.by_address = {it.address: it for it in self.live}
        for it, further in ((it, further) for it in self.live for further in it.addresses):
            self.by_address.setdefault(further, it)
        self.settle_coming([*coming, *(it for it in self.templates if it.comes())])

    def settle_coming(self, coming: typing.List[Pod]) -> None:
        """What stands for pods that come: where no pod and nothing before it has the workload with the same labels."""
        known, self.coming = {(it.namespace, it.workload, it.labels) for it in self.live}, []
        for it in coming:
            self.derive(it)
            if (it.namespace, it.workload, it.labels) not in known:
                known.add((it.namespace, it.workload, it.labels))
                self.coming.append(it)
        for name in sorted({*self.namespaces, *(it.namespace for it in [*self.live, *self.coming])}):
            self.coming.append(AnyOther(name))
            self.derive(self.coming[-1])

    def derive(self, pod: Pod) -> None:
        pod.derive(self.namespaces.get(pod.namespace, {}), self.choice)

    @property
    def ends(self) -> typing.List[Pod]:
        """The pods and what stands for those that come."""
        return [*self.live, *self.coming]

    def count(self, value: dict) -> None:
        if value["apiVersion"] in APIS:
            self.kinds[value["kind"]] = self.kinds.get(value["kind"], 0) + 1

    def take(self, place: str, value: dict) -> None:
        api, kind = value["apiVersion"], value["kind"]
        self.count(value)
        if (api, kind) in workloads.KINDS:
            self.take_template(workloads.Template(place, value))
        elif is_policy(value):
            self.take_policy(policy_of(place, value))
        elif deciding.decides(api, kind):
            self.deciding.append(deciding.Deciding(place, value))
        elif (api, kind) in services.GROUPS:
            name, labels, prefixes = services.group_of(place, value)
            self.groups[name] = (labels, prefixes)
        elif not self.take_core(place, value, api, kind):
            self.unread[(api, kind)] = self.unread.get((api, kind), 0) + 1

    def take_core(self, place: str, value: dict, api: str, kind: str) -> bool:
        """An object of Kubernetes itself; whether it is of a kind that is read."""
        if (api, kind) == ("v1", "Namespace"):
            metadata, name = name_of(place, value)
            self.namespaces[name] = labels_of(f"{place}: Namespace {name}", metadata)
        elif (api, kind) == ("v1", "Pod"):
            pod = Pod(place, value)
            if pod.name in self.pods:
                self.leave_out("pods that stand again further down", pod.name)
            self.pods[pod.name] = pod
        elif (api, kind) == ("v1", "Service"):
            self.take_service(services.Service(place, value))
        elif (api, kind) == ("v1", "Node"):
            self.take_node(place, value)
        elif (api, kind) in (services.SLICES, services.ENDPOINTS):
            name, addresses = services.slice_of(place, value)
            self.behind.setdefault(name, []).extend(it for it in addresses if it not in self.behind.get(name, []))
        else:
            return False
        return True

    def take_policy(self, policy: Policy) -> None:
        if policy.key in self.keys:
            self.leave_out("policies that stand again further down", policy.name)
        self.keys.add(policy.key)
        self.policies.append(policy)

    def take_template(self, template: workloads.Template) -> None:
        """A workload's template; a Job of a CronJob is that one's."""
        if not template.owner or template.owner[0] != "CronJob":
            self.templates.append(template)

    def take_service(self, service: services.Service) -> None:
        self.has_services = True
        self.listed_services[service.name] = service
        self.services.update((it, service.name) for it in service.own)
        self.balancers.update((it, service.name) for it in service.outer)

    def take_node(self, place: str, value: dict) -> None:
        """Further addresses of a node, beside those that its pods tell."""
        _, name = name_of(place, value)
        status = member(f"{place}: Node {name}", value, "status", dict, {})
        place = f"{place}: Node {name}: status"
        for number, it in enumerate(member(place, status, "addresses", list, [])):
            if not isinstance(it, dict):
                raise Bad(f"{place}: addresses[{number}] is no object")
            found = address(member(f"{place}: addresses[{number}]", it, "address", str, ""))
            if found:
                self.nodes[found] = name

    def leave_out(self, reason: str, name: str) -> None:
        self.left_out.setdefault(reason, []).append(name)

    def node_number(self, node: str, local: str) -> int:
        """The identity of a node, for an endpoint of the node `local`."""
        return HOST if node == local else API_SERVER if node in self.api_nodes else REMOTE_NODE

    def pod_at(self, found: str) -> typing.Optional[Pod]:
        """The pod that has an address, its first one or a further one."""
        return self.by_address.get(found)

    def number_of(self, found: str, local: str) -> typing.Optional[int]:
        """The identity of a node's address, or of the API server's, for an endpoint of the node `local`; or None."""
        if found in self.nodes:
            return self.node_number(self.nodes[found], local)
        return API_SERVER if found in self.api_addresses else None


def is_policy(value: dict) -> bool:
    api, kind = value["apiVersion"], value["kind"]
    return api == "cilium.io/v2" and kind in POLICY_KINDS or (api, kind) == (network.API, network.KIND)


def policy_of(place: str, value: dict) -> Policy:
    return network.NetworkPolicy(place, value) if value["kind"] == network.KIND else Policy(place, value)


def counted(count: int, one: str, many: str) -> str:
    return f"{count} {one if count == 1 else many}"


def left_out(cluster: Cluster, come: bool = False) -> typing.Iterator[str]:
    """What is said of what the verdicts lack, but for policies; where pods that come count, they aren't left out."""
    coming = {it.name for it in cluster.pods.values() if it.comes()} if come else ()
    for reason, names in cluster.left_out.items():
        names = [it for it in names if it not in coming]
        more = ", .." if len(names) > NAMED_MOST else ""
        if names:
            yield f"left out: {reason}: {len(names)} ({', '.join(names[:NAMED_MOST])}{more})"
    for (api, kind), count in sorted(cluster.unread.items()):
        yield f"left out: objects of a kind that isn't read: {count} {kind} ({api})"
    for name in sorted({it.namespace for it in cluster.live} - {*cluster.namespaces}):
        yield f"note: the namespace {name} isn't in the input, so its pods have none of its labels"


def lacks(cluster: Cluster) -> typing.Iterator[str]:
    """What is said of kinds of which the input has no object, in a line, or nothing."""
    none = [f"0 {many}" for kind, many in ASKED_FOR.items() if not cluster.kinds.get(kind)]
    if none:
        yield f"note: the state has {', '.join(none)}"
