"""What slips are judged on: a state's policies in Cilium's terms, and its pods by their labels."""
from __future__ import annotations

import functools
import typing

from ..addresses import NETWORKS, parsed
from ..label_index import LabelIndex
from ..pods import CLUSTER_KEY, CORE_CLUSTER, NAMESPACE_KEY, OWN_PREFIX
from ..policies import Asked as One
from ..policies import requirements
from ..rewriting import clusters, network, rules
from ..rewriting.results import Rewritten
from ..rewriting.requires import says_namespace
from ..rewriting.work import Refused, Work
from ..sides import ANY_OTHER
from ..unread import SECTIONS

if typing.TYPE_CHECKING:
    from ..pods import Pod
    from ..policies import Policy
    from ..state import State

Asked = typing.Tuple[One, ...]


class Written(typing.NamedTuple):
    """An entry as it is written, in Cilium's terms."""

    place: str
    rule: int
    section: str
    value: dict

    @property
    def word(self) -> str:
        return "from" if self.section.startswith("ingress") else "to"

    @property
    def denies(self) -> bool:
        return self.section.endswith("Deny")


class Ground:
    """A state's pods by their labels, and its policies' entries."""

    def __init__(self, state: State, only: typing.Optional[typing.Collection[typing.Tuple[str, str, str]]] = None):
        """`only` has the keys of the policies whose slips are asked about; None stands for all."""
        self.state, self.cluster, self.only = state, state.cluster, only
        # (selectors are rewritten for no policy)
        self.work = Work(None, state, Rewritten(None))  # type: ignore[arg-type]
        self.pods = [it for it in state.ends if it.stands_for != ANY_OTHER]
        by_labels: typing.Dict[tuple, list] = {}
        for it in state.ends:
            by_labels.setdefault(it.labels, []).append(it)
        self.sets = list(by_labels)
        self.of_set = list(by_labels.values())
        self.index = LabelIndex(self.sets)
        # What entries cover, worked out where it is asked.
        self.covers: typing.Optional[list] = None

    def matching(self, asked: Asked) -> typing.FrozenSet[int]:
        """The numbers of the sets of labels of which all that is asked is so."""
        return self.index.matching(asked)

    @functools.cached_property
    def addresses(self) -> typing.Dict[str, typing.Dict[int, typing.List[int]]]:
        """The addresses of the cluster by whose they are and by their families, ascending."""
        cluster = self.cluster
        pods = [it for pod in cluster.live for it in pod.addresses]
        named = {"pods": pods, "nodes": {*cluster.nodes, *cluster.api_addresses}, "services": cluster.services, "balancers": cluster.balancers}
        return {name: by_family(listed) for name, listed in named.items()}

    def pods_of(self, sets: typing.Iterable[int]) -> list:
        """The pods of sets of labels, but for those that stand for any other pod of a namespace."""
        return [pod for at in sorted(sets) for pod in self.of_set[at] if pod.stands_for != ANY_OTHER]

    @functools.lru_cache(maxsize=None)
    def rules(self, policy: Policy) -> typing.List[typing.Tuple[int, dict]]:
        """A policy's rules in Cilium's terms, with their numbers."""
        work = Work(policy, self.state, Rewritten(policy))
        try:
            listed = network.as_rules(work) if network.is_network(policy.document) else rules.written(work)
        except Refused:
            return []
        return [(number, {name: it for name, it in rule.items() if name}) for number, rule in listed if rule.get("endpointSelector") is not None]

    @functools.lru_cache(maxsize=None)
    def entries(self, policy: Policy) -> typing.List[Written]:
        """A policy's entries in Cilium's terms."""
        found = []
        for number, rule in self.rules(policy):
            for section in SECTIONS:
                for at, value in enumerate(rule.get(section) or []):
                    place = f"{policy.name}#{number}.{section}[{value.get('', at)}]"
                    found.append(Written(place, number, section, {name: it for name, it in value.items() if name}))
        return found

    def subject(self, policy: Policy, rule: dict) -> Asked:
        """What a rule asks of its pods."""
        return tuple(requirements(clusters.selector(self.work, rule["endpointSelector"]), policy.namespace))

    def peer(self, policy: Policy, selector: dict) -> typing.Tuple[Asked, bool]:
        """What a selector asks of a peer, and whether it is bound to the policy's namespace without saying so."""
        selector = clusters.selector(self.work, selector)
        asked, own = requirements(selector, ""), ("k8s", NAMESPACE_KEY, "In", [policy.namespace])
        if network.is_network(policy.document) and own in asked:
            return tuple([*(it for it in asked if it != own), own]), True
        found = [{"key": f"{it[0]}:{it[1]}" if it[0] != "any" else it[1]} for it in asked]
        is_bound = bool(policy.namespace) and not any(says_namespace(it) for it in found)
        if is_bound:
            asked.append(own)
        return tuple(asked), is_bound

    def written(self, asked: Asked) -> str:
        """What is asked, as a selector's parts are said in a line; the cluster's name is its own again."""
        name = {CORE_CLUSTER: self.cluster.cluster, clusters.ANOTHER: CORE_CLUSTER}
        back = lambda it: (*it[:3], [name.get(text, text) for text in it[3]] if it[1] == CLUSTER_KEY else it[3])
        return ", ".join(one(back(it)) for it in asked) or "every label"

    def all_labels(self, pod: Pod) -> typing.Tuple[str, ...]:
        """Every label of a pod, those that are no part of identities too."""
        labels = {**pod.own, NAMESPACE_KEY: pod.namespace, CLUSTER_KEY: CORE_CLUSTER}
        labels.update({f"{OWN_PREFIX}namespace.labels.{key}": it for key, it in self.cluster.namespaces.get(pod.namespace, {}).items()})
        return tuple(f"k8s:{key}={it}" for key, it in labels.items())


def is_reserved(asked: Asked) -> bool:
    """Whether something is asked of a label of source reserved, which no pod has."""
    return any(it[0] == "reserved" for it in asked)


def one(asked: tuple) -> str:
    source, key, operator, values = asked
    key = key if source in ("any", "k8s") else f"{source}:{key}"
    if operator in ("In", "NotIn"):
        equals = "=" if operator == "In" else "!="
        return f"{key}{equals}{'|'.join(values)}"
    return key if operator == "Exists" else f"no {key}"


def by_family(addresses: typing.Iterable[str]) -> typing.Dict[int, typing.List[int]]:
    """The numbers of addresses, ascending, of each family."""
    found = [it for it in map(parsed, addresses) if it is not None]
    return {family: sorted(int(it) for it in found if it.version == family) for family in NETWORKS}
