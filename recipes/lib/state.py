"""A cluster's state: its objects, its policies as they are written, and those as policyd is given them."""
from __future__ import annotations

import typing

from . import rewriting
from .cluster import Cluster
from .rewriting import Names, Unsure, named_ports, requires

if typing.TYPE_CHECKING:
    from .deciding import Deciding
    from .labels import Filter


class State:
    """Objects of a cluster with the policies rewritten.

    `names` has further names of ports that pods are told apart by, as another state's policies ask about them.
    """

    def __init__(self, cluster: Cluster, names: typing.Iterable[str] = (), known: typing.Optional[typing.Mapping[typing.Tuple[str, str, str], rewriting.Rewritten]] = None):
        """`known` has policies as they were rewritten, where all that they are judged in is the same."""
        self.cluster, self.known = cluster, known or {}
        # The policies as they are written, by their keys.
        self.policies = {it.key: it for it in cluster.policies}
        self.has_own_labels = False
        self.settle(names)

    def settle(self, names: typing.Iterable[str]) -> None:
        """Gives pods the labels of the bridge's own, and rewrites the policies."""
        self.names_of_ports = named_ports.asked_by(self.policies.values()) | {*names}
        self.requirements = requires.gather(self.policies.values())
        self.required: typing.Set[str] = set()
        for pod in self.cluster.ends if self.has_own_labels or self.names_of_ports or self.requirements else ():
            self.cluster.derive(pod)
            required = requires.label_of(self.requirements, pod.labels)
            self.required.update(required.values())
            pod.add_labels({**named_ports.labels_of(pod, self.names_of_ports), **required})
        self.has_own_labels = bool(self.names_of_ports or self.requirements)
        self.rewritten = {key: self.known_of(it) or rewriting.rewrite(it, self) for key, it in self.policies.items()}
        self.places, self.all_marks, self.all_unsure, self.all_names = {}, {}, [], []
        for it in self.rewritten.values():
            self.places.update(it.places)
            self.all_marks.update(it.marks)
            self.all_unsure += it.unsure
            self.all_names += it.names
        self.all_unsure += [of_deciding(it) for it in self.cluster.deciding]

    def known_of(self, policy: typing.Any) -> typing.Optional[rewriting.Rewritten]:
        found = self.known.get(policy.key)
        return found if found is not None and found.policy is policy else None

    def with_policies(self, given: list) -> typing.Optional[State]:
        """The state of these objects, which are its own but for policies; None where policies tell pods apart that else are alike."""
        cluster = self.cluster.with_policies(given)
        if self.has_own_labels or named_ports.asked_by(cluster.policies) or requires.gather(cluster.policies):
            return None
        return State(cluster, known=self.rewritten)

    def around(self) -> str:
        """What policies' entries speak of beside pods; it has the same text where it is the same."""
        cluster = self.cluster
        services = [(it.name, it.namespace, it.labels, it.selector, it.is_name) for it in cluster.listed_services.values()]
        return repr([services, cluster.behind, cluster.groups, self.requirements])

    @property
    def ends(self) -> list:
        """The pods that can be ends of connections, and what stands for those that come."""
        return self.cluster.ends

    def parts(self) -> list:
        """The policies that policyd is given, in their order. Each has `line`, `deletion()`, `selects()` and `whole`."""
        return [part for it in self.rewritten.values() for part in it.parts]

    def place(self, text: str) -> str:
        """A place of an answer, in the policy as it was written."""
        return self.places.get(text, text)

    def marks(self, place: str) -> typing.Tuple[str, ...]:
        """The marks of an entry, by its place as it was written."""
        return self.all_marks.get(place, ())

    def unsure(self, labels: typing.Sequence[str], direction: str) -> typing.List[Unsure]:
        """What isn't read and may change what pods with the labels may receive, or send."""
        return [it for it in self.all_unsure if it.touches(labels, direction)]

    def names(self, labels: typing.Sequence[str], direction: str) -> typing.List[Names]:
        """The unknown addresses that pods with the labels may receive from, or send to."""
        return [it for it in self.all_names if it.touches(labels, direction)]


def of_deciding(found: Deciding) -> Unsure:
    """An object that decides beside policies, as what isn't read of one."""
    return Unsure(
        found.name,
        "it decides beside policies",
        "",
        directions=found.directions(),
        isolates=not found.overrides,
        overrides=found.overrides,
        selector=found.selects,
        said=repr(found.spec),
    )


def read(text: str, choice: Filter, cluster: str = "default", whole: str = "standard input", part: str = "document") -> State:
    """The state of a text that kubectl printed; Bad where an object of it is bad."""
    return State(Cluster(text, choice, cluster, whole, part))


def after(before: State, added: typing.Sequence[str], removed: typing.Sequence[str]) -> State:
    """The state with the manifests of files, which replace what has their names, and without what is named.

    `added` has names of files, `removed` texts such as `cnp/pay/web`. Bad where one of them doesn't fit the state. The
    pods of the state before are told apart by the ports that the policies which come ask about, too.
    """
    from . import change

    return change.of_files(before, added, removed).after
