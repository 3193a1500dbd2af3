"""Manifests that come: which objects they have, and the state with them and without what is removed."""
from __future__ import annotations

import typing

from . import network, services, workloads
from .cluster import Cluster, is_policy
from .policies import CLUSTER_WIDE, NAMESPACED, POLICY_KINDS
from .reading import Bad, objects, text_of
from .state import State

SHORT = {"cnp": NAMESPACED, "ccnp": CLUSTER_WIDE, "netpol": network.KIND}
KINDS = (*POLICY_KINDS, network.KIND)
WITHOUT_NAMESPACE = ("Namespace", CLUSTER_WIDE, "CiliumCIDRGroup")
# What counts of manifests; other kinds are skipped.
READ = {
    ("v1", "Namespace"),
    ("v1", "Pod"),
    ("v1", "Service"),
    services.SLICES,
    services.ENDPOINTS,
    *services.GROUPS,
    *workloads.KINDS,
    *(("cilium.io/v2", it) for it in POLICY_KINDS),
    (network.API, network.KIND),
}
Objects = typing.List[typing.Tuple[str, dict]]
# A policy's kind, namespace and name.
Key = typing.Tuple[str, str, str]


def key_of(value: dict) -> Key:
    """An object's kind, namespace and name."""
    told = value.get("metadata")
    metadata: dict = told if isinstance(told, dict) else {}
    namespace = "" if value["kind"] in WITHOUT_NAMESPACE else str(metadata.get("namespace") or "default")
    return value["kind"], namespace, str(metadata.get("name") or "")


def named(key: tuple) -> str:
    return "/".join(it for it in key[1:] if it)


class Manifests:
    """The objects of files, by their keys, and the kinds that were skipped."""

    def __init__(self, names: typing.Iterable[str], read: typing.Callable[[str], str] = text_of):
        """`read` gives the text of a name."""
        self.objects: typing.Dict[Key, typing.Tuple[str, dict]] = {}
        self.skipped: typing.Dict[tuple, int] = {}
        for name in names:
            count = len(self.objects)
            for place, value in objects(read(name), name, f"{name}: document"):
                self.take(place, value)
            if len(self.objects) == count:
                raise Bad(f"--add {name}: nothing in it is read; {', '.join(self.said()) or 'it has no object'}")

    def take(self, place: str, value: dict) -> None:
        kind = (value["apiVersion"], value["kind"])
        if kind not in READ:
            self.skipped[kind] = self.skipped.get(kind, 0) + 1
            return
        key = key_of(value)
        if key in self.objects:
            raise Bad(f"{place}: {named(key)} comes twice, and one of them alone can be meant")
        self.objects[key] = (place, value)

    def said(self) -> typing.Iterator[str]:
        for (api, kind), count in sorted(self.skipped.items()):
            yield f"skipped: {count} {kind} ({api})"


def named_by(text: str) -> Key:
    """The key of a policy that a text such as `cnp/pay/web` names; Bad where it has another form."""
    word, *names = text.split("/")
    kind = {**SHORT, **{it.lower(): it for it in KINDS}}.get(word.lower())
    names = ["", *names] if kind == CLUSTER_WIDE else names
    if kind is None or len(names) != 2:
        raise Bad(f"--remove {text}: it is {NAMESPACED}/NAMESPACE/NAME, {CLUSTER_WIDE}/NAME or {network.KIND}/NAMESPACE/NAME; cnp, ccnp and netpol do for the kinds")
    return kind, names[0], names[1]


def removed(before: State, texts: typing.Iterable[str]) -> typing.List[Key]:
    """The keys of the policies that texts such as `cnp/pay/web` name."""
    found: typing.List[Key] = []
    for text in texts:
        key = named_by(text)
        if key not in before.policies:
            listed = sorted(named(it) for it in before.policies if it[0] == key[0])
            raise Bad(f"--remove {text}: the state has no such policy; of its kind it has {', '.join(listed) or 'none'}")
        if key in found:
            raise Bad(f"--remove {text}: {before.policies[key].name} goes twice")
        found.append(key)
    return found


def after(before: State, manifests: Manifests, gone: typing.Collection[tuple]) -> State:
    """The state with the manifests, which replace what has their names, and without the policies of these keys."""
    given, coming = [], dict(manifests.objects)
    for place, value in before.cluster.given:
        key = key_of(value)
        if key in manifests.objects:
            # (what stands twice is replaced once)
            given += [coming.pop(key)] if key in coming else []
        elif key not in gone:
            given.append((place, value))
    given += coming.values()
    of_policies = before.with_policies(given) if all(is_policy(it) for _, it in manifests.objects.values()) else None
    if of_policies is not None:
        return of_policies
    relabelled = [workloads.Template(*it) for it in manifests.objects.values() if (it[1]["apiVersion"], it[1]["kind"]) in workloads.KINDS]
    cluster = Cluster.of(given, before.cluster.choice, before.cluster.cluster, relabelled)
    found = State(cluster, before.names_of_ports)
    if found.names_of_ports != before.names_of_ports:
        before.settle(found.names_of_ports)
    return found
