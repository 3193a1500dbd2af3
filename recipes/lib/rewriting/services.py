"""Services as peers: the pods of their selectors, or the addresses behind those that have none.

Cilium, Network Policy, 'Services based'. A reference without a namespace means the Services of every one (profile).
"""
from __future__ import annotations

import typing

from ..addresses import known, written
from ..policies import NAMESPACE_KEY, holds, requirements
from ..unread import Unread
from .work import Entry, Work

if typing.TYPE_CHECKING:
    from ..services import Service

# What isn't read where the state has no Service at all: most likely nobody asked for them.
WITHOUT = "toServices without a Service in the state"


def rewrite(work: Work, entry: Entry, word: str) -> typing.List[Entry]:
    """An entry over the selectors of its Services, and one over the addresses of those without."""
    if "toServices" not in entry.value:
        return [entry]
    value = dict(entry.value)
    listed = value.pop("toServices")
    if not listed:
        return [entry.with_value({"toEndpoints": [], **value})]
    found = [it for one in listed for it in meant(work, one)]
    pods = [of_pods(it) for it in found if it.selector]
    behind = work.state.cluster.behind
    addresses = [written(known(one)) for it in found if not it.selector and not it.is_name for one in behind.get(it.name, [])]
    for it in found:
        if not it.selector and not it.is_name and it.name not in behind:
            work.lacks(f"the Service {it.name} has no selector, and no EndpointSlice of it is in the state")
    made: typing.List[dict] = [{**value, "toEndpoints": pods}] if pods else []
    made += [{**value, "toCIDR": addresses}] if addresses else []
    return [entry.with_value(it) for it in made or [{}]]


def of_pods(service: Service) -> dict:
    labels = {f"k8s:{key}": it for key, it in service.selector.items()}
    return {"matchLabels": {**labels, f"k8s:{NAMESPACE_KEY}": service.namespace}}


def meant(work: Work, item: dict) -> list:
    """The Services of the state that an item means."""
    if item.get("k8sService"):
        return by_name(work, item["k8sService"])
    return by_labels(work, item.get("k8sServiceSelector") or {})


def by_name(work: Work, item: dict) -> list:
    name, namespace = item.get("serviceName"), item.get("namespace")
    cluster = work.state.cluster
    found = [it for it in cluster.listed_services.values() if it.name == f"{namespace or it.namespace}/{name}"]
    if not found and not cluster.has_services:
        raise Unread(WITHOUT, work.path)
    if not found:
        work.lacks(f"no Service {namespace or '*'}/{name} is in the state")
    return found


def by_labels(work: Work, item: dict) -> list:
    namespace, cluster = item.get("namespace"), work.state.cluster
    if not cluster.has_services:
        raise Unread(WITHOUT, work.path)
    asked = [("k8s", *it[1:]) for it in requirements(item.get("selector") or {}, "")]
    found = []
    for it in cluster.listed_services.values():
        labels = [f"k8s:{key}={text}" for key, text in it.labels.items()]
        if namespace in (None, "", it.namespace) and all(holds(one, labels) for one in asked):
            found.append(it)
    if not found:
        work.lacks("its Services by labels are none of the state")
    return found
