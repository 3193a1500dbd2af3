"""Policies as kubectl prints them: what policyd is given of one, and which labels its rules select."""
from __future__ import annotations

import typing

from .reading import line_of, name_of
from .unread import SECTIONS, why_unread

NAMESPACED, CLUSTER_WIDE = POLICY_KINDS = ("CiliumNetworkPolicy", "CiliumClusterwideNetworkPolicy")
NAMESPACE_KEY = "io.kubernetes.pod.namespace"
DIRECTIONS = ("ingress", "egress")
OPERATORS = ("In", "NotIn", "Exists", "DoesNotExist")
# What is asked of labels: source, key, operator and values.
Asked = typing.Tuple[str, str, str, typing.Sequence[str]]


class Policy:
    """A policy, and its document as policyd is given it: without `status`, and with no other metadata than its names."""

    def __init__(self, place: str, value: dict):
        metadata, name = name_of(place, value)
        kept = {it: metadata[it] for it in ("name", "namespace") if metadata.get(it) is not None}
        # (the object as it was given, by which it is known again where it stands in another state)
        self.value = value
        self.place, self.document = place, {**value, "metadata": kept}
        self.document.pop("status", None)
        self.kind = value["kind"]
        self.namespace = "" if self.kind == CLUSTER_WIDE else str(kept.get("namespace", "default"))
        self.key = (self.kind, self.namespace, name)
        self.name = name if self.kind == CLUSTER_WIDE else f"{self.namespace}/{name}"
        self.line = line_of(place, {"op": "apply", "policy": self.document})
        self.whole = self
        # Whether rewriting has looked at all of it, so that nothing is left to refuse.
        self.is_read = False

    def why_unread(self) -> typing.Optional[typing.Tuple[str, str]]:
        """What policyd doesn't read in it, with its place, or None."""
        return None if self.is_read else why_unread(self.document)

    def rules(self) -> typing.List[dict]:
        """Its rules that are objects."""
        listed = self.document.get("specs")
        found = [self.document.get("spec"), *(listed if isinstance(listed, list) else [])]
        return [it for it in found if isinstance(it, dict)]

    def parts(self) -> typing.List[Policy]:
        """Its rules, each by itself as a policy of the same names."""
        rules, found = self.rules(), []
        for rule in rules if len(rules) > 1 else []:
            part = Policy(self.place, {**{key: it for key, it in self.document.items() if key != "specs"}, "spec": rule})
            part.whole = self
            found.append(part)
        return found or [self]

    def subjects(self) -> typing.List[typing.Optional[typing.List[Asked]]]:
        """What its rules ask of the labels that they select, but for those of hosts; None for one that isn't read."""
        return [asked_of_subject(it, self.namespace) for it in self.rules() if not is_of_hosts(it)]

    def selects(self, labels: typing.Sequence[str]) -> bool:
        """Whether some rule selects the labels, as far as its subject is read; one that isn't counts as selecting."""
        return any(asked is None or all(holds(it, labels) for it in asked) for asked in self.subjects())

    def entries(self) -> typing.Iterator[typing.Tuple[str, dict]]:
        """The entries of its rules, each with its direction."""
        for rule in self.rules():
            for section in SECTIONS:
                for entry in listed(rule, section):
                    if isinstance(entry, dict):
                        yield section.removesuffix("Deny"), entry

    def directions(self) -> typing.Set[str]:
        """The directions in which it has a section that isn't empty or isolates without one, so that it may decide."""
        of_sections = {section.removesuffix("Deny") for rule in self.rules() for section in SECTIONS if listed(rule, section)}
        return of_sections | self.isolates()

    def isolates(self) -> typing.Set[str]:
        """The directions in which it isolates: what its rules say of that, or where one has a section that isn't empty."""
        return {it for rule in self.rules() for it in DIRECTIONS if is_isolating(rule, it)}

    def deletion(self) -> str:
        kind, namespace, name = self.key
        return line_of("", {"op": "delete", "kind": kind, **({"namespace": namespace} if namespace else {}), "name": name})

    def names_cluster(self) -> bool:
        """Whether it speaks of the entity `cluster`."""
        return any("cluster" in (it.get(name) or []) for _, it in self.entries() for name in ("fromEntities", "toEntities"))


def listed(rule: dict, section: str) -> list:
    found = rule.get(section)
    return found if isinstance(found, list) else []


def is_isolating(rule: dict, direction: str) -> bool:
    """Whether a rule isolates in a direction: Cilium, `enableDefaultDeny` of the API."""
    said = rule.get("enableDefaultDeny")
    said = said.get(direction) if isinstance(said, dict) else None
    return said if isinstance(said, bool) else bool(listed(rule, direction) or listed(rule, f"{direction}Deny"))


def is_of_hosts(rule: dict) -> bool:
    return rule.get("nodeSelector") is not None and rule.get("endpointSelector") is None


def asked_of_subject(rule: dict, namespace: str) -> typing.Optional[typing.List[Asked]]:
    """What a rule asks of the labels that it selects, or None where that isn't read."""
    try:
        found = requirements(rule["endpointSelector"], namespace)
        return found if all(map(is_read, found)) else None
    except (AttributeError, KeyError, TypeError, ValueError):
        return None


def is_read(asked: Asked) -> bool:
    """Whether something that is asked has texts and an operator that is known."""
    source, key, operator, values = asked
    return operator in OPERATORS and all(isinstance(it, str) for it in (key, *values))


def requirements(selector: dict, namespace: str) -> typing.List[Asked]:
    """What a subject asks of labels: source, key, operator and values. A namespaced one is bound to its namespace."""
    asked: typing.List[Asked] = [(*source_and_key(key), "In", [value]) for key, value in (selector.get("matchLabels") or {}).items()]
    for it in selector.get("matchExpressions") or []:
        asked.append((*source_and_key(it["key"]), it["operator"], it.get("values") or []))
    if namespace and not any(it[:2] == ("reserved", "init") for it in asked):
        count = len(selector.get("matchLabels") or {})
        of_namespace = lambda it: it[1] == NAMESPACE_KEY and it[0] in ("k8s", "any")
        asked = [it for at, it in enumerate(asked) if at >= count or not of_namespace(it)]
        asked.append(("k8s", NAMESPACE_KEY, "In", [namespace]))
    return asked


def source_and_key(key: str) -> typing.Tuple[str, str]:
    source, colon, rest = key.partition(":")
    return (source, rest) if colon else ("any", key)


def holds(asked: Asked, labels: typing.Sequence[str]) -> bool:
    source, key, operator, values = asked
    heads = [f"{it}:{key}=" for it in ([source] if source != "any" else ["k8s", "reserved"])]
    found = [it[len(head) :] for it in labels for head in heads if it.startswith(head)]
    is_in = any(it in values for it in found)
    return {"In": is_in, "NotIn": not is_in, "Exists": bool(found), "DoesNotExist": not found}[operator]
