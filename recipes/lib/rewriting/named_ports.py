"""Ports by name: the numbers that pods' containers give them.

The pods that a port is asked of are those of the subject coming in, and those of the peers going out (Kubernetes,
`NetworkPolicyPort`; Cilium, Network Policy, "Layer 4 Examples"). Where they differ in the number, an entry stands for
each number, for the pods that have it: such a pod has a label of the bridge's own for each of its named ports that some
policy asks about, which no selector of a user's names.
"""
from __future__ import annotations

import functools
import re
import typing

from ..pods import PORT_PREFIX
from ..policies import NAMESPACE_KEY, holds
from .work import Entry, Refused, Rule, Work, with_expressions

if typing.TYPE_CHECKING:
    from ..pods import Pod
    from ..policies import Policy

NAME = re.compile(r"(?=.*[a-z])[a-z0-9]+(-[a-z0-9]+)*")
LETTER = re.compile("[A-Za-z]")
PROTOCOLS = ("TCP", "UDP", "SCTP")
OF_NO_POD = "ports by name of peers that are no pods, which have none"
# The entities that have pods among them.
OF_PODS = ("all", "cluster")


def label(name: str, protocol: str, number: int) -> str:
    return f"{PORT_PREFIX}{name}.{protocol.lower()}.{number}"


def is_named(port: object) -> bool:
    return isinstance(port, str) and bool(LETTER.search(port))


def asked_by(policies: typing.Iterable) -> typing.Set[str]:
    """The names of ports that policies ask about."""
    return {name for policy in policies for name in names_in(policy)}


@functools.lru_cache(maxsize=None)
def names_in(policy: Policy) -> typing.Set[str]:
    """The names of ports that a policy asks about, looked for once for all states that have it."""
    items = [item for _, entry in policy.entries() for item in listed(entry.get("toPorts"))]
    return {it["port"].lower() for item in items for it in listed(item.get("ports")) if is_named(it.get("port"))}


def listed(value: object) -> typing.List[dict]:
    return [it for it in value if isinstance(it, dict)] if isinstance(value, list) else []


def labels_of(pod: Pod, names: typing.Collection[str]) -> typing.Dict[str, str]:
    """The labels of a pod for its ports of these names."""
    return {label(*it): "" for it in pod.ports if it[0] in names}


def rewrite(work: Work, entry: Entry, word: str) -> typing.List[Entry]:
    """The entry with its numbers, and one for each number of its names."""
    items = entry.value.get("toPorts") or []
    ports = [port for item in items for port in item.get("ports") or [] if is_named(port.get("port"))]
    if not ports:
        return [entry]
    kept = [{**item, "ports": left} for item in items for left in [[it for it in item["ports"] if it not in ports]] if left]
    found = [entry.with_value({**entry.value, "toPorts": kept})] if kept else []
    for port in ports:
        found += of_name(work, entry, word, port)
    return found or [entry.with_value({})]


def of_name(work: Work, entry: Entry, word: str, port: dict) -> typing.Iterator[Entry]:
    name, protocol = port["port"].lower(), str(port.get("protocol") or "ANY").upper()
    if not NAME.fullmatch(name) or len(name) > 15:
        raise Refused(f"bad-port at {work.path}")
    if protocol not in (*PROTOCOLS, "ANY"):
        raise Refused(f"bad-protocol at {work.path}")
    asked = PROTOCOLS if protocol == "ANY" else (protocol,)
    numbers = sorted({(it[1], it[2]) for pod in asked_of(work, word) for it in pod.ports if it[0] == name and it[1] in asked})
    if not numbers:
        work.lacks(f"no pod {'that it selects' if word == 'from' else 'of the state'} has a port of the name {name}")
    if numbers and word == "to" and not has_pods(entry.value):
        work.found.counted[OF_NO_POD] += 1
        numbers = []
    for protocol, number in numbers:
        value = {**entry.value, "toPorts": [{"ports": [{"port": str(number), "protocol": protocol}]}]}
        if word == "from":
            yield entry._replace(value=value, port_label=label(name, protocol, number))
        else:
            yield entry._replace(value=with_port(value, label(name, protocol, number)))


def asked_of(work: Work, word: str) -> list:
    """The pods that a port may be asked of: those of the subject, or of any peer."""
    pods, asked = work.state.cluster.ends, work.asked() or ()
    return pods if word == "to" else [it for it in pods if all(holds(one, it.labels) for one in asked)]


def has_pods(value: dict) -> bool:
    """Whether there are pods among the peers of an entry of egress: where it lists pods, or nobody at all."""
    is_every = not any(name.startswith("to") and name != "toPorts" for name in value)
    return is_every or bool(value.get("toEndpoints")) or any(it in OF_PODS for it in value.get("toEntities") or [])


def with_port(value: dict, key: str) -> dict:
    """An entry of egress whose peers are the pods among them with a port."""
    has = {"key": f"k8s:{key}", "operator": "Exists"}
    any_pod = {"key": f"k8s:{NAMESPACE_KEY}", "operator": "Exists"}
    peers = [with_expressions(it, [has]) for it in value.get("toEndpoints") or []]
    return {"toPorts": value["toPorts"], "toEndpoints": peers or [{"matchExpressions": [has, any_pod]}]}


def by_subject(rule: Rule) -> typing.List[Rule]:
    """The rule without the entries that only some pods of its subject are meant by, and a rule for each kind of these."""
    keys = sorted({it.port_label for entries in rule.sections.values() for it in entries if it.port_label})
    found = []
    for key in ["", *keys] if keys else []:
        sections = {name: [it for it in entries if it.port_label == key] for name, entries in rule.sections.items()}
        for name, entries in rule.sections.items():
            if not key and entries and not sections[name]:
                sections[name] = [entries[0]._replace(value={}, port_label="")]
        selector = with_expressions(rule.selector, [{"key": f"k8s:{key}", "operator": "Exists"}]) if key else rule.selector
        found.append(rule._replace(selector=selector, sections={name: it for name, it in sections.items() if it or not key}))
    return found or [rule]
