"""The rules of a policy of Cilium's: what is read of each, and what each becomes."""
from __future__ import annotations

import typing

from .. import unread
from ..policies import DIRECTIONS, is_isolating
from ..unread import SECTIONS, SHAPES, Unread
from . import clusters, entries, named_ports, requires
from .refusals import refused_by_cilium
from .work import Entry, Refused, Rule, Work

KNOWN = {*SHAPES["rule"], "nodeSelector"}


def written(work: Work) -> typing.List[typing.Tuple[int, dict]]:
    """The rules of a document with their numbers; Refused where the document is none that the API server keeps."""
    document = work.policy.document
    listed: typing.List[typing.Tuple[str, typing.Any]] = []
    if document.get("spec") is not None:
        listed.append(("spec", document["spec"]))
    more: typing.Any = document.get("specs")
    if more is not None and not isinstance(more, list):
        raise Refused("wrong-shape at specs")
    listed += [(f"specs[{at}]", it) for at, it in enumerate(more or [])]
    if not listed:
        raise Refused("no-spec at spec")
    for path, rule in listed:
        if not isinstance(rule, dict):
            raise Refused(f"wrong-shape at {path}")
    return [(number, {**rule, "": path}) for number, (path, rule) in enumerate(listed)]


def rewritten(work: Work, number: int, rule: dict) -> typing.List[Rule]:
    """What a rule becomes; nothing where it selects no pod, or nobody knows whom."""
    path = rule.pop("")
    work.subject = None
    if rule.get("nodeSelector") is not None:
        if rule.get("endpointSelector") is not None:
            raise Refused(f"nodeSelector beside endpointSelector at {path}")
        work.found.counted["rules of hosts, which select no pod"] += 1
        return []
    if rule.get("endpointSelector") is None:
        raise Refused(f"no-selector at {path}")
    if not subject(work, rule, path):
        return []
    for name in sorted(rule):
        if rule[name] is not None and name not in KNOWN:
            work.rules_are_unsure(rule, "unknown-member", f"{path}.{name}", [rule])
    rest = {name: it for name, it in rule.items() if name in KNOWN and name not in (*SECTIONS, "endpointSelector") and it is not None}
    check_rest(work, rule, rest, path)
    found = Rule(number, clusters.selector(work, rule["endpointSelector"]), sections(work, number, rule, path), rest)
    return [it for one in named_ports.by_subject(found) for it in requires.by_subject(work, one)]


def subject(work: Work, rule: dict, path: str) -> bool:
    """Reads whom a rule selects; whether that can be told."""
    selector, path = rule["endpointSelector"], f"{path}.endpointSelector"
    try:
        unread.walk(selector, "selector", path)
        unread.judge_selector(selector, path)
    except Unread as found:
        if refused_by_cilium(found.what):
            raise Refused(f"{found.what} at {found.path}")
        directions = frozenset(it for it in DIRECTIONS if rule.get(it) or rule.get(f"{it}Deny") or is_isolating(rule, it))
        work.is_unsure(rule, found.what, found.path, directions=directions, isolates=True)
        return False
    work.subject = clusters.selector(work, selector)
    return True


def check_rest(work: Work, rule: dict, rest: dict, path: str) -> None:
    """The members of a rule that are passed on, or left out where they aren't read."""
    for name in sorted(rest):
        try:
            unread.walk(rest[name], SHAPES["rule"][name], f"{path}.{name}")
        except Unread as found:
            if refused_by_cilium(found.what):
                raise Refused(f"{found.what} at {found.path}")
            work.rules_are_unsure(rule, found.what, found.path, [rule])
            del rest[name]


def sections(work: Work, number: int, rule: dict, path: str) -> typing.Dict[str, typing.List[Entry]]:
    """The sections of a rule with their entries rewritten; one that isn't empty stays so, since it isolates."""
    found: typing.Dict[str, typing.List[Entry]] = {}
    for section in SECTIONS:
        listed = rule.get(section)
        if listed is None:
            continue
        if not isinstance(listed, list) or not all(isinstance(it, dict) for it in listed):
            raise Refused(f"wrong-shape at {path}.{section}")
        work.direction, work.denies = section[: -len("Deny")] if section.endswith("Deny") else section, section.endswith("Deny")
        found[section] = []
        for at, value in enumerate(listed):
            # (an entry that a NetworkPolicy's becomes has the number of that one)
            at = value.get("", at)
            work.place = f"{work.policy.name}#{number}.{section}[{at}]"
            work.path = f"{path}.{section}[{at}]"
            found[section] += entries.rewritten(work, at, {name: it for name, it in value.items() if name})
    return found
