"""The cluster's objects, asked of kubectl: read only, and with what it wouldn't give told."""
from __future__ import annotations

import json
import re
from typing import Optional

from lib.reading import Bad

from . import children
from .progress import Progress

# Each kind that is asked for, with whether answers can be given without it.
KINDS = {
    "namespaces": False,
    "pods": False,
    "services": True,
    "nodes": True,
    "networkpolicies.networking.k8s.io": True,
    "ciliumnetworkpolicies.cilium.io": True,
    "ciliumclusterwidenetworkpolicies.cilium.io": True,
}
# Beside these, where the bridge reads them.
MORE = (
    "endpointslices.discovery.k8s.io",
    "ciliumcidrgroups.cilium.io",
    "deployments.apps",
    "statefulsets.apps",
    "daemonsets.apps",
    "jobs.batch",
    "cronjobs.batch",
    "adminnetworkpolicies.policy.networking.k8s.io",
    "baselineadminnetworkpolicies.policy.networking.k8s.io",
    "clusternetworkpolicies.policy.networking.k8s.io",
)
ALL_NAMESPACES = "-A"
ABSENT = re.compile(r"the server doesn't have a resource type|could not find the requested resource|no matches for kind", re.I)


def words_for(kind: str, context: Optional[str]) -> list[str]:
    """The words of a command that reads all objects of a kind."""
    return ["kubectl", *(["--context", context] if context else []), "get", kind, ALL_NAMESPACES, "-o", "json"]


def asked(context: Optional[str], progress: Progress) -> tuple[str, list[str]]:
    """A list of all objects, as JSON, and what is said of those that kubectl didn't give; Bad where it gives no pods."""
    items: list[dict] = []
    notes: list[str] = []
    kinds = [*KINDS, *MORE]
    progress.begin("asking kubectl", len(kinds))
    for kind in kinds:
        found, why = one(kind, context, progress)
        if why and not KINDS.get(kind, True):
            raise Bad(f"kubectl gave no {kind}: {why}")
        items += found
        notes += [f"kubectl gave no {kind}: {why}"] if why and (kind in KINDS or not ABSENT.search(why)) else []
        progress.step()
    progress.end()
    return json.dumps({"apiVersion": "v1", "kind": "List", "items": items}), notes


def one(kind: str, context: Optional[str], progress: Progress) -> tuple[list[dict], str]:
    """The objects of a kind, and why there are none where kubectl gave no answer."""
    try:
        # (a plugin of kubectl may ask for a password, so it keeps the terminal)
        done = children.run(words_for(kind, context), tick=progress.tick, start_new_session=False)
    except OSError as error:
        raise Bad(f"kubectl can't be run: {error.strerror}. Name a file by --state, or - for standard input")
    if done.status:
        said = done.err.decode(errors="replace").strip().splitlines()
        return [], (said[-1] if said else done.said("it")).removeprefix("error: ")
    try:
        value = json.loads(done.out)
        return named(value), ""
    except (ValueError, KeyError, TypeError, AttributeError) as error:
        return [], f"what it printed is no list of objects: {error}"


def named(value: dict) -> list[dict]:
    """The items of a list; those of a list of one kind are given their kind."""
    kind = value["kind"]
    own = {} if kind == "List" else {"apiVersion": value["apiVersion"], "kind": kind[: -len("List")]}
    return [{**own, **it} for it in value["items"]]


def saved(text: str, name: str) -> None:
    """Keeps what was asked in a file."""
    try:
        with open(name, "w") as file:
            file.write(text)
    except OSError as error:
        raise Bad(f"--save {name}: {error.strerror}")
