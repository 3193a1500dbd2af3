"""Rows over the three made clusters: by hand, and packet by packet against the model."""
import random

from . import judged
from .cilium import World
from .made import SIZES, cluster, number_of_http
from .objects import app, policy, ports
from .random_states import has, packet

ENTITIES = ["remote-node", "kube-apiserver", "ingress", "health", "init", "unmanaged"]
PACKETS = 150


def names(listed):
    return sorted(it.get("pod") or it.get("pods") or it.get("cidr") or it.get("entity") or it.get("name") for it in listed)


def shown(rows):
    return sorted((names(row["from"]), names(row["to"]), row["ports"], row["before"], row["after"], row.get("marks", [])) for row in rows)


def tcp(number):
    return [{"protocols": ["TCP"], "ranges": [[number, number]]}]


EVERY = [{"protocols": ["TCP", "UDP", "SCTP"], "ranges": [[0, 65535]]}]
DB_OUT = policy("team0/worker-to-db", {"endpointSelector": app("worker"), "egress": [{"toEndpoints": [app("db")], "toPorts": ports("pg")}]})
DB_IN = policy("team0/db-from-worker", {"endpointSelector": app("db"), "ingress": [{"fromEndpoints": [app("worker")], "toPorts": ports("pg")}]})
OF_TEAM = lambda name, team: app(name, **{"k8s:io.kubernetes.pod.namespace": f"team{team}"})
WEB_OUT = policy("team0/web-to-team1", {"endpointSelector": app("web"), "egress": [{"toEndpoints": [OF_TEAM("web", 1)], "toPorts": ports("http")}]})
WEB_IN = policy("team1/web-from-team0", {"endpointSelector": app("web"), "ingress": [{"fromEndpoints": [OF_TEAM("web", 0)], "toPorts": ports("http")}]})


def pods(items, team, name):
    """The pods of an app that are there, by name."""
    found = [it["metadata"] for it in items if it["kind"] == "Pod" and it["status"]["phase"] == "Running"]
    return sorted(f"{it['namespace']}/{it['name']}" for it in found if it["namespace"] == f"team{team}" and it["labels"].get("app") == name)


def compared(told, name, items, made, new, gone=()):
    """Packets of random ends by the model, before and after, against the rows."""
    rows, pick = judged.rows_of(made), random.Random(len(items))
    key = lambda it: (it["kind"], it["metadata"].get("namespace"), it["metadata"]["name"])
    without = {*map(key, new), *gone}
    worlds = World(items), World([*(it for it in items if key(it) not in without), *new])
    live = sorted(it.name for it in made.before.cluster.live)
    busy = sorted(it for it in live if it.startswith(("team0/", "team1/", "kube-system/")))
    for sent in (packet(pick, pick.choice([live, busy])) for _ in range(PACKETS)):
        before, after = (it.passes(*sent) for it in worlds)
        got = [(row["before"] == "allowed", row["after"] == "allowed") for row in rows if has(row, sent, worlds)]
        told(f"{name}: {sent}", got, [(before, after)] if before != after else [])
    return rows


def of_size(size):
    def check(told):
        items = cluster(size)
        state = judged.read(items)
        told("how many pods", len(state.cluster.live), size)
        told("what isn't read", ([str(it) for it in state.all_unsure], [it.policy.name for it in state.rewritten.values() if it.refused]), ([], []))
        # one half alone opens nothing
        told("without the other half", judged.rows_of(judged.changed(state, [DB_OUT])), [])
        rows = compared(told, "both halves", items, judged.changed(state, [DB_OUT, DB_IN]), [DB_OUT, DB_IN])
        told("both halves", shown(rows), [(pods(items, 0, "worker"), pods(items, 0, "db"), tcp(5432), "denied-by-default", "allowed", [])])
        rows = compared(told, "by name", items, judged.changed(state, [WEB_OUT, WEB_IN]), [WEB_OUT, WEB_IN])
        told("by name", shown(rows), [(pods(items, 0, "web"), pods(items, 1, "web"), tcp(number_of_http(1)), "denied-by-default", "allowed", [])])
        gone = ("CiliumNetworkPolicy", "team0", "default-deny")
        rows = compared(told, "a default deny that goes", items, judged.changed(state, (), ["cnp/team0/default-deny"]), [], [gone])
        froms = sorted(["kube-system/dns-5d4-0", "kube-system/dns-5d4-1", "any other pod of default", "any other pod of kube-system", "0.0.0.0/0", "::/0", *ENTITIES])
        froms.remove("any other pod of default")
        tos = sorted([*pods(items, 0, "worker"), "any other pod of team0", "team0/batch", "team0/report-1-x"])
        told("a default deny that goes", shown(rows), [(froms, tos, EVERY, "denied-by-default", "allowed", [])])

    check.__name__ = f"the cluster of {size} pods"
    return check


def checks():
    return [of_size(it) for it in SIZES]
