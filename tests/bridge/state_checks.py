"""What is read of a state: pods that come, addresses, the API server, kinds that decide, what kubectl said, and manifests."""
import json
import random

from . import judged
from .objects import app, behind, deployment, namespace, network, pod, policy, ports, service
from lib import change, cluster as clusters, label_index, policies, reading
from lib.sides import whose
from lib.state import State
from wenirako.ends import Universe
from wenirako.naming import Names

TWO = [namespace("pay", team="finance"), namespace("shop"), pod("pay/web-7f-x", {"app": "web", "pod-template-hash": "7f"}, "n1", "10.0.0.1", owner=("ReplicaSet", "web-7f")), pod("shop/cart", {"app": "cart"}, "n2", "10.0.0.2")]


def kinds(state):
    return {it.name: it.stands_for for it in state.cluster.coming}


def pods_that_come(told):
    """Finished pods with an owner, pending ones and templates stand for pods that come; one of the same labels is no other."""
    items = [
        *TWO,
        pod("pay/job-x", {"app": "job"}, "n1", "10.0.0.9", owner=("Job", "job"), phase="Succeeded"),
        pod("pay/once", {"app": "once"}, "n1", "10.0.0.9", phase="Succeeded"),
        pod("pay/waits", {"app": "waits"}, "n1", phase="Pending"),
        pod("pay/agent", {"app": "agent"}, "n1", "192.168.0.1", hostNetwork=True, phase="Pending"),
        deployment("pay/web", {"app": "web"}),
        deployment("pay/none", {"app": "none"}, replicas=0),
        deployment("pay/db", {"app": "db"}, "StatefulSet"),
        deployment("pay/each", {"app": "each"}, "DaemonSet", hostNetwork=True),
        deployment("pay/nightly", {"app": "nightly"}, "CronJob"),
        deployment("shop/batch", {"app": "batch"}, "Job"),
    ]
    wanted = {
        "pay/job-x": "finished",
        "pay/waits": "pending",
        # (the template of pay/web has the labels of its pod, so it is no other)
        "pay/none": "Deployment",
        "pay/db": "StatefulSet",
        "pay/nightly": "CronJob",
        "shop/batch": "Job",
        "any other pod of pay": "any other",
        "any other pod of shop": "any other",
    }
    state = judged.read(items)
    told("what comes", kinds(state), wanted)
    told("the labels of any other pod", next(it for it in state.cluster.coming if it.name == "any other pod of pay").labels, (
        "k8s:io.cilium.k8s.namespace.labels.kubernetes.io/metadata.name=pay", "k8s:io.cilium.k8s.namespace.labels.team=finance", "k8s:io.cilium.k8s.policy.cluster=default", "k8s:io.kubernetes.pod.namespace=pay",
    ))
    told("the labels of a template", [it for it in next(it for it in state.cluster.coming if it.name == "pay/none").labels if "app" in it or "account" in it], ["k8s:app=none", "k8s:io.cilium.k8s.policy.serviceaccount=default"])
    bare = pod("pay/bare", {"app": "bare"}, phase="Pending")
    del bare["spec"]["serviceAccountName"]
    told("the account of a manifest's pod", [it for it in judged.read([*TWO, bare]).cluster.coming[0].labels if "account" in it], ["k8s:io.cilium.k8s.policy.serviceaccount=default"])
    left = list(clusters.left_out(state.cluster, come=True))
    told("what is left out", left, ["left out: pods that have finished: 1 (pay/once)", "left out: pods on the host's network, which share the identity of their node: 1 (pay/agent)"])
    told("what a script leaves out", [it for it in clusters.left_out(state.cluster) if "without an address" in it], ["left out: pods without an address: 1 (pay/waits)"])


def how_ends_that_come_are_written(told):
    state = judged.read([*TWO, deployment("pay/none", {"app": "none"}), namespace("dev"), namespace("ops")])
    universe = Universe([state])
    group_of = {pod.name: it for it in universe.groups for pod in it.pods}
    names = lambda listed: Names(universe.groups).side(frozenset(group_of[it.name] for it in listed))
    by_name = {it.name: it for it in state.ends}
    told("a template", names([by_name["pay/none"]]), ["pay/none (Deployment)"])
    others = [by_name[f"any other pod of {it}"] for it in ("dev", "ops", "pay", "shop")]
    told("of all", names(others), ["any other pod"])
    told("of two", names(others[:2]), ["any other pod of dev, ops"])
    told("of the pods there are", names([by_name["shop/cart"], others[3]]), ["shop/cart", "any other pod of shop"])


def a_default_deny_that_goes(told):
    """It shows though the pods that are there are all allowed."""
    deny = policy("pay/deny", {"endpointSelector": {}, "ingress": [{}]})
    allow = policy("pay/allow", {"endpointSelector": app("web"), "ingress": [{"fromEntities": ["all"]}]})
    rows = judged.rows_of(judged.changed([*TWO, deny, allow], (), ["cnp/pay/deny"]))
    told("whom it opens", {tuple(it.get("pods") or it.get("pod") for it in row["to"]) for row in rows}, {("any other pod of pay",)})


def two_pods_of_one_address(told):
    ending = pod("pay/old", {"app": "old"}, "n1", "10.0.0.1")
    ending["metadata"]["deletionTimestamp"] = "2026-01-01T00:00:00Z"
    state = judged.read([ending, *TWO])
    told("who has it", [it.name for it in state.cluster.live], ["pay/web-7f-x", "shop/cart"])
    told("who is left out", state.cluster.left_out, {"pods whose address another pod has, as one that is ending may": ["pay/old"]})


API = [
    *TWO,
    pod("kube-system/kube-apiserver-n3", {"component": "kube-apiserver"}, "n3", "192.168.0.3", hostNetwork=True),
    pod("kube-system/agent", {}, "n1", "192.168.0.1", hostNetwork=True),
    service("default/kubernetes", None, "10.96.0.1"),
    behind("default/kubernetes", "192.168.0.3", "203.0.113.1"),
]


def the_api_server(told):
    """Its nodes and addresses are identity 7 to others, and 1 on the node itself."""
    cluster = judged.read(API).cluster
    for address, local, number in (("192.168.0.3", "n1", 7), ("192.168.0.3", "n3", 1), ("192.168.0.1", "n1", 1), ("192.168.0.1", "n2", 6), ("203.0.113.1", "n1", 7), ("8.8.8.8", "n1", None)):
        told(f"{address} on {local}", cluster.number_of(address, local), number)
    told("a pod on the host's network", cluster.node_number(cluster.pods["kube-system/kube-apiserver-n3"].node, "n1"), 7)
    for address in ("192.168.0.3", "203.0.113.1"):
        told(f"whose {address} is", whose(cluster, address), "the address of the API server; name it by the entity `kube-apiserver`")
    old = {"apiVersion": "v1", "kind": "Endpoints", "metadata": {"name": "kubernetes", "namespace": "default"}, "subsets": [{"addresses": [{"ip": "203.0.113.1"}]}]}
    told("by Endpoints", judged.read([*TWO, old]).cluster.api_addresses, {"203.0.113.1"})


def addresses_of_services(told):
    balanced = {**service("shop/cart", {"app": "cart"}, "10.96.0.9", externalIPs=["203.0.113.5"]), "status": {"loadBalancer": {"ingress": [{"ip": "203.0.113.4"}, {"hostname": "a.example"}]}}}
    cluster = judged.read([*TWO, balanced]).cluster
    told("the addresses", (cluster.services, cluster.balancers), ({"10.96.0.9": "shop/cart"}, {"203.0.113.4": "shop/cart", "203.0.113.5": "shop/cart"}))
    told("whose one is", whose(cluster, "203.0.113.4"), "the load balancer's address of the Service shop/cart, which is a pod's address before policies are asked; name the pods by their labels")


def kinds_that_decide(told):
    """They are named, and mark the rows of the pods that they select."""
    whole = lambda kind, subject: {"apiVersion": "policy.networking.k8s.io/v1alpha1", "kind": kind, "metadata": {"name": "it"}, "spec": {"subject": subject, "priority": 1, "ingress": [{"action": "Deny", "from": []}]}}
    web = {"pods": {"namespaceSelector": {"matchLabels": {"team": "finance"}}, "podSelector": {"matchLabels": {"app": "web"}}}}
    new = policy("pay/new", {"endpointSelector": {}, "ingress": [{"fromEndpoints": [{}]}]})
    for kind, subject, wanted in (
        ("AdminNetworkPolicy", web, {"pay/web-7f-x"}),
        ("AdminNetworkPolicy", {"namespaces": {"matchLabels": {"team": "none"}}}, set()),
        ("BaselineAdminNetworkPolicy", {"namespaces": {}}, {"pay/web-7f-x", "any other pod of pay"}),
    ):
        made = judged.changed([*TWO, whole(kind, subject)], [new])
        rows = judged.rows_of(made)
        marked = {it.get("pod") or it.get("pods") for row in rows if row.get("unsure") == [f"{kind}/it"] for it in row["to"]}
        told(f"whose rows {kind} of {subject} marks", marked, wanted)
        told(f"how {kind} is named", [str(it) for it in made.before.all_unsure], [f"{kind}/it: it decides beside policies"])


def what_is_marked(told):
    """A row is marked where what isn't read may turn one of its verdicts, and where it may change for that alone."""
    unread = policy("pay/news", {"endpointSelector": app("web"), "ingress": [{"fromNews": [1]}]})
    new = policy("pay/new", {"endpointSelector": {}, "ingress": [{"fromEndpoints": [{"matchLabels": {"app": "cart", "k8s:io.kubernetes.pod.namespace": "shop"}}]}]})
    rows = judged.rows_of(judged.changed([*TWO, unread], [new]))
    told("marked", {(it.get("pod") or it.get("pods"), tuple(row.get("unsure", []))) for row in rows for it in row["to"]}, {("pay/web-7f-x", ("pay/news",)), ("any other pod of pay", ())})
    # what denies by rule is so, whatever an entry that isn't read allows
    denies = policy("pay/new", {"endpointSelector": app("web"), "ingressDeny": [{"fromEntities": ["world"]}]})
    free = policy("pay/free", {"endpointSelector": app("web"), "ingress": [{"fromEntities": ["all"]}]})
    rows = judged.rows_of(judged.changed([*TWO, unread, free], [denies]))
    told("denied", [(row["after"], row.get("unsure")) for row in rows], [("denied-by-rule", None)])
    # a half that opens, where the other one may be open for what isn't read
    opens = policy("shop/new", {"endpointSelector": app("cart"), "egress": [{"toEndpoints": [{"matchLabels": {"app": "web", "k8s:io.kubernetes.pod.namespace": "pay"}}]}]})
    shut = policy("shop/shut", {"endpointSelector": app("cart"), "egress": [{}]})
    rows = judged.rows_of(judged.changed([*TWO, unread, shut], [opens]))
    told("that may open", [(row["to"], row["before"], row["after"], row["unsure"]) for row in rows], [([{"pod": "pay/web-7f-x"}], "denied-by-default", "denied-by-default", ["pay/news"])])


def names_of_addresses(told):
    """What names open is a row of its own, and rows of the world end in them."""
    free = policy("pay/free", {"endpointSelector": app("web"), "egress": [{"toFQDNs": [{"matchName": "a.example"}], "toPorts": ports(443)}]})
    shown = lambda rows: [(row["to"], row["before"], row["after"], row.get("names")) for row in rows if any("cidr" in it or "name" in it for it in row["to"])]
    world = [{"cidr": "0.0.0.0/0", "except": []}, {"cidr": "::/0", "except": []}]
    rows = judged.rows_of(judged.changed(TWO, [free]))
    told("where all was open", sorted(map(str, shown(rows))), sorted(map(str, [
        (world, "allowed", "denied-by-default", ["a.example"]),
        ([*world, {"name": "a.example"}], "allowed", "denied-by-default", None),
    ])))
    shut = policy("pay/shut", {"endpointSelector": {}, "egress": [{}]})
    rows = judged.rows_of(judged.changed([*TWO, shut], [free]))
    told("where all was shut", shown(rows), [([{"name": "a.example"}], "denied-by-default", "allowed", None)])
    told("by what", [row["decided_by"] for row in rows], [["egress: pay/free#0.egress[0]"]])


def labels_that_change(told):
    """A template that comes gives its pods other labels, and a namespace too."""
    guard = policy("pay/guard", {"endpointSelector": {}, "ingress": [{"fromEndpoints": [{"matchLabels": {"app": "web"}}]}]})
    items = [*TWO, guard, pod("pay/ledger", {"app": "ledger"}, "n1", "10.0.0.5")]
    rows = judged.rows_of(judged.changed(items, [deployment("pay/web", {"app": "website"})]))
    told("by a Deployment", [(row["from"], row["to"], row["before"], row["after"]) for row in rows if {"pod": "pay/ledger"} in row["to"]], [([{"pod": "pay/web-7f-x"}], [{"pod": "pay/ledger"}, {"pods": "any other pod of pay", "stands_for": "any other"}], "allowed", "denied-by-default")])
    guard = policy("pay/guard", {"endpointSelector": app("ledger"), "ingress": [{"fromEndpoints": [{"matchLabels": {"k8s:io.cilium.k8s.namespace.labels.team": "shop"}}]}]})
    rows = judged.rows_of(judged.changed([*items[:4], items[5], guard], [namespace("shop", team="shop")]))
    told("by a Namespace", [(row["from"], row["after"]) for row in rows], [([{"pod": "shop/cart"}, {"pods": "any other pod of shop", "stands_for": "any other"}], "allowed")])
    guard = policy("shop/guard", {"endpointSelector": app("cart"), "egress": [{"toServices": [{"k8sService": {"serviceName": "web", "namespace": "pay"}}]}]})
    rows = judged.rows_of(judged.changed([*TWO, service("pay/web", {"app": "none"}), guard], [service("pay/web", {"app": "web"})]))
    told("by a Service", [(row["from"], row["to"], row["after"]) for row in rows], [([{"pod": "shop/cart"}], [{"pod": "pay/web-7f-x"}], "allowed")])


def two_whole_states(told):
    """Pods of one workload are matched though their names aren't the same."""
    guard = policy("pay/guard", {"endpointSelector": app("ledger"), "ingress": [{"fromEndpoints": [app("web")]}]})
    ledger = pod("pay/ledger", {"app": "ledger"}, "n1", "10.0.0.5")
    later = pod("pay/web-9c-y", {"app": "website", "pod-template-hash": "9c"}, "n1", "10.0.0.8", owner=("ReplicaSet", "web-9c"))
    items = [*TWO, guard, ledger]
    made = change.Change(judged.read(items), judged.read([*items[:2], later, *items[3:]]))
    told("what is shut", [(row["from"], row["to"], row["after"]) for row in judged.rows_of(made)], [([{"pod": "pay/web-9c-y"}], [{"pod": "pay/ledger"}], "denied-by-default")])


def manifests_come_whole(told):
    other = {"apiVersion": "v1", "kind": "ConfigMap", "metadata": {"name": "x", "namespace": "pay"}}
    new = policy("pay/new", {"endpointSelector": {}, "ingress": [{}]})
    made = judged.changed(TWO, [other, other, new, deployment("pay/new", {"app": "new"}), pod("pay/bare", {"app": "bare"})])
    told("what is skipped", made.skipped, ["skipped: 2 ConfigMap (v1)"])
    told("what comes", {name: it for name, it in kinds(made.after).items() if it != "any other"}, {"pay/new": "Deployment", "pay/bare": "pending"})
    told("the policies that come", [it.name for it in made.coming()], ["pay/new"])
    for added, wanted in (([other], "nothing in it is read; skipped: 1 ConfigMap (v1)"), ([new, new], "pay/new comes twice, and one of them alone can be meant")):
        try:
            got = judged.changed(TWO, added)
        except reading.Bad as bad:
            got = str(bad).partition(": ")[2]
        told(wanted, wanted in str(got), True)


def seen_of(found):
    """What is known of a state, each policy by its lines."""
    cluster = found.cluster
    of_pods = [(it.name, it.labels, it.addresses, it.stands_for) for it in found.ends]
    return [it.line for it in found.parts()], found.places, found.all_marks, found.all_names, list(map(str, found.all_unsure)), of_pods, {it: count for it, count in cluster.kinds.items() if count}, cluster.left_out, [*found.policies]


def policies_alone_change(told):
    """A state after a change of policies alone is that of all its objects, read anew; and the one before is as it was."""
    web = {"endpointSelector": {"matchLabels": {"app": "web"}}, "ingress": [{"fromEndpoints": [{}]}], "egress": [{"toFQDNs": [{"matchName": "a.example"}]}, {"toEntities": ["world"], "news": 1}]}
    named = {"endpointSelector": {}, "ingress": [{"fromEndpoints": [{}], "toPorts": [{"ports": [{"port": "http", "protocol": "TCP"}]}]}]}
    required = {"endpointSelector": {}, "ingress": [{"fromEndpoints": [{}], "fromRequires": [{"matchLabels": {"app": "web"}}]}]}
    items = [*TWO, service("pay/web", {"app": "web"}), policy("pay/web", web), policy("wide", {"endpointSelector": {}, "egressDeny": [{"toEntities": ["world"]}]}), network("shop/cart", {"podSelector": {}, "ingress": [{}]})]
    for added, removed in (
        ([policy("pay/new", {"endpointSelector": {}, "egress": [{}]})], ["cnp/pay/web"]),
        ([policy("pay/web", {**web, "egress": [{}]}), network("shop/new", {"podSelector": {}, "ingress": []})], ["netpol/shop/cart"]),
        ([], ["ccnp/wide"]),
        ([policy("pay/named", named)], []),
        ([policy("pay/required", required)], []),
        ([policy("pay/new", {"endpointSelector": {}}), namespace("more")], []),
    ):
        before = judged.read(items)
        made = judged.changed(before, added, removed)
        anew = clusters.Cluster.of(made.after.cluster.given, before.cluster.choice)
        told(f"after {added} and {removed}", seen_of(made.after), seen_of(State(anew, before.names_of_ports)))
        told(f"before {added} and {removed}", seen_of(before), seen_of(State(clusters.Cluster.of(before.cluster.given, before.cluster.choice), before.names_of_ports)))


def what_the_state_lacks(told):
    state = judged.read([*TWO, policy("pay/a", {"endpointSelector": {}, "ingress": [{}]}), network("pay/b", {"podSelector": {}})])
    told("without two kinds", list(clusters.lacks(state.cluster)), ["note: the state has 0 Services, 0 CiliumClusterwideNetworkPolicies"])
    state = judged.read([*TWO, policy("pay/a", {"endpointSelector": {}, "ingress": [{}]}), network("pay/b", {"podSelector": {}}), policy("c", {"endpointSelector": {}}), service("pay/s")])
    knative = {**service("pay/s"), "apiVersion": "serving.knative.dev/v1"}
    told("of another group", list(clusters.lacks(judged.read([*TWO, knative, network("pay/b", {"podSelector": {}})]).cluster)), ["note: the state has 0 Services, 0 CiliumNetworkPolicies, 0 CiliumClusterwideNetworkPolicies"])
    told("with all", list(clusters.lacks(state.cluster)), [])


def what_kubectl_said(told):
    whole = json.dumps(TWO[0])
    warned = []
    told("behind a warning", [it for _, it in reading.documents(f"Warning: v1 Endpoints is old\n{whole}\nWarning: again", warned=warned)], [TWO[0]])
    told("the warnings", warned, ["Warning: v1 Endpoints is old", "Warning: again"])
    for line in ('error: the server doesn\'t have a resource type "ciliumnetworkpolicies"', "Error from server (Forbidden): namespaces is forbidden", "The connection to the server localhost:8080 was refused"):
        for text in (line, f"{whole}\n{line}\n"):
            try:
                got = list(reading.documents(text, "state.json"))
            except reading.Bad as bad:
                got = str(bad)
            told(line, got, f"state.json has what kubectl said where it failed, so it isn't all that was asked for: {line}")


YAML = """# a policy
apiVersion: cilium.io/v2
kind: CiliumNetworkPolicy
metadata: {name: a, namespace: pay, creationTimestamp: 2026-01-01T00:00:00Z}
spec:
  endpointSelector:
    matchLabels: {on: yes, at: 1:30, it: "80"}
  ingress:
  - toPorts: [{ports: [{port: "80", endPort: 90}]}]
---
---
apiVersion: v1
kind: Namespace
metadata: {name: pay}
"""


def yaml_is_read(told):
    """With PyYAML as kubectl reads it; without, it is told how to get JSON."""
    try:
        import yaml  # noqa: F401
    except ImportError:
        yaml = None
    try:
        got = [it for _, it in reading.documents(YAML, "a.yaml")]
    except reading.Bad as bad:
        got = str(bad)
    if not yaml:
        told("without PyYAML", "a.yaml is YAML" in got and "kubectl patch --local" in got, True)
        return
    told("with PyYAML", got, [
        {
            "apiVersion": "cilium.io/v2",
            "kind": "CiliumNetworkPolicy",
            "metadata": {"name": "a", "namespace": "pay", "creationTimestamp": "2026-01-01T00:00:00Z"},
            "spec": {"endpointSelector": {"matchLabels": {"on": "yes", "at": "1:30", "it": "80"}}, "ingress": [{"toPorts": [{"ports": [{"port": "80", "endPort": 90}]}]}]},
        },
        {"apiVersion": "v1", "kind": "Namespace", "metadata": {"name": "pay"}},
    ])


def labels_are_indexed(told):
    """An index of many sets of labels finds those of which each by itself holds."""
    pick, values = random.Random(1), ["", "a", "b"]
    keys = ["k8s:app", "k8s:tier", "reserved:init", "k8s:a.b/c"]
    sets = [tuple(f"{key}={pick.choice(values)}" for key in keys if pick.random() < 0.6) for _ in range(40)]
    index = label_index.LabelIndex(sets)
    for source, key in (("any", "app"), ("k8s", "app"), ("k8s", "tier"), ("any", "init"), ("reserved", "init"), ("k8s", "init"), ("k8s", "a.b/c"), ("any", "none")):
        for operator in policies.OPERATORS:
            for listed in ((), ("a",), ("", "b"), ("c",)):
                asked = (source, key, operator, listed)
                told(f"{asked}", index.matching([asked]), {at for at, it in enumerate(sets) if policies.holds(asked, it)})
    both = [("any", "app", "In", ["a"]), ("any", "tier", "NotIn", ["b"])]
    told("two things", index.matching(both), {at for at, it in enumerate(sets) if all(policies.holds(one, it) for one in both)})
    told("nothing asked", index.matching([]), set(range(40)))


def checks():
    found = [pods_that_come, how_ends_that_come_are_written, a_default_deny_that_goes, two_pods_of_one_address, the_api_server, addresses_of_services, kinds_that_decide, what_is_marked]
    return [labels_are_indexed, *found, names_of_addresses, labels_that_change, two_whole_states, manifests_come_whole, policies_alone_change, what_the_state_lacks, what_kubectl_said, yaml_is_read]
