"""Slips: one case for each, and none where there is no slip."""
from . import judged
from .objects import app, behind, deployment, dual, namespace, network, pod, policy, ports, service
from lib import lint

STATE = [
    namespace("pay", team="finance"),
    namespace("shop"),
    pod("pay/teller-1", {"app": "teller", "pod-template-hash": "7f"}, "n1", "10.0.0.1"),
    pod("pay/ledger-0", {"app": "ledger"}, "n1", "10.0.0.2"),
    pod("pay/agent", {"app": "agent"}, "n1", "192.168.0.1", hostNetwork=True),
    pod("shop/web-1", {"app": "web"}, "n2", "10.0.0.3"),
    deployment("shop/none", {"app": "none"}),
    {**service("shop/web", {"app": "web"}, "10.96.0.1", externalIPs=["203.0.113.5"]), "status": {"loadBalancer": {"ingress": [{"ip": "203.0.113.4"}]}}},
    service("default/kubernetes", None, "10.96.0.2"),
    behind("default/kubernetes", "198.51.100.9"),
]


def slips(*policies, only=None):
    return [(it.kind, it.text) for it in lint.slips(judged.read([*STATE, *policies]), only)]


def peers(*selectors, section="ingress", word="from"):
    return policy("pay/p", {"endpointSelector": {}, section: [{f"{word}Endpoints": list(selectors)}]})


PEERS = {
    "no pod matches the peer app=web: the namespace shop has pods with app=web, and without a namespace a peer is of pay": app("web"),
    "no pod matches the peer app=tellr: app=tellr is one letter off app=teller": app("tellr"),
    "no pod matches the peer app=etller: app=etller is one letter off app=teller": app("etller"),
    "no pod matches the peer aap=teller: the key aap is one letter off app": {"matchLabels": {"aap": "teller"}},
    "no pod matches the peer pod-template-hash=7f: the label pod-template-hash is no part of identities": {"matchLabels": {"pod-template-hash": "7f"}},
    "no pod matches the peer app=agent: pay/agent on the host's network alone has these labels; name it by the entity `host` or `remote-node`": app("agent"),
    "no pod matches the peer app=web, io.kubernetes.pod.namespace=shpo: the state has no namespace shpo, and one letter off is shop": app("web", **{"k8s:io.kubernetes.pod.namespace": "shpo"}),
    "no pod matches the peer app=other": app("other"),
    "no pod matches the peer app=ledger, app!=ledger": {**app("ledger"), "matchExpressions": [{"key": "app", "operator": "NotIn", "values": ["ledger"]}]},
}


def peers_that_match_no_pod(told):
    for wanted, selector in PEERS.items():
        told(wanted, slips(peers(selector)), [("peer-matches-none", f"pay/p#0.ingress[0]: {wanted}")])
    fine = [{}, app("teller"), app("web", **{"k8s:io.kubernetes.pod.namespace": "shop"}), {"matchLabels": {"reserved:host": ""}}, app("none", **{"io.kubernetes.pod.namespace": "shop"})]
    told("what matches", slips(peers(*fine)), [])
    told("of a NetworkPolicy", slips(network("pay/n", {"podSelector": {}, "ingress": [{"from": [{"podSelector": app("web")}]}]})), [
        ("peer-matches-none", "pay/networkpolicy/n#0.ingress[0]: no pod matches the peer app=web: the namespace shop has pods with app=web, and without a namespace a peer is of pay"),
    ])


def the_clusters_own_name_in_slips(told):
    one = lambda name: policy("pay/p", {"endpointSelector": {}, "ingress": [{"fromEndpoints": [{"matchLabels": {"io.cilium.k8s.policy.cluster": name}}]}]})
    of = lambda name: [it.text for it in lint.slips(judged.read([*STATE, one(name)], "east"))]
    told("its name", of("east"), [])
    told("another one", of("default"), ["pay/p#0.ingress[0]: no pod matches the peer io.cilium.k8s.policy.cluster=default"])


def subjects_that_select_none(told):
    rule = lambda name: {"endpointSelector": app(name), "ingress": [{}]}
    told("one rule of two", slips(policy("pay/p", rule("teller"), rule("ledgr"))), [("subject-selects-none", "pay/p#1: its rule selects no pod of the state: app=ledgr, io.kubernetes.pod.namespace=pay: app=ledgr is one letter off app=ledger")])
    told("the only one", slips(policy("pay/p", rule("ledgr"))), [("policy-without-effect", "pay/p selects no pod of the state: app=ledgr is one letter off app=ledger")])
    told("of another namespace", slips(policy("pay/p", rule("web"))), [("policy-without-effect", "pay/p selects no pod of the state: the namespace shop has pods with app=web, and a subject is of pay")])
    told("a namespace without pods", slips(policy("shpo/p", rule("web"))), [("policy-without-effect", "shpo/p selects nobody: no pod of the state is in the namespace shpo")])
    told("without sections", slips(policy("pay/p", {"endpointSelector": {}, "ingress": []})), [("policy-without-effect", "pay/p has no section that isn't empty, so it changes nothing")])
    told("of hosts", slips(policy("p", {"nodeSelector": {}, "ingress": [{}]})), [])
    told("one that only says what isolates", slips(policy("pay/p", {"endpointSelector": {}, "enableDefaultDeny": {"ingress": True}})), [])


def denies_that_deny_nobody(told):
    found = slips(peers(app("web"), section="ingressDeny"))
    told("of peers", found, [("deny-denies-none", "pay/p#0.ingressDeny[0] denies nobody: no pod matches the peer app=web: the namespace shop has pods with app=web, and without a namespace a peer is of pay")])
    told("of nothing", slips(policy("pay/p", {"endpointSelector": {}, "egressDeny": [{}]})), [("deny-denies-none", "pay/p#0.egressDeny[0] denies nobody: it has neither peers nor ports")])
    told("one of two peers", [kind for kind, _ in slips(peers(app("web"), app("teller"), section="ingressDeny"))], ["peer-matches-none"])
    told("of ports", slips(policy("pay/p", {"endpointSelector": {}, "egressDeny": [{"toPorts": ports(22)}]})), [])


def prefixes_of_what_is_inside(told):
    to = lambda *entries: policy("pay/p", {"endpointSelector": {}, "egress": list(entries)})
    for entry, wanted in (
        ({"toCIDR": ["10.0.0.0/24"]}, ["pay/p#0.egress[0]: the prefix 10.0.0.0/24 holds 3 pods, and doesn't mean them"]),
        ({"toCIDRSet": [{"cidr": "10.0.0.0/8", "except": ["10.0.0.0/30"]}]}, ["pay/p#0.egress[0]: the prefix 10.0.0.0/8 holds 2 ClusterIPs, and doesn't mean them"]),
        ({"toCIDR": ["203.0.113.0/24", "192.0.0.0/8"]}, ["pay/p#0.egress[0]: the prefix 192.0.0.0/8 holds 2 nodes' addresses, and doesn't mean them", "pay/p#0.egress[0]: the prefix 203.0.113.0/24 holds 2 load balancers' addresses, and doesn't mean them"]),
        ({"toCIDR": ["0.0.0.0/0"]}, ["pay/p#0.egress[0]: the prefix 0.0.0.0/0 holds 3 pods, 3 nodes' addresses, 2 ClusterIPs, 2 load balancers' addresses, and doesn't mean them"]),
        ({"toCIDR": ["10.0.0.2"]}, ["pay/p: the prefix 10.0.0.2/32 does nothing: it is the address of the pod pay/ledger-0; name it by its labels"]),
        ({"toCIDR": ["10.96.0.1/32"]}, ["pay/p: the prefix 10.96.0.1/32 does nothing: it is the ClusterIP of the Service shop/web, which is a pod's address before policies are asked; name the pods by their labels"]),
        ({"toCIDR": ["192.168.0.2/32"]}, ["pay/p: the prefix 192.168.0.2/32 does nothing: it is the address of the node n2; name it by the entity `host` or `remote-node`"]),
        ({"toCIDR": ["198.51.100.9/32"]}, ["pay/p: the prefix 198.51.100.9/32 does nothing: it is the address of the API server; name it by the entity `kube-apiserver`"]),
        ({"toCIDR": ["172.16.0.0/12", "198.51.100.10/32"]}, []),
    ):
        told(entry, [text for kind, text in slips(to(entry)) if kind == "prefix-means-none"], wanted)
    both = [dual(pod("pay/both", {"app": "both"}, "n1", "10.0.0.9"), "fd00::9"), pod("pay/six", {"app": "six"}, "n1", "fd00:1::6"), service("pay/six", {"app": "six"}, "fd96::a")]
    for entry, wanted in (
        ({"toCIDR": ["fd00::/32"]}, ["pay/p#0.egress[0]: the prefix fd00::/32 holds 1 pod, and doesn't mean it"]),
        ({"toCIDRSet": [{"cidr": "FD00::/8", "except": ["fd00:1::/32"]}]}, ["pay/p#0.egress[0]: the prefix fd00::/8 holds 1 pod, 1 ClusterIP, and doesn't mean them"]),
        ({"toCIDR": ["fd00::9"]}, ["pay/p: the prefix fd00::9/128 does nothing: it is the address of the pod pay/both; name it by its labels"]),
        ({"toCIDR": ["2001:db8::/32"]}, []),
    ):
        told(entry, [it.text for it in lint.slips(judged.read([*both, to(entry)])) if it.kind == "prefix-means-none"], wanted)


def rule(**sections):
    return {"endpointSelector": {}, **sections}


TELLER, CART = {"fromEndpoints": [app("teller")]}, {"toCIDR": ["172.16.0.0/16"]}


def entries_that_change_nothing(told):
    wide = policy("pay/wide", rule(ingress=[{"fromEndpoints": [{}], "toPorts": [{"ports": [{"port": "8000", "endPort": 9000}]}]}], egress=[{"toCIDR": ["172.16.0.0/12"]}]))
    for name, other, entry, wanted in (
        ("narrower in peers and ports", wide, rule(ingress=[{**TELLER, "toPorts": ports(8443)}]), "pay/p#0.ingress[0] changes nothing: pay/wide#0.ingress[0] allows it already"),
        ("in another port", wide, rule(ingress=[{**TELLER, "toPorts": ports(443)}]), None),
        ("every port", wide, rule(ingress=[TELLER]), None),
        ("a prefix in one", wide, rule(egress=[CART]), "pay/p#0.egress[0] changes nothing: pay/wide#0.egress[0] allows it already"),
        ("a prefix around one", wide, rule(egress=[{"toCIDR": ["172.0.0.0/8"]}]), None),
        ("of the world", policy("pay/wide", rule(egress=[{"toEntities": ["world"]}])), rule(egress=[CART]), "pay/p#0.egress[0] changes nothing: pay/wide#0.egress[0] allows it already"),
        ("of the world of its family", policy("pay/wide", rule(egress=[{"toEntities": ["world-ipv4"]}])), rule(egress=[CART]), "pay/p#0.egress[0] changes nothing: pay/wide#0.egress[0] allows it already"),
        ("of the other world", policy("pay/wide", rule(egress=[{"toEntities": ["world-ipv6"]}])), rule(egress=[CART]), None),
        ("of both worlds", policy("pay/wide", rule(egress=[{"toEntities": ["world-ipv4", "world-ipv6"]}])), rule(egress=[{"toEntities": ["world"]}]), "pay/p#0.egress[0] changes nothing: pay/wide#0.egress[0] allows it already"),
        ("of one of both worlds", policy("pay/wide", rule(egress=[{"toEntities": ["world-ipv4"]}])), rule(egress=[{"toEntities": ["world"]}]), None),
        ("a prefix of the other family", policy("pay/wide", rule(egress=[{"toCIDR": ["0.0.0.0/0"]}])), rule(egress=[{"toCIDR": ["2001:db8::/32"]}]), None),
        ("a prefix of IPv6 in one", policy("pay/wide", rule(egress=[{"toCIDR": ["2001::/16"]}])), rule(egress=[{"toCIDR": ["2001:db8::/32"]}]), "pay/p#0.egress[0] changes nothing: pay/wide#0.egress[0] allows it already"),
        ("without what an exception has", policy("pay/wide", rule(egress=[{"toCIDRSet": [{"cidr": "172.16.0.0/12", "except": ["172.16.1.0/24"]}]}])), rule(egress=[CART]), None),
        ("that is denied", policy("pay/wide", rule(ingressDeny=[{"fromEntities": ["all"]}])), rule(ingress=[TELLER]), "pay/p#0.ingress[0] changes nothing: pay/wide#0.ingressDeny[0] denies it already"),
        ("a deny beside an allow", wide, rule(ingressDeny=[{**TELLER, "toPorts": ports(8443)}]), None),
        ("of other pods", policy("pay/wide", {"endpointSelector": app("ledger"), "ingress": [TELLER]}), rule(ingress=[TELLER]), None),
        ("of some of its pods", policy("pay/wide", rule(ingress=[TELLER])), {"endpointSelector": app("ledger"), "ingress": [TELLER]}, "pay/p#0.ingress[0] changes nothing: pay/wide#0.ingress[0] allows it already"),
        ("through a proxy", policy("pay/wide", rule(ingress=[{**TELLER, "toPorts": [{"ports": [{"port": "80"}], "rules": {"http": [{}]}}]}])), rule(ingress=[{**TELLER, "toPorts": ports(80)}]), None),
        ("of a NetworkPolicy", network("pay/wide", {"podSelector": {}, "ingress": [{"from": [{"podSelector": {}}]}]}), rule(ingress=[TELLER]), "pay/p#0.ingress[0] changes nothing: pay/networkpolicy/wide#0.ingress[0] allows it already"),
    ):
        found = [text for kind, text in slips(other, policy("pay/p", entry), only={("CiliumNetworkPolicy", "pay", "p")}) if kind == "entry-changes-nothing"]
        told(name, found, [wanted] if wanted else [])
    found = slips(wide, policy("pay/p", rule(egress=[CART])), only={("CiliumNetworkPolicy", "pay", "p")})
    told("all of a policy", found[-1], ("policy-without-effect", "pay/p changes nothing: each of its entries is covered by another policy's"))
    twins = [policy(f"pay/{it}", rule(egress=[CART])) for it in "ab"]
    unread = policy("pay/a", {**rule(egress=[CART]), "news": 1})
    told("of twins, one of which isn't read whole", [text for kind, text in slips(unread, twins[1]) if kind == "entry-changes-nothing"], [])
    told("of twins the second", [text for kind, text in slips(*twins) if kind == "entry-changes-nothing"], ["pay/b#0.egress[0] changes nothing: pay/a#0.egress[0] allows it already"])


def which_policies_are_asked_about(told):
    listed = [policy("pay/a", {"endpointSelector": app("lost"), "ingress": [{}]}), policy("pay/b", {"endpointSelector": app("lost"), "ingress": [{}]})]
    told("one", [it.policy for it in lint.slips(judged.read([*STATE, *listed]), {("CiliumNetworkPolicy", "pay", "b")})], ["pay/b"])
    told("the kinds", {it.kind for it in lint.slips(judged.read([*STATE, *listed]))} <= {*lint.KINDS}, True)


def checks():
    return [peers_that_match_no_pod, the_clusters_own_name_in_slips, subjects_that_select_none, denies_that_deny_nobody, prefixes_of_what_is_inside, entries_that_change_nothing, which_policies_are_asked_about]
