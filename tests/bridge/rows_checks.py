"""Rows over small clusters: those that were false, and one for each line of the table of what is rewritten."""
from . import judged
from .objects import app, namespace, pod, policy, ports

SHOP = [
    namespace("shop"),
    namespace("kube-system"),
    pod("shop/web", {"app": "web"}, "n1", "10.0.0.1"),
    pod("shop/cart", {"app": "cart"}, "n2", "10.0.0.2"),
    pod("kube-system/dns", {"k8s-app": "kube-dns"}, "n1", "10.0.0.3"),
]
DNS = {"matchLabels": {"k8s:io.kubernetes.pod.namespace": "kube-system", "k8s:k8s-app": "kube-dns"}}
# What a guide has everybody install: names are looked up through the proxy, and nothing else is sent.
LOOKS_UP = policy("allow-dns", {
    "endpointSelector": {"matchExpressions": [{"key": "io.kubernetes.pod.namespace", "operator": "NotIn", "values": ["kube-system"]}]},
    "egress": [{"toEndpoints": [DNS], "toPorts": [{"ports": [{"port": "53", "protocol": "ANY"}], "rules": {"dns": [{"matchPattern": "*"}]}}]}],
})
TO_CART = policy("shop/to-cart", {"endpointSelector": app("web"), "egress": [{"toEndpoints": [app("cart")], "toPorts": ports(8080)}]})


def ends(row):
    names = lambda listed: [it.get("pod") or it.get("pods") or it.get("cidr") or it.get("entity") or it.get("name") for it in listed]
    return names(row["from"]), names(row["to"]), [it["ranges"] for it in row["ports"]], row["before"], row["after"]


def the_false_rows(told):
    """With a DNS rule cluster-wide, a policy that opens one connection has that row, and none of what was shut."""
    rows = judged.rows_of(judged.changed([*SHOP, LOOKS_UP], [TO_CART]))
    told("the rows", list(map(ends, rows)), [(["shop/web"], ["shop/cart"], [[[8080, 8080]]], "denied-by-default", "allowed")])
    # and the other way about: the web pods, which may send to the cart alone, may look names up too, through the proxy
    rows = judged.rows_of(judged.changed([*SHOP, TO_CART], [LOOKS_UP]))
    opened = [it for it in rows if it["after"] == "allowed"]
    told("what is opened", list(map(ends, opened)), [(["shop/web"], ["kube-system/dns"], [[[53, 53]]], "denied-by-default", "allowed")])
    told("its mark", [it["marks"] for it in opened], [["L7"]])
    told("what is shut of the web pods", [it for it in map(ends, rows) if it[0] == ["shop/web"] and it[4] != "allowed"], [])


def what_a_rule_says_of_default_deny(told):
    """One that says false shuts nothing, one that says true shuts all that no entry opens."""
    to_cart = {"endpointSelector": app("web"), "egress": [{"toEndpoints": [app("cart")], "toPorts": ports(8080)}]}
    told("false", judged.rows_of(judged.changed(SHOP, [policy("shop/p", {**to_cart, "enableDefaultDeny": {"egress": False}})])), [])
    told("false beside what isolates", [ends(it) for it in judged.rows_of(judged.changed([*SHOP, LOOKS_UP], [policy("shop/p", {**to_cart, "enableDefaultDeny": {"egress": False}})]))], [(["shop/web"], ["shop/cart"], [[[8080, 8080]]], "denied-by-default", "allowed")])
    rows = judged.rows_of(judged.changed(SHOP, [policy("shop/p", {"endpointSelector": app("web"), "enableDefaultDeny": {"egress": True}})]))
    told("true without a section", {(tuple(it.get("pod") for it in row["from"]), row["after"]) for row in rows}, {(("shop/web",), "denied-by-default")})
    told("whom it shuts off", {it.get("pod") or it.get("pods") or it.get("entity") or it.get("cidr") for row in rows for it in row["to"]} >= {"shop/cart", "kube-system/dns", "host", "0.0.0.0/0"}, True)


def checks():
    return [the_false_rows, what_a_rule_says_of_default_deny]
