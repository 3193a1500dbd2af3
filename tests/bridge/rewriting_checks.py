"""What members of a policy become: a case for each line of the table of docs/RULES.md, 'What the bridge rewrites'.

Each expected rule was worked out by hand from that table; `SAME` stands for the rule as it was written.
"""
from . import judged
from .cilium import World
from .documented import FORTY
from .objects import app, behind, group, namespace, network, pod, policy, ports, service
from .random_states import has
from lib import unread

STATE = [
    namespace("pay", team="finance"),
    namespace("shop"),
    pod("pay/web", {"app": "web"}, "n1", "10.0.0.1", [("http", 8080), ("dns", 53, "UDP")]),
    pod("pay/new", {"app": "web"}, "n1", "10.0.0.2", [("http", 9090)]),
    pod("shop/cart", {"app": "cart"}, "n2", "10.0.0.3"),
    service("pay/web", {"app": "web"}, "10.96.0.1", {"env": "prod"}),
    service("shop/cart", {"app": "cart"}, "10.96.0.2", {"env": "prod"}),
    service("shop/outer", None, "10.96.0.3"),
    behind("shop/outer", "203.0.113.7", "203.0.113.8"),
    service("shop/alias", None, "None", type="ExternalName"),
    group("partners", "198.51.100.0/24", "fd00::/8", "10.0.0.0/8", kind="outer"),
    group("translated", "198.51.100.0/24", "64:ff9b::10.0.0.0/104", "64:ff9b::b00:0/104"),
]
SAME, PORT = object(), ports(8080)
HAS = lambda number, name="http", protocol="tcp": {"key": f"k8s:io.wenirako.port.{name}.{protocol}.{number}", "operator": "Exists"}
ANY_POD = {"key": "k8s:io.kubernetes.pod.namespace", "operator": "Exists"}
OF = lambda labels, space: {"matchLabels": {**{f"k8s:{key}": it for key, it in labels.items()}, "k8s:io.kubernetes.pod.namespace": space}}


def read(*policies, cluster="default", state=STATE):
    return judged.read([*state, *policies], cluster)


def rules_of(found):
    """The rules that policyd is given of a rewritten policy."""
    return [rule for part in found.parts for rule in part.rules()]


def ingress(*entries, **more):
    return {"endpointSelector": {}, "ingress": list(entries), **more}


def egress(*entries, **more):
    return {"endpointSelector": {}, "egress": list(entries), **more}


WITH = lambda **item: [{"ports": [{"port": "8080", "protocol": "TCP"}], **item}]
# A rule, and the rules that it becomes.
LINES = {
    "what the profile has": (ingress({"fromEndpoints": [app("web")], "toPorts": PORT}), SAME),
    "HTTP": (ingress({"toPorts": WITH(rules={"http": [{"method": "GET"}]})}), ingress({"toPorts": PORT})),
    "DNS": (egress({"toEndpoints": [{}], "toPorts": WITH(rules={"dns": [{"matchPattern": "*"}]})}), egress({"toEndpoints": [{}], "toPorts": PORT})),
    "a listener, TLS and names of servers": (egress({"toPorts": WITH(listener={"name": "x"}, terminatingTLS={"secret": {}}, originatingTLS={}, serverNames=["a"])}), egress({"toPorts": PORT})),
    "authentication": (ingress({"fromEndpoints": [{}], "authentication": {"mode": "required"}}), ingress({"fromEndpoints": [{}]})),
    "names": (egress({"toFQDNs": [{"matchName": "a.example"}], "toPorts": PORT}), egress({})),
    "groups of a cloud": (egress({"toGroups": [{"aws": {"securityGroupsIds": ["sg-1"]}}]}), egress({})),
    "no name": (egress({"toFQDNs": [], "toPorts": PORT}), egress({"toEndpoints": [], "toPorts": PORT})),
    "a Service by name": (egress({"toServices": [{"k8sService": {"serviceName": "web", "namespace": "pay"}}], "toPorts": PORT}), egress({"toEndpoints": [OF({"app": "web"}, "pay")], "toPorts": PORT})),
    "Services by labels": (
        egress({"toServices": [{"k8sServiceSelector": {"selector": {"matchLabels": {"env": "prod"}}}}]}),
        egress({"toEndpoints": [OF({"app": "web"}, "pay"), OF({"app": "cart"}, "shop")]}),
    ),
    "Services by labels in a namespace": (
        egress({"toServices": [{"k8sServiceSelector": {"selector": {"matchLabels": {"env": "prod"}}, "namespace": "shop"}}]}),
        egress({"toEndpoints": [OF({"app": "cart"}, "shop")]}),
    ),
    "a Service without a selector": (egress({"toServices": [{"k8sService": {"serviceName": "outer", "namespace": "shop"}}]}), egress({"toCIDR": ["203.0.113.7/32", "203.0.113.8/32"]})),
    "a Service that is a name": (egress({"toServices": [{"k8sService": {"serviceName": "alias", "namespace": "shop"}}]}), egress({})),
    "Services of both kinds": (
        egress({"toServices": [{"k8sService": {"serviceName": it, "namespace": "shop"}} for it in ("outer", "cart")]}),
        egress({"toEndpoints": [OF({"app": "cart"}, "shop")]}, {"toCIDR": ["203.0.113.7/32", "203.0.113.8/32"]}),
    ),
    "a Service that isn't there": (egress({"toServices": [{"k8sService": {"serviceName": "lost", "namespace": "shop"}}]}), egress({})),
    "a port by name, coming in": (
        ingress({"fromEndpoints": [{}], "toPorts": ports("http")}),
        [
            ingress({}),
            {"endpointSelector": {"matchExpressions": [HAS(8080)]}, "ingress": [{"fromEndpoints": [{}], "toPorts": ports(8080)}]},
            {"endpointSelector": {"matchExpressions": [HAS(9090)]}, "ingress": [{"fromEndpoints": [{}], "toPorts": ports(9090)}]},
        ],
    ),
    "a port by name, of some pods": (
        {"endpointSelector": app("cart"), "ingress": [{"toPorts": ports("http")}]},
        {"endpointSelector": app("cart"), "ingress": [{}]},
    ),
    "a port by name beside a number": (
        ingress({"toPorts": [{"ports": [{"port": "dns"}, {"port": "22"}]}]}),
        [ingress({"toPorts": [{"ports": [{"port": "22"}]}]}), {"endpointSelector": {"matchExpressions": [HAS(53, "dns", "udp")]}, "ingress": [{"toPorts": ports(53, protocol="UDP")}]}],
    ),
    "a port by name, going out": (
        egress({"toEndpoints": [app("web")], "toPorts": ports("http")}),
        egress({"toEndpoints": [{**app("web"), "matchExpressions": [HAS(8080)]}], "toPorts": ports(8080)}, {"toEndpoints": [{**app("web"), "matchExpressions": [HAS(9090)]}], "toPorts": ports(9090)}),
    ),
    "a port by name of every peer": (egress({"toPorts": ports("dns", protocol="UDP")}), egress({"toPorts": ports(53, protocol="UDP"), "toEndpoints": [{"matchExpressions": [HAS(53, "dns", "udp"), ANY_POD]}]})),
    "a port by name of what is no pod": (egress({"toCIDR": ["10.0.0.0/8"], "toPorts": ports("http")}), egress({})),
    "a port by name that no pod has": (ingress({"toPorts": ports("lost")}), ingress({})),
    "ICMP": (ingress({"fromEndpoints": [{}], "icmps": [{"fields": [{"type": 8, "family": "IPv4"}]}]}), ingress({})),
    "ICMP that is denied": ({"endpointSelector": {}, "ingressDeny": [{"icmps": [{"fields": [{"type": 8}]}]}]}, {"endpointSelector": {}, "ingressDeny": [{}]}),
    "ICMP as a protocol": (ingress({"toPorts": [{"ports": [{"port": "8", "protocol": "ICMP"}, {"port": "80"}]}]}), ingress({"toPorts": [{"ports": [{"port": "80"}]}]})),
    "ICMP as the protocol": (ingress({"toPorts": ports(8, protocol="icmpv6")}), ingress({})),
    "a group of prefixes": (egress({"toCIDRSet": [{"cidrGroupRef": "partners", "except": ["10.1.0.0/16"]}]}), egress({"toCIDRSet": [{"cidr": "198.51.100.0/24"}, {"cidr": "fd00::/8"}, {"cidr": "10.0.0.0/8", "except": ["10.1.0.0/16"]}]})),
    "a group that an exception has all of, of one family": (ingress({"fromCIDRSet": [{"cidrGroupRef": "partners", "except": ["0.0.0.0/0"]}]}), ingress({"fromCIDRSet": [{"cidr": "fd00::/8"}]})),
    "a group that exceptions have all of": (ingress({"fromCIDRSet": [{"cidrGroupRef": "partners", "except": ["0.0.0.0/0", "fc00::/7"]}]}), ingress({"fromCIDRSet": []})),
    "a group and exceptions with an IPv4 address at the end": (
        egress({"toCIDRSet": [{"cidrGroupRef": "translated", "except": ["64:ff9b::10.1.0.0/112", "64:ff9b::11.0.0.0/104"]}]}),
        egress({"toCIDRSet": [{"cidr": "198.51.100.0/24"}, {"cidr": "64:ff9b::a00:0/104", "except": ["64:ff9b::a01:0/112"]}]}),
    ),
    "groups of prefixes by labels": (ingress({"fromCIDRSet": [{"cidrGroupSelector": {"matchLabels": {"kind": "outer"}}}]}), ingress({"fromCIDRSet": [{"cidr": "198.51.100.0/24"}, {"cidr": "fd00::/8"}, {"cidr": "10.0.0.0/8"}]})),
    "a group that isn't there": (ingress({"fromCIDRSet": [{"cidrGroupRef": "lost"}], "toPorts": PORT}), ingress({"fromCIDRSet": [], "toPorts": PORT})),
    "nodes": (ingress({"fromNodes": [{"matchLabels": {"zone": "a"}}]}), ingress({"fromEntities": ["host", "remote-node", "kube-apiserver"]})),
    "the entity of other nodes": (egress({"toEntities": ["world", "remote-node"]}), egress({"toEntities": ["world", "remote-node", "kube-apiserver"]})),
    "the entity of nobody": (egress({"toEntities": ["none"], "toPorts": PORT}, {"toEntities": ["none", "host"]}), egress({"toEntities": [], "toPorts": PORT}, {"toEntities": ["host"]})),
    "a protocol without ports": (egress({"toPorts": ports(0, protocol="VRRP")}), egress({})),
    "prefixes of both families": (egress({"toCIDR": ["10.0.0.0/8", "FD00::/8"]}, {"toCIDRSet": [{"cidr": "::/0", "except": ["fd00::/8"]}, {"cidr": "0.0.0.0/0"}]}), SAME),
    "the entities of both worlds": (egress({"toEntities": ["world-ipv4"]}, {"toEntities": ["world-ipv6"]}), SAME),
    "an IPv4 address at the end": (
        egress({"toCIDR": ["::ffff:1.2.3.4/128", "1:2:3:4:5:6:10.0.0.1", "::1.2.3.4"]}, {"toCIDRSet": [{"cidr": "64:ff9b::0.0.0.0/96", "except": ["64:ff9b::10.0.0.0/104"]}]}),
        egress({"toCIDR": ["::ffff:102:304/128", "1:2:3:4:5:6:a00:1", "::102:304"]}, {"toCIDRSet": [{"cidr": "64:ff9b::0:0/96", "except": ["64:ff9b::a00:0/104"]}]}),
    ),
    "what isolates": (ingress({}, enableDefaultDeny={"ingress": False}), SAME),
    "a description and labels": (ingress({}, description="x", labels=[{"key": "a"}]), SAME),
    "a requirement without peers": (ingress({"fromRequires": [app("web")], "toPorts": PORT}), None),
}


def members_become(told):
    for name, (rule, wanted) in LINES.items():
        found = read(policy("pay/p", rule)).rewritten["CiliumNetworkPolicy", "pay", "p"]
        if wanted is not None:
            told(name, rules_of(found), [rule] if wanted is SAME else wanted if isinstance(wanted, list) else [wanted])
        told(f"{name}: what isn't read", [found.refused, [str(it) for it in found.unsure]], [None, []])


def the_same_object(told):
    """What the profile has is given to policyd as it stands."""
    state = read(policy("pay/p", LINES["what the profile has"][0]))
    told("the policy", state.parts()[0] is state.policies["CiliumNetworkPolicy", "pay", "p"], True)


def marks_and_names(told):
    spec = egress(
        {"toPorts": WITH(rules={"dns": [{}]})},
        {"toFQDNs": [{"matchName": "a.example"}, {"matchPattern": "*.b.example"}], "toPorts": PORT},
        {"toEndpoints": [{}], "authentication": {"mode": "required"}},
        {"toNodes": [{}]},
        {"toEndpoints": [{}], "authentication": {"mode": "disabled"}},
        {"toGroups": [{"aws": {"securityGroupsIds": ["sg-1"], "region": "eu"}}]},
    )
    found = read(policy("pay/p", spec)).rewritten["CiliumNetworkPolicy", "pay", "p"]
    told("the marks", found.marks, {"pay/p#0.egress[0]": ("L7",), "pay/p#0.egress[2]": ("auth",), "pay/p#0.egress[3]": ("nodes",)})
    told("the names", [(it.place, it.names, it.ports) for it in found.names], [("pay/p#0.egress[1]", ("a.example", "*.b.example"), {"toPorts": PORT}), ("pay/p#0.egress[5]", ("group sg-1, eu",), {})])


def places_lead_back(told):
    """An answer's place is that of the entry as it was written, whatever it became."""
    rule = ingress({"toPorts": ports("http")}, {"fromEndpoints": [{}], "toPorts": PORT})
    out = egress({"toServices": [{"k8sService": {"serviceName": it, "namespace": "shop"}} for it in ("outer", "cart")]}, {"toEndpoints": [{}]})
    state = read(policy("p", {"nodeSelector": {}, "ingress": [{}]}, rule, out))
    for answer, wanted in (
        ("/p#0.ingress[0]", "p#1.ingress[1]"),
        ("/p#1.ingress[0]", "p#1.ingress[0]"),
        ("/p#2.ingress[0]", "p#1.ingress[0]"),
        ("/p#3.egress[0]", "p#2.egress[0]"),
        ("/p#3.egress[1]", "p#2.egress[0]"),
        ("/p#3.egress[2]", "p#2.egress[1]"),
        ("/other#0.egress[2]", "/other#0.egress[2]"),
    ):
        told(answer, state.place(answer), wanted)


def policies_of_hosts(told):
    found = read(policy("p", {"nodeSelector": {}, "ingress": [{}]})).rewritten["CiliumClusterwideNetworkPolicy", "", "p"]
    told("of hosts alone", (found.parts, found.refused, dict(found.counted)), ([], None, {"rules of hosts, which select no pod": 1}))


def what_is_required(told):
    """A requirement stands in the peer selectors of every rule, for the pods that it is of."""
    of_web = {"endpointSelector": app("web"), "ingress": [{"fromEndpoints": [{"matchLabels": {"team": "a"}}], "fromRequires": [app("web")]}]}
    other = {"endpointSelector": {}, "ingress": [{"fromEndpoints": [app("cart")]}, {"fromEntities": ["host"]}, {"fromCIDR": ["10.0.0.0/8"]}]}
    state = read(policy("pay/needs", of_web), policy("pay/other", other))
    mine = {"key": "k8s:io.wenirako.required", "operator": "In", "values": ["0"]}
    none = {"key": "k8s:io.wenirako.required", "operator": "DoesNotExist"}
    more = [{"key": "k8s:io.kubernetes.pod.namespace", "operator": "In", "values": ["pay"]}, {"key": "app", "operator": "In", "values": ["web"]}, {"key": "k8s:io.kubernetes.pod.namespace", "operator": "In", "values": ["pay"]}]
    told("the other policy", rules_of(state.rewritten["CiliumNetworkPolicy", "pay", "other"]), [
        {"endpointSelector": {"matchExpressions": [none]}, "ingress": other["ingress"]},
        {"endpointSelector": {"matchExpressions": [mine]}, "ingress": [{"fromEndpoints": [{**app("cart"), "matchExpressions": more}]}, *other["ingress"][1:]]},
    ])
    of_pods = {it.name: any("io.wenirako.required" in label for label in it.labels) for it in state.cluster.live}
    told("whose peers", of_pods, {"pay/web": True, "pay/new": True, "shop/cart": False})


def what_is_required_of_networks(told):
    """A requirement stands in the peers of a NetworkPolicy that name pods too, and not in its prefixes: the model and the rows."""
    needs = policy("pay/needs", {"endpointSelector": app("web"), "ingress": [{"fromEndpoints": [app("none")], "fromRequires": [app("other")]}]})
    peers = [{"namespaceSelector": {}}, {"ipBlock": {"cidr": "198.51.100.0/24"}}]
    lets = network("pay/lets", {"podSelector": {"matchLabels": {"app": "web"}}, "ingress": [{"from": peers}]})
    made = judged.changed([*STATE, needs], [lets])
    world, rows = World([*STATE, needs, lets]), judged.rows_of(made)
    for source in (("pod", "shop/cart"), ("pod", "pay/new"), ("address", "198.51.100.7"), ("address", "203.0.113.7")):
        sent = (source, ("pod", "pay/web"), "TCP", 80)
        told(f"from {source}", any(has(row, sent, [world]) and row["after"] == "allowed" for row in rows), world.passes(*sent))
    told("what the model lets pass", [world.passes(it, ("pod", "pay/web"), "TCP", 80) for it in (("pod", "shop/cart"), ("address", "198.51.100.7"))], [False, True])


def the_clusters_own_name(told):
    key = "io.cilium.k8s.policy.cluster"
    rule = {"endpointSelector": {"matchLabels": {f"k8s:{key}": "east"}}, "ingress": [{"fromEndpoints": [{"matchExpressions": [{"key": key, "operator": "In", "values": ["east", "west", "default"]}]}]}]}
    found = read(policy("pay/p", rule), cluster="east")
    told("the rule", rules_of(found.rewritten["CiliumNetworkPolicy", "pay", "p"]), [
        {"endpointSelector": {"matchLabels": {f"k8s:{key}": "default"}}, "ingress": [{"fromEndpoints": [{"matchExpressions": [{"key": key, "operator": "In", "values": ["default", "west", "/default"]}]}]}]},
    ])
    told("the pods", {label for it in found.ends for label in it.labels if key in label}, {f"k8s:{key}=default"})
    told("as it stands", rules_of(read(policy("pay/p", rule)).rewritten["CiliumNetworkPolicy", "pay", "p"]), [rule])


def network_policies(told):
    """One with a port by name is given as a policy of Cilium's; every other one as it stands."""
    plain = network("pay/plain", {"podSelector": {}, "ingress": [{}]})
    peers = [{"podSelector": {"matchLabels": {"app": "web"}}}, {"namespaceSelector": {"matchLabels": {"team": "finance"}}, "podSelector": {}}, {"ipBlock": {"cidr": "10.0.0.0/8"}}, {"ipBlock": {"cidr": "fd00::/8"}}]
    mixed = network("pay/mixed", {"podSelector": {"matchLabels": {"app": "web"}}, "policyTypes": ["Ingress", "Egress"], "ingress": [{"from": peers, "ports": [{"port": "http"}]}, {}], "egress": []})
    state = read(plain, mixed)
    told("as it stands", state.rewritten["NetworkPolicy", "pay", "plain"].parts, [state.policies["NetworkPolicy", "pay", "plain"]])
    found = state.rewritten["NetworkPolicy", "pay", "mixed"]
    own = {"key": "k8s:io.kubernetes.pod.namespace", "operator": "In", "values": ["pay"]}
    pods = [
        {"matchLabels": {"k8s:app": "web"}, "matchExpressions": [own]},
        {"matchLabels": {"k8s:io.cilium.k8s.namespace.labels.team": "finance"}, "matchExpressions": [ANY_POD]},
    ]
    web = {"matchLabels": {"k8s:app": "web"}}
    asked = lambda number: {"endpointSelector": {**web, "matchExpressions": [HAS(number)]}, "ingress": [{"fromEndpoints": pods, "toPorts": ports(number)}, {"fromCIDRSet": [{"cidr": "10.0.0.0/8"}, {"cidr": "fd00::/8"}], "toPorts": ports(number)}]}
    told("the rules", rules_of(found), [{"endpointSelector": web, "ingress": [{"fromEntities": ["all"]}], "egress": [{}]}, asked(8080), asked(9090)])
    told("its places", {*found.places.values()}, {"pay/networkpolicy/mixed#0.ingress[0]", "pay/networkpolicy/mixed#0.ingress[1]", "pay/networkpolicy/mixed#0.egress[0]"})
    told("its name", found.parts[0].name, "pay/networkpolicy..mixed")
    both = network("pay/both", {"podSelector": {}, "ingress": [{"from": [{"ipBlock": {"cidr": "::/0", "except": ["fd00::/8"]}}, {"ipBlock": {"cidr": "0.0.0.0/0"}}]}]})
    state = read(both)
    told("of both families", state.rewritten["NetworkPolicy", "pay", "both"].parts, [state.policies["NetworkPolicy", "pay", "both"]])
    ending = network("pay/ending", {"podSelector": {}, "ingress": [{"from": [{"ipBlock": {"cidr": "64:ff9b::10.0.0.0/104", "except": ["64:ff9b::10.1.0.0/112"]}}]}]})
    found = read(ending).rewritten["NetworkPolicy", "pay", "ending"]
    told("with an IPv4 address at the end", rules_of(found), [{"endpointSelector": {}, "ingress": [{"fromCIDRSet": [{"cidr": "64:ff9b::a00:0/104", "except": ["64:ff9b::a01:0/112"]}]}]}])


def what_is_lacking(told):
    listed = [
        (egress({"toServices": [{"k8sService": {"serviceName": "lost", "namespace": "shop"}}]}), ["pay/p: no Service shop/lost is in the state"]),
        (egress({"toServices": [{"k8sServiceSelector": {"selector": {"matchLabels": {"env": "none"}}}}]}), ["pay/p: its Services by labels are none of the state"]),
        (egress({"toCIDRSet": [{"cidrGroupRef": "lost"}]}), ["pay/p: the CiliumCIDRGroup lost isn't in the state"]),
        (egress({"toCIDRSet": [{"cidrGroupSelector": {"matchLabels": {"kind": "none"}}}]}), ["pay/p: no CiliumCIDRGroup of the state has the labels that it asks for"]),
        (ingress({"toPorts": ports("lost")}), ["pay/p: no pod that it selects has a port of the name lost"]),
    ]
    for rule, wanted in listed:
        told(wanted[0], read(policy("pay/p", rule)).rewritten["CiliumNetworkPolicy", "pay", "p"].lacking, wanted)
    without = [it for it in STATE if it["kind"] not in ("Service", "EndpointSlice")]
    found = read(policy("pay/p", listed[0][0]), state=without).rewritten["CiliumNetworkPolicy", "pay", "p"]
    told("without Services", [str(it) for it in found.unsure], ["pay/p: toServices without a Service in the state at spec.egress[0]"])


# A rule, and what Cilium or the API server says to it.
REFUSED = {
    "combining toCIDR and toEntities at spec.egress[0]": egress({"toCIDR": ["10.0.0.0/8"], "toEntities": ["world"]}),
    "combining toEndpoints and toFQDNs at spec.egress[0]": egress({"toFQDNs": [{"matchName": "a.example"}], "toEndpoints": [{}]}),
    "combining toEndpoints and toServices at spec.egress[0]": egress({"toServices": [{"k8sService": {"serviceName": "web"}}], "toEndpoints": [{}]}),
    "combining icmps and toPorts at spec.ingress[0]": ingress({"icmps": [{"fields": []}], "toPorts": PORT}),
    "bad-cidr at spec.ingress[0]": ingress({"fromCIDR": ["10.0.0.0/33"]}),
    "bad-cidr at spec.egress[0]": egress({"toCIDR": ["1::2::3/64"]}),
    "except-outside at spec.egress[0]": egress({"toCIDRSet": [{"cidr": "10.0.0.0/8", "except": ["fd00::/8"]}]}),
    "except-outside at spec.ingress[0]": ingress({"fromCIDRSet": [{"cidr": "10.0.0.0/8", "except": ["11.0.0.0/8"]}]}),
    "unknown-entity at spec.ingress[0]": ingress({"fromEntities": ["everybody"]}),
    "too-many-ports at spec.ingress[0]": ingress({"toPorts": ports(*range(1, 42))}),
    "bad-port at spec.ingress[0]": ingress({"toPorts": ports(70000)}),
    "bad-protocol at spec.ingress[0]": ingress({"toPorts": ports(80, protocol="GRE")}),
    "toFQDNs in a section that denies, at spec.egressDeny[0]": {"endpointSelector": {}, "egressDeny": [{"toFQDNs": [{"matchName": "a.example"}]}]},
    "rules in a section that denies, at spec.ingressDeny[0]": {"endpointSelector": {}, "ingressDeny": [{"toPorts": WITH(rules={"http": [{}]})}]},
    "no-selector at spec": {"ingress": [{}]},
    "nodeSelector beside endpointSelector at spec": {"endpointSelector": {}, "nodeSelector": {}, "ingress": [{}]},
    "bad-selector at spec.endpointSelector": {"endpointSelector": {"matchExpressions": [{"key": "a", "operator": "Is"}]}, "ingress": [{}]},
    "wrong-shape at spec.ingress": {"endpointSelector": {}, "ingress": {}},
}


def what_cilium_refuses_too(told):
    for wanted, rule in REFUSED.items():
        found = read(policy("pay/p", rule)).rewritten["CiliumNetworkPolicy", "pay", "p"]
        told(wanted, (found.refused, found.parts, found.unsure), (wanted, [], []))
    found = read(network("pay/p", {"podSelector": {}, "ingress": [{"from": [{"ipBlock": {"cidr": "10.0.0.0/8"}, "podSelector": {}}], "ports": [{"port": "http"}]}]}))
    told("of a NetworkPolicy", found.rewritten["NetworkPolicy", "pay", "p"].refused, "bad-peer at spec.ingress[0]")


# A rule, what isn't read with its directions, and the rules that are kept.
UNREAD = {
    "an entry": (ingress({"fromNews": [{}]}, {"fromEndpoints": [{}]}), ("spec.ingress[0].fromNews", ["ingress"], True, False, False), [ingress({}, {"fromEndpoints": [{}]})]),
    "an entry that denies": ({"endpointSelector": {}, "egressDeny": [{"news": 1}]}, ("spec.egressDeny[0].news", ["egress"], False, True, False), [{"endpointSelector": {}, "egressDeny": [{}]}]),
    "a port": (egress({"toPorts": [{"ports": [{"port": "80", "news": 1}]}]}), ("spec.egress[0].toPorts[0].ports[0].news", ["egress"], True, False, False), [egress({})]),
    "a rule": (ingress({}, news={}), ("spec.news", ["egress", "ingress"], True, True, True), [ingress({})]),
    "a subject": ({"endpointSelector": {"news": 1}, "ingress": [{}]}, ("spec.endpointSelector.news", ["ingress"], True, True, True), []),
    "a name": (egress({"toFQDNs": [{"matchNews": "a"}]}), ("spec.egress[0].toFQDNs[0].matchNews", ["egress"], True, False, False), [egress({})]),
    "ports without any": (ingress({"toPorts": [{"rules": {"http": []}}]}), ("spec.ingress[0]", ["ingress"], True, False, False), [ingress({})]),
    # (what is rewritten goes with what stands in it, but not with what nobody reads)
    "beside ICMP": (ingress({"icmps": [{"fields": [{"type": 8}]}], "news": 1}), ("spec.ingress[0].news", ["ingress"], True, False, False), [ingress({})]),
    "beside a port of ICMP": (egress({"toPorts": [{"ports": [{"port": "8", "protocol": "ICMP"}], "news": 1}]}), ("spec.egress[0].toPorts[0].news", ["egress"], True, False, False), [egress({})]),
    "beside names": (egress({"toFQDNs": [{"matchName": "a.example"}], "news": 1}), ("spec.egress[0].news", ["egress"], True, False, False), [egress({})]),
    "beside a Service": (egress({"toServices": [{"k8sService": {"serviceName": "web", "news": 1}}]}), ("spec.egress[0].toServices[0].k8sService.news", ["egress"], True, False, False), [egress({})]),
    "in the selector of groups": (egress({"toCIDRSet": [{"cidrGroupSelector": {"news": 1}}]}), ("spec.egress[0].toCIDRSet[0].cidrGroupSelector.news", ["egress"], True, False, False), [egress({})]),
    "in what sorts nodes": (ingress({"fromNodes": [{"news": 1}]}), ("spec.ingress[0].fromNodes[0].news", ["ingress"], True, False, False), [ingress({})]),
    "a subject of what isolates alone": ({"endpointSelector": {"news": 1}, "enableDefaultDeny": {"egress": True}}, ("spec.endpointSelector.news", ["egress"], True, True, True), []),
    "what isolates": (ingress({}, enableDefaultDeny={"news": True}), ("spec.enableDefaultDeny.news", ["egress", "ingress"], True, True, True), [ingress({})]),
}


def what_is_not_read(told):
    """The subject and the directions that are isolated are kept where they can be told."""
    for name, (rule, wanted, kept) in UNREAD.items():
        found = read(policy("pay/p", rule)).rewritten["CiliumNetworkPolicy", "pay", "p"]
        got = [(it.path, sorted(it.directions), it.allows, it.denies, it.isolates) for it in found.unsure]
        told(name, (found.refused, got, rules_of(found)), (None, [wanted], kept))
    one = read(policy("pay/p", UNREAD["an entry"][0])).rewritten["CiliumNetworkPolicy", "pay", "p"].unsure[0]
    pay, shop = ["k8s:io.kubernetes.pod.namespace=pay"], ["k8s:io.kubernetes.pod.namespace=shop"]
    told("whom it touches", [one.touches(*it) for it in ((pay, "ingress"), (pay, "egress"), (shop, "ingress"))], [True, False, False])


def what_is_not_read_beside_others(told):
    """Of a rule, what its own entries deny isn't sure either; of an entry that requires something, what others allow."""
    unsure = lambda item: [(it.path, it.allows, it.denies, it.overrides) for it in read(item).rewritten[item["kind"], "pay", "p"].unsure]
    told("a rule that denies", unsure(policy("pay/p", {"endpointSelector": {}, "ingressDeny": [{}], "news": 1})), [("spec.news", True, True, True)])
    told("a rule that doesn't", unsure(policy("pay/p", ingress({}, news=1))), [("spec.news", True, True, False)])
    told("a requirement", unsure(policy("pay/p", ingress({"fromRequires": [app("web")], "news": 1}))), [("spec.ingress[0].news", True, True, False)])
    told("no name is noted", read(policy("pay/p", UNREAD["beside names"][0])).all_names, [])


def documents_that_are_not_read(told):
    """A member of the document is of any pod of the namespace, and the rules stay in force; so of a NetworkPolicy."""
    for item in (policy("pay/p", ingress({})), network("pay/p", {"podSelector": {}, "ingress": [{}]})):
        found = read({**item, "news": 1}).rewritten[item["kind"], "pay", "p"]
        told(f"a {item['kind']}", [(it.path, it.asked, it.namespace, it.isolates) for it in found.unsure], [("news", None, "pay", True)])
        told(f"what policyd is given of a {item['kind']}", [(unread.why_unread(it.document), bool(it.rules())) for it in found.parts], [(None, True)])
    web, of_pay = ("k8s", "app", "In", ("web",)), ("k8s", "io.kubernetes.pod.namespace", "In", ("pay",))
    found = read(network("pay/p", {"podSelector": app("web"), "ingress": [{}], "news": 1})).rewritten["NetworkPolicy", "pay", "p"]
    told("a member of its spec", ([(it.path, it.asked) for it in found.unsure], len(found.parts)), ([("spec.news", (web, of_pay))], 1))
    found = read(network("pay/p", {"podSelector": {"news": 1}, "policyTypes": ["Egress"]})).rewritten["NetworkPolicy", "pay", "p"]
    told("its subject", ([(it.path, it.asked, sorted(it.directions)) for it in found.unsure], found.refused, found.parts), ([("spec.podSelector.news", None, ["egress"])], None, []))


def the_same_does_the_same(told):
    """What isn't read is the same in two states where it stands in the same entry, and the state beside it is the same."""
    unsure = lambda *items, state=STATE: read(*items, state=state).all_unsure
    one = lambda port: policy("pay/p", ingress({"toPorts": ports(port), "news": 1}, {}))
    told("the same", unsure(one(80)) == unsure(one(80)), True)
    told("another entry changes", unsure(one(80)) == unsure(policy("pay/p", ingress({"toPorts": ports(80), "news": 1}, {"fromEntities": ["all"]}))), True)
    told("it changes", unsure(one(80)) == unsure(one(81)), False)
    told("a Service changes", unsure(one(80)) == unsure(one(80), state=[*STATE[:-1], service("shop/new", {"app": "cart"}), STATE[-1]]), False)


def forty_policies_are_read(told):
    """Each form that is documented is read, and has the word beside it that the table says; nothing of it is unsure."""
    told("how many", len(FORTY), 40)
    for name, rule, word in FORTY:
        state = read(policy("pay/p", rule))
        found = state.rewritten["CiliumNetworkPolicy", "pay", "p"]
        marks = [one for it in found.marks.values() for one in it] + ["names" for it in found.names]
        told(name, (found.refused, [str(it) for it in found.unsure], marks or ["read"]), (None, [], [word]))
        told(f"{name}: what policyd is given", [unread.why_unread(it.document) for it in found.parts], [None])


def checks():
    return [forty_policies_are_read, members_become, the_same_object, marks_and_names, places_lead_back, policies_of_hosts, what_is_required, what_is_required_of_networks, the_clusters_own_name, network_policies, what_is_lacking, what_cilium_refuses_too, what_is_not_read, what_is_not_read_beside_others, documents_that_are_not_read, the_same_does_the_same]
