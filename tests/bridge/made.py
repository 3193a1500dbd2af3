"""Three clusters as they are: several nodes, both address families, host network, Jobs, Services of each kind, and the
policies that operators write, names, Services, ports by name and rules of layer 7 among them.

    python3 -m bridge.made 25|160|1000     in tests/: prints the state as kubectl does
"""
import json
import sys

from .objects import app, behind, deployment, dual, group, namespace, network, pod, policy, ports, service

# The pods, the teams with a namespace each, and the nodes of a cluster.
SIZES = {25: (2, 3), 160: (6, 5), 1000: (20, 12)}
APPS = ("web", "api", "db", "worker")
OUTSIDE = "203.0.113.50"
OF_DNS = {"matchLabels": {"k8s:io.kubernetes.pod.namespace": "kube-system", "k8s:k8s-app": "kube-dns"}}
LOOKS_UP = policy("allow-dns", {
    "endpointSelector": {"matchExpressions": [{"key": "io.kubernetes.pod.namespace", "operator": "NotIn", "values": ["kube-system"]}]},
    "egress": [{"toEndpoints": [OF_DNS], "toPorts": [{"ports": [{"port": "53", "protocol": "ANY"}], "rules": {"dns": [{"matchPattern": "*"}]}}]}],
})


def number_of_http(team):
    """The number of the port `http`, which isn't the same for every team."""
    return 8080 if team % 2 == 0 else 9090


def ports_of(name, team):
    return {"web": [("http", number_of_http(team))], "api": [("http", number_of_http(team))], "db": [("pg", 5432)]}.get(name, [])


def system(nodes):
    """What runs beside the teams: DNS, an agent on each node, the API server on the first."""
    found = [namespace("kube-system"), namespace("default")]
    for at in range(2):
        found.append(dual(pod(f"kube-system/dns-5d4-{at}", {"k8s-app": "kube-dns", "pod-template-hash": "5d4"}, f"n{at + 1}", f"10.200.0.{at + 1}", [("dns", 53, "UDP")], ("ReplicaSet", "dns-5d4")), f"fd00::{at + 1:x}"))
    found += [pod(f"kube-system/agent-{at}", {"k8s-app": "agent"}, f"n{at}", f"192.168.0.{at}", owner=("DaemonSet", "agent"), hostNetwork=True) for at in range(1, nodes + 1)]
    found.append(pod("kube-system/kube-apiserver-n1", {"component": "kube-apiserver"}, "n1", "192.168.0.1", hostNetwork=True))
    found += [service("kube-system/dns", {"k8s-app": "kube-dns"}, "10.96.0.10"), service("default/kubernetes", None, "10.96.0.1"), behind("default/kubernetes", "192.168.0.1")]
    return [*found, group("partners", "198.51.100.0/24", "fd00:1::/48")]


def team_of(team, replicas, nodes):
    """A team's namespace, its pods by app, a Job that has finished, a workload at zero, and its Services."""
    space = f"team{team}"
    found = [namespace(space, tier="gold" if team % 2 == 0 else "silver")]
    for kind, name in enumerate(APPS):
        for at in range(replicas[kind]):
            number = kind * 60 + at
            short, owner = (f"db-{at}", ("StatefulSet", "db")) if name == "db" else (f"{name}-7f-{at}", ("ReplicaSet", f"{name}-7f"))
            labels = {"app": name, **({} if name == "db" else {"pod-template-hash": "7f"})}
            one = pod(f"{space}/{short}", labels, f"n{number % nodes + 1}", f"10.{team}.0.{number + 1}", ports_of(name, team), owner)
            found.append(dual(one, f"fd00::{4096 + team * 256 + number:x}"))
    found.append(pod(f"{space}/report-1-x", {"app": "report"}, "n1", f"10.{team}.0.1", owner=("Job", "report-1"), phase="Succeeded"))
    found += [deployment(f"{space}/batch", {"app": "batch"}), deployment(f"{space}/web", {"app": "web"})]
    found += [service(f"{space}/web", {"app": "web"}, f"10.96.{team + 1}.1", type="LoadBalancer"), service(f"{space}/api", {"app": "api"}, f"10.96.{team + 1}.2")]
    found[-2]["status"] = {"loadBalancer": {"ingress": [{"ip": f"203.0.113.{team + 1}"}]}}
    return [*found, service(f"{space}/db", {"app": "db"}), service(f"{space}/mail", type="ExternalName", externalName="mail.example")]


def policies_of(team):
    """Default deny, and what each app may receive and send."""
    space = f"team{team}"
    one = lambda name, subject, **sections: policy(f"{space}/{name}", {"endpointSelector": subject, **sections})
    http = [{"ports": [{"port": "http", "protocol": "TCP"}], "rules": {"http": [{"method": "GET"}]}}]
    return [
        one("default-deny", {}, ingress=[{}]),
        one("web-in", app("web"), ingress=[{"fromEntities": ["world"], "toPorts": ports("http")}, {"fromCIDR": ["::/0"]}]),
        one("api-in", app("api"), ingress=[{"fromEndpoints": [app("web")], "toPorts": http}]),
        one("db-in", app("db"), ingress=[{"fromEndpoints": [app("api")], "toPorts": ports("pg")}]),
        one("web-out", app("web"), egress=[{"toServices": [{"k8sService": {"serviceName": "api", "namespace": space}}]}]),
        one("api-out", app("api"), egress=[{"toEndpoints": [app("db")], "toPorts": ports(5432)}, {"icmps": [{"fields": [{"type": 8}]}]}]),
        one("worker-out", app("worker"), egress=[{"toFQDNs": [{"matchName": "api.example"}], "toPorts": ports(443)}, {"toCIDRSet": [{"cidrGroupRef": "partners"}], "toPorts": ports(25)}]),
        network(f"{space}/gold-in", {"podSelector": {"matchLabels": {"app": "api"}}, "ingress": [{"from": [{"namespaceSelector": {"matchLabels": {"tier": "gold"}}, "podSelector": {"matchLabels": {"app": "web"}}}], "ports": [{"port": "http"}]}]}),
    ]


def cluster(size):
    teams, nodes = SIZES[size]
    found, left = system(nodes), size - 2
    for team in range(teams):
        share = left // (teams - team)
        replicas = [share // len(APPS) + (kind < share % len(APPS)) for kind in range(len(APPS))]
        found += [*team_of(team, replicas, nodes), *policies_of(team)]
        left -= share
    return [*found, LOOKS_UP, policy("hosts", {"nodeSelector": {}, "ingress": [{"fromEntities": ["cluster"]}]})]


if __name__ == "__main__":
    print(json.dumps({"apiVersion": "v1", "kind": "List", "items": cluster(int(sys.argv[1]))}))
