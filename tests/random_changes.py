#!/usr/bin/env python3
"""Random changes of policies in small random clusters: the rows of `./wenirako diff` against packets that are asked singly.

    tests/random_changes.py [SEED ..]     the clusters of these seeds, 1 to 3 where none is given

A connection changes exactly where its halves, asked by recipes/from-kubectl before and after, say so; and it has the row
of that change, and one row alone. The packets are of random ends, protocols and ports, many beside the ends of ranges.
"""
import ipaddress
import json
import pathlib
import random
import subprocess
import sys
import tempfile

sys.dont_write_bytecode = True
TOP = pathlib.Path(__file__).resolve().parent.parent
PACKETS = 300
NAMESPACES = ["a", "b", "c"]
PORTS = [53, 80, 443, 5432, 8080]
ENTITIES = {"host": 1, "unmanaged": 3, "health": 4, "init": 5, "remote-node": 6, "kube-apiserver": 7, "ingress": 8}
ADDRESSES = ["8.8.8.8", "2606:4700::9", *(f"10.{it}.0.9" for it in range(8, 17)), *(f"2001:db8:{it:x}::9" for it in range(8, 17))]


def pod(number):
    app = f"app{number % 8}"
    metadata = {"name": f"{app}-{number}", "namespace": NAMESPACES[number % 8 % 3], "labels": {"app": app, "tier": f"t{number % 2}"}}
    # (every fourth pod has an address of IPv6 alone, and others have one of each family)
    addresses = [f"fd00::{number:x}"] if number % 4 == 0 else [f"10.1.0.{number}", f"fd00::{number:x}"][: 1 + number % 2]
    status = {"phase": "Running", "hostIP": f"192.168.0.{number % 2}", "podIP": addresses[0], "podIPs": [{"ip": it} for it in addresses]}
    return {"apiVersion": "v1", "kind": "Pod", "metadata": metadata, "spec": {"nodeName": f"n{number % 2}"}, "status": status}


def selector(pick):
    found = pick.choice([{}, {"app": f"app{pick.randrange(8)}"}, {"tier": "t1"}])
    if pick.random() < 0.5:
        found = {**found, "k8s:io.kubernetes.pod.namespace": pick.choice(NAMESPACES)}
    return {"matchLabels": found}


def entry(pick, word):
    found = pick.choice([
        {f"{word}Endpoints": [selector(pick)]},
        {f"{word}Entities": [pick.choice(["all", "world", "world-ipv4", "world-ipv6", "cluster", *ENTITIES])]},
        {f"{word}CIDRSet": [{"cidr": f"10.{pick.randrange(8, 12)}.0.0/{pick.randrange(12, 17)}", "except": []}]},
        {f"{word}CIDRSet": [{"cidr": "10.8.0.0/13", "except": [f"10.{pick.randrange(8, 12)}.0.0/16"]}]},
        {f"{word}CIDRSet": [{"cidr": f"2001:DB8:{pick.randrange(8, 12):x}::/{pick.randrange(44, 49)}", "except": []}]},
        {f"{word}CIDRSet": [{"cidr": pick.choice(["::/0", "2001:db8:8::/45"]), "except": [f"2001:db8:{pick.randrange(8, 12):x}::/48"]}]},
        {},
    ])
    if pick.random() < 0.7:
        port = {"port": str(pick.choice(PORTS)), "protocol": pick.choice(["TCP", "TCP", "UDP", "ANY"])}
        if pick.random() < 0.3:
            port["endPort"] = int(port["port"]) + pick.randrange(20)
        found["toPorts"] = [{"ports": [port]}]
    return found


def rule(pick):
    found = {"endpointSelector": pick.choice([{}, {"matchLabels": {"app": f"app{pick.randrange(8)}"}}])}
    for section, word in (("ingress", "from"), ("ingressDeny", "from"), ("egress", "to"), ("egressDeny", "to")):
        if pick.random() < (0.6 if section == "ingress" else 0.3):
            found[section] = [entry(pick, word) for _ in range(pick.randrange(1, 3))]
    return found


def policy(number, pick):
    rules = {"specs": [rule(pick), rule(pick)]} if pick.random() < 0.3 else {"spec": rule(pick)}
    whole = pick.random() < 0.2
    metadata = {"name": f"p{number}", **({} if whole else {"namespace": NAMESPACES[number % 3]})}
    return {"apiVersion": "cilium.io/v2", "kind": f"Cilium{'Clusterwide' if whole else ''}NetworkPolicy", "metadata": metadata, **rules}


def end(pick, names):
    kind = pick.choice(["pod", "pod", "pod", "entity", "address"])
    return kind, pick.choice({"pod": names, "entity": sorted(ENTITIES), "address": ADDRESSES}[kind])


def packet(pick, names):
    one, other = ("pod", pick.choice(names)), end(pick, names)
    while one == other:
        other = end(pick, names)
    ends = (one, other) if pick.random() < 0.5 else (other, one)
    return (*ends, pick.choice(["TCP", "TCP", "UDP", "SCTP"]), pick.choice([pick.randrange(65536), pick.choice(PORTS) + pick.choice([-1, 0, 0, 1, 9])]))


def halves(packet):
    """The queries of a packet's halves."""
    source, target, protocol, port = packet
    for (kind, name), direction, (other, value) in ((source, "egress", target), (target, "ingress", source)):
        if kind == "pod":
            remote = {"identity": ENTITIES[value]} if other == "entity" else {other: value}
            yield {"op": "verdict", "endpoint": name, "direction": direction, **remote, "protocol": protocol, "port": port}


def is_end(listed, packet_end):
    kind, value = packet_end
    if kind != "address":
        return {kind: value} in listed
    of = lambda text: ipaddress.ip_address(value) in ipaddress.ip_network(text)
    return any("cidr" in it and of(it["cidr"]) and not any(map(of, it["except"])) for it in listed)


def has(row, packet):
    source, target, protocol, port = packet
    ports = [pair for it in row["ports"] if protocol in it["protocols"] for pair in it["ranges"]]
    return is_end(row["from"], source) and is_end(row["to"], target) and any(low <= port <= high for low, high in ports)


def run(words, given=None):
    return subprocess.run(words, cwd=TOP, input=given, stdout=subprocess.PIPE, stderr=subprocess.PIPE, text=True).stdout


def verdicts(text, asks, count):
    """Whether each query of a file is allowed, with the objects of the text."""
    answers = run(["./play", "-"], run(["recipes/from-kubectl", "--ask", asks], text)).splitlines()
    return [it.startswith("allowed") for it in answers[-count:]]


def play(seed):
    """What is wrong with the rows of one random change, in lines, and how many of the packets change."""
    pick = random.Random(seed)
    pods = [pod(number) for number in range(1, 17)]
    names = [f"{it['metadata']['namespace']}/{it['metadata']['name']}" for it in pods]
    items = [*pods, *(policy(number, pick) for number in range(8))]
    new = policy(pick.randrange(9), pick)
    packets = [packet(pick, names) for _ in range(PACKETS)]
    queries = [list(halves(it)) for it in packets]
    flat = [json.dumps(it) for each in queries for it in each]
    with tempfile.TemporaryDirectory() as folder:
        texts = json.dumps({"apiVersion": "v1", "kind": "List", "items": items}), json.dumps(new)
        for name, text in zip(("state", "new", "asks"), (*texts, "\n".join(flat))):
            pathlib.Path(folder, name).write_text(text)
        whole = json.loads(run(["./wenirako", "diff", "--format", "json", "--state", f"{folder}/state", "--add", f"{folder}/new"]) or "{}")
        rows = whole.get("rows")
        answers = [iter(verdicts(text, f"{folder}/asks", len(flat))) for text in (texts[0], "".join(replaced(items, new)))]
    if rows is None:
        return ["diff gave no rows"], 0
    wrong, changed = [], 0
    for it, each in zip(packets, queries):
        before, after = (all([next(part) for _ in each]) for part in answers)
        changed += before != after
        got = [(row["before"] == "allowed", row["after"] == "allowed") for row in rows if has(row, it)]
        if got != ([(before, after)] if before != after else []):
            wrong.append(f"{it}: {before} before and {after} after, and the rows say {got}")
    return wrong, changed


def replaced(items, new):
    """The objects with the new policy behind them, or in the place of the one of its names."""
    key = lambda it: (it["kind"], it["metadata"].get("namespace"), it["metadata"]["name"])
    yield json.dumps({"apiVersion": "v1", "kind": "List", "items": [it for it in items if key(it) != key(new)]})
    yield json.dumps(new)


def main(seeds):
    found = [(seed, *play(seed)) for seed in seeds]
    for seed, wrong, changed in found:
        print(f"seed {seed}: {changed} of {PACKETS} packets change, and {len(wrong)} are wrong", *wrong[:20], sep="\n  ")
    return 1 if any(wrong for _, wrong, _ in found) else 0


if __name__ == "__main__":
    sys.exit(main(list(map(int, sys.argv[1:])) or [1, 2, 3]))
