"""Random changes of random states with all that is rewritten: the rows against packets by the model of tests/bridge/cilium.py.

    python3 -m bridge.random_states [SEED ..]      in tests/; 1 to 20 where none is given

policyd's place is taken by the judge, so that this takes seconds. A packet changes exactly where the model says so before
and after, and it then has the row of that change, and one row alone.
"""
import copy
import ipaddress
import random
import re
import sys

from . import judged
from .cilium import World
from lib import lint
from .objects import behind, dual, group, namespace, network, pod, policy, service

SPACES = ["a", "b"]
PACKETS = 60
ENTITIES = ["host", "remote-node", "kube-apiserver", "ingress", "health"]
NAMES = ["example.com", "*.example.org"]
ADDRESSES = ["8.8.8.8", "10.8.1.1", "10.9.1.1", "10.9.7.1", "172.16.0.9", "203.0.113.9", "2606:4700::9", "fd00:8::1", "fd00:9::1", "fd00:9:8000::1", "2001:db8::9"]
NUMBERS = [53, 80, 443, 8080, 9090]


def cluster(pick):
    """Two namespaces with eight pods, some with an address of each family, whose ports by name differ; Services, a group of prefixes, addresses behind one."""
    found = [namespace(it, team=f"t{it}") for it in SPACES]
    for at in range(8):
        listed = [("http", pick.choice([8080, 9090])), ("dns", 53, "UDP")][: pick.randrange(3)]
        found.append(pod(f"{SPACES[at % 2]}/p{at}", {"app": f"app{at % 4}", "tier": f"t{at % 3}"}, f"n{at % 2 + 1}", f"10.1.0.{at + 1}" if at else "fd00:1::1", listed))
        found[-1] = dual(found[-1], f"fd00:1::{at + 1:x}") if at % 2 else found[-1]
    found += [service("a/apps", {"app": "app0"}, labels={"kind": "apps"}), service("b/apps", {"app": "app1"}, labels={"kind": "apps"})]
    found += [service("a/outer"), behind("a/outer", "203.0.113.9"), behind("a/outer", "2001:db8::9"), group("partners", "10.9.0.0/16", "fd00::0.0.0.0/8", kind="outer"), group("more", "172.16.0.0/12")]
    return found


def selector(pick):
    found = {"matchLabels": pick.choice([{}, {"app": f"app{pick.randrange(4)}"}, {"tier": f"t{pick.randrange(3)}"}])}
    if pick.random() < 0.3:
        found["matchLabels"] = {**found["matchLabels"], "k8s:io.kubernetes.pod.namespace": pick.choice(SPACES)}
    if pick.random() < 0.2:
        found["matchExpressions"] = [{"key": "tier", "operator": pick.choice(["In", "NotIn"]), "values": ["t1"]}]
    return found


def ports(pick, denies):
    port = {"port": pick.choice([*map(str, NUMBERS), "http", "http", "dns"]), "protocol": pick.choice(["TCP", "TCP", "UDP", "ANY"])}
    if port["port"].isdigit() and pick.random() < 0.2:
        port["endPort"] = int(port["port"]) + 20
    item = {"ports": [port, *([{"port": "443"}] if pick.random() < 0.2 else [])]}
    if not denies and pick.random() < 0.2:
        item["rules"] = {"http": [{"method": "GET"}]}
    return [item]


def entry(pick, word, denies):
    """An entry of any kind that is rewritten, or of one that isn't."""
    prefix = lambda: pick.choice([f"10.{pick.randrange(8, 10)}.0.0/{pick.randrange(12, 17)}", f"fd00:{pick.randrange(8, 10)}::/{pick.randrange(28, 34)}", "0.0.0.0/0", "::/0"])
    kinds = [
        lambda: {f"{word}Endpoints": [selector(pick)]},
        lambda: {f"{word}Endpoints": [selector(pick), selector(pick)]},
        lambda: {f"{word}Entities": [pick.choice(["all", "world", "world-ipv4", "world-ipv6", "cluster", *ENTITIES])]},
        lambda: {f"{word}CIDR": [prefix()]},
        lambda: {f"{word}CIDR": [prefix(), prefix()]},
        lambda: {f"{word}CIDRSet": [{"cidr": "10.8.0.0/13", "except": ["10.9.0.0/16"]}]},
        lambda: {f"{word}CIDRSet": [{"cidr": pick.choice(["::/0", "fd00::/16"]), "except": ["fd00:9::/32", "fd00:8::0.0.0.1"]}]},
        lambda: {f"{word}CIDRSet": [pick.choice([{"cidrGroupRef": "partners", "except": ["fd00:9::0.0.0.0/33"]}, {"cidrGroupSelector": {"matchLabels": {"kind": "outer"}}}, {"cidrGroupRef": "lost"}])]},
        lambda: {f"{word}Nodes": [{"matchLabels": {"x": "y"}}]},
        lambda: {"icmps": [{"fields": [{"type": 8}]}]},
        lambda: {},
    ]
    if word == "to" and not denies:
        kinds += [lambda: {"toFQDNs": [{"matchName": NAMES[0]}, {"matchPattern": NAMES[1]}][: pick.randrange(1, 3)]}]
    if word == "to":
        kinds += [lambda: {"toServices": [{"k8sService": {"serviceName": pick.choice(["apps", "outer"]), "namespace": "a"}}]}]
        kinds += [lambda: {"toServices": [{"k8sServiceSelector": {"selector": {"matchLabels": {"kind": "apps"}}}}]}]
    found = pick.choice(kinds)()
    if "icmps" not in found and (pick.random() < 0.6 or not found):
        found["toPorts"] = ports(pick, denies)
    # (what a named port is towards what is no pod, the documentation doesn't say; nor what a node is among some)
    if not denies and pick.random() < 0.05:
        found["authentication"] = {"mode": "required"}
    if not denies and f"{word}Endpoints" in found and pick.random() < 0.1:
        found[f"{word}Requires"] = [selector(pick)]
    return found


def rule(pick):
    found = {"endpointSelector": pick.choice([{}, {"matchLabels": {"app": f"app{pick.randrange(4)}"}}])}
    for section, word in (("ingress", "from"), ("ingressDeny", "from"), ("egress", "to"), ("egressDeny", "to")):
        if pick.random() < (0.25 if section.endswith("Deny") else 0.6):
            found[section] = [entry(pick, word, section.endswith("Deny")) for _ in range(pick.randrange(1, 3))]
    if pick.random() < 0.3:
        found["enableDefaultDeny"] = {pick.choice(["ingress", "egress"]): pick.random() < 0.4}
    return found


def made(pick, name):
    if pick.random() < 0.25:
        peers = [{"podSelector": {"matchLabels": {"tier": "t1"}}}, {"namespaceSelector": {"matchLabels": {"team": "tb"}}}, {"ipBlock": {"cidr": "fd00::/8", "except": ["fd00:9::/33"]}}, {"ipBlock": {"cidr": "10.8.0.0/13"}}, {"ipBlock": {"cidr": "::/0"}}]
        one = lambda word: {word: pick.sample(peers, pick.randrange(3)), "ports": [{"port": pick.choice(["http", 80, 8080])}][: pick.randrange(2)]}
        spec = {"podSelector": {"matchLabels": {"app": f"app{pick.randrange(4)}"}}, "policyTypes": ["Ingress", "Egress"][: pick.randrange(1, 3)], "ingress": [one("from")], "egress": [one("to")]}
        return network(f"{pick.choice(SPACES)}/{name}", spec)
    rules = [rule(pick) for _ in range(pick.randrange(1, 3))]
    return policy(name if pick.random() < 0.2 else f"{pick.choice(SPACES)}/{name}", *rules)


def end(pick, pods):
    kind = pick.choice(["pod", "pod", "pod", "entity", "address", "address", "name"])
    return (kind, pick.choice({"pod": pods, "entity": ENTITIES, "address": ADDRESSES, "name": NAMES}[kind]), *([pick.choice([4, 6])] if kind == "name" else []))


def packet(pick, pods):
    one, other = ("pod", pick.choice(pods)), end(pick, pods)
    while one == other:
        other = end(pick, pods)
    ends = (one, other) if other[0] == "name" or pick.random() < 0.6 else (other, one)
    return (*ends, pick.choice(["TCP", "TCP", "UDP", "SCTP"]), pick.choice([*NUMBERS, pick.randrange(65536)]))


def has(row, sent, worlds):
    """Whether a row is of a packet. A name's addresses are those of its family's world where no policy of the pod names it."""
    source, target, protocol, port = sent
    if target[0] == "name" and not any(it.mentions(source[1], target[1]) for it in worlds):
        target = ("address", {4: "198.51.100.1", 6: "2606:4700::1"}[target[2]])
    at_port = any(protocol in it["protocols"] and any(low <= port <= high for low, high in it["ranges"]) for it in row["ports"])
    return at_port and is_end(row["from"], source) and is_end(row["to"], target)


def is_end(rows, one):
    kind, value, *family = one
    if kind != "address":
        return {kind: value} in rows or bool(family) and {kind: value, "family": f"IPv{family[0]}"} in rows
    of = lambda text: ipaddress.ip_address(value) in ipaddress.ip_network(text)
    return any("cidr" in it and of(it["cidr"]) and not any(map(of, it["except"])) for it in rows)


def drawn(pick):
    """The objects of a state, and a policy that comes."""
    return [*cluster(pick), *(made(pick, f"p{at}") for at in range(5))], made(pick, f"p{pick.randrange(6)}")


def play_over(seed):
    """What is wrong with the answer about one random change where connections is asked, in lines."""
    items, new = drawn(random.Random(seed))
    return judged.differences(judged.changed(items, [new]))


def play(seed):
    """What is wrong with the rows of one random change, in lines, and how many packets change."""
    pick = random.Random(seed)
    items, new = drawn(pick)
    change = judged.changed(items, [new])
    if change.before.all_unsure or any(it.refused for state in change.states for it in state.rewritten.values()):
        return [f"seed {seed}: something isn't read: {[str(it) for it in change.before.all_unsure]}"], 0
    rows = judged.rows_of(change)
    key = lambda it: (it["kind"], it["metadata"].get("namespace"), it["metadata"]["name"])
    worlds = World(items), World([*(it for it in items if key(it) != key(new)), new])
    pods, wrong, count = sorted(worlds[0].pods), [], 0
    for sent in (packet(pick, pods) for _ in range(PACKETS)):
        before, after = (it.passes(*sent) for it in worlds)
        count += before != after
        got = [(row["before"] == "allowed", row["after"] == "allowed") for row in rows if has(row, sent, worlds)]
        if got != ([(before, after)] if before != after else []):
            wrong.append(f"seed {seed}: {sent}: {before} before and {after} after, and the rows say {got}")
    return wrong, count


def without_entry(items, place):
    """The objects with an entry that covers nothing, and isolates as it did, in the place of one."""
    name, _, where = place.partition("#")
    number, section, at = re.fullmatch(r"(\d+)\.(\w+)\[(\d+)\]", where).groups()
    found = copy.deepcopy(items)
    for it in found:
        own = "/".join(it["metadata"][one] for one in ("namespace", "name") if one in it["metadata"])
        if it["kind"].startswith("Cilium") and own == name and "Policy" in it["kind"]:
            ([it["spec"]] if "spec" in it else it["specs"])[int(number)][section][int(at)] = {}
    return found


def play_slips(seed):
    """What is wrong with the slips of a random state: an entry that is said to change nothing, or to deny nobody, may go."""
    pick, wrong = random.Random(seed), []
    items = [*cluster(pick), *(made(pick, f"p{at}") for at in range(7))]
    found = [it for it in lint.slips(judged.read(items)) if it.kind in ("entry-changes-nothing", "deny-denies-none") and "networkpolicy" not in it.place]
    for slip in found:
        worlds = World(items), World(without_entry(items, slip.place))
        for sent in (packet(pick, sorted(worlds[0].pods)) for _ in range(PACKETS)):
            before, after = (it.passes(*sent) for it in worlds)
            if before != after:
                wrong.append(f"seed {seed}: {slip.text}: {sent}: {before} with it, and {after} without")
    return wrong, len(found)


def main(seeds):
    found = [(seed, *play(seed)) for seed in seeds]
    for seed, wrong, count in found:
        print(f"seed {seed}: {count} of {PACKETS} packets change, and {len(wrong)} are wrong", *wrong[:6], sep="\n  ")
    return 1 if any(wrong for _, wrong, _ in found) else 0


if __name__ == "__main__":
    sys.dont_write_bytecode = True
    sys.exit(main(list(map(int, sys.argv[1:])) or range(1, 21)))
