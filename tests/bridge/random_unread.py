"""Random changes where something of a policy isn't read: each packet whose verdict may be another one has a row that is marked.

    python3 -m bridge.random_unread [SEED ..]      in tests/; 1 to 20 where none is given

A policy has a member that nobody knows, in an entry, beside a rule's or a document's members, or in what says whom it
selects. What that may mean is drawn: another entry in the entry's place, another rule, another subject. The model of
tests/bridge/cilium.py reads what was drawn, and the recipes read what was written. The policy stays, comes, goes, or comes
in another form; and pods may get other labels, and Services other pods. A packet that no row marks has the rows that the
model says.
"""
import copy
import json
import random
import sys

from . import judged
from .cilium import World
from .objects import pod, service
from .random_states import PACKETS, cluster, entry, has, made, packet, rule, selector

SECTIONS = {"ingress": "from", "ingressDeny": "from", "egress": "to", "egressDeny": "to"}
NEWS = "news"


def rules_of(item):
    return [it for it in [item.get("spec"), *item.get("specs", [])] if it]


def hidden(pick, item):
    """An object with something that nobody reads, and the object as it may be meant."""
    meant, read = copy.deepcopy(item), copy.deepcopy(item)
    (in_network if item["kind"] == "NetworkPolicy" else in_rules)(pick, meant, read)
    return meant, read


def in_rules(pick, meant, read):
    at = pick.randrange(len(rules_of(read)))
    one, other = rules_of(meant)[at], rules_of(read)[at]
    entries = [(section, number) for section in SECTIONS for number in range(len(other.get(section, [])))]
    kind = pick.choice(["entry", "entry", "rule", "subject", "document"])
    if kind == "entry" and entries:
        section, number = pick.choice(entries)
        place = pick.choice(["entry", "peer", "port"])
        drawn = entry(pick, SECTIONS[section], section.endswith("Deny"))
        one[section][number] = pick.choice([drawn, {}, {f"{SECTIONS[section]}Entities": ["all"]}])
        without_requirements(one[section][number], other[section][number])
        put_news(other[section][number], place)
    elif kind == "subject":
        one["endpointSelector"] = selector(pick)
        other["endpointSelector"][NEWS] = 1
    elif kind == "document":
        read[NEWS] = {}
        for it in rules_of(meant):
            drawn = rule(pick)
            it.clear()
            it.update(drawn)
    else:
        drawn, subject = rule(pick), one["endpointSelector"]
        one.clear()
        one.update({**drawn, "endpointSelector": subject})
        other[NEWS] = {}


def without_requirements(meant, read):
    """(what is required of peers limits other entries: an entry is taken to do so only where it says so)"""
    for name in ("fromRequires", "toRequires"):
        if name not in read:
            meant.pop(name, None)


def put_news(read, place):
    """A member that nobody knows, in an entry or in what stands in it."""
    peers = [it for name in ("fromEndpoints", "toEndpoints", "fromCIDRSet", "toCIDRSet", "toFQDNs", "toServices", "fromRequires") for it in read.get(name, [])]
    ports = [port for item in read.get("toPorts", []) for port in [item, *item["ports"]]]
    inner = {"peer": peers, "port": ports}.get(place)
    (inner[0] if inner else read)[NEWS] = 1


def in_network(pick, meant, read):
    kind = pick.choice(["entry", "spec", "subject"])
    other = made_network(pick)
    listed = read["spec"]["ingress"]
    if kind == "entry" and listed:
        meant["spec"]["ingress"][0] = other["ingress"][0]
        listed[0][NEWS] = 1
    elif kind == "subject":
        meant["spec"]["podSelector"] = other["podSelector"]
        read["spec"]["podSelector"][NEWS] = 1
    else:
        meant["spec"].update({**other, "podSelector": meant["spec"]["podSelector"]})
        read["spec"][NEWS] = 1


def made_network(pick):
    while True:
        found = made(pick, "x")
        if found["kind"] == "NetworkPolicy":
            return found["spec"]


def key_of(item):
    return item["kind"], item["metadata"].get("namespace"), item["metadata"]["name"]


def replaced(items, new):
    keys = {*map(key_of, new)}
    return [*(it for it in items if key_of(it) not in keys), *new]


def others(pick, items):
    """What comes beside: pods with other labels, a Service of other pods."""
    found = []
    if pick.random() < 0.4:
        old = pick.choice([it for it in items if it["kind"] == "Pod"])
        ports = [(it["name"], it["containerPort"], it["protocol"]) for it in old["spec"]["containers"][0]["ports"]]
        labels = {"app": f"app{pick.randrange(4)}", "tier": f"t{pick.randrange(3)}"}
        found.append(pod(f"{old['metadata']['namespace']}/{old['metadata']['name']}", labels, old["spec"]["nodeName"], old["status"]["podIP"], ports))
    if pick.random() < 0.2:
        found.append(service("a/apps", {"app": "app2"}, labels={"kind": "apps"}))
    return found


class Drawn:
    """A state and a change, as they are written and as they are meant."""

    def __init__(self, pick):
        base = [*cluster(pick), *(made(pick, f"p{at}") for at in range(4))]
        meant, read = hidden(pick, made(pick, "p4"))
        self.way = pick.choice(["stays", "comes", "comes", "goes", "goes", "changes"])
        beside = others(pick, base)
        if self.way in ("stays", "changes"):
            beside.append(made(pick, f"p{5 + pick.randrange(2)}"))
        new = hidden(pick, again(pick, meant)) if self.way == "changes" else (meant, read)
        before = [[*base, *([] if self.way == "comes" else [it])] for it in (meant, read)]
        self.added = [*beside, *([new[1]] if self.way in ("comes", "changes") else [])]
        came = [*beside, *([new[0]] if self.way in ("comes", "changes") else [])]
        self.removed = ["/".join(filter(None, (key_of(read)[0], key_of(read)[1], "p4")))] if self.way == "goes" else []
        left = [[it for it in items if not (self.way == "goes" and key_of(it) == key_of(meant))] for items in before]
        self.before = before[1]
        self.worlds = World(before[0]), World(replaced(left[0], came))
        # (by what is read alone it is told which names have an end of their own)
        self.read = tuple(World(list(map(as_read, it))) for it in (before[1], replaced(left[1], self.added)))


def as_read(item):
    """An object without the entries, and the rules by their subject, that have something which nobody reads."""
    if not item["kind"].startswith("Cilium") or NEWS not in json.dumps(item):
        return item
    found = copy.deepcopy(item)
    for it in rules_of(found):
        is_known = NEWS not in json.dumps(it.get("endpointSelector"))
        for section in [*filter(it.__contains__, SECTIONS)]:
            it[section] = [one if is_known and NEWS not in json.dumps(one) else {} for one in it[section]]
    return found


def again(pick, item):
    """Another policy of the same kind and name."""
    while True:
        found = made(pick, "p4")
        if key_of(found) == key_of(item):
            return found


def play_over(seed):
    """What is wrong with the answer about a random change where connections is asked, in lines."""
    drawn = Drawn(random.Random(seed))
    return judged.differences(judged.changed(drawn.before, drawn.added, drawn.removed))


def play(seed):
    """What is wrong with the rows of a random change, in lines, and how many of the packets are unsure."""
    pick = random.Random(seed)
    drawn = Drawn(pick)
    change = judged.changed(drawn.before, drawn.added, drawn.removed)
    rows, wrong, count = judged.rows_of(change), [], 0
    opened = judged.open_rows_of(change.after)
    pods = sorted(drawn.worlds[0].pods)
    for sent in (packet(pick, pods) for _ in range(PACKETS)):
        before, after = (it.passes(*sent) for it in drawn.worlds)
        told = [row for row in rows if has(row, sent, drawn.read)]
        count += any(row.get("unsure") for row in told)
        got = [(row["before"] == "allowed", row["after"] == "allowed") for row in told]
        if not any(row.get("unsure") for row in told) and got != ([(before, after)] if before != after else []):
            wrong.append(f"seed {seed}, what isn't read {drawn.way}: {sent}: {before} before and {after} after, and the rows, of which none is unsure, say {got}")
        listed = [row for row in opened if has(row, sent, drawn.read[1:])]
        if not any(row.get("unsure") for row in listed) and len(listed) != after:
            wrong.append(f"seed {seed}: {sent}: {after} after, and list has {len(listed)} lines of it, of which none is unsure")
    return wrong, count


def main(seeds):
    found = [(seed, *play(seed)) for seed in seeds]
    for seed, wrong, count in found:
        print(f"seed {seed}: {count} of {PACKETS} packets are unsure, and {len(wrong)} are wrong", *wrong[:6], sep="\n  ")
    return 1 if any(wrong for _, wrong, _ in found) else 0


if __name__ == "__main__":
    sys.dont_write_bytecode = True
    sys.exit(main(list(map(int, sys.argv[1:])) or range(1, 21)))
