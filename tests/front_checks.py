"""Checks of the front door, with tests/standin.py in the place of policyd: what each question answers, and its words.

What each must say is worked out from docs/RULES.md and the small clusters that are made here.
"""
import ast
import json
import os
import pathlib
import random
import shutil
import signal
import subprocess
import sys
import tempfile
import time

import compare
import front_random
import schema
from archive import LISTS, Archive, Door, calling, replaced
from play_checks import told
from lib import regions
from lib.addresses import NETWORKS, WORLDS, lies_in
from recipes_checks import NAMESPACE, PODS, pod, policy
from wenirako import changes, children, coarse, core, drawing, flows, halves, kubectl, mentions, opened, programs, progress, resolving, words, writing
from wenirako.report import Report

TOP = compare.TOP
EXAMPLE = TOP / "examples" / "cluster"
STATE = ["--state", str(EXAMPLE / "state.json")]
BOTH = ["--add", str(EXAMPLE / "proposed.json"), "--add", str(EXAMPLE / "cart-to-ledger.json")]
ROW = ["shop/cart-5d8b4-t6k9z", "pay/ledger-0", "TCP 8443", "denied-by-default", "allowed"]
DECIDED = ["egress: shop/cart-to-ledger#0.egress[0]", "ingress: pay/ledger-from-cart#0.ingress[0]"]


def listed(*items):
    return json.dumps({"apiVersion": "v1", "kind": "List", "items": items})


def cells(out):
    """The cells of a table's lines, behind its heads."""
    return [[cell for cell in line.split("  ") if cell] for line in out.splitlines()[1:]]


def stripped(out):
    return [[cell.strip() for cell in line] for line in cells(out)]


# The questions.


def a_change_is_told(folder, wrong):
    door = Door(folder)
    status, out, err = door.call("diff", *STATE, *BOTH)
    told(wrong, "the status", status, 3)
    told(wrong, "the rows", stripped(out), [[*ROW, "; ".join(DECIDED)]])
    told(wrong, "what is said at last", err.splitlines()[-1], "wenirako: 1 line of connections opens")
    status, out, err = door.call("diff", *STATE, *BOTH[:2])
    told(wrong, "with one half", (status, out), (0, ""))
    half = "wenirako: shop/cart-5d8b4-t6k9z to pay/ledger-0, TCP 8443: a half changes, and the connection stays denied-by-default (egress: no entry allows it)"
    told(wrong, "what is said of it", (err.splitlines()[0], err.splitlines()[-1]), (half, "wenirako: no connection changes"))
    told(wrong, "from standard input", door.call("diff", "--state", "-", *BOTH, given=(EXAMPLE / "state.json").read_text())[:2], door.call("diff", *STATE, *BOTH)[:2])


def forms_agree(folder, wrong):
    door = Door(folder)
    form = json.loads((TOP / "docs" / "answer.schema.json").read_text())
    value = json.loads(door.call("diff", *STATE, *BOTH, "--format", "json")[1])
    wrong += schema.wrong_with(value, form, form)
    row = {"from": [{"pod": ROW[0]}], "to": [{"pod": ROW[1]}], "ports": [{"protocols": ["TCP"], "ranges": [[8443, 8443]]}]}
    told(wrong, "the rows for programs", value["rows"], [{**row, "before": ROW[3], "after": ROW[4], "decided_by": DECIDED}])
    told(wrong, "its program", value["program"], {"commit": "0123456789ab", "proved": False})
    text = door.call("diff", *STATE, *BOTH, "--format", "markdown")[1]
    told(wrong, "the comment's first line", text.splitlines()[0], "**1 line of connections opens.**")
    told(wrong, "its table", "| shop/cart-5d8b4-t6k9z | pay/ledger-0 | TCP 8443 | denied-by-default | allowed | " in text, True)
    told(wrong, "its details", "<details><summary>What to mind</summary>" in text, True)
    text = door.call("diff", *STATE, *BOTH, "--format", "dot")[1]
    told(wrong, "the graph's arrow", '  "shop/cart" -> "pay/ledger-0" [label="TCP 8443", color="#1a7f37", tooltip="opens"]' in text, True)
    if shutil.which("dot"):
        told(wrong, "what Graphviz says", subprocess.run(["dot", "-Tsvg"], input=text.encode(), stdout=subprocess.DEVNULL).returncode, 0)
    page = door.call("diff", *STATE, *BOTH, "--format", "html")[1]
    told(wrong, "whether the page asks for a file of the network", [it for it in ("http:", "https:", "src=", "<link") if it in page], [])


def what_is_open(folder, wrong):
    door = Door(folder)
    status, out, _ = door.call("list", *STATE, "--from", "shop/cart", "--port", "TCP/5432")
    told(wrong, "from the cart", (status, stripped(out)), (0, [["shop/cart-5d8b4-t6k9z", "10.9.0.0/16 but for 10.9.7.0/24", "TCP 5432", "egress: shop/cart-traffic#0.egress[0]"]]))
    _, out, _ = door.call("list", *STATE, "--to", "pay/ledger-0", "--from", "*", "--by", "workload")
    told(wrong, "to the ledger", stripped(out), [["pay/teller", "pay/ledger-0", "TCP 8443", "every pod"]])
    _, out, err = door.call("list", *STATE, "--from", "world", "--to", "pay/*")
    told(wrong, "from the world", (out, err.splitlines()[-1]), ("", "wenirako: nothing is open"))
    _, out, _ = door.call("list", *STATE, "--from", "*", "--to", "pay/*", "--node", "east-2")
    told(wrong, "with a node's pods", [it[:3] for it in stripped(out)], [["pay/teller-6c9f7-hx2wd", "pay/ledger-0", "TCP 8443"]])
    told(wrong, "between pods of other nodes", door.call("list", *STATE, "--from", "pay/ledger-0", "--to", "shop/cart", "--node", "east-2")[1], "")
    value = json.loads(door.call("list", *STATE, *BOTH, "--from", "shop/cart", "--to", "pay/*", "--format", "json")[1])
    told(wrong, "with the policies", [(it["decided_by"], it["verdict"]) for it in value["rows"]], [(DECIDED, "allowed")])
    form = json.loads((TOP / "docs" / "answer.schema.json").read_text())
    wrong += schema.wrong_with(value, form, form)


def connections_are_asked(folder, wrong):
    """What is open is asked of connections where it is there, and is the same; an end of it that is no answer is told."""
    here = Archive(folder)
    words = ["--state", here.write("state.json", (EXAMPLE / "state.json").read_text()), "--quiet"]
    plain = here.call("list", *words)
    seen = f'#!/bin/sh\necho asked >>"{here.top}/asked"\nexec "{LISTS}" "$@"\n'
    shutil.rmtree(here.top)
    there = Archive(folder, lists=seen)
    there.write("state.json", (EXAMPLE / "state.json").read_text())
    told(wrong, "what is open", there.call("list", *words), plain)
    told(wrong, "how often it is asked", (there.top / "asked").read_text().split(), ["asked"])
    status, out, err = there.call(*words, command="recipes/connections")
    told(wrong, "by the recipe", (status, out, err), (*plain[:2], plain[2].replace("wenirako: ", "connections: ")))
    few = there.call("list", "--from", "shop/cart", *words)
    told(wrong, "where little of it is asked about", (few[0], (there.top / "asked").read_text().split()), (0, ["asked"] * 2))
    told(wrong, "another file in its place", there.write("bin/connections", calling(LISTS)) and there.call("list", *words)[0], 70)
    shutil.rmtree(there.top)
    broken = Archive(folder, lists="#!/bin/sh\necho connections: a sign >&2\nexit 7\n")
    broken.write("state.json", (EXAMPLE / "state.json").read_text())
    told(wrong, "without an answer", broken.call("list", *words), (70, "", "wenirako: connections ended with the status 7: connections: a sign\n"))


def connections_cannot_tell(folder, wrong):
    """Where memory is short for connections, or its input too long, policyd answers alone, and that is said."""
    door, calls = Door(folder), []
    state = ["--state", door.write("state.json", listed(NAMESPACE, *PODS))]
    comes = ["--add", door.write("shut.json", policy("shut", {"endpointSelector": {"matchLabels": {"app": "cart"}}, "ingress": [{"fromEndpoints": [{}]}]}))]

    def cannot(lines, words=()):
        calls.append(lines)
        raise opened.Untold("no room")

    for words, what in ((["diff", *comes], "what opens and shuts is by policyd alone"), (["list"], "what is open is asked of policyd alone")):
        status, out, err = door.call(*words, *state)
        said = [*err.splitlines()[:-1], f"wenirako: {what}: no room", err.splitlines()[-1]]
        with replaced(Door, has_connections=True), replaced(front_random, lines_of_connections=cannot):
            told(wrong, f"the answer of {words[0]}", [*map(str.splitlines, map(str, door.call(*words, *state)))], [[str(status)], out.splitlines(), said])
    told(wrong, "how often it is asked", len(calls), 2)
    for status, wanted in ((0, ["{}\n"]), (1, ["{}\n"]), (3, ["{}\n"]), (4, opened.NoAnswer), (5, opened.Untold), (6, opened.Untold), (7, opened.NoAnswer)):
        program = programs.Program(["sh", "-c", f"echo {{}}; echo no room >&2; exit {status}"], False, "")
        try:
            found = [*opened.Opened(lambda: program, None, progress.Progress("x", True)).play(["a", "b"])]
        except (opened.NoAnswer, opened.Untold) as ended:
            found = type(ended)
            told(wrong, f"what is said at {status}", str(ended), f"connections ended with the status {status}: no room")
        told(wrong, f"what comes at {status}", found, wanted)


def connections_are_asked_of_much(folder, wrong):
    """connections goes through all ends, regions too: it is asked where a quarter of that is in question, and what isn't is not kept."""
    door, lists, scripts = Door(folder), front_random.lines_of_connections, []
    counted = lambda lines, words=(): scripts.append(lines) or lists(lines, words)
    shut = lambda count: policy("shut", {"endpointSelector": {"matchLabels": {"app": "web"}}, "egress": [{"toCIDR": [f"10.8.{it}.0/24" for it in range(count)]}]})
    for count, ends, is_asked in ((0, [], True), (0, ["--to", "shop/*"], True), (9, [], True), (30, ["--to", "shop/*"], False), (0, ["--to", "world"], False)):
        state = ["--state", door.write("state.json", listed(NAMESPACE, *PODS, shut(count)))]
        alone, scripts[:] = door.call("list", *ends, *state), []
        with replaced(Door, has_connections=True), replaced(front_random, lines_of_connections=counted):
            told(wrong, f"what is open {ends} beside {count} prefixes", door.call("list", *ends, *state), alone)
        told(wrong, f"whether connections is asked {ends} beside {count} prefixes", len(scripts) == 1, is_asked)
    line = lambda one, other, *ports: {"from": {"identity": one}, "to": {"region": other}, "protocol": "TCP", "ports": [*ports], "verdict": "allowed"}
    key = ("identity", "i0"), ("region", "0.0.0.0/0")
    parts = opened.by_pairs([line("i0", "0.0.0.0/0", 1, 2), line("i0", "::/0", 1, 2), line("i0", "0.0.0.0/0", 5, 5), line("i1", "0.0.0.0/0", 1, 2)], {key})
    told(wrong, "what is kept", parts, {key: {"TCP": [(1, 2), (5, 5)]}})
    refused, others = opened.parted(iter(['{"line": 1, "answer": "refused 1"}', '{"line": 2, "answer": "refused 2"}', '{"ports": 1}', '{"ports": 2}']))
    told(wrong, "what is refused", ([it["line"] for it in refused], [*others]), ([1, 2], ['{"ports": 1}', '{"ports": 2}']))


def a_change_is_held(folder, wrong):
    """What connections says of a change has to be what the rows say, and nothing else."""
    door, lists = Door(folder), front_random.lines_of_connections
    row = '{"from":{"identity":"g%d"},"to":{"reserved":"host"},"protocol":"UDP","ports":[7,9],"before":"allowed","after":{"egress":"denied-by-rule","ingress":"allowed"}}'
    less, more = "policyd says that shop/cart-5d8b4-t6k9z to pay/ledger-0, TCP 8443-8443, opens, and connections doesn't", "host, UDP 7-9, shuts, and policyd doesn't"
    for what, other, said in (
        ("a line less", lambda them: [it for it in them if "8443" not in it], less),
        ("a line more", lambda them: [*them, row % 0], more),
        ("two lines more", lambda them: [*them, row % 2, row % 0], more),
    ):
        with replaced(Door, has_connections=True), replaced(front_random, lines_of_connections=lambda *asked: other(front_random.without_halves(*asked))):
            status, out, err = door.call("diff", *STATE, *BOTH)
        told(wrong, what, (status, out, said in err), (70, "", True))
    for what, other, said in (
        ("a word that is another one", lambda them: [it.replace('"before":{"egress":"denied-by-default"', '"before":{"egress":"denied-by-rule"') for it in them], "was thought to be selected by other policies"),
        ("ports that are others", lambda them: [it.replace("[8443,8443]", "[8443,8444]") for it in them], "were thought to be judged alike"),
        ("a half that opens and doesn't", lambda them: [it.replace('"after":"allowed"', '"after":{"egress":"denied-by-default","ingress":"allowed"}') for it in them], None),
    ):
        with replaced(Door, has_connections=True), replaced(front_random, lines_of_connections=lambda *asked: other(lists(*asked))):
            status, out, err = door.call("diff", *STATE, *BOTH)
        told(wrong, what, (status, out, said is None or said in err), (70 if said else 0, "", True))


def scripts_begin_alike(folder, wrong):
    """Two scripts have what both say in the same places, whatever goes, comes, has other labels or is refused; the answer hangs on no order."""
    lines = changes.shared_first(["a", "gone", "b", "c"], ["c", "come", "a", "b"])
    told(wrong, "lines of both", lines, [["a", "b", "c", "gone"], ["a", "b", "c", "come"]])
    door, scripts = Door(folder), []
    of = lambda name, net: policy(name, {"endpointSelector": {"matchLabels": {"app": "web"}}, "egress": [{"toCIDR": [f"10.{net}.0.0/16"]}]})
    state = lambda tier, *policies: listed(NAMESPACE, *PODS[:1], pod("shop", "cart", "n2", "10.0.0.2", {"app": "cart", "tier": tier}), pod("shop", "db", "n2", "10.0.0.3", {"app": "db"}), *policies)
    before = door.write("before.json", state("old", of("first", 8), of("gone", 9), of("odd", 11), of("last", 12)))
    after = door.write("after.json", state("new", of("last", 12), of("come", 10), of("odd", 11), of("first", 8)))
    judges, lists = front_random.in_process, front_random.lines_of_connections
    for refused in ("none", "odd", "gone", "come"):
        other = lambda lines: ["{}" if f'"{refused}"' in it else it for it in lines]
        asked = lambda lines, words=(): scripts.append(lines) or lists(other(lines), words)
        with replaced(front_random, in_process=lambda lines, numbers: judges(other(lines), numbers), lines_of_connections=asked):
            alone = door.call("diff", "--state", before, "--state-after", after)
            with replaced(Door, has_connections=True):
                ordered = door.call("diff", "--state", before, "--state-after", after)
                with replaced(changes, shared_first=lambda *given: given):
                    told(wrong, f"the answer in another order, {refused} refused", door.call("diff", "--state", before, "--state-after", after), ordered)
        told(wrong, f"the answer, {refused} refused", ordered, alone)
        told(wrong, f"whether it says so, {refused} refused", f"shop/{refused}" in ordered[2], refused != "none")
    at = scripts[0].index(opened.DIVIDER)
    one, two = scripts[0][:at], scripts[0][at + 1 :]
    told(wrong, "what both say first", (one[:5] == two[:5], len(one), len(two), {*one[5:]} & {*two[5:]}), (True, 7, 7, set()))


def prefixes_are_asked_once(folder, wrong):
    """What isn't a pod at the other side of a half is listed once, however many of its prefixes change."""
    door, asked = Door(folder), []
    plain = halves.Halves.outer
    entry = {"fromCIDRSet": [{"cidr": f"10.8.{it}.0/24"} for it in range(9)], "toPorts": [{"ports": [{"port": "80", "protocol": "TCP"}]}]}
    shut = policy("shut", {"endpointSelector": {"matchLabels": {"app": "cart"}}, "ingress": [entry]})
    words = ["diff", "--state", door.write("state.json", listed(NAMESPACE, *PODS)), "--add", door.write("shut.json", shut)]
    counted = lambda it, *given, **more: asked.append(given) or plain(it, *given, **more)
    with replaced(halves.Halves, outer=counted):
        alone = door.call(*words), len(asked)
        with replaced(Door, has_connections=True):
            over = door.call(*words), len(asked) - alone[1]
    told(wrong, "what changes", over[0], alone[0])
    told(wrong, "how often it is listed", over[1], alone[1])


def alike_halves_are_asked_once(folder, wrong):
    """Halves whose policies say the same of other pods are asked about once, and told with their own; so are entities that nobody names."""
    door, verdicts = Door(folder), core.Core.verdicts
    wide = {"apiVersion": "cilium.io/v2", "kind": "CiliumClusterwideNetworkPolicy", "metadata": {"name": "wide"}, "spec": {"endpointSelector": {}, "ingressDeny": [{"fromEntities": ["health"]}]}}
    add = ["--add", door.write("wide.json", wide), "--format", "json"]

    def asked(count, peers):
        spec = lambda app: {"endpointSelector": {"matchLabels": {"app": app}}, "ingress": [{**peers, "toPorts": [{"ports": [{"port": "80", "protocol": "TCP"}]}]}]}
        pods = [pod("shop", f"a{it}", "n1", f"10.0.1.{it}", {"app": f"a{it}"}) for it in range(count)]
        questions = set()
        state = door.write("state.json", listed(NAMESPACE, *pods, *(policy(f"p{it}", spec(f"a{it}")) for it in range(count))))
        with replaced(core.Core, verdicts=lambda self, those, what: questions.update(those := {*those}) or verdicts(self, those, what)):
            rows = json.loads(door.call("diff", "--state", state, *add)[1])["rows"]
        shut = sorted((one["pod"], *it["decided_by"]) for it in rows if {"entity": "health"} in it["from"] for one in it["to"] if "pod" in one)
        told(wrong, f"what shuts for each of {count}", shut, [(f"shop/a{it}", "ingress: wide#0.ingressDeny[0]") for it in range(count)] if "fromEntities" in peers else [])
        opened = json.loads(door.call("list", "--state", state, "--from", "shop/a0", "--to", "shop/*", "--format", "json")[1])["rows"]
        entries = sorted((it["to"][0]["pod"], it["decided_by"][1]) for it in opened)
        told(wrong, f"what opens each of {count}", entries, [(f"shop/a{it}", f"ingress: shop/p{it}#0.ingress[0]") for it in range(1, count)] if "fromEndpoints" in peers else [])
        return {it for it in questions if it.remote != halves.NOBODY}

    of_pods, of_entities = {"fromEndpoints": [{"matchLabels": {"app": "a0"}}]}, {"fromEntities": ["health", "init"]}
    told(wrong, "questions about five and about two", len(asked(5, of_pods)), len(asked(2, of_pods)))
    entities = lambda peers: [len({it.remote for it in asked(2, peers) if it.phase == phase and it.remote[0] == "identity"}) for phase in (0, 1)]
    told(wrong, "entities that are asked about", (entities(of_pods), entities(of_entities)), ([2, 3], [4, 4]))


def sets_are_told_apart(_, wrong):
    """What rules can tell of sets of labels is told of all at once as it is of each."""
    pick = random.Random(1)
    labels = [[f"k8s:{key}={pick.choice('uvw')}" for key in "abcd" if pick.random() < 0.7] for _ in range(60)]
    for _ in range(100):
        selectors = [{"matchLabels": {pick.choice("abce"): pick.choice("uvx")}} if pick.random() < 0.6 else {"matchExpressions": [{"key": pick.choice("abce"), "operator": "Exists"}]} for _ in range(3)]
        found = mentions.Mentions([], ())
        found.walk(selectors)
        found.listed = sorted(found.values.items())
        at_once, each = mentions.Sets(labels).told_by(found), [found.seen(it) for it in labels]
        wrong += [f"{selectors}: {labels[one]} and {labels[other]}" for one in range(60) for other in range(60) if (at_once[one] == at_once[other]) != (each[one] == each[other])][:1]


def why_is_told(folder, wrong):
    door, form = Door(folder), json.loads((TOP / "docs" / "answer.schema.json").read_text())
    isolated = "no entry allows it; isolated by shop/cart-traffic"
    status, out, err = door.call("why", "shop/cart", "pay/ledger-0", "TCP/8443", *STATE, *BOTH[:2])
    told(wrong, "the status", status, 3)
    told(wrong, "the halves", [it[3:] for it in stripped(out)], [
        ["denied-by-default", "egress of shop/cart-5d8b4-t6k9z", "denied-by-default", isolated],
        ["denied-by-default", "ingress of pay/ledger-0", "allowed", "pay/ledger-from-cart#0.ingress[0]"],
    ])
    told(wrong, "what is said at last", err.splitlines()[-1], "wenirako: shop/cart to pay/ledger-0, TCP 8443: denied-by-default")
    status, out, _ = door.call("why", "shop/cart", "pay/ledger-0", "8443/tcp", *STATE, *BOTH)
    told(wrong, "with both", (status, {it[3] for it in stripped(out)}), (0, {"allowed, and denied-by-default before"}))
    status, out, _ = door.call("why", "198.51.100.7", "pay/ledger-0", "TCP/8443", *STATE, "--format", "json")
    value = json.loads(out)
    wrong += schema.wrong_with(value, form, form)
    told(wrong, "from an address", value["rows"][0]["halves"], [{"direction": "ingress", "verdict": "denied-by-rule", "reason": "finance-guard#0.ingressDeny[0]"}])
    told(wrong, "from the node", door.call("why", "host", "pay/ledger-0", "TCP/1", *STATE)[0], 0)
    told(wrong, "from a pod to itself", door.call("why", "pay/ledger-0", "pay/ledger-0", "TCP/1", *STATE)[2].splitlines()[-1], "wenirako: pay/ledger-0 to pay/ledger-0, TCP 1: no such packet")


def expectations_are_held(folder, wrong):
    door, form = Door(folder), json.loads((TOP / "docs" / "answer.schema.json").read_text())
    text = "# the ledger\npay/teller -> pay/ledger-0 TCP 8443 always\nweb -> pay/ledger-0 TCP 8443 never\n\nworld -> pay/* any never\nshop/cart -> 10.9.0.0/16 TCP 5432 always\n"
    name = door.write("expected", text)
    status, out, err = door.call("check", name, *STATE)
    row = ["6", "shop/cart -> 10.9.0.0/16 TCP 5432 always", "shop/cart-5d8b4-t6k9z", "10.9.7.0/24", "TCP 5432", "denied-by-default"]
    told(wrong, "what doesn't hold", (status, [it[:6] for it in stripped(out)]), (3, [row]))
    told(wrong, "how many hold", err.splitlines()[-1], "wenirako: 3 of 4 expectations hold")
    broken = door.write("broken", "shop/cart -> pay/ledger-0 TCP 8000-9000 never # until it is\n")
    told(wrong, "before", door.call("check", broken, *STATE)[:2], (0, ""))
    value = json.loads(door.call("check", broken, *STATE, *BOTH, "--format", "json")[1])
    wrong += schema.wrong_with(value, form, form)
    packet = {"from": {"pod": ROW[0]}, "to": {"pod": ROW[1]}, "protocol": "TCP", "port": 8443}
    told(wrong, "after", [(it["packet"], it["verdict"], it["decided_by"]) for it in value["rows"]], [(packet, "allowed", DECIDED)])
    for line, what in (
        ("a -> b TCP 80", "'a -> b TCP 80' is no expectation: it is FROM -> TO PROTOCOL PORT always|never, such as `web -> pay/ledger TCP 8443 never`"),
        ("web -> pay/ldeger TCP 1 never", "pay/ldeger names nobody: there are pay/ledger-0, pay/teller"),
        ("web -> pya/ledger TCP 1 never", "pya/ledger names nobody: there are the namespaces pay, shop"),
        ("web -> pay/* ICMP never", "ICMP is no protocol that policies are asked about: there are TCP, UDP and SCTP"),
        ("web -> pay/* TCP 70000 never", "'TCP 70000' is no port: ports are 0 to 65535"),
        ("web -> 10.0.0.300 TCP 7 never", "10.0.0.300 names nobody"),
    ):
        status, out, err = door.call("check", door.write("bad", f"\n{line}\n"), *STATE)
        front = f"wenirako: {door.top}/bad, line 2: {what}"
        told(wrong, f"at {line}", (status, out, err.startswith(front)), (1, "", True) if err.startswith(front) else (1, "", front + " <> " + err))


def flow(source, target, port, time="2026-01-01T00:00:00Z", **more):
    """A flow as Hubble prints it; an end is a pod's name, or labels with an address."""
    def end(it):
        namespace, _, name = it.partition("/") if isinstance(it, str) else ("", "", "")
        return {"namespace": namespace, "pod_name": name} if isinstance(it, str) else {"labels": it[0]}

    address = lambda it: "10.0.0.1" if isinstance(it, str) else it[1]
    found = {"time": time, "verdict": "FORWARDED", "IP": {"source": address(source), "destination": address(target)}, "l4": {"TCP": {"source_port": 40000, "destination_port": port}}}
    return json.dumps({"flow": {**found, "source": end(source), "destination": end(target), "Type": "L3_L4", **more}, "node_name": "n1", "time": time})


def flows_are_replayed(folder, wrong):
    door, form = Door(folder), json.loads((TOP / "docs" / "answer.schema.json").read_text())
    shut = policy("shut", {"endpointSelector": {"matchLabels": {"app": "ledger"}}, "ingress": [{"fromEndpoints": [{"matchLabels": {"app": "auditor"}}]}]}, "pay")
    teller, ledger, times = "pay/teller-6c9f7-hx2wd", "pay/ledger-0", ["2026-01-0{}T00:00:00Z".format(it) for it in (3, 1, 2)]
    gone = (["k8s:app=teller", "k8s:io.kubernetes.pod.namespace=pay", "k8s:io.cilium.k8s.policy.cluster=default", "k8s:old=yes"], "10.0.9.9")
    lines = [
        *(flow(teller, ledger, 8443, it) for it in times),
        flow("shop/web-7f6c8-bb4np", "shop/cart-5d8b4-t6k9z", 8081),
        flow((["reserved:world"], "198.51.100.7"), "shop/web-7f6c8-bb4np", 443),
        flow((["reserved:world-ipv6"], "2001:DB8:0::7"), "shop/web-7f6c8-bb4np", 443),
        flow((["reserved:world-ipv6"], "2001:db8::8"), ledger, 8443),
        flow(gone, ledger, 8443),
        flow(teller, ledger, 8443, is_reply=True),
        flow(teller, ledger, 8443, verdict="DROPPED"),
        flow(teller, ledger, 8443, l4={"ICMPv4": {"type": 8}}),
        flow("shop/cart-5d8b4-t6k9z", ledger, 8443),
    ]
    name, new = door.write("flows", "\n".join(lines) + "\n"), door.write("shut.json", shut)
    status, out, err = door.call("replay", name, *STATE)
    told(wrong, "what the state drops", (status, sorted((it[0], it[3]) for it in stripped(out))), (3, [("2001:db8::8", "1"), ("shop/cart-5d8b4-t6k9z", "1")]))
    removed = ["--remove", "cnp/pay/ledger-clients", "--add", new]
    status, out, err = door.call("replay", name, *STATE, *removed, "--format", "json")
    value = json.loads(out)
    wrong += schema.wrong_with(value, form, form)
    rows = [(it["from"], it["count"], it["first"], it["last"], it["dropped_by"]) for it in value["rows"]]
    told(wrong, "what is dropped", (status, rows), (3, [
        ([{"pod": teller}], 3, times[1], times[0], "ingress: no entry allows it; isolated by finance-guard, pay/shut"),
        ([{"pods": "pay/teller", "stands_for": "gone"}], 1, "2026-01-01T00:00:00Z", "2026-01-01T00:00:00Z", "ingress: no entry allows it; isolated by finance-guard, pay/shut"),
    ]))
    told(wrong, "what was left out", [it for it in value["notes"] if "replies" in it or "forwarded" in it or "TCP, UDP" in it], [
        "left out: flows that aren't of TCP, UDP or SCTP: 1", "left out: flows that weren't forwarded: 1", "left out: replies: 1"])
    told(wrong, "what was denied already", any(it.startswith("2 flows are denied before the change too") for it in value["notes"]), True)
    for text, what in (("nothing", "no JSON"), ("{}", None), ('{"flow": 3}', "it has no flow"), ("", "no flow is in it")):
        status, _, err = door.call("replay", door.write("bad", text), *STATE)
        told(wrong, f"at {text!r}", (status, what is None or what in err), (0 if what is None else 1, True))


def two_states_are_compared(folder, wrong):
    """Pods stand for each other by their names, or by their workload; policies are those of each state."""
    door = Door(folder)
    shut = policy("shut", {"endpointSelector": {"matchLabels": {"app": "cart"}}, "ingress": [{"fromEndpoints": [{"matchLabels": {"app": "web"}}]}]})
    before = door.write("before.json", listed(NAMESPACE, *PODS))
    after = door.write("after.json", listed(NAMESPACE, *PODS, shut))
    told(wrong, "the same", door.call("diff", "--state", before, "--state-after", before)[0], 0)
    status, out, _ = door.call("diff", "--state", before, "--state-after", after)
    told(wrong, "what shuts", (status, sorted({(it[1], it[4]) for it in stripped(out)})), (3, [("shop/cart", "denied-by-default")]))
    told(wrong, "whether the web may still", any("shop/web" in it[0] for it in stripped(out)), False)
    _, out, _ = door.call("diff", "--state", after, "--state-after", before)
    told(wrong, "what opens", sorted({(it[1], it[4]) for it in stripped(out)}), [("shop/cart", "allowed")])


def slips_are_asked_of_the_bridge(folder, wrong):
    door, form = Door(folder), json.loads((TOP / "docs" / "answer.schema.json").read_text())
    slip = door.write("slip.json", policy("slip", {"endpointSelector": {"matchLabels": {"app": "crat"}}, "ingress": [{}]}))
    status, out, _ = door.call("lint", *STATE, "--add", slip, "--format", "json")
    value = json.loads(out)
    wrong += schema.wrong_with(value, form, form)
    told(wrong, "the slip", (status, [it["policy"] for it in value["rows"]]), (3, ["shop/slip"]))


def workloads_and_namespaces(folder, wrong):
    """'Every pod' is said only where all that are asked about have it, those without a line too."""
    door = Door(folder)
    shut = policy("shut", {"endpointSelector": {"matchLabels": {"app": "cart"}}, "ingress": [{"fromEndpoints": [{"matchLabels": {"app": "web"}}], "toPorts": [{"ports": [{"port": "80", "protocol": "TCP"}]}]}]})
    more = [pod("shop", "web-2", "n1", "10.0.0.3", {"app": "web"}), pod("shop", "db", "n1", "10.0.0.4", {"app": "db"})]
    state = ["--state", door.write("state.json", listed(NAMESPACE, *PODS, *more, shut))]
    rows = lambda *given: stripped(door.call("list", "--from", "*", "--to", "shop/cart", *given, *state)[1])
    told(wrong, "by workload", rows("--by", "workload"), [["shop/web", "shop/cart", "TCP 80", "every pod"], ["shop/web-2", "shop/cart", "TCP 80", "every pod"]])
    told(wrong, "by namespace", rows("--by", "namespace"), [["shop", "shop", "TCP 80", "some pods"]])
    told(wrong, "of all", [it[2:] for it in stripped(door.call("list", "--from", "*", "--to", "shop/*", "--by", "namespace", *state)[1])], [["every protocol and port", "some pods"]])
    told(wrong, "of the web alone", [it[3] for it in stripped(door.call("list", "--from", "shop/app=web", "--to", "shop/cart", "--by", "namespace", *state)[1])], ["every pod"])


def names_are_ends(folder, wrong):
    """What a name opens is told beside the world, and as an end of its own."""
    door = Door(folder)
    free = policy("free", {"endpointSelector": {"matchLabels": {"app": "cart"}}, "egress": [{"toFQDNs": [{"matchName": "a.example"}], "toPorts": [{"ports": [{"port": "443", "protocol": "TCP"}]}]}]})
    state = ["--state", door.write("state.json", listed(NAMESPACE, *PODS, free))]
    _, out, _ = door.call("list", "--from", "shop/cart", *state)
    told(wrong, "what the cart may reach", [it[1:] for it in stripped(out)], [["names: a.example", "TCP 443", "egress: shop/free#0.egress[0]"]])
    new = ["--state", door.write("before.json", listed(NAMESPACE, *PODS)), "--add", door.write("free.json", free)]
    _, out, _ = door.call("diff", *new)
    world = sorted((it[1], it[2], it[4], it[5].rpartition("; ")[2] if "names" in it[5] else "") for it in stripped(out) if it[1] in ("world", "names: a.example"))
    rest = "TCP 0-442, 444-65535; UDP and SCTP every port"
    told(wrong, "what changes", world, [("names: a.example", rest, "denied-by-default", ""), ("world", rest, "denied-by-default", ""), ("world", "TCP 443", "denied-by-default", "and names: a.example")])


EVERY = "every protocol and port"


def worlds_are_told_apart(folder, wrong):
    """The worlds of both families are one end where the answers are one, and two where they aren't."""
    door = Door(folder)
    web = lambda name, **sections: policy(name, {"endpointSelector": {"matchLabels": {"app": "web"}}, **sections})
    state = lambda name, *policies: ["--state", door.write(name, listed(NAMESPACE, *PODS, *policies))]
    reached = lambda given, *more: [it[1:3] for it in stripped(door.call("list", "--from", "shop/web", "--to", "world", *given, *more)[1])]
    shut = web("shut", egress=[{}])
    both, four, six = (web("open", egress=[{"toEntities": [it]}]) for it in ("world", "world-ipv4", "world-ipv6"))
    told(wrong, "both", reached(state("both", both)), [["world", EVERY]])
    told(wrong, "IPv4", reached(state("four", four)), [["world-ipv4", EVERY]])
    told(wrong, "IPv6", reached(state("six", six)), [["world-ipv6", EVERY]])
    two = web("open", egress=[{"toEntities": ["world-ipv4"], "toPorts": [{"ports": [{"port": "80"}]}]}, {"toEntities": ["world-ipv6"]}])
    told(wrong, "each at other ports", reached(state("two", two)), [["world-ipv4", "every protocol, 80"], ["world-ipv6", EVERY]])
    most = web("open", egress=[{"toCIDRSet": [{"cidr": "0.0.0.0/0", "except": ["10.0.0.0/8"]}, {"cidr": "::/0", "except": ["2001:DB8::/32", "fd00::/8"]}]}])
    for more in ([], ["--by", "workload"]):
        told(wrong, f"but for some {more}", reached(state("most", most), *more), [["world but for 10.0.0.0/8, 2001:db8::/32, fd00::/8", EVERY]])
    told(wrong, "as an end", [it[1] for it in stripped(door.call("list", "--from", "shop/web", "--to", "world-ipv6", *state("most", most))[1])], ["world-ipv6 but for 2001:db8::/32, fd00::/8"])
    told(wrong, "within a prefix", [it[1] for it in stripped(door.call("list", "--from", "shop/web", "--to", "2001::/16", *state("most", most))[1])], ["2001::/16 but for 2001:db8::/32"])
    graph = [door.call("list", "--from", "shop/web", "--to", "world", "--format", "dot", *state("both", it))[1] for it in (both, two)]
    told(wrong, "in a graph", [sorted({word for word in ('"world"', '"world-ipv4"', '"world-ipv6"') if word in it}) for it in graph], [['"world"'], ['"world-ipv4"', '"world-ipv6"']])
    given = state("shut", shut)
    opens = lambda it: [row[1] for row in stripped(door.call("diff", *given, "--add", door.write("new.json", it))[1])]
    told(wrong, "what opens", [opens(it) for it in (both, four, six)], [["world"], ["world-ipv4"], ["world-ipv6"]])
    value = json.loads(door.call("diff", *state("four", four), "--add", door.write("new.json", both), "--format", "json")[1])
    told(wrong, "what opens beside it", [it["to"] for it in value["rows"]], [[{"cidr": "::/0", "except": []}]])
    why = lambda given, end: [row[1:4] + row[5:6] for row in stripped(door.call("why", "shop/web", end, "TCP/80", *given)[1])]
    told(wrong, "why, of both", why(state("both", both), "world"), [["world", "TCP 80", "allowed", "allowed"]])
    told(wrong, "why, of each", why(state("four", four), "world"), [["world-ipv4", "TCP 80", "allowed", "allowed"], ["world-ipv6", "TCP 80", "denied-by-default", "denied-by-default"]])
    told(wrong, "why, of an address", why(state("six", six), "2001:DB8:0::1"), [["2001:db8::1", "TCP 80", "allowed", "allowed"]])
    promises = door.write("promises", "web -> world any always\nweb -> world-ipv4 any always\n")
    told(wrong, "what is promised", [row[:4] for row in stripped(door.call("check", promises, *state("four", four))[1])], [["1", "web -> world any always", "shop/web", "world-ipv6"]])


def names_of_each_family(folder, wrong):
    """What a name opens is told by its family where the worlds differ."""
    door = Door(folder)
    free = {"toFQDNs": [{"matchName": "a.example"}], "toPorts": [{"ports": [{"port": "443", "protocol": "TCP"}]}]}
    deny = policy("free", {"endpointSelector": {"matchLabels": {"app": "cart"}}, "egress": [free], "egressDeny": [{"toEntities": ["world-ipv4"]}]})
    state = ["--state", door.write("state.json", listed(NAMESPACE, *PODS, deny))]
    told(wrong, "what the cart may reach", [it[1:3] for it in stripped(door.call("list", "--from", "shop/cart", *state)[1])], [["names: a.example (IPv6)", "TCP 443"]])
    value = json.loads(door.call("list", "--from", "shop/cart", *state, "--format", "json")[1])
    told(wrong, "for programs", [it["to"] for it in value["rows"]], [[{"name": "a.example", "family": "IPv6"}]])
    form = json.loads((TOP / "docs" / "answer.schema.json").read_text())
    wrong += schema.wrong_with(value, form, form)


def pods_of_both_families_are_ends(folder, wrong):
    """A pod with an IPv6 address alone is an end, and a pod is named by each of its addresses."""
    door = Door(folder)
    six, two = pod("shop", "six", "n1", "fd00::6", {"app": "six"}), pod("shop", "two", "n1", "10.0.0.9", {"app": "two"})
    two["status"]["podIPs"] = [{"ip": "10.0.0.9"}, {"ip": "fd00::9"}]
    shut = policy("shut", {"endpointSelector": {"matchLabels": {"app": "six"}}, "ingress": [{"fromEndpoints": [{"matchLabels": {"app": "two"}}]}]})
    state = ["--state", door.write("state.json", listed(NAMESPACE, *PODS, six, two, shut))]
    for source, target in (("shop/two", "shop/six"), ("fd00::9", "fd00:0::6"), ("10.0.0.9", "FD00::6/128")):
        told(wrong, f"from {source} to {target}", [it[:2] for it in stripped(door.call("list", "--from", source, "--to", target, *state)[1])], [["shop/two", "shop/six"]])
    told(wrong, "from another one", door.call("list", "--from", "shop/web", "--to", "shop/six", *state)[1], "")
    told(wrong, "from an address outside", door.call("list", "--from", "fd00::7", "--to", "shop/six", *state)[1], "")
    told(wrong, "no text of an address", door.call("list", "--from", "fd00::7::1", *state)[0::2][0], 1)


def live_pods_have_their_addresses(folder, wrong):
    """An address that a finished pod had is that of the pod that has it now; where none has, it is the finished one's."""
    door = Door(folder)
    jobs = [pod("shop", name, "n1", address, {"app": name}) for name, address in (("job", "10.0.0.2"), ("other", "10.0.0.7"))]
    for it in jobs:
        it["metadata"]["ownerReferences"] = [{"apiVersion": "batch/v1", "kind": "Job", "name": it["metadata"]["name"], "controller": True}]
        it["status"]["phase"] = "Succeeded"
    entry = lambda name, port: {"fromEndpoints": [{"matchLabels": {"app": name}}], "toPorts": [{"ports": [{"port": port, "protocol": "TCP"}]}]}
    shut = policy("shut", {"endpointSelector": {"matchLabels": {"app": "web"}}, "ingress": [entry("cart", "80"), entry("job", "81")]})
    state = ["--state", door.write("state.json", listed(NAMESPACE, *jobs, *PODS, shut))]
    told(wrong, "what is open", [it[::2] for it in stripped(door.call("list", "--from", "10.0.0.2", "--to", "shop/web", *state)[1])], [["shop/cart", "TCP 80"]])
    sent = door.write("flows", "\n".join(flow(([], it), "shop/web", 80) for it in ("10.0.0.2", "10.0.0.7")))
    status, out, _ = door.call("replay", sent, *state, "--format", "json")
    told(wrong, "what is dropped", (status, [it["from"] for it in json.loads(out)["rows"]]), (3, [[{"pods": "shop/other", "stands_for": "finished"}]]))


# Words.


def words_agree(folder, wrong):
    door = Door(folder)
    for given, what in (
        (["none"], "none: no question is called so"),
        (["diff", *STATE], "nothing to change: --add FILE, --remove KIND/NAMESPACE/NAME or --state-after FILE"),
        (["diff", *STATE, "--bogus"], "unrecognized arguments: --bogus"),
        (["diff", *STATE, *STATE, *BOTH], "--state stands twice"),
        (["diff", *STATE, *BOTH, "--format", "yaml"], "argument --format: invalid choice: 'yaml'"),
        (["check", "x", *STATE, "--format", "html"], "argument --format: invalid choice: 'html'"),
        (["diff", *STATE, *BOTH, "--state-after", "x"], "--state-after is a whole state: --add and --remove would change another one"),
        (["diff", *STATE, *BOTH, "--save", "x"], "--state names a file, so kubectl isn't asked: --save and --context have nothing to do"),
        (["check", "-", "--state", "-"], "- is standard input, which can be read once"),
        (["why", "a", "b", *STATE], "the following arguments are required: PROTOCOL/PORT"),
        (["list", *STATE, "--by", "node"], "argument --by: invalid choice: 'node'"),
        (["list", *STATE, "--port", "TCP/70000"], "--port: 'TCP/70000' is no port"),
        (["list", *STATE, "--labels", "("], "--labels: '(' is no pattern"),
        (["why", "shop/web", "pay/ledger-0", "TCP", *STATE], "PROTOCOL/PORT: 'TCP' is no single port"),
        (["diff", *STATE, "--remove", "cnp"], "--remove cnp: it is CiliumNetworkPolicy/NAMESPACE/NAME"),
        (["diff", "--state", "-", "--add", "-"], "- is standard input, which can be read once"),
        (["completion", "zsh"], "completion is for bash"),
    ):
        status, out, err = door.call(*given)
        told(wrong, f"at {given}", (status, out, err.splitlines()[0].startswith(f"wenirako: {what}")), (2, "", True))
    told(wrong, "no words", door.call()[0], 2)
    status, out, _ = door.call("--help")
    told(wrong, "help", (status, len(out.splitlines()) <= 24, max(map(len, out.splitlines())) <= 80), (0, True, True))
    told(wrong, "whether help has each question", [it for it in words.QUESTIONS if f"  {it} " not in out and f"  {it}\n" not in out], [])
    for name in words.QUESTIONS:
        status, out, _ = door.call(name, "--help")
        told(wrong, f"the help of {name}", (status, len(out.splitlines()) <= 24), (0, True))
    for given, what in ((["diff", "--state", "lost", *BOTH], "lost: No such file"), (["list", *STATE, "--from", "lost"], "--from: lost names nobody"), (["why", "shop/node-logger-w4m2c", "pay/ledger-0", "TCP/1", *STATE], "FROM: shop/node-logger-w4m2c is on the host's network, so it stands with its node: name it `host` for the pods of east-1, and `remote-node` for those of other nodes"), (["list", *STATE, "--node", "n9"], "--node n9: no pod")):
        status, out, err = door.call(*given)
        told(wrong, f"at {given}", (status, out, err.startswith(f"wenirako: {what}")), (1, "", True))
    told(wrong, "with no word of a script", door.call("play")[0], 2)


def bash_completes(folder, wrong):
    door = Door(folder)
    script = door.write("completion", door.call("completion", "bash")[1])
    for line, wanted in (
        (["wenirako", "di"], "diff"),
        (["wenirako", "diff", "--sta"], "--state --state-after"),
        (["wenirako", "list", "--by", ""], " ".join(words.BY)),
        (["wenirako", "why", "--form"], "--format"),
        (["wenirako", "diff", "--format", "ht"], "html"),
        (["wenirako", "completion", ""], "bash"),
        (["wenirako", "play", "--p"], "--prove"),
    ):
        names = " ".join(f"'{it}'" for it in line)
        text = f"source '{script}'; COMP_WORDS=({names}); COMP_CWORD={len(line) - 1}; _wenirako; echo ${{COMPREPLY[@]}}"
        told(wrong, f"what completes {line}", subprocess.run(["bash", "-c", text], stdout=subprocess.PIPE, text=True).stdout.strip(), wanted)


# kubectl and signals.

KUBECTL = """#!/usr/bin/env python3
import json, os, sys
words = sys.argv[1:]
with open(os.environ["ASKED"], "a") as file:
    file.write(" ".join(words) + "\\n")
kind = words[words.index("get") + 1].partition(".")[0]
state = json.load(open(os.environ["GIVES"]))
if kind == os.environ.get("REFUSES"):
    sys.exit(f'Error from server (Forbidden): {kind} is forbidden')
if kind.startswith("ciliumclusterwide"):
    print("error: the server doesn't have a resource type", file=sys.stderr)
    sys.exit(1)
names = {"namespaces": "Namespace", "pods": "Pod", "networkpolicies": "NetworkPolicy", "ciliumnetworkpolicies": "CiliumNetworkPolicy", "services": "Service"}
items = [it for it in state["items"] if it["kind"] == names.get(kind)]
print(json.dumps({"apiVersion": "v1", "kind": "List", "items": items}))
"""


def kubectl_is_asked(folder, wrong):
    archive = Archive(folder)
    for name, text in (("path/kubectl", KUBECTL), ("path/kubectl-wenirako", None)):
        path = archive.top / name
        path.parent.mkdir(exist_ok=True)
        path.symlink_to(archive.top / "wenirako") if text is None else path.write_text(text)
        path.chmod(0o755)
    os.environ.update(ASKED=str(archive.top / "asked"), GIVES=str(EXAMPLE / "state.json"))
    how = {"command": str(archive.top / "path" / "kubectl-wenirako"), "path": str(archive.top / "path")}
    status, out, err = archive.call("diff", *BOTH, "--save", "kept.json", "--context", "east", **how)
    # (the state that is given has no clusterwide policy, so the cart needs no more)
    told(wrong, "the rows", (status, [it[:5] for it in stripped(out)]), (3, [ROW]))
    told(wrong, "what kubectl wouldn't give", err.splitlines()[0], "kubectl wenirako: kubectl gave no ciliumclusterwidenetworkpolicies.cilium.io: the server doesn't have a resource type")
    asked = (archive.top / "asked").read_text().splitlines()
    told(wrong, "what was asked", [it for it in asked if not (it.startswith("--context east get ") and it.endswith(" -A -o json"))], [])
    told(wrong, "how many kinds", len(asked) > 7, True)
    told(wrong, "with what was kept", archive.call("diff", "--state", "kept.json", *BOTH)[:2], (status, out))
    os.environ["REFUSES"] = "pods"
    status, out, err = archive.call("list", **how)
    told(wrong, "without pods", (status, out, err), (1, "", "kubectl wenirako: kubectl gave no pods: Error from server (Forbidden): pods is forbidden\n"))
    os.environ.pop("REFUSES")
    with replaced(kubectl, words_for=lambda *_: ["/nowhere/kubectl"]):
        status, out, err = Door(folder).call("list")
    told(wrong, "without kubectl", (status, out, err), (1, "", "wenirako: kubectl can't be run: No such file or directory. Name a file by --state, or - for standard input\n"))


def children_end_too(folder, wrong):
    """A signal ends what the front door has started, within seconds."""
    archive = Archive(folder, '#!/bin/sh\necho $$ >"$(dirname "$0")/pid"\nsleep 60 &\nwait\n')
    for number, wanted in ((signal.SIGTERM, 143), (signal.SIGINT, 130), (signal.SIGHUP, 143)):
        heeds = lambda: [signal.signal(it, signal.SIG_DFL) for it in (signal.SIGINT, signal.SIGHUP)]
        run = subprocess.Popen(["./wenirako", "diff", *STATE, *BOTH], cwd=archive.top, preexec_fn=heeds, stdout=subprocess.PIPE, stderr=subprocess.PIPE)
        path = archive.top / "bin" / "pid"
        until = time.monotonic() + 120
        while time.monotonic() < until and not (path.is_file() and path.read_text().strip()):
            time.sleep(0.05)
        run.send_signal(number)
        said = run.communicate(timeout=60)
        told(wrong, f"the status at {number}", (run.returncode, said[0]), (wanted, b""))
        told(wrong, f"what is left at {number}", is_left(int(path.read_text())), False)
        path.unlink()


# A signal comes while a child is being started, in the main thread or in another one; and behind it nothing is started.
BEING_STARTED = """
import concurrent.futures, os, signal, subprocess, sys, threading
sys.path[:0] = sys.argv[1:3]
from wenirako import children
plain, end_all, is_ending, in_thread = subprocess.Popen, children.end_all, threading.Event(), sys.argv[3] == "thread"

def popen(*words, **how):
    child = plain(*words, **how)
    print(child.pid, flush=True)
    os.kill(os.getpid(), signal.SIGTERM)
    if in_thread:
        is_ending.wait(60)
    return child

def ending():
    is_ending.set()
    end_all()

def asked():
    if not in_thread:
        return children.run(["sleep", "600"]).status
    with concurrent.futures.ThreadPoolExecutor(1) as pool:
        found = pool.submit(children.run, ["sleep", "600"])
        try:
            return found.result().status
        except BaseException:
            children.end_all()
            raise

subprocess.Popen, children.end_all = popen, ending
status = children.ended_by(asked)
try:
    children.run(["true"])
except children.Ended as ended:
    print(status, ended.status)
"""


# What a signal raises comes in a destructor, which swallows it. Then a child runs for ten minutes; or no child runs, and more
# signals come, the last of them while children are ended.
SWALLOWED = """
import os, signal, sys, time
sys.path[:0] = sys.argv[1:3]
from wenirako import children
end_all = children.end_all

class Ending:
    def __del__(self):
        os.kill(os.getpid(), signal.SIGTERM)
        for _ in range(1000):
            pass

def ending():
    os.kill(os.getpid(), signal.SIGINT)
    end_all()
    print("all ended")

def asked():
    Ending()
    if sys.argv[3] == "child":
        return children.run(["sleep", "600"]).status
    os.kill(os.getpid(), signal.SIGINT)
    time.sleep(600)

children.end_all = ending
print(children.ended_by(asked))
"""


def signals_are_not_lost(_, wrong):
    """A signal whose exception was swallowed ends the program at its next child, and a later one at once; and of a child that a signal ended that is said."""
    for behind in ("child", "signal"):
        words = [sys.executable, "-c", SWALLOWED, str(TOP / "tools"), str(TOP / "recipes"), behind]
        run = subprocess.Popen(words, stdout=subprocess.PIPE, stderr=subprocess.DEVNULL, text=True, start_new_session=True)
        try:
            told(wrong, f"how it ends by a {behind}", run.communicate(timeout=120)[0].split("\n"), ["all ended", "143", ""])
        except subprocess.TimeoutExpired:
            os.killpg(run.pid, signal.SIGKILL)
            wrong.append(f"it doesn't end by a {behind}")
    killed = programs.Program(["sh", "-c", "kill -KILL $$"], False, "")
    for what, ask in (
        ("connections", lambda: [*opened.Opened(lambda: killed, None, progress.Progress("x", True)).play(["a"])]),
        ("policyd", lambda: core_of(killed).play(["a"], {})),
    ):
        try:
            ask()
            wrong.append(f"{what} has an answer")
        except opened.NoAnswer as ended:
            told(wrong, f"what is said of {what}", str(ended), f"{what} was ended by SIGKILL")
    told(wrong, "a signal without a name", children.name_of(99), "the signal 99")


def core_of(program):
    found = core.Core(lambda: program, [], progress.Progress("x", True))
    found.program = program
    return found


def children_that_start_end_too(folder, wrong):
    """A signal that comes while a child is being started ends that one too."""
    for where in ("main", "thread"):
        run = subprocess.Popen([sys.executable, "-c", BEING_STARTED, str(TOP / "tools"), str(TOP / "recipes"), where], stdout=subprocess.PIPE, text=True, start_new_session=True)
        try:
            said = run.communicate(timeout=120)[0].split()
        except subprocess.TimeoutExpired:
            run.kill()
            said = run.communicate()[0].split()
        told(wrong, f"how it ends in {where}", (said[1:], is_left(int(said[0]))), (["143", "143"], False))
        if is_left(int(said[0])):
            os.killpg(int(said[0]), signal.SIGKILL)


def is_left(group):
    """Whether some process of a group still runs."""
    try:
        os.killpg(group, 0)
    except ProcessLookupError:
        return False
    states = subprocess.run(["ps", "-o", "stat=", "-g", str(group)], stdout=subprocess.PIPE, text=True).stdout.split()
    return any(not it.startswith("Z") for it in states)


def other_programs_are_not_asked(folder, wrong):
    archive = Archive(folder)
    (archive.top / "bin" / "policyd").write_text("#!/bin/sh\necho another\n")
    status, out, err = archive.call("diff", *STATE, *BOTH)
    told(wrong, "another program", (status, out, "its sum is another one" in err), (70, "", True))
    told(wrong, "a script", Archive(pathlib.Path(folder) / "other").call("play", "-", given='{"op":"sync"}\n')[:2], (0, "synced 0\n"))
    broken = Archive(pathlib.Path(folder) / "broken", "#!/bin/sh\necho no room >&2\nexit 3\n")
    status, out, err = broken.call("diff", *STATE, *BOTH)
    told(wrong, "one without answers", (status, out, err), (70, "", "wenirako: policyd ended with the status 3: no room\n"))


# Odd input.


def odd_input_has_one_line(folder, wrong):
    """What nobody can mean is told in one line, with the status of bad input."""
    door = Door(folder)
    state = ["--state", door.write("state.json", listed(NAMESPACE, *PODS))]
    document = lambda spec, name="p": f"apiVersion: cilium.io/v2\nkind: CiliumNetworkPolicy\nmetadata: {{name: {name}, namespace: shop}}\nspec:\n  endpointSelector: {{}}\n  {spec}\n"
    network = {"apiVersion": "networking.k8s.io/v1", "kind": "NetworkPolicy", "metadata": {"name": "n", "namespace": "shop"}, "spec": {"podSelector": {}, "ingress": [{"from": "web"}]}}
    for what, text, said in (
        ("a long name", document("ingress: []", "p" * 254), "Cilium refuses it: wrong-shape at metadata.name"),
        ("a name with a blank", document("ingress: []", "p q"), "Cilium refuses it: wrong-shape at metadata.name"),
        ("a namespace that is a number", document("ingress: []").replace("namespace: shop", "namespace: 5"), "Cilium refuses it: wrong-shape at metadata.namespace"),
        ("a name that is an object", document("ingress: []", "{}"), "name is no text"),
        ("peers that are a text", json.dumps(network), "Cilium refuses it: wrong-shape at spec.ingress[0].from"),
        ("what JSON hasn't", document("ingress: !!set {a}"), "no YAML: could not determine a constructor"),
        ("bytes", document("description: !!binary aGk="), "no YAML: could not determine a constructor"),
        ("a list as a name", document("? [a]\n  : b"), "no YAML: while constructing a mapping"),
        ("nothing as a name", document("ingress: [{~: b}]"), "no YAML: None is no name of a member"),
        ("what holds itself", document("ingress: &a [*a]"), "it is nested too deeply, or holds itself"),
        ("a number that is too large", json.dumps(policy("p", {"endpointSelector": {}, "ingress": [{"a": 0}]})).replace(": 0", ": 1e400"), "a number is too large"),
    ):
        status, out, err = door.call("diff", *state, "--add", door.write("odd", text))
        told(wrong, what, (status, out, said in err, err.count("\n")), (1, "", True, 1))
    # (kubectl takes a number that names a member as its text)
    told(wrong, "a number as a key", door.call("diff", *state, "--add", door.write("odd", document("ingress: [{fromEndpoints: [{matchLabels: {1: a}}]}]")))[0], 3)


def what_cannot_be_written_is_told(folder, wrong):
    """An answer that can't be written is none; what can't be said otherwise takes no answer away."""
    archive = Archive(folder)
    words = f"./wenirako list --state '{EXAMPLE / 'state.json'}' --from shop/cart --port TCP/5432 --quiet"
    status, out, err = archive.call("-c", f"{words} >/dev/full", command="sh")
    told(wrong, "on a full disk", (status, out, err.splitlines()[-1]), (70, "", "wenirako: standard output: No space left on device"))
    status, out, err = archive.call("-c", f"{words} 2>/dev/full", command="sh")
    told(wrong, "where nothing can be said", (status, len(out.splitlines()), err), (0, 2, ""))
    status, out, err = archive.call("-c", "./wenirako list --state - <&-", command="sh")
    told(wrong, "without an input", (status, out, err), (1, "", "wenirako: standard input is empty: it takes what kubectl get .. -o json prints\n"))


def what_stands_twice_is_replaced(folder, wrong):
    """Of objects of one name the last stands, which is told of policies too; and one that comes is in the place of all."""
    door = Door(folder)
    twice, other = [policy("p", {"endpointSelector": {}, "ingress": [{"fromEntities": [it]}]}) for it in ("host", "all")], policy("p", {"endpointSelector": {}, "ingress": [{"fromEntities": ["init"]}]})
    state = ["--state", door.write("state.json", listed(NAMESPACE, *PODS, *twice))]
    status, out, err = door.call("list", *state, "--from", "shop/web", "--to", "shop/cart")
    told(wrong, "the last stands", (status, len(cells(out)), "left out: policies that stand again further down: 1 (shop/p)" in err), (0, 1, True))
    status, out, err = door.call("diff", *state, "--add", "-", given=json.dumps(other))
    told(wrong, "where one comes, by standard input", (status, "shop/web" in out), (3, True))


# Modules.


def progress_lives(_, wrong):
    class Stream:
        def __init__(self, is_terminal):
            self.text, self.isatty, self.flush = "", lambda: is_terminal, lambda: None

        def write(self, text):
            self.text += text

    now = [0.0]
    for is_terminal, is_quiet, wanted in (
        (False, False, "x: asking: 10 of 40 since 1 min 1 s, about 3 min 3 s left\n"),
        (False, True, ""),
        (True, False, "\r[######..................] asking: 10 of 40 since 1 min 1 s, about 3 min 3 s left\x1b[K\r\x1b[K"),
    ):
        now[0], stream = 0.0, Stream(is_terminal)
        bar = progress.Progress("x", is_quiet, stream, lambda: now[0])
        bar.begin("asking", 40)
        bar.tick()
        now[0] = 61.0
        bar.step(10)
        bar.end()
        told(wrong, f"on a terminal: {is_terminal}, quiet: {is_quiet}", stream.text, wanted)


def ports_are_read(_, wrong):
    every = ("TCP", "UDP", "SCTP")
    for text, wanted in (
        ("TCP/8443", (("TCP",), 8443, 8443)), ("8443/tcp", (("TCP",), 8443, 8443)), ("tcp 80-90", (("TCP",), 80, 90)),
        ("53", (every, 53, 53)), ("any", (every, 0, 65535)), ("UDP", (("UDP",), 0, 65535)), ("any 53", (every, 53, 53)),
    ):
        told(wrong, text, tuple(resolving.port_range(text, "at")), wanted)
    found = resolving.port_range("TCP/80-90", "at")
    told(wrong, "cuts", [found.cut("TCP", 0, 85), found.cut("TCP", 91, 99), found.cut("UDP", 80, 80)], [(80, 85), None, None])


def unions_and_flat_ranges(_, wrong):
    told(wrong, "ranges", coarse.flat([(5, 9), (1, 3), (2, 4), (20, 20)]), [(1, 9), (20, 20)])
    one, other = ((("TCP",), ((1, 5),)),), ((("TCP", "UDP"), ((4, 9),)),)
    told(wrong, "ports", coarse.union([one, other]), ((("TCP",), ((1, 9),)), (("UDP",), ((4, 9),))))


def forms_are_safe(_, wrong):
    """Names can't break out of a table of Markdown, a graph or a page."""
    name = 'a|b"</script><b>\n'
    found = Report("diff", name, ("ONE",), [[name]], [])
    told(wrong, "Markdown", ("</script>" in writing.markdown(found), "a\\|b" in writing.markdown(found)), (False, True))
    told(wrong, "the graph", drawing.quoted(name), json.dumps(name))
    long = Report("diff", "many", ("ONE",), [["x" * 200]] * 1000, [])
    told(wrong, "a comment's size", len(writing.markdown(long)) < 65_536, True)


def prefixes_lie_in_each_other(_, wrong):
    """Which of some prefixes lie in which, and how regions are joined, as every two of them say."""
    pick = random.Random(1)
    for _ in range(100):
        made = {NETWORKS[4]((pick.randrange(16) << 28, pick.randrange(5)), strict=False) for _ in range(pick.randrange(9))}
        made |= {NETWORKS[6]((pick.randrange(8) << 125, pick.randrange(4)), strict=False) for _ in range(pick.randrange(5))}
        prefixes = frozenset({*made, *WORLDS})
        among, regions_of = regions.Nested(prefixes), {it for it in sorted(prefixes, key=str) if pick.random() < 0.6}
        around = {it: max((one for one in prefixes if one != it and lies_in(it, one)), key=lambda one: one.prefixlen, default=None) for it in prefixes}
        told(wrong, f"around {prefixes}", {it: among.around(it) for it in prefixes}, around)
        told(wrong, f"inside {prefixes}", {it: {*among.inside(it)} for it in prefixes}, {it: {one for one in prefixes if around[one] == it} for it in prefixes})
        held = {it: {one for whole, but in regions.joined(regions_of, prefixes) if lies_in(it, whole) and not any(lies_in(it, one) for one in but) for one in [whole]} for it in prefixes}
        told(wrong, f"joined {regions_of} of {prefixes}", {it: bool(one) for it, one in held.items()}, {it: it in regions_of for it in prefixes})


def flows_are_read(_, wrong):
    found = flows.Flows("\n".join([flow("a/x", "a/y", 80, "2026-01-02T00:00:00Z"), flow("a/x", "a/y", 80, "2026-01-01T00:00:00Z"), flow("a/x", "a/y", 81, verdict=1)]), "name")
    told(wrong, "counts", [(it.port, seen.count, seen.first[:10], seen.last[:10]) for it, seen in found.seen.items()], [(80, 2, "2026-01-01", "2026-01-02"), (81, 1, "2026-01-01", "2026-01-01")])
    odd = flows.Flows("\n".join(flow("a/x", "a/y", 80, **more) for more in ({"l4": "TCP"}, {"l4": ["UDP"]}, {"IP": "none"})), "name")
    told(wrong, "members of other shapes", (len(odd.seen), odd.left_out), (1, {"flows that aren't of TCP, UDP or SCTP": 2}))
    one = flows.FlowEnd("", "", ("reserved:kube-apiserver", "reserved:remote-node"), "")
    told(wrong, "the API server", one.entity, 7)


def modules_are_small(_, wrong):
    """Each module is of Python 3.9, under 400 lines, and each function under 40."""
    for path in sorted([*(TOP / "tools" / "wenirako").glob("*.py"), *(TOP / "recipes" / "lib").rglob("*.py")]):
        text = path.read_text()
        tree = ast.parse(text, feature_version=(3, 9))
        told(wrong, f"{path.name} under 400 lines", len(text.splitlines()) < 400, True)
        long = [it.name for it in ast.walk(tree) if isinstance(it, ast.FunctionDef) and it.end_lineno - it.lineno >= 40]
        told(wrong, f"long functions of {path.name}", long, [])
        bare = [it.name for it in ast.walk(tree) if isinstance(it, ast.FunctionDef) and it.returns is None and it.name != "__init__"]
        told(wrong, f"functions of {path.name} without a type", [it for it in bare if not it.startswith("_")], [])


def one_formatter_lays_them_out(_, wrong):
    """`black` has nothing to change, where one of the year that pyproject.toml names is there."""
    if shutil.which("black") is None or not subprocess.run(["black", "--version"], stdout=subprocess.PIPE, text=True).stdout.startswith("black, 23."):
        print("left out, since no black 23 is there: the layout of tools and recipes")
        return
    done = subprocess.run(["black", "--check", "-q", "tools", "recipes", "tools/release", "recipes/connections", "recipes/from-kubectl", "recipes/what-if"], cwd=TOP)
    told(wrong, "whether black would change something: `black tools recipes`", done.returncode, 0)


def their_types_fit(_, wrong):
    """`mypy` finds nothing, where one that knows Python 3.9 is there."""
    if shutil.which("mypy") is None or not subprocess.run(["mypy", "--version"], stdout=subprocess.PIPE, text=True).stdout.startswith("mypy 1.0"):
        print("left out, since no mypy 1.0 is there: the types of tools and recipes")
        return
    with tempfile.TemporaryDirectory() as kept:
        done = subprocess.run(["mypy", "--cache-dir", kept], cwd=TOP, stdout=subprocess.PIPE, text=True)
    told(wrong, "what mypy finds: `mypy` at the top", done.stdout.splitlines()[-1:] if done.returncode else [], [])


def random_changes_are_told(_, wrong):
    for seed in (3, 7):
        wrong += front_random.play(seed)[0]


def run(check):
    with tempfile.TemporaryDirectory() as folder:
        wrong = []
        check(folder, wrong)
        return wrong


def over_connections(check):
    """A check, where connections is asked too."""
    with replaced(Door, has_connections=True):
        return run(check)


def checks():
    found = (a_change_is_told, forms_agree, what_is_open, connections_are_asked, connections_are_asked_of_much, connections_cannot_tell, a_change_is_held, scripts_begin_alike, prefixes_are_asked_once, alike_halves_are_asked_once, sets_are_told_apart, why_is_told, expectations_are_held, flows_are_replayed)
    found += (two_states_are_compared, slips_are_asked_of_the_bridge, workloads_and_namespaces, names_are_ends, worlds_are_told_apart, names_of_each_family, pods_of_both_families_are_ends, live_pods_have_their_addresses, words_agree, bash_completes, kubectl_is_asked)
    found += (children_end_too, children_that_start_end_too, signals_are_not_lost, other_programs_are_not_asked, odd_input_has_one_line, what_cannot_be_written_is_told, what_stands_twice_is_replaced, progress_lives, ports_are_read, unions_and_flat_ranges)
    found += (forms_are_safe, prefixes_lie_in_each_other, flows_are_read, modules_are_small, one_formatter_lays_them_out, their_types_fit, random_changes_are_told)
    asking = (a_change_is_told, forms_agree, what_is_open, expectations_are_held, two_states_are_compared, workloads_and_namespaces, names_are_ends, worlds_are_told_apart, names_of_each_family)
    yield from ((f"front door {it.__name__.replace('_', ' ')}", lambda it=it: run(it)) for it in found)
    yield from ((f"front door {it.__name__.replace('_', ' ')}, over connections", lambda it=it: over_connections(it)) for it in asking)
