"""Checks of what the front door says where something of a policy isn't read: which rows are marked, and with which status."""
import json

import compare
import front_random
import schema
from archive import Door, replaced
from front_checks import flow, listed, over_connections, run, stripped
from play_checks import told
from recipes_checks import NAMESPACE, PODS, policy

TOP = compare.TOP


def what_is_not_sure_is_marked(folder, wrong):
    """A policy with a member that nobody reads may turn each answer about the pods that it selects: the status is 4."""
    door, form = Door(folder), json.loads((TOP / "docs" / "answer.schema.json").read_text())
    news = policy("news", {"endpointSelector": {"matchLabels": {"app": "cart"}}, "ingress": [{"fromEndpoints": [{"matchLabels": {"app": "web"}}], "news": 1}]})
    state = ["--state", door.write("state.json", listed(NAMESPACE, *PODS, news))]
    promise, seen = door.write("promise", "shop/web -> shop/cart TCP 80 never\n"), door.write("flows", flow("shop/cart", "shop/web", 80) + "\n")
    shut = door.write("shut.json", policy("shut", {"endpointSelector": {"matchLabels": {"app": "web"}}, "egress": [{}]}))
    for words, is_sure in (
        (["why", "shop/web", "shop/cart", "TCP/80"], False),
        (["why", "shop/cart", "shop/web", "TCP/80"], True),
        (["list", "--to", "shop/web", "--from", "shop/cart"], True),
        (["list", "--to", "shop/cart", "--from", "shop/web"], False),
        (["list", "--to", "shop/cart", "--by", "namespace"], False),
        (["check", promise], False),
        (["replay", seen], True),
        (["replay", door.write("in", flow("shop/web", "shop/cart", 80) + "\n")], False),
        (["replay", door.write("in", flow("shop/web", "shop/cart", 80) + "\n"), "--remove", "cnp/shop/news"], True),
        (["replay", door.write("in", flow("shop/web", "shop/cart", 80) + "\n"), "--add", shut], None),
    ):
        status, out, _ = door.call(*words, *state, "--format", "json")
        value = json.loads(out)
        wrong += schema.wrong_with(value, form, form)
        told(wrong, f"the status of {words}", status, {True: 0, False: 4, None: 3}[is_sure])
        told(wrong, f"the mark of {words}", [it for it in value["rows"] if it.get("unsure")] != [], is_sure is False)
    _, out, err = door.call("list", "--to", "shop/cart", "--from", "shop/web", *state)
    row = ["shop/web", "shop/cart", "every protocol and port", "ingress: no entry allows it; isolated by shop/news; unsure: shop/news isn't read whole"]
    told(wrong, "what may be open", (stripped("\n".join(out.splitlines()[2:])), err.splitlines()[-1]), ([row], "wenirako: nothing is open, and 1 line of some that may be"))


def what_comes_unread_marks_all_that_it_may_change(folder, wrong):
    """A policy that itself comes or goes and isn't read whole: each connection that it may turn is a row, in every form."""
    door, form = Door(folder), json.loads((TOP / "docs" / "answer.schema.json").read_text())
    deny = policy("deny", {"endpointSelector": {}, "ingress": [{"fromEndpoints": [{"matchLabels": {"app": "web"}}], "toPorts": [{"ports": [{"port": "80", "protocol": "TCP"}]}]}]})
    news = policy("news", {"endpointSelector": {"matchLabels": {"app": "cart"}}, "ingress": [{"fromEndpoints": [{}], "news": 1}]})
    path = door.write("news.json", news)
    comes = ["--state", door.write("without.json", listed(NAMESPACE, *PODS, deny)), "--add", path]
    goes = ["--state", door.write("with.json", listed(NAMESPACE, *PODS, deny, news)), "--remove", "cnp/shop/news"]
    for given in (comes, goes):
        status, out, err = door.call("diff", *given)
        rest = "TCP 0-79, 81-65535; UDP and SCTP every port"
        rows = sorted((it[0] == "shop/web", *it[1:5]) for it in stripped("\n".join(out.splitlines()[2:])))
        told(wrong, "the rows", (status, rows), (4, [(False, "shop/cart", "every protocol and port", "denied-by-default", "unsure"), (True, "shop/cart", rest, "denied-by-default", "unsure")]))
        told(wrong, "above them", out.splitlines()[0], "unsure: shop/news isn't read whole, so rows marked unsure may be others")
        told(wrong, "the member and its place", any("shop/news: unknown-member at spec.ingress[0].news" in it for it in err.splitlines()), True)
        told(wrong, "what is said at last", err.splitlines()[-1], "wenirako: 2 lines of connections may change")
        value = json.loads(door.call("diff", *given, "--format", "json")[1])
        wrong += schema.wrong_with(value, form, form)
        told(wrong, "for programs", [(it["before"], it["after"], it["unsure"]) for it in value["rows"]], [("denied-by-default", "denied-by-default", ["shop/news"])] * 2)
        told(wrong, "the graph", 'color="#6e7781", tooltip="unsure", style=dashed]' in door.call("diff", *given, "--format", "dot")[1], True)
        told(wrong, "the page", door.call("diff", *given, "--format", "html")[1].count('"does":"unsure"'), 2)
        told(wrong, "a comment", "denied-by-default | unsure |" in door.call("diff", *given, "--format", "markdown")[1], True)
    told(wrong, "as an error", door.call("diff", *comes, "--strict")[:2], (1, ""))
    # and the names beside the world stand at their own ports alone
    free = policy("free", {"endpointSelector": {"matchLabels": {"app": "cart"}}, "egress": [{"toFQDNs": [{"matchName": "a.example"}], "toPorts": [{"ports": [{"port": "443", "protocol": "TCP"}]}]}]})
    out = policy("news", {"endpointSelector": {"matchLabels": {"app": "cart"}}, "egress": [{"toEntities": ["world"], "news": 1}]})
    value = json.loads(door.call("diff", "--state", door.write("free.json", listed(NAMESPACE, *PODS, free)), "--add", door.write("out.json", out), "--format", "json")[1])
    world = [(it["ports"], it.get("names", [])) for it in value["rows"] if {"cidr": "0.0.0.0/0", "except": []} in it["to"]]
    rest = [{"protocols": ["TCP"], "ranges": [[0, 442], [444, 65535]]}, {"protocols": ["UDP", "SCTP"], "ranges": [[0, 65535]]}]
    told(wrong, "names beside the world", sorted(world, key=lambda it: len(it[1])), [(rest, []), ([{"protocols": ["TCP"], "ranges": [[443, 443]]}], ["a.example"])])
    # what other policies deny by rule, and a half that denies for sure, leave nothing to turn
    sure = policy("sure", {"endpointSelector": {}, "ingressDeny": [{"fromEntities": ["all"]}]})
    told(wrong, "where all is denied", door.call("diff", "--state", door.write("sure.json", listed(NAMESPACE, *PODS, deny, sure)), "--add", path)[:2], (0, ""))


def what_is_refused_unforeseen_is_not_read(folder, wrong):
    """A policy that was thought to be read, and that the core refuses, marks rows as one that isn't read."""
    door = Door(folder)
    odd = policy("odd", {"endpointSelector": {"matchLabels": {"app": "cart"}}, "ingress": [{"fromEndpoints": [{"matchLabels": {"app": "web"}}]}]})
    nothing = json.dumps({"op": "delete", "kind": "CiliumNetworkPolicy", "namespace": "no", "name": "no"})
    state = ["--state", door.write("state.json", listed(NAMESPACE, *PODS, odd))]
    plain, lists = front_random.in_process, front_random.lines_of_connections
    other = lambda lines: [nothing if '"odd"' in it else it for it in lines]
    with replaced(front_random, in_process=lambda lines, numbers: plain(other(lines), numbers), lines_of_connections=lambda lines, words=(): lists(other(lines), words)):
        status, out, err = door.call("list", "--to", "shop/cart", "--from", "shop/web", *state)
    row = ["shop/web", "shop/cart", "every protocol and port", "egress: no policy isolates it; ingress: no policy isolates it; unsure: shop/odd isn't read whole"]
    told(wrong, "the row", (status, stripped("\n".join(out.splitlines()[2:]))), (4, [row]))
    told(wrong, "what is said of it", any(it.startswith("wenirako: 1 policy isn't read whole: shop/odd: it isn't in force: policyd refused it: 36 ") for it in err.splitlines()), True)


def checks():
    found = (what_is_not_sure_is_marked, what_comes_unread_marks_all_that_it_may_change, what_is_refused_unforeseen_is_not_read)
    yield from ((f"front door {it.__name__.replace('_', ' ')}", lambda it=it: run(it)) for it in found)
    yield from ((f"front door {it.__name__.replace('_', ' ')}, over connections", lambda it=it: over_connections(it)) for it in found)
