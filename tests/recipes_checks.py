"""Checks of the recipes over small clusters that are made here: what is said of queries, labels and policies.

What each must say is worked out from docs/RULES.md, and from Cilium's documentation for the labels.
"""
import json
import os
import pathlib
import signal
import subprocess
import sys
import tempfile

import compare

RECIPES = compare.TOP / "recipes"
sys.path.insert(0, str(RECIPES))
from lib import change, lint, state as states  # noqa: E402
from lib.cluster import Cluster  # noqa: E402
from lib.labels import Filter  # noqa: E402
from lib.reading import Bad  # noqa: E402
from lib.unread import LEFT_OUT, why_unread  # noqa: E402
import front_random  # noqa: E402
import standin  # noqa: E402
from wenirako.diff import Diff  # noqa: E402
from wenirako.ends import Group  # noqa: E402
from wenirako.naming import Names  # noqa: E402
from wenirako.states import States  # noqa: E402


def pod(namespace, name, node, address, labels, **spec):
    status = {"phase": "Running", "hostIP": f"192.168.0.{node[1:]}", "podIP": address}
    metadata = {"name": name, "namespace": namespace, "labels": labels}
    return {"apiVersion": "v1", "kind": "Pod", "metadata": metadata, "spec": {"nodeName": node, **spec}, "status": status}


def policy(name, spec, namespace="shop", **more):
    metadata = {"name": name, "namespace": namespace}
    return {"apiVersion": "cilium.io/v2", "kind": "CiliumNetworkPolicy", "metadata": metadata, "spec": spec, **more}


NAMESPACE = {"apiVersion": "v1", "kind": "Namespace", "metadata": {"name": "shop", "labels": {"team": "front"}}}
SERVICE = {"apiVersion": "v1", "kind": "Service", "metadata": {"name": "dns", "namespace": "shop"}, "spec": {"clusterIP": "10.96.0.10"}}
PODS = [
    pod("shop", "web", "n1", "10.0.0.1", {"app": "web"}),
    pod("shop", "cart", "n2", "10.0.0.2", {"app": "cart"}),
    pod("shop", "agent", "n1", "192.168.0.1", {}, hostNetwork=True),
    pod("shop", "agent2", "n2", "192.168.0.2", {}, hostNetwork=True),
]


def call(recipe, words, given=()):
    """The status and the two outputs of a recipe that is given objects."""
    text = given if isinstance(given, str) else json.dumps({"apiVersion": "v1", "kind": "List", "items": list(given)})
    ended = subprocess.run([str(RECIPES / recipe), *words], cwd=compare.TOP, input=text, stdout=subprocess.PIPE, stderr=subprocess.PIPE, text=True)
    return ended.returncode, ended.stdout, ended.stderr


def asked(query):
    """What from-kubectl makes of one query of shop/web, on its node; a member that is None is left out."""
    return call_with_query(query, [NAMESPACE, SERVICE, *PODS])


def call_with_query(query, given):
    whole = {"op": "verdict", "endpoint": "shop/web", "direction": "ingress", "protocol": "TCP", "port": 80, **query}
    with tempfile.NamedTemporaryFile("w", suffix=".jsonl") as file:
        file.write(json.dumps({key: value for key, value in whole.items() if value is not None}) + "\n")
        file.flush()
        status, out, err = call("from-kubectl", ["--node", "n1", "--ask", file.name], given)
        return status, out, err.replace(file.name, "FILE")


def told(wrong, name, got, wanted):
    if got != wanted:
        wrong.append(f"{name}: {got!r}, and not {wanted!r}")


def faults_of_queries(wrong):
    for query, what in (
        ({}, "it takes exactly one of pod, identity and address"),
        ({"pod": "shop/cart", "identity": 2}, "it takes exactly one of pod, identity and address"),
        ({"address": "1.2.3.4", "identity": 2}, "it takes exactly one of pod, identity and address"),
        ({"endpoint": "shop/none", "identity": 2}, "no pod of the input is named 'shop/none'"),
        ({"endpoint": "shop/cart", "identity": 2}, "shop/cart is on n2, and the endpoints are the pods of n1"),
        ({"endpoint": "shop/agent", "identity": 2}, "the pod shop/agent is left out: pods on the host's network, which share the identity of their node"),
        ({"endpoint": None, "identity": 2}, "endpoint is a pod's name, and is missing"),
        ({"direction": "in", "identity": 2}, "direction is ingress or egress"),
        ({"direction": None, "identity": 2}, "direction is ingress or egress, and is missing"),
        ({"identity": "2"}, "identity is a number from 0 to 4294967295"),
        ({"identity": 4294967296}, "identity is a number from 0 to 4294967295"),
        ({"address": "1.2.3"}, "address is an IP address"),
        ({"address": "1::2::3"}, "address is an IP address"),
        ({"address": "::1.2.3.4"}, "address is an IP address"),
        ({"protocol": "ICMP", "identity": 2}, "protocol is TCP, UDP or SCTP"),
        ({"port": 65536, "identity": 2}, "port is a number from 0 to 65535"),
        ({"port": None, "identity": 2}, "port is a number from 0 to 65535, and is missing"),
        ({"session": 9, "identity": 2}, "session is a number from 1 to 8"),
        ({"ports": 80, "identity": 2}, "a query has no member 'ports'"),
        ({"pod": "shop/none"}, "no pod of the input is named 'shop/none'"),
        ({"address": "10.0.0.2"}, '10.0.0.2 is the address of shop/cart, which is no endpoint here: write "pod":"shop/cart" in its place'),
        ({"address": "10.96.0.10"}, "10.96.0.10 is the ClusterIP of the Service shop/dns, which is a pod's address before policies are asked: name the pod"),
    ):
        told(wrong, f"at {query}", asked(query), (1, "", f"from-kubectl: FILE, line 1: {what}\n"))


def other_sides_of_queries(wrong):
    for query, becomes in (
        ({"pod": "shop/cart"}, '"identity":257'),
        ({"pod": "shop/agent"}, '"identity":1'),
        ({"pod": "shop/agent2"}, '"identity":6'),
        ({"address": "192.168.0.1"}, '"identity":1'),
        ({"address": "192.168.0.2"}, '"identity":6'),
        ({"address": "10.0.0.1"}, '"address":"10.0.0.1"'),
        ({"address": "203.0.113.9"}, '"address":"203.0.113.9"'),
        ({"identity": 7, "pod": None}, '"identity":7'),
    ):
        status, out, _ = asked(query)
        told(wrong, f"the status at {query}", status, 0)
        told(wrong, f"the query at {query}", f",{becomes}}}" in out.splitlines()[-1], True)
    addresses = [{"type": "Hostname", "address": "n2"}, {"type": "ExternalIP", "address": "203.0.113.9"}]
    node = {"apiVersion": "v1", "kind": "Node", "metadata": {"name": "n2"}, "status": {"addresses": addresses}}
    for name, number in (("n1", 1), ("n2", 6)):
        given = [NAMESPACE, SERVICE, *PODS, {**node, "metadata": {"name": name}}]
        told(wrong, f"a further address of {name}", f',"identity":{number}}}' in call_with_query({"address": "203.0.113.9"}, given)[1].splitlines()[-1], True)
    further_addresses(wrong)
    bad = {**node, "status": {"addresses": ["203.0.113.9"]}}
    told(wrong, "a bad address of a node", call("from-kubectl", [], [bad])[2], "from-kubectl: document 1, item 1: Node n2: status: addresses[0] is no object\n")
    without = call_with_query({"address": "203.0.113.9"}, [NAMESPACE, *PODS])
    told(wrong, "what is said without Services", without[2].splitlines()[-1], "from-kubectl: note: no Service is in the input, so that the ClusterIP of one would be taken for the world's")
    told(wrong, "what is said of no address", "no Service" in call_with_query({"identity": 2}, [NAMESPACE, *PODS])[2], False)
    told(wrong, "what is said with Services", "no Service" in asked({"address": "203.0.113.9"})[2], False)


def further_addresses(wrong):
    """A query by a further address of a pod or of a node is answered as one by the first."""
    pods = json.loads(json.dumps(PODS))
    pods[0]["status"].update(podIP="fd00::1", podIPs=[{"ip": "fd00::1"}, {"ip": "10.0.0.1"}], hostIPs=[{"ip": "192.168.0.1"}, {"ip": "FD01::1"}])
    pods[1]["status"].update(podIPs=[{"ip": "10.0.0.2"}, {"ip": "fd00::2"}])
    pods[3]["status"].update(hostIPs=[{"ip": "192.168.0.2"}, {"ip": "fd01::2"}])
    dns = {**SERVICE, "spec": {"clusterIP": "10.96.0.10", "clusterIPs": ["10.96.0.10", "fd96::a"]}}
    six = pod("shop", "six", "n1", "2001:db8:0:0:1:0:0:1", {"app": "six"})
    six["status"]["podIPs"] = [{"ip": "2001:db8:0:0:1:0:0:1"}, {"ip": "2001:db8::7"}]
    given = [NAMESPACE, dns, *pods, six]
    for address, becomes in (
        ("10.0.0.1", '"address":"10.0.0.1"'),
        ("FD00:0::1", '"address":"10.0.0.1"'),
        ("fd01::1", '"identity":1'),
        ("fd01:0::2", '"identity":6'),
        ("2001:db8::1:0:0:1", '"address":"2001:db8::1:0:0:1"'),
        ("2001:db8::0007", '"address":"2001:db8::1:0:0:1"'),
        ("2001:DB8::8", '"address":"2001:db8::8"'),
    ):
        status, out, _ = call_with_query({"address": address}, given)
        told(wrong, f"the query by {address}", (status, f",{becomes}}}" in out.splitlines()[-1]), (0, True))
    for address, what in (
        ("fd00::2", 'fd00::2 is the address of shop/cart, which is no endpoint here: write "pod":"shop/cart" in its place'),
        ("fd96::000a", "fd96::a is the ClusterIP of the Service shop/dns, which is a pod's address before policies are asked: name the pod"),
    ):
        told(wrong, f"the query by {address}", call_with_query({"address": address}, given), (1, "", f"from-kubectl: FILE, line 1: {what}\n"))


OWN = {
    "app": "web",
    "app.kubernetes.io/name": "web",
    "topology.kubernetes.io/zone": "z",
    "kubernetes.io/arch": "amd64",
    "io.kubernetes.x": "1",
    "k8s.io/x": "1",
    "node.beta.kubernetes.io/x": "1",
    "pod-template-hash": "7f",
    "controller-revision-hash": "3",
    "pod-template-generation": "3",
    "statefulset.kubernetes.io/pod-name": "web-0",
    "apps.kubernetes.io/pod-index": "0",
    "batch.kubernetes.io/job-completion-index": "0",
    "controller-uid": "u",
    "annotation.x": "1",
}
DERIVED = ["io.cilium.k8s.namespace.labels.kubernetes.io/metadata.name=shop", "io.cilium.k8s.policy.cluster=default", "io.kubernetes.pod.namespace=shop"]


def labels_that_count(wrong):
    namespace = {"apiVersion": "v1", "kind": "Namespace", "metadata": {"name": "shop", "labels": {"kubernetes.io/metadata.name": "shop"}}}
    kept = ["app=web", "app.kubernetes.io/name=web", "topology.kubernetes.io/zone=z"]
    for words, wanted in (
        ([], [*kept, *DERIVED]),
        (["--all-labels"], [*(f"{key}={value}" for key, value in OWN.items()), *DERIVED]),
        # one pattern without ! leaves the default ones of that kind and it; `app` matches what begins so
        (["--labels", "k8s:app$"], ["app=web", "app.kubernetes.io/name=web", *DERIVED]),
        (["--labels", "app"], ["app=web", "app.kubernetes.io/name=web", *DERIVED]),
        # one with ! takes away what begins so; of two that match, the longer wins
        (["--labels", "!topology"], [*kept[:2], *DERIVED]),
        (["--labels", "!app"], [*kept[1:], *DERIVED]),
        (["--labels", "any:app !topology"], ["app.kubernetes.io/name=web", *DERIVED]),
        (["--labels", "pod-template-hash$ pod-template-hash"], ["app.kubernetes.io/name=web", *DERIVED]),
        # a pattern with ! that matches nothing of a key undoes those before it
        (["--labels", "!x*"], [*(f"{key}={value}" for key, value in OWN.items()), *DERIVED]),
        (["--labels", "!x* !app"], [*(f"{key}={value}" for key, value in OWN.items() if not key.startswith("app")), "app.kubernetes.io/name=web", *DERIVED]),
        # policyd calls every cluster so, whatever its name is
        (["--cluster-name", "east"], [*kept, *DERIVED]),
    ):
        _, out, _ = call("from-kubectl", words, [namespace, pod("shop", "web", "n1", "10.0.0.1", OWN)])
        told(wrong, f"the labels with {words}", json.loads(out.splitlines()[0])["labels"], [f"k8s:{it}" for it in sorted(wanted, key=lambda it: it.split("=")[0])])
    for words in (["--labels", "!"], ["--labels", "a("], ["--labels", "!k8s:app"], ["--labels", "k8s:[[:alpha:]]+"]):
        told(wrong, f"the status with {words}", call("from-kubectl", words, PODS)[0::2][0], 1)


NEWS = policy("news", {"endpointSelector": {"matchLabels": {"app": "web"}}, "egress": [{"toNews": [{}]}]})
FINE = policy("fine", {"endpointSelector": {}, "ingress": [{}]})
MORE = policy("more", {"endpointSelector": {}, "ingress": [{}, {"toPorts": [{"ports": [{"port": "80"}], "news": 1}]}]})
BOTH = policy("both", {"endpointSelector": {}, "ingress": [{"fromEndpoints": [{}], "fromEntities": ["all"]}]})


def policies_that_are_not_read_whole(wrong):
    """They are told with the member and its place, and with whom they select; one that Cilium refuses too is never in force."""
    summary = "from-kubectl: 2 policies aren't read whole: shop/news: unknown-member at spec.egress[0].toNews; shop/more: unknown-member at spec.ingress[1].toPorts[0].news"
    given = [NAMESPACE, *PODS, NEWS, FINE, MORE, BOTH]
    status, out, err = call("from-kubectl", [], given)
    told(wrong, "the status", status, 0)
    told(wrong, "the policies in the script", out.count('"op":"apply"'), 3)
    told(wrong, "what isolates", '{"endpointSelector":{"matchLabels":{"app":"web"}},"egress":[{}]}' in out, True)
    told(wrong, "what is said at last", err.splitlines()[-4:], [
        "from-kubectl: shop/both is never in force: Cilium refuses it: combining fromEndpoints and fromEntities at spec.ingress[0]",
        summary,
        "from-kubectl: the verdicts of shop/web may be others by shop/news, which selects it",
        "from-kubectl: the verdicts of shop/web, shop/cart may be others by shop/more, which selects them",
    ])
    with tempfile.NamedTemporaryFile("w") as file:
        file.write('{"op":"verdict","endpoint":"shop/cart","direction":"ingress","identity":2,"protocol":"TCP","port":80}\n' * 2)
        file.flush()
        _, _, err = call("from-kubectl", ["--ask", file.name], given)
        # two endpoints, three policies and the sync stand before them
        told(wrong, "the answers", err.splitlines()[-1], "from-kubectl: the verdicts of shop/web, shop/cart may be others by shop/more, which selects them; answers 7, 8 too")
    status, out, err = call("from-kubectl", ["--strict"], given)
    told(wrong, "with --strict", (status, out, err.splitlines()[0]), (1, "", summary))
    told(wrong, "the status of --strict where all are read", call("from-kubectl", ["--strict"], [NAMESPACE, *PODS, FINE])[0], 0)
    _, _, err = call("from-kubectl", [], [NAMESPACE, *PODS, NEWS])
    told(wrong, "of one", err.splitlines()[-2], "from-kubectl: 1 policy isn't read whole: shop/news: unknown-member at spec.egress[0].toNews")


def unread_as_the_cases_say(wrong):
    """What is said beforehand of a policy is what the cases of the program answer, which were worked out by hand."""
    count = 0
    for case in compare.cases("case", "cases"):
        if case.words() or (case.folder / "in.py").is_file():
            continue
        for line, answer in zip(case.given().decode(errors="replace").split("\n"), (case.out() or b"").decode(errors="replace").splitlines()):
            document, wanted = applied(line), fault_of(answer)
            # (Python reads the number -0 as 0, which policyd doesn't take for a whole number)
            if isinstance(document, dict) and wanted is not None and '"endPort":-0' not in line:
                count += 1
                why = why_unread(document) or ("ok", "")
                if why[0] != wanted[0] or wanted[1] not in ("", why[1]):
                    wrong.append(f"{case.name}: {line[:300]}: {why}, and not {answer}")
    told(wrong, "whether enough was compared", count > 150, True)


def fault_of(answer):
    """What a policy's answer says of its document: a name, and the path where it has one; None where it says nothing."""
    words = answer.split(" ", 3)
    if words[0] == "ok":
        return "ok", ""
    if words[0] != "refused" or not 12 <= int(words[1]) <= 28:
        return None
    if words[1] == "14":
        return words[3], ""
    return words[2], words[3] if words[1] in ("13", "25") else ""


def applied(line):
    try:
        value = json.loads(line)
    except ValueError:
        return None
    return value.get("policy") if isinstance(value, dict) and value.get("op") == "apply" else None


def names_of_pods(wrong):
    """How the pods of an end are written: ten of one namespace, of which the last two are replicas."""
    owner = {"apiVersion": "apps/v1", "kind": "ReplicaSet", "name": "web-7f", "controller": True}
    items = [pod("a", f"p{it}", "n1", f"10.0.0.{it}", {"app": f"app{it}"}) for it in range(1, 9)]
    for name, address in (("web-7f-x", "10.0.0.9"), ("web-7f-y", "10.0.0.10")):
        replica = pod("a", name, "n1", address, {"app": "web", "pod-template-hash": "7f"})
        replica["metadata"]["ownerReferences"] = [owner]
        items.append(replica)
    pods = Cluster(json.dumps({"apiVersion": "v1", "kind": "List", "items": items}), Filter()).live
    groups = {it.name: Group(at, at, [it], True) for at, it in enumerate(pods)}
    names, of = Names(groups.values()), lambda listed: frozenset(groups[it.name] for it in listed)
    for listed, other, wanted in (
        (pods, (), ["a/* (all 10 pods)"]),
        (pods[1:], (), ["a/* (9 pods, all but a/p1)"]),
        (pods[1:], pods[:1], ["a/* (its other 9 pods)"]),
        (pods[2:], pods[:1], ["a/* (8 pods, all others but a/p2)"]),
        (pods[:3], (), ["a/p1", "a/p2", "a/p3"]),
        (pods[7:], (), ["a/p8", "a/web (2 pods)"]),
        (pods[7:9], (), ["a/p8", "a/web-7f-x"]),
        ((), (), []),
    ):
        told(wrong, f"{[it.name for it in listed]}", names.side(of(listed), of(other)), wanted)


NETWORK = {"apiVersion": "networking.k8s.io/v1", "kind": "NetworkPolicy", "metadata": {"name": "open", "namespace": "shop"}, "spec": {"podSelector": {}}}
EMPTY = {"apiVersion": "v1", "kind": "List", "items": []}
NODE = {"apiVersion": "v1", "kind": "Node", "metadata": {"name": "n1"}}


def faults_of_changes(wrong):
    """What what-if says of a bad change, before it runs anything."""
    with tempfile.TemporaryDirectory() as name:
        folder = pathlib.Path(name)

        def written(name, value):
            folder.joinpath(name).write_text(value if isinstance(value, str) else json.dumps(value))
            return str(folder / name)

        state = written("state.json", {"apiVersion": "v1", "kind": "List", "items": [NAMESPACE, *PODS, FINE, MORE]})
        fine = written("fine.json", FINE)
        for words, what in (
            (["--add", written("both.json", BOTH)], f"{folder}/both.json: document 1: shop/both can't come: Cilium refuses it: combining fromEndpoints and fromEntities at spec.ingress[0]"),
            (["--add", written("node.json", NODE)], f"--add {folder}/node.json: nothing in it is read; skipped: 1 Node (v1)"),
            (["--add", written("none", "")], f"{folder}/none is empty: it takes what kubectl get .. -o json prints"),
            (["--add", written("empty.json", EMPTY)], f"--add {folder}/empty.json: nothing in it is read; it has no object"),
            (["--add", fine, "--state", written("policies.json", FINE)], f"{folder}/policies.json: no pod is in it, so nothing can be asked about"),
            (["--add", f"{folder}/lost"], f"{folder}/lost: No such file or directory"),
            (["--remove", "cnp/shop/lost"], "--remove cnp/shop/lost: the state has no such policy; of its kind it has shop/fine, shop/more"),
            (
                ["--remove", "netpol/shop/lost", "--state", written("net.json", {"apiVersion": "v1", "kind": "List", "items": [*PODS, NETWORK]})],
                "--remove netpol/shop/lost: the state has no such policy; of its kind it has shop/open",
            ),
            (["--remove", "ccnp/lost"], "--remove ccnp/lost: the state has no such policy; of its kind it has none"),
            (["--add", fine, "--add", fine], f"{fine}: document 1: shop/fine comes twice, and one of them alone can be meant"),
            (["--remove", "cnp/shop/fine", "--remove", "CiliumNetworkPolicy/shop/fine"], "--remove CiliumNetworkPolicy/shop/fine: shop/fine goes twice"),
            (["--add", fine, "--node", "n9"], "--node n9: no pod of the state is on it; there are n1, n2"),
            (["--add", fine, "--strict"], "1 policy isn't read whole: shop/more: unknown-member at spec.ingress[1].toPorts[0].news"),
        ):
            status, out, err = call("what-if", words if "--state" in words else ["--state", state, *words])
            told(wrong, f"with {words}", (status, out, err.splitlines()[0]), (1, "", f"what-if: {what}"))
        told(wrong, "help", [call("what-if", ["--help"])[0], call("what-if", ["--help"])[1].startswith("usage: what-if")], [0, True])
        # the same policy once more is no change, so that nothing is asked
        status, out, err = call("what-if", ["--state", state, "--add", fine])
        told(wrong, "where nothing changes", (status, out, err.splitlines()[-1]), (0, "", "what-if: no connection changes"))
        told(wrong, "what isn't read", "1 policy isn't read whole: shop/more" in err, True)


def words_that_do_not_fit(wrong):
    """A bad word is told with the usage, before anything is read."""
    name = "argument --cluster-name: it is 1 to 63 letters, digits, '-', '.' and '_', with a letter or digit at both ends, and not "
    for words, what in (
        (["--bogus"], "unrecognized arguments: --bogus"),
        (["--node", "a", "--node", "a"], "--node stands twice"),
        (["--cluster-name", ""], f"{name}''"),
        (["--cluster-name", "a b"], f"{name}'a b'"),
        (["--cluster-name", "a-"], f"{name}'a-'"),
        (["--cluster-name", "a" * 64], f"{name}'{'a' * 64}'"),
        (["--labels", "a", "--labels", "b"], "--labels stands twice"),
    ):
        for recipe, front in (("what-if", "what-if: "), ("from-kubectl", "from-kubectl: error: ")):
            found, out, err = call(recipe, words)
            told(wrong, f"{recipe} with {words}", (found, out, f"{front}{what}" in err.splitlines()), (2, "", True))
            told(wrong, f"the usage of {recipe} with {words}", f"usage: {recipe}" in err or f"recipes/{recipe} [" in err, True)
    for words in (["--state", "a", "--state", "b"], ["--format", "json", "--format", "json"]):
        told(wrong, f"with {words}", call("what-if", words)[2].splitlines()[0], f"what-if: {words[0]} stands twice")
    found, out, err = call("what-if", ["--remove", "pod/shop/web"])
    told(wrong, "a policy's name of another form", (found, out, err.splitlines()[0]), (2, "", "what-if: --remove pod/shop/web: it is CiliumNetworkPolicy/NAMESPACE/NAME, CiliumClusterwideNetworkPolicy/NAME or NetworkPolicy/NAMESPACE/NAME; cnp, ccnp and netpol do for the kinds"))


def read(items):
    return states.read(json.dumps({"apiVersion": "v1", "kind": "List", "items": items}), Filter())


def changed(before, added=(), removed=()):
    """The change of a state by objects that come and policies that go."""
    with tempfile.NamedTemporaryFile("w", suffix=".json") as file:
        file.write(json.dumps({"apiVersion": "v1", "kind": "List", "items": list(added)}))
        file.flush()
        return change.of_files(before, [file.name] if added else [], removed)


def policies_that_select_nobody(wrong):
    """A policy that comes and changes nothing since it selects no pod, as by a slip in a name, is told."""
    section = {"endpointSelector": {"matchLabels": {"app": "wbe"}}, "ingress": [{}]}
    added = [policy("slip", section), policy("slip", section, "shpo"), policy("empty", {"endpointSelector": {}, "ingress": []}), FINE]
    made = changed(read([NAMESPACE, *PODS, FINE]), added)
    found = lint.slips(made.after, {it.key for it in made.coming()})
    told(wrong, "what is said", [it.text for it in found], [
        "shop/slip selects no pod of the state: app=wbe is one letter off app=web",
        "shpo/slip selects nobody: no pod of the state is in the namespace shpo",
        "shop/empty has no section that isn't empty, so it changes nothing",
    ])


def refusing(refused):
    """In the place of policyd: it refuses a policy, by its line."""
    return lambda lines, numbers: ["refused 14 unsupported news" if line == refused else standin_answer(lines, at, refused) for at, line in enumerate(lines)]


def standin_answer(lines, at, refused):
    return standin.answers("".join(f"{it}\n" for it in lines[: at + 1] if it != refused).encode())[-1]


def refusals_that_were_not_foreseen(wrong):
    """A policy that is there before and after is named; of one that comes or goes nothing can be said."""
    before = read([NAMESPACE, *PODS, FINE, policy("gone", FINE["spec"])])
    fine = next(it for it in before.parts() if it.name == "shop/fine")
    for removed, wanted in (
        (["cnp/shop/gone"], ["1 policy isn't read whole: shop/fine: it isn't in force: policyd refused it: 14 unsupported news"]),
        (["cnp/shop/fine"], "shop/fine isn't read: 14 unsupported news. Nothing can be said of it"),
    ):
        made = changed(before, (), removed)
        asked = front_random.asked(States(made.before, made.after))
        asked.halves.core.play = refusing(fine.line)
        try:
            Diff(asked.states, asked.halves, asked.opened)
            said = [it for it in asked.notes() if "policyd refused it" in it]
        except Bad as bad:
            said = str(bad)
        told(wrong, f"what is said without {removed}", said, wanted)


def ends_without_a_trace(wrong):
    """Where nobody reads what is written, and where it is interrupted."""
    with tempfile.TemporaryDirectory() as name:
        state, same = pathlib.Path(name) / "state.json", pathlib.Path(name) / "same.json"
        state.write_text(json.dumps({"apiVersion": "v1", "kind": "List", "items": [NAMESPACE, *PODS, FINE]}))
        same.write_text(json.dumps(FINE))
        for words in (["what-if", "--state", state, "--add", same, "--format", "json"], ["from-kubectl"]):
            told(wrong, f"{words[0]} to nobody", of_nobody(words, state), (0, False))
    for words in (["what-if", "--state", "/dev/stdin", "--add", "none"], ["from-kubectl"]):
        told(wrong, f"{words[0]} interrupted", interrupted(words), (130, ""))


def of_nobody(words, given):
    """The status where the reading end of standard output is closed, and whether Python's own words are printed."""
    reads, writes = os.pipe()
    os.close(reads)
    with open(given) as file, os.fdopen(writes) as out:
        done = subprocess.run([str(RECIPES / words[0]), *words[1:]], stdin=file, stdout=out, stderr=subprocess.PIPE, text=True)
    return done.returncode, "BrokenPipe" in done.stderr


def interrupted(words):
    """The status and standard error of a recipe that is interrupted while it reads."""
    # (a shell lets what it runs in the background ignore interrupts)
    how = {"stdin": subprocess.PIPE, "stdout": subprocess.DEVNULL, "stderr": subprocess.PIPE}
    heeds = lambda: signal.signal(signal.SIGINT, signal.SIG_DFL)
    with subprocess.Popen([str(RECIPES / words[0]), *words[1:]], preexec_fn=heeds, **how) as run:
        # (a pipe holds less than this, so it is reading once all is written)
        run.stdin.write(b" " * (1 << 20))
        run.send_signal(signal.SIGINT)
        said = run.communicate()[1]
    return run.returncode, said.decode()


def the_rules_tell_what_is_rewritten(wrong):
    """The tables of docs/RULES.md name each member that policyd leaves out."""
    rows = [it for it in (compare.TOP / "docs" / "RULES.md").read_text().split("## What the bridge rewrites")[1].splitlines() if it.startswith("|")]
    for name in (it for listed in LEFT_OUT.values() for it in listed):
        told(wrong, f"whether docs/RULES.md tells {name}", any(f"`{name}`" in it for it in rows), True)


def run(check):
    wrong = []
    check(wrong)
    return wrong


def checks():
    names = (faults_of_queries, other_sides_of_queries, labels_that_count, policies_that_are_not_read_whole)
    names += (unread_as_the_cases_say, names_of_pods, faults_of_changes, policies_that_select_nobody)
    names += (words_that_do_not_fit,)
    names += (refusals_that_were_not_foreseen,)
    names += (ends_without_a_trace, the_rules_tell_what_is_rewritten)
    return [(f"recipes {it.__name__.replace('_', ' ')}", lambda it=it: run(it)) for it in names]
