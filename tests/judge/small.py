"""Small outputs that are runs of the policy machine, and ones that aren't, worked out by hand from docs/RULES.md.

Each is a script in short forms and its answers. `E NAME` adds an endpoint, `R NAME` removes it, `I NAME` adds a named
identity, `D NAME` denies all that comes in to every endpoint, `A NAME` allows it, `V NAME` asks for a verdict on what
comes in from identity 2, `T NAME` for its trace, `S` is a sync, `P` ends a phase, and `X` is no JSON. A digit in front is
the session.
"""
import json

POLICY = {"apiVersion": "cilium.io/v2", "kind": "CiliumNetworkPolicy"}
LABELS = ["k8s:io.kubernetes.pod.namespace=default"]


def policy(name, section):
    spec = {"endpointSelector": {}, section: [{"fromEntities": ["world"]}]}
    return {"op": "apply", "policy": {**POLICY, "metadata": {"name": name}, "spec": spec}}


def query(op, name):
    return {"op": op, "endpoint": name, "direction": "ingress", "identity": 2, "protocol": "TCP", "port": 80}


MADE = {
    "E": lambda name: {"op": "endpoint", "name": name, "labels": LABELS, "address": f"10.0.0.{ord(name) - 96}"},
    "R": lambda name: {"op": "remove-endpoint", "name": name},
    "I": lambda name: {"op": "identity", "name": name, "labels": [f"k8s:i={name}"]},
    "D": lambda name: policy(name, "ingressDeny"),
    "A": lambda name: policy(name, "ingress"),
    "V": lambda name: query("verdict", name),
    "T": lambda name: query("trace", name),
}


def line(short):
    if short == "X":
        return "{"
    session = int(short[0]) if short[0].isdigit() else 1
    op, _, name = short.lstrip("0123456789").partition(" ")
    if op == "P":
        return '{"op":"phase"}'
    made = {"op": "sync"} if op == "S" else MADE[op](name)
    return json.dumps({**made, "session": session})


def script(shorts):
    return "".join(f"{line(short)}\n" for short in shorts.split(", ")).encode()


def output(answers):
    return "".join(f"{answer}\n" for answer in answers.split(", ")).encode()


FIRST = "ok 1 identity 256"

# What is a run: its name, the script, the answers.
RUNS = [
    ("in input order", "E a, V a, S, V a", f"{FIRST}, notyet at 1, synced 1, allowed at 1"),
    ("two sessions, the second first", "1I i, 2I j", "ok 2 identity 257, ok 1 identity 256"),
    ("a verdict of an older map", "E a, S, D p, V a", f"{FIRST}, synced 1, ok 2, allowed at 1"),
    ("a verdict of a newer map", "E a, S, D p, V a", f"{FIRST}, synced 1, ok 2, denied-by-rule at 2"),
    ("a map without a sync", "E a, V a", f"{FIRST}, allowed at 1"),
    ("what the other session did first", "1V a, 2E a", f"allowed at 1, {FIRST}"),
    ("what the other session did later", "2E a, 1V a", f"{FIRST}, noendpoint at 0"),
    ("a refusal by the other session", "1E a, 2E a", "refused 30 duplicate-endpoint at 1, ok 1 identity 256"),
    ("the older endpoint of a name", "1E a, 1R a, 1E a, 2V a", f"{FIRST}, ok 2, ok 3 identity 256, allowed at 1"),
    ("a sync that another session passes", "E a, 1S, 2D p, 1V a", f"{FIRST}, synced 1, ok 2, allowed at 1"),
    ("a faulty line", "X, E a", f"refused 1 json, {FIRST}"),
    ("a trace at its revision", "E a, D p, T a", f"{FIRST}, ok 2, trace denied-by-rule at 2 remote 2 denies default/p#0.ingressDeny[0] allows -"),
    ("phases", "1E a, P, 2D p, P, 1V a", f"{FIRST}, phase 1, ok 2, phase 2, denied-by-rule at 2"),
    ("an old map in a later phase", "1E a, P, 2D p, P, 1V a", f"{FIRST}, phase 1, ok 2, phase 2, allowed at 1"),
]

# What isn't one: its name, the script, the answers.
REFUTED = [
    ("a number that stands twice", "1I i, 2I j", "ok 1 identity 256, ok 1 identity 256"),
    ("a number that is left out", "1I i, 2I j", "ok 1 identity 256, ok 3 identity 257"),
    ("numbers that fall in a session", "I i, I j", "ok 2 identity 257, ok 1 identity 256"),
    ("numbers that fall between phases", "1I i, P, 2I j", "ok 2 identity 257, phase 1, ok 1 identity 256"),
    ("another identity", "E a", "ok 1 identity 257"),
    ("no identity", "E a", "ok 1"),
    ("a commit with a fault", "E a, E a", f"{FIRST}, ok 2 identity 256"),
    ("a refusal without a fault", "E a", "refused 30 duplicate-endpoint at 0"),
    ("a refusal by another fault", "E a, E a", f"{FIRST}, refused 31 unknown-endpoint at 1"),
    ("a refusal before what its session did", "R a, E a, E a", f"refused 31 unknown-endpoint at 0, {FIRST}, refused 30 duplicate-endpoint at 0"),
    ("a refusal by what its session does later", "E a, E a, I i", "refused 30 duplicate-endpoint at 1, ok 1 identity 256, ok 2 identity 257"),
    ("a sync before what its session did", "E a, S", f"{FIRST}, synced 0"),
    ("a sync of what its session does later", "S, E a", f"synced 1, {FIRST}"),
    ("a sync before an earlier phase", "1E a, P, 2S", f"{FIRST}, phase 1, synced 0"),
    ("a sync of a later phase", "1S, P, 2E a", f"synced 1, phase 1, {FIRST}"),
    ("the wrong word", "E a, S, V a", f"{FIRST}, synced 1, denied-by-rule at 1"),
    ("the word of another revision", "E a, D p, S, V a", f"{FIRST}, ok 2, synced 2, allowed at 2"),
    ("a verdict older than a sync", "E a, D p, S, V a", f"{FIRST}, ok 2, synced 2, allowed at 1"),
    ("a verdict older than one before", "E a, D p, V a, V a", f"{FIRST}, ok 2, denied-by-rule at 2, allowed at 1"),
    ("a verdict older than one of an earlier phase", "1E a, 1D p, 1V a, P, 2V a", f"{FIRST}, ok 2, denied-by-rule at 2, phase 1, allowed at 1"),
    ("a verdict older than a sync of an earlier phase", "1E a, 1D p, 1S, P, 2V a", f"{FIRST}, ok 2, synced 2, phase 1, allowed at 1"),
    ("a verdict of what its session does later", "E a, V a, D p", f"{FIRST}, denied-by-rule at 2, ok 2"),
    ("a verdict older than its endpoint", "I i, E a, V a", "ok 1 identity 256, ok 2 identity 257, allowed at 1"),
    ("a verdict on the endpoint before", "E a, S, R a, E a, V a", f"{FIRST}, synced 1, ok 2, ok 3 identity 256, allowed at 1"),
    ("a verdict after its endpoint went", "E a, S, R a, V a", f"{FIRST}, synced 1, ok 2, allowed at 1"),
    ("no map after a sync", "E a, S, V a", f"{FIRST}, synced 1, notyet at 1"),
    ("no map after a verdict", "E a, V a, V a", f"{FIRST}, allowed at 1, notyet at 1"),
    ("no endpoint that is there", "E a, V a", f"{FIRST}, noendpoint at 1"),
    ("no map of what isn't there", "V a", "notyet at 0"),
    ("a trace at an older revision", "E a, D p, T a", f"{FIRST}, ok 2, trace allowed at 1 remote 2 denies - allows -"),
    ("a trace without its place", "E a, D p, T a", f"{FIRST}, ok 2, trace denied-by-rule at 2 remote 2 denies - allows -"),
    ("a row of a map that fits", "E a, S", f"{FIRST}, synced 1 full a@1=2"),
    ("an answer of another kind", "E a, S", f"{FIRST}, ok 2"),
    ("another count of phases", "P, P", "phase 1, phase 3"),
    ("a fault that the line hasn't", "X", "refused 2 no-op"),
    ("an answer too many", "E a", f"{FIRST}, synced 1"),
    ("an answer too few", "E a, S", FIRST),
]

# The same where a map may have two entries: an endpoint that no rule selects has three, one for each direction and one
# for the local host.
LIMIT = 2
LIMITED_RUNS = [
    ("a row", "E a, S, V a", f"{FIRST}, synced 1 full a@1=3, notyet at 1"),
    ("rows by name", "E b, E a, S", f"{FIRST}, ok 2 identity 256, synced 2 full a@2=3 b@2=3"),
    ("a row of a later revision", "1E a, 1S, 2I i", f"{FIRST}, synced 1 full a@2=3, ok 2 identity 257"),
]
LIMITED_REFUTED = [
    ("no row", "E a, S", f"{FIRST}, synced 1"),
    ("a row with another count", "E a, S", f"{FIRST}, synced 1 full a@1=4"),
    ("a row of an older revision", "I i, E a, I j, S", "ok 1 identity 256, ok 2 identity 257, ok 3 identity 258, synced 3 full a@2=3"),
    ("a row of what its session does later", "E a, S, I i", f"{FIRST}, synced 1 full a@2=3, ok 2 identity 257"),
    ("rows in another order", "E b, E a, S", f"{FIRST}, ok 2 identity 256, synced 2 full b@2=3 a@2=3"),
    ("two rows of one endpoint", "E a, S", f"{FIRST}, synced 1 full a@1=3 a@1=3"),
    ("a row of nothing", "E a, S", f"{FIRST}, synced 1 full b@1=3"),
    ("the word alone", "S", "synced 0 full"),
    ("a verdict of a map above the limit", "E a, V a", f"{FIRST}, allowed at 1"),
]


def is_marked(answers):
    return any(answer.split()[0] in ("refused", "notyet", "noendpoint") for answer in answers.split(", "))
