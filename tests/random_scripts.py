#!/usr/bin/env python3
"""Random scripts over all operations, up to 8 sessions and 5 phases: the answers to each must be a run of the policy machine.

    tests/random_scripts.py PROGRAM [FIRST [LAST]]     plays the scripts of the seeds FIRST to LAST, 1 to 3 without them

A script has 600 lines. Seed 1 has one session, seed 8 has eight, and so on from 9; each takes 0 to 8 workers,
and has a limit of 256 to 300 entries a map, which maps pass and come back under. The judge of tests/judge says what is
wrong with the answers. A play that takes over two minutes has failed.
"""
import json
import random
import subprocess
import sys

sys.dont_write_bytecode = True
from judge import script_options  # noqa: E402
from judge.runs import wrong_with  # noqa: E402

LINES = 600
PHASES = 5
SECONDS = 120
NAMES = [f"e{i}" for i in range(24)]
KINDS = ["CiliumNetworkPolicy", "CiliumClusterwideNetworkPolicy"]


def labels(pick):
    found = [f"k8s:app=a{pick.randrange(6)}", "k8s:io.kubernetes.pod.namespace=default"]
    return pick.choice([found, found, found[:1], found + [f"k8s:tier=t{pick.randrange(3)}"], ["reserved:init"], ["any:x=1"]])


def address(pick):
    """An address of either family, or a text that is none; one of IPv6 in one of its texts."""
    found = pick.choice(["10.0.0", "10.0.0", "10.1", "10.0.0.256", "2001:db8", "2001:db8", "2001:db8:1", "1::2::3"])
    if found == "10.0.0":
        return f"10.0.0.{pick.randrange(40)}"
    if found == "10.1":
        return f"10.1.{pick.randrange(4)}.{pick.randrange(256)}"
    if found == "2001:db8":
        return pick.choice(["2001:db8::{:x}", "2001:DB8:0::0:{:04X}", "2001:db8:0:0:0:0:0:{:x}"]).format(pick.randrange(40))
    return f"2001:db8:1:{pick.randrange(4)}::{pick.randrange(256):x}" if found == "2001:db8:1" else found


def prefix(pick):
    if pick.random() < 0.5:
        return f"10.{pick.randrange(3)}.0.0/{pick.randrange(8, 33)}"
    return pick.choice([f"2001:db8:{pick.randrange(3)}::/{pick.randrange(32, 129)}", f"2001:db8:1:{pick.randrange(4)}:8000::/{pick.randrange(63, 67)}", "0.0.0.0/0", "::/0"])


def prefix_set(pick):
    """A prefix with an exception, which is of the other family at times."""
    whole = pick.choice(["10.0.0.0/8", "2001:db8::/32", "0.0.0.0/0", "::/0"])
    inner = [f"10.{pick.randrange(3)}.0.0/16", f"2001:db8:{pick.randrange(3)}::/48"]
    return {"cidr": whole, "except": [inner[(":" in whole) ^ (pick.random() < 0.1)]]}


def ports(pick):
    port = {"port": str(pick.choice([0, 53, 80, 443, 65535])), "protocol": pick.choice(["TCP", "udp", "SCTP", "ANY", ""])}
    if pick.random() < 0.3:
        port["endPort"] = pick.randrange(65536)
    return [{"ports": [port]}]


def entry(pick, word):
    found = {}
    kind = pick.randrange(6)
    if kind == 0:
        found[f"{word}Endpoints"] = [{"matchLabels": {"app": f"a{pick.randrange(6)}"}}]
    elif kind == 1:
        found[f"{word}CIDR"] = [prefix(pick)]
    elif kind == 2:
        found[f"{word}CIDRSet"] = [prefix_set(pick)]
    elif kind == 3:
        found[f"{word}Entities"] = [pick.choice(["all", "world", "world-ipv4", "world-ipv6", "host", "cluster", "init", "none"])]
    if pick.random() < 0.7:
        found["toPorts"] = ports(pick)
    return found


def policy(pick):
    kind = pick.choice([KINDS[0], KINDS[0], KINDS[1]])
    spec = {"endpointSelector": pick.choice([{}, {"matchLabels": {"app": f"a{pick.randrange(6)}"}}])}
    for section, word in (("ingress", "from"), ("ingressDeny", "from"), ("egress", "to"), ("egressDeny", "to")):
        if pick.random() < 0.4:
            spec[section] = [entry(pick, word) for _ in range(pick.randrange(3))]
    if pick.random() < 0.3:
        spec["enableDefaultDeny"] = {direction: pick.choice([True, False, None]) for direction in pick.choice([["ingress"], ["egress"], ["ingress", "egress"]])}
    return {"apiVersion": "cilium.io/v2", "kind": kind, "metadata": {"name": f"p{pick.randrange(16)}"}, "spec": spec}


def query(pick, op):
    found = {"op": op, "endpoint": pick.choice(NAMES), "direction": pick.choice(["ingress", "egress"]),
             "protocol": pick.choice(["TCP", "UDP", "SCTP", "tcp"]), "port": pick.choice([0, 53, 80, 443, 65535])}
    found.update({"identity": pick.choice([0, 1, 2, 9, 10, 256, 257, 300, 16777217, 16777218])} if pick.random() < 0.4 else {"address": address(pick)})
    return found


def line(pick, sessions):
    op = pick.choice(["endpoint"] * 3 + ["remove-endpoint", "identity", "remove-identity"] + ["apply"] * 4 + ["delete", "mode"]
                     + ["verdict"] * 6 + ["trace"] * 3 + ["sync"] * 2 + ["faulty"])
    found = {"op": op}
    if op == "endpoint":
        found.update(name=pick.choice(NAMES), labels=labels(pick), address=address(pick))
    elif op == "identity":
        found.update(name=pick.choice(NAMES), labels=labels(pick))
    elif op in ("remove-endpoint", "remove-identity"):
        found.update(name=pick.choice(NAMES))
    elif op == "apply":
        found.update(policy=policy(pick))
    elif op == "delete":
        found.update(kind=pick.choice(KINDS), name=f"p{pick.randrange(16)}")
    elif op == "mode":
        found.update(enable=pick.choice(["default", "default", "always", "never"]))
    elif op in ("verdict", "trace"):
        found = query(pick, op)
    elif op == "faulty":
        return pick.choice(['{"op":"sync","session":9}', '{"op":"verdict"}', "[]", "", '{"op":"mode","enable":"on"}', '{"op":"sync","x":1}'])
    found["session"] = pick.randrange(1, sessions + 1)
    return json.dumps(found, separators=(",", ":"))


def script(seed):
    """The words and the script of a seed."""
    pick, sessions = random.Random(seed), (seed - 1) % 8 + 1
    ends = {LINES * phase // PHASES for phase in range(1, PHASES)}
    lines = ['{"op":"phase"}' if at in ends else line(pick, sessions) for at in range(LINES)]
    words = ["--workers", str(pick.randrange(9)), "--policy-map-max", str(pick.randrange(256, 301))]
    return words, "".join(f"{it}\n" for it in lines).encode()


def play(command, seed):
    """What is wrong with the command's answers to the script of that seed, in lines."""
    words, given = script(seed)
    try:
        ended = subprocess.run([*command, *words], input=given, stdout=subprocess.PIPE, stderr=subprocess.PIPE, timeout=SECONDS)
    except subprocess.TimeoutExpired:
        return [f"no end within {SECONDS} seconds"]
    wrong = wrong_with(given, ended.stdout, ended.returncode, *script_options(words))
    return [wrong] if wrong else []


def main(words):
    first, last = int((words[1:] or ["1"])[0]), int((words[2:] or words[1:] or ["3"])[0])
    failed = 0
    for seed in range(first, last + 1):
        wrong = play(words[:1], seed)
        failed += bool(wrong)
        print(f"seed {seed}: {'; '.join(wrong) or 'a run'}", flush=True)
    return 1 if failed else 0


if __name__ == "__main__":
    sys.exit(main(sys.argv[1:]))
