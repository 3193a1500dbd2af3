"""Checks of the figures of benchmarks: none that is made of differences is negative where a run was disturbed, memory is told where it is asked about, and
commits are told without what was there before them."""
import contextlib
import importlib.util
import io
import json
import pathlib
import sys
from importlib.machinery import SourceFileLoader
from unittest import mock

import compare


def bench(name):
    """A file of bench/ as a module."""
    loader = SourceFileLoader(f"bench_{name}", str(compare.TOP / "bench" / name))
    found = importlib.util.module_from_spec(importlib.util.spec_from_loader(loader.name, loader))
    loader.exec_module(found)
    return found


class Runs:
    """Stands in for the runs of bench/kept: what each is to take, by the clock and of the processor, and the file that each is over."""

    def __init__(self, taken):
        self.taken = iter(taken)

    def __call__(self, program, path, script):
        return next(self.taken)

    def write_bytes(self, bytes_of):
        pass


# Three runs without a line and with commits, in turn: what each takes, and the commits a second and the processor's seconds that are told.
KEPT = [
    ("quiet", [(1.0, 0.5), (3.0, 0.75), (1.0, 0.5), (3.0, 0.75), (1.0, 0.5), (2.0, 0.75)], [500, 500, 1000], [0.25, 0.25, 0.25]),
    ("an opening was disturbed", [(9.0, 0.9), (3.0, 0.75), (1.0, 0.5), (2.0, 0.75), (1.0, 0.5), (2.0, 0.75)], [500, 1000, 1000], [0.25, 0.25, 0.25]),
    ("all openings were", [(9.0, 0.9), (3.0, 0.75), (8.0, 0.9), (10.0, 0.9), (8.0, 0.9), (2.0, 1.4)], [500], [0.5]),
    ("all runs were", [(9.0, 0.9), (3.0, 0.9), (9.0, 0.9), (9.0, 0.75), (9.0, 0.9), (2.0, 0.75)], [], []),
]


def kept():
    """What bench/kept tells of such runs, where it tells something else."""
    found = bench("kept")
    for name, taken, commits, work in KEPT:
        runs = Runs(taken)
        with mock.patch.object(found, "seconds", runs):
            told = found.figures("policyd_kept", runs, 1)[3:]
        if ([round(it) for it in told[0]], [round(it, 6) for it in told[1]]) != (commits, work):
            yield f"{name}: {told}, where {commits} and {work} are due"


class Rows:
    """Stands in for the rows that a benchmark keeps."""

    def __init__(self):
        self.added = []

    def add(self, *row):
        self.added.append(row)


# Two runs of bench/growth with each of four counts: the clock's seconds, the processors', and the most memory, in MB.
GROWTH = [(1.0, 0.5, 30), (1.0, 0.4, 20), (1.0, 0.8, 30), (1.0, 0.9, 40), (1.0, 1.6, 60), (1.0, 1.7, 60), (1.0, 6.5, 61), (1.0, 6.4, 60)]
# What is shown of them, without memory and with it.
SECONDS = ["0.400 s", "0.800 s x2.00", "1.600 s x2.00", "6.400 s x4.00"]
MEMORY = ["20 MB", "30 MB x1.50", "60 MB x2.00", "60 MB x1.00"]


def growth(name, is_of_memory):
    """What bench/growth tells of such runs of this script, where it tells something else."""
    found, runs, rows, shown = bench("growth"), iter(GROWTH), Rows(), io.StringIO()
    with mock.patch.object(found, "played", lambda *given: next(runs)), contextlib.redirect_stdout(shown):
        found.show(name, "policyd", 2, rows)
    wanted = [f"{seconds} {memory}" for seconds, memory in zip(SECONDS, MEMORY)] if is_of_memory else SECONDS
    told = [" ".join(line.split()[2:]) for line in shown.getvalue().splitlines()]
    if told != wanted:
        yield f"{told}, where {wanted} are due"
    kept = [(what, of, taken) for what, _, taken, of in rows.added if of != "s"]
    due = [(f"bench/growth {name}: memory", "MB", GROWTH[at : at + 2]) for at in range(0, len(GROWTH), 2)] if is_of_memory else []
    if [(what, of, list(taken)) for what, of, taken in kept] != [(what, of, [most for _, _, most in runs]) for what, of, runs in due]:
        yield f"it keeps {kept} of memory"


# The most entries of a map that is published where no word says otherwise (docs/RULES.md).
MAP_MOST = 16_384


def blocks(first, last):
    """How many aligned blocks the ports from the first to the last are."""
    count = 0
    while first <= last:
        size = (first & -first) or 1 << 16
        while first + size - 1 > last:
            size //= 2
        first, count = first + size, count + 1
    return count


def too_large_keys(name, syncs):
    """How the script of this name in bench/growth isn't as it says: 90 keys for each prefix, in maps that are too large."""
    found = bench("growth")
    make, count = found.MEASURED[name]
    lines = [json.loads(line) for line in make(count).splitlines()]
    entries = [entry for line in lines if line["op"] == "apply" for entry in line["policy"]["spec"]["ingress"]]
    items = [port for entry in entries for item in entry["toPorts"] for port in item["ports"]]
    keys = sum((3 if it["protocol"] == "ANY" else 1) * blocks(int(it["port"]), it["endPort"]) for it in items)
    of = len({prefix for entry in entries for prefix in entry["fromCIDR"]})
    if (keys, of) != (90, count):
        yield f"{keys} keys for each of {of} prefixes"
    if keys * of <= MAP_MOST or found.WORDS.get(name):
        yield f"a map of {keys * of} entries may fit"
    if sum(line["op"] == "endpoint" for line in lines) != 4 or lines[-1]["op"] != "sync":
        yield "it isn't of four endpoints whose maps are asked for at its end"
    if sum(line["op"] == "sync" for line in lines) != syncs:
        yield f"maps aren't asked for {syncs} times in it"


class Turns:
    """Stands in for the runs of bench/growth on a script of two parts: what each takes of the processor, and the script that it is played."""

    def __init__(self, taken):
        self.taken, self.scripts = iter(taken), []

    def __call__(self, program, words, path):
        self.scripts.append(pathlib.Path(path).read_text())
        return 1.0, next(self.taken), 1


# With each of four counts of policies, three turns: the processor's seconds of the first part, and those of the whole. Then what the hundred commits took,
# and what is shown of them.
TURNS = [
    (200, [(0.3, 0.9), (0.5, 0.7), (0.6, 0.8)], 0.4, "0.400 s"),
    (400, [(0.7, 1.7), (0.6, 1.5), (0.5, 1.3)], 0.8, "0.800 s x2.00"),
    (800, [(0.7, 0.9), (0.9, 0.6), (0.8, 0.7)], None, "disturbed"),
    (1600, [(0.6, 1.6), (0.9, 1.4), (0.8, 1.9)], 0.8, "0.800 s"),
]


def beside(name):
    """What bench/growth shows of such runs of this script, the rows that it keeps, and the scripts that it plays."""
    found, rows, shown = bench("growth"), Rows(), io.StringIO()
    turns = Turns(seconds for _, turns, _, _ in TURNS for turn in turns for seconds in turn)
    kept, words = mock.Mock(Rows=lambda is_kept: rows), ["bench/growth", name]
    with mock.patch.multiple(found, played=turns, results=kept), mock.patch.object(sys, "argv", words), contextlib.redirect_stdout(shown):
        found.main()
    return shown.getvalue().splitlines(), rows.added, turns.scripts


def commits_beside(name):
    """What bench/growth tells of such runs of this script, where it tells something else."""
    shown, kept, _ = beside(name)
    told, wanted = [" ".join(line.split()) for line in shown], [f"{name} {count} {of}" for count, _, _, of in TURNS]
    if told != wanted:
        yield f"{told}, where {wanted} are due"
    due = [(f"bench/growth {name}: a hundred commits", f"{count} policies", [seconds], "s") for count, _, seconds, _ in TURNS if seconds]
    if kept != due:
        yield f"it keeps {kept}, where {due} are due"


class There:
    """What is there at a line of a script: says what each next line is beside that."""

    def __init__(self):
        self.pod, self.peers, self.had, self.identities, self.mode = None, {}, set(), [], "default"

    def endpoint(self, line):
        is_first, self.pod = self.pod is None, line["labels"]
        return f"{'first' if is_first else 'another'} endpoint"

    def apply(self, line):
        name, spec = line["policy"]["metadata"]["name"], line["policy"]["spec"]
        is_for_pod = all(f"k8s:{key}={value}" in self.pod for key, value in spec["endpointSelector"].get("matchLabels", {}).items())
        [(key, value)] = [label for entry in spec["ingress"] for it in entry["fromEndpoints"] for label in it["matchLabels"].items()]
        ports = [port["port"] for entry in spec["ingress"] for item in entry.get("toPorts", []) for port in item["ports"]]
        peer = f"k8s:{key}={value}"
        was = f"{'old' if name in self.peers else 'new'} policy, {'old' if peer in self.had else 'new'} peer"
        self.peers[name] = peer
        self.had.add(peer)
        return f"{was}, port {' '.join(ports)}, for {'the' if is_for_pod else 'another'} pod"

    def identity(self, line):
        is_old = line["labels"] in self.identities
        self.identities.append(line["labels"])
        return f"{'old' if is_old else 'new'} identity of {sum(peer in line['labels'] for peer in self.peers.values())} peers"

    def mode_line(self, line):
        was, self.mode = self.mode, line["enable"]
        return f"from {was} to {self.mode}"

    def told(self, line):
        tell = {"endpoint": self.endpoint, "apply": self.apply, "identity": self.identity, "mode": self.mode_line}.get(line["op"])
        return tell(line) if tell else line["op"]


# What the commits of scripts of two parts are, beside what is there.
BESIDE = {
    "applies-beside": ["old policy, new peer, port 80, for the pod"] * 100,
    "selectors-beside": ["new policy, new peer, port 80, for another pod"] * 100,
    "modes-beside": ["from default to always", "from always to default"] * 50,
    "identities-beside": ["new identity of 1 peers"] * 100,
    "requests-beside": ["new identity of 0 peers"] * 100,
}


def parts(name, count):
    """What the lines of both parts of a script are, with so many policies."""
    first = ["first endpoint", *["new policy, new peer, port 80, for the pod"] * count, "sync"]
    return first, [told for commit in BESIDE[name] for told in (commit, "sync")]


def script_beside(name):
    """How the script of this name in bench/growth isn't as it says: so many policies, and then a hundred commits with a sync each."""
    scripts = beside(name)[2]
    for at, (count, turns, _, _) in enumerate(TURNS):
        played = scripts[2 * at * len(turns) :][: 2 * len(turns)]
        if played != played[:2] * len(turns):
            yield f"{count} policies: its two parts aren't played by turns"
        first, then = parts(name, count)
        for script, due in zip(played, (first, first + then)):
            told = list(map(There().told, map(json.loads, script.splitlines())))
            if told != due:
                differ = [pair for pair in zip(told, due) if pair[0] != pair[1]][:1]
                yield f"{count} policies: {len(told)} lines, where {len(due)} are due; the first that differ: {differ}"
        if not played[1].startswith(played[0]):
            yield f"{count} policies: the whole doesn't begin with its first part"


def checks():
    yield "figures of bench/kept", lambda: list(kept())
    for name, is_of_memory in (("too-large-keys", True), ("too-large-keys-later", True), ("too-large", False)):
        yield f"figures of bench/growth {name}", lambda name=name, is_of_memory=is_of_memory: list(growth(name, is_of_memory))
    for name, syncs in (("too-large-keys", 1), ("too-large-keys-later", 2)):
        yield f"script of bench/growth {name}", lambda name=name, syncs=syncs: list(too_large_keys(name, syncs))
    for name in BESIDE:
        yield f"figures of bench/growth {name}", lambda name=name: list(commits_beside(name))
        yield f"script of bench/growth {name}", lambda name=name: list(script_beside(name))
