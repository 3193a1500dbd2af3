#!/usr/bin/env python3
"""Random changes in small random clusters: the front door's lines against packets that tests/judge explains singly.

    tests/front_random.py [SEED ..]     the clusters of these seeds, 1 to 3 where none is given

The front door asks tests/standin.py in place of policyd. A packet is in a line of `diff` exactly where its connection
changes, and in one of `list` exactly where it passes; the packets are of random ends, protocols and ports. Both say the
same where they ask tests/judge in place of connections too.
"""
import json
import pathlib
import random
import sys
import tempfile

sys.dont_write_bytecode = True
TOP = pathlib.Path(__file__).resolve().parent.parent
for folder in ("recipes", "tools", "tests"):
    sys.path.insert(0, str(TOP / folder))
import random_changes as made  # noqa: E402
import standin  # noqa: E402
from judge import opened, rules  # noqa: E402
from judge.reading import read_address, read_line  # noqa: E402
from lib import state as bridge  # noqa: E402
from lib.labels import Filter  # noqa: E402
from wenirako import core, diffing, listing, programs, states  # noqa: E402
from wenirako import opened as front_door  # noqa: E402
from wenirako.asked import Asked  # noqa: E402
from wenirako.progress import Progress  # noqa: E402

PACKETS = 300
# What two answers are compared by.
SAID = ("summary", "cells", "rows", "status", "notes", "more")


def in_process(lines, numbers):
    return standin.answers("".join(f"{it}\n" for it in lines).encode())


def lines_of_connections(lines, words=()):
    """What connections writes of a script, by tests/judge."""
    written, status = opened.told("".join(f"{it}\n" for it in lines).encode(), halves="--halves" in words)
    assert status in (0, 1, 3), status
    return written.decode().splitlines()


def asked(of_states, node=None, lists=None):
    """A question of these states, which asks the stand-in without running it; and what is open `lists`, where it is given."""
    none = programs.Program(["none"], False, "")
    found = Asked(of_states, lambda: none, Progress("random", True), node, lambda: none if lists else None)
    found.halves.core.play, found.opened.play = in_process, lists
    return found


def whole_list(of):
    return listing.report(of, None, None, None, "pod")


def differences(of_states, report):
    """What an answer says otherwise where it asks for whole connections, and whether it asked so, in lines.

    Of a change connections tells the halves too, or doesn't know that word, as one of an earlier commit: then it holds the rows.
    """
    scripts, alone = [], report(asked(of_states))
    wrong = []
    for what, lists in (("connections", lines_of_connections), ("connections without halves", without_halves)):
        over = report(asked(of_states, lists=lambda lines, words=(): scripts.append(lines) or lists(lines, words)))
        wrong += [f"{name}: {getattr(alone, name)}, and over {what} {getattr(over, name)}" for name in SAID if getattr(alone, name) != getattr(over, name)]
    return wrong + ([] if scripts else ["connections wasn't asked"])


def without_halves(lines, words=(), lists=lines_of_connections):
    """What a connections of an earlier commit writes."""
    if words:
        raise front_door.NoWord(f"no word {words}")
    return lists(lines)


def judged(state):
    """What the judge knows of a state: its policies, and each pod as an endpoint."""
    found = rules.start("default", True)
    lines = [it.line for it in state.parts()]
    lines += [core.line_of("", {"op": "identity", "name": it.name.replace(" ", "."), "labels": it.labels}) for it in state.ends]
    for line in lines:
        found, _ = rules.after(found, read_line(line.encode()).ask)
    return found


class Judge:
    """Whether packets pass, by the judge alone."""

    def __init__(self, state):
        self.state = judged(state)
        self.pods = {it.name: it for it in state.ends}

    def number(self, end):
        kind, value = end
        if kind == "pod":
            return self.state.names[value]
        return made.ENTITIES[value] if kind == "entity" else rules.remote(self.state, read_address(value))

    def passes(self, packet):
        source, target, protocol, port = packet
        ends = ((source, "egress", target), (target, "ingress", source))
        return all(self.half(*it, protocol, port) for it in ends if it[0][0] == "pod")

    def half(self, end, direction, other, protocol, port):
        number = self.number(end)
        endpoint = rules.Endpoint(0, 0, self.state.rows[number].labels, number, 0)
        return rules.explain(self.state, endpoint, direction, (self.number(other), protocol, port))[0] == "allowed"


def rows_with(rows, packet):
    source, target, protocol, port = packet
    ports = lambda row: [pair for it in row["ports"] if protocol in it["protocols"] for pair in it["ranges"]]
    fits = lambda row: made.is_end(row["from"], source) and made.is_end(row["to"], target)
    return [it for it in rows if fits(it) and any(low <= port <= high for low, high in ports(it))]


def play(seed):
    """What is wrong with the lines of one random change, in lines, and how many of the packets change."""
    pick = random.Random(seed)
    pods = [made.pod(number) for number in range(1, 17)]
    names = [f"{it['metadata']['namespace']}/{it['metadata']['name']}" for it in pods]
    items = [*pods, *(made.policy(number, pick) for number in range(8))]
    new = made.policy(pick.randrange(9), pick)
    with tempfile.NamedTemporaryFile("w", suffix=".json") as file:
        file.write(json.dumps(new))
        file.flush()
        before = bridge.read(json.dumps({"apiVersion": "v1", "kind": "List", "items": items}), Filter())
        change = states.changed(before, [file.name], [])
    changing = diffing.report(asked(change)).rows
    opened = whole_list(asked(states.States(change.after))).rows
    old, after = Judge(change.before), Judge(change.after)
    wrong, changed = [], 0
    for it in (made.packet(pick, names) for _ in range(PACKETS)):
        was, passes = old.passes(it), after.passes(it)
        changed += was != passes
        got = [(row["before"] == "allowed", row["after"] == "allowed") for row in rows_with(changing, it)]
        if got != ([(was, passes)] if was != passes else []):
            wrong.append(f"{it}: {was} before and {passes} after, and diff says {got}")
        if len(rows_with(opened, it)) != passes:
            wrong.append(f"{it}: {passes} after, and list has {len(rows_with(opened, it))} lines of it")
    return wrong + differences(states.States(change.after), whole_list) + differences(change, diffing.report), changed


def main(seeds):
    found = [(seed, *play(seed)) for seed in seeds]
    for seed, wrong, changed in found:
        print(f"seed {seed}: {changed} of {PACKETS} packets change, and {len(wrong)} are wrong", *wrong[:20], sep="\n  ")
    return 1 if any(wrong for _, wrong, _ in found) else 0


if __name__ == "__main__":
    sys.exit(main(list(map(int, sys.argv[1:])) or [1, 2, 3]))
