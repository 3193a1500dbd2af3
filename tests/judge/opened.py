"""Which connections scripts leave open, and which a change opens or shuts or has a half of, from docs/RULES.md ("Connections") alone.

`told` gives the bytes that `connections` writes of its input and its exit status. It asks the verdict of each pair of ends at
each port at which something begins or may have ended, and shares nothing with the program.
"""
import json

from . import rules
from .documents import Refused
from .reading import lines_of, read_line
from .runs import FAULTS

DIVIDER = b"--\n"
LAST_PORT = 65535
ALLOWED = "allowed"


# ---- scripts

def divided(given):
    """The scripts of an input: one, or two where a line is `--`."""
    at = 0
    while at < len(given):
        if given.startswith(DIVIDER, at):
            return [given[:at], given[at + len(DIVIDER):]]
        at = given.find(b"\n", at) + 1 or len(given)
    return [given]


def left(script, mode, localhost):
    """The state that a script leaves, and the lines that are refused: each with its number, from 1, and its answer."""
    state, refused = rules.start(mode, localhost), []
    for at, line in enumerate(lines_of(script), 1):
        try:
            command = read_line(line)
        except Refused as fault:
            refused.append((at, f"refused {fault}"))
            continue
        if command.kind != "commit":
            continue
        number = rules.fault(state, command.ask)
        if number is None:
            state, _ = rules.after(state, command.ask)
        else:
            refused.append((at, f"refused {number} {FAULTS[number]} at {state.revision}"))
    return state, refused


# ---- ends

class End:
    """An end of connections: who it is, as it is written, its number, and the endpoint whose policy is asked, if it has one."""

    def __init__(self, kind, name, number, subject=None):
        self.name, self.number, self.subject = {kind: name}, number, subject
        self.key = (kind, name)


def groups_text(bits):
    """An IPv6 address in its shortest text: `::` stands for the first of the longest runs of two or more groups of zeros."""
    groups = [bits >> at & 0xFFFF for at in range(112, -1, -16)]
    runs = {at: next((to for to in range(at, 8) if groups[to]), 8) - at for at in range(8)}
    at = max(runs, key=lambda it: (runs[it], -it))
    whole = lambda part: ":".join(f"{it:x}" for it in part)
    return whole(groups) if runs[at] < 2 else f"{whole(groups[:at])}::{whole(groups[at + runs[at]:])}"


def prefix_text(prefix):
    family, bits, length = prefix
    address = groups_text(bits) if family == rules.IPV6 else ".".join(str(bits >> at & 255) for at in (24, 16, 8, 0))
    return f"{address}/{length}"


def prefixes(state):
    return {row.prefix: number for number, row in state.rows.items() if row.prefix is not None}


def named(state, name):
    number = state.names[name]
    return End("identity", name, number, rules.Endpoint(0, 0, state.rows[number].labels, number, None))


def region(state, prefix):
    around = [it for it in prefixes(state) if rules.covers(it, prefix)]
    return End("region", prefix_text(prefix), prefixes(state)[max(around, key=lambda it: it[2])])


def ends(state, regions):
    by_bytes = lambda table: sorted(table, key=lambda name: name.encode())
    return [*(End("endpoint", name, state.endpoints[name].identity, state.endpoints[name]) for name in by_bytes(state.endpoints)),
            *(named(state, name) for name in by_bytes(state.names)),
            *(End("reserved", name, number) for number, name in enumerate(rules.RESERVED, 1) if name not in rules.OUTSIDE),
            *(region(state, prefix) for prefix in regions)]


# ---- what is said of a connection

class Scan:
    """Verdicts in a state, each asked once."""

    def __init__(self, state):
        self.state, self.asked = state, {}

    def half(self, end, direction, packet):
        if end.subject is None:
            return ALLOWED
        key = (end.subject.labels, end.subject.identity, direction, packet)
        if key not in self.asked:
            self.asked[key] = rules.explain(self.state, end.subject, direction, packet)[0]
        return self.asked[key]

    def halves(self, source, target, protocol, port):
        return (self.half(source, rules.EGRESS, (target.number, protocol, port)),
                self.half(target, rules.INGRESS, (source.number, protocol, port)))


def is_open(halves):
    return halves == (ALLOWED, ALLOWED)


def begins(states):
    """The ports at which what is said may be another than at the port before."""
    found = {0}
    for state in states:
        entries = [entry for policy in state.policies.values() for rule in policy.rules for section in rule.sections.values() for entry in section]
        found |= {port for entry in entries for _, first, last in entry.ports for port in (first, last + 1)}
    return sorted(found - {LAST_PORT + 1})


def ranges(ports, said):
    """(first, last, said) of the ports of which something is said, ascending, none of which could be joined with the next."""
    found = []
    for port, end in zip(ports, [*(it - 1 for it in ports[1:]), LAST_PORT]):
        now = said(port)
        if now is not None and found and found[-1][1] == port - 1 and found[-1][2] == now:
            found[-1][1] = end
        elif now is not None:
            found.append([port, end, now])
    return found


def pairs(ends):
    return [(one, other) for one in ends for other in ends if one.subject or other.subject]


# ---- lines

def line(**members):
    return json.dumps(members, separators=(",", ":")) + "\n"


def word(halves):
    return ALLOWED if is_open(halves) else dict(zip(("egress", "ingress"), halves))


def rows(ends, ports, said, members):
    for one, other in pairs(ends):
        for protocol in rules.PROTOCOLS:
            for first, last, found in ranges(ports, lambda port: said(one, other, protocol, port)):
                yield line(**{"from": one.name, "to": other.name}, protocol=protocol, ports=[first, last], **members(found))


def one_script(script, halves, *options):
    state, refused = left(script, *options)
    scan = Scan(state)
    said = lambda *packet: (lambda halves: halves if is_open(halves) else None)(scan.halves(*packet))
    told = [line(line=at, answer=answer) for at, answer in refused]
    told += rows(ends(state, sorted(prefixes(state))), begins([state]), said, lambda halves: {"verdict": word(halves)})
    return told, 1 if refused else 0


def two_scripts(before, after, halves, *options):
    states, refused = zip(*(left(it, *options) for it in (before, after)))
    regions = sorted({prefix for state in states for prefix in prefixes(state)})
    sides = [ends(state, regions) for state in states]
    keys = [{end.key: end for end in side} for side in sides]
    scans = [Scan(state) for state in states]

    def said(one, other, *packet):
        then, now = (scan.halves(side[one.key], side[other.key], *packet) for scan, side in zip(scans, keys))
        same = then == now if halves else is_open(then) == is_open(now)
        return None if same else (then, now)

    told = [line(side=side, line=at, answer=answer) for side, lines in zip(("before", "after"), refused) for at, answer in lines]
    changes = [line(side=name, end=end.name) for name, side, others in zip(("before", "after"), sides, reversed(keys)) for end in side if end.key not in others]
    both = [end for end in sides[1] if end.key in keys[0]]
    changes += rows(both, begins(states), said, lambda found: {"before": word(found[0]), "after": word(found[1])})
    return told + changes, 1 if any(refused) else 3 if changes else 0


def told(given, mode="default", localhost=True, halves=False):
    """What `connections` writes of its input, and its exit status; `halves` tells each change of a half too."""
    scripts = divided(given)
    lines, status = (one_script if len(scripts) == 1 else two_scripts)(*scripts, halves, mode, localhost)
    return "".join(lines).encode(), status
