"""Whether an output is a run of the policy machine, written from docs/RULES.md ("Revisions and the script") alone.

`wrong_with` says in words what is wrong with the answers to a script, whatever sessions and workers there were.
"""
import re
from dataclasses import dataclass, field

from . import rules
from .documents import Refused
from .reading import lines_of, read_line

FAULTS = {30: "duplicate-endpoint", 31: "unknown-endpoint", 32: "endpoints-full", 33: "duplicate-identity-name",
          34: "unknown-identity-name", 35: "address-taken", 36: "unknown-policy", 37: "identities-exhausted",
          38: "local-exhausted", 41: "reserved-label"}
NUMBER = "(0|[1-9][0-9]*)"
FORMS = {
    "commit": [f"ok {NUMBER}(?: identity {NUMBER})?", f"refused {NUMBER} ([a-z-]+) at {NUMBER}"],
    "sync": [f"synced {NUMBER}((?: full)?(?: [^ ]+@[0-9]+=[0-9]+)*)"],
    "verdict": [f"(allowed|denied-by-rule|denied-by-default|notyet|noendpoint) at {NUMBER}"],
    "trace": [f"(noendpoint) at {NUMBER}", f"trace ([a-z-]+) at {NUMBER} remote {NUMBER} denies ([^ ]+) allows ([^ ]+)"],
}


class Wrong(Exception):
    """Why an output is no run."""


@dataclass
class Line:
    """A line with its answer; `revision` is the number that the answer prints first, if it prints one."""
    at: int
    phase: int
    command: object
    told: str
    found: object = None
    form: int = 0
    revision: int = 0
    rows: list = field(default_factory=list)


# ---- what stands where

def read_answer(line):
    """Reads the answer in one of the forms of its line's kind."""
    for line.form, form in enumerate(FORMS[line.command.kind]):
        line.found = re.fullmatch(form, line.told)
        if line.found:
            break
    else:
        raise Wrong(f"no answer to a line of this kind")
    groups = line.found.groups()
    line.revision = int(groups[{("commit", 0): 0, ("commit", 1): 2, ("sync", 0): 0}.get((line.command.kind, line.form), 1)])
    if line.command.kind == "sync" and groups[1]:
        words = groups[1].split()
        if words[0] != "full" or len(words) < 2:
            raise Wrong("no rows of maps that are too large")
        line.rows = [(name, int(revision), int(count)) for name, revision, count in
                     (re.fullmatch("(.+)@([0-9]+)=([0-9]+)", word).groups() for word in words[1:])]


def read_all(script, answers):
    """The lines of sessions, and how many phases ended; faulty lines and ends of phases are judged at once."""
    lines, phase = [], 0
    for at, (given, told) in enumerate(zip(lines_of(script), answers), 1):
        try:
            command = read_line(given)
        except Refused as refused:
            if told != f"refused {refused}":
                raise Wrong(f"line {at}: {told}, and not: refused {refused}") from None
            continue
        if command.kind == "phase":
            phase += 1
            if told != f"phase {phase}":
                raise Wrong(f"line {at}: {told}, and not: phase {phase}")
            continue
        lines.append(Line(at, phase, command, told))
    return lines


def is_ok(line):
    return line.command.kind == "commit" and line.form == 0


def history_of(lines):
    """The committing lines in the order of their numbers, which are 1 to n and rise in each session and by phase."""
    commits = [line for line in lines if is_ok(line)]
    ordered = sorted(commits, key=lambda line: line.revision)
    if [line.revision for line in ordered] != [*range(1, len(ordered) + 1)]:
        raise Wrong("the ok lines don't carry 1 to n, each once")
    last = {}
    for line in commits:
        if line.revision <= last.get(line.command.session, 0):
            raise Wrong(f"line {line.at}: a number that doesn't rise in its session")
        last[line.command.session] = line.revision
    if any(one.phase > other.phase for one, other in zip(ordered, ordered[1:])):
        raise Wrong("numbers that don't rise from phase to phase")
    return ordered


def states_of(ordered, mode, localhost):
    """The state after each number of commits; each request is one without a fault there, with its own number."""
    states = [rules.start(mode, localhost)]
    for line in ordered:
        request = line.command.ask
        found = rules.fault(states[-1], request)
        if found is not None:
            raise Wrong(f"line {line.at}: committed, and its fault is {found}")
        state, number = rules.after(states[-1], request)
        told = line.found.group(2)
        if told != (None if number is None else str(number)):
            raise Wrong(f"line {line.at}: {line.told}, and the identity is {number}")
        states.append(state)
    return states


# ---- between which revisions a line was answered

def caps_of(lines, ordered):
    """Of each line the greatest k whose first k commits hold none behind it in its session, and none of a later phase."""
    caps, behind, later, phase, ahead = {}, {}, len(ordered), None, len(ordered)
    for line in reversed(lines):
        if line.phase != phase:
            phase, later = line.phase, ahead
        caps[line.at] = min(later, behind.get(line.command.session, len(ordered)))
        if is_ok(line):
            behind[line.command.session] = line.revision - 1
            ahead = min(ahead, line.revision - 1)
    return caps


class Seen:
    """What a session, or all that came before a phase, has shown."""

    def __init__(self):
        self.floor, self.verdicts, self.synced = 0, {}, []

    def take(self, line, endpoint):
        self.floor = max([self.floor, line.revision, *(revision for _, revision, _ in line.rows)])
        if line.command.kind == "sync":
            self.synced.append((line.revision, {name for name, _, _ in line.rows}))
        elif endpoint is not None:
            key = (line.command.ask.endpoint, endpoint.added)
            self.verdicts[key] = max(self.verdicts.get(key, 0), line.revision)

    def join(self, other):
        self.synced += other.synced
        for key, revision in other.verdicts.items():
            self.verdicts[key] = max(self.verdicts.get(key, 0), revision)

    def map_floor(self, name, added):
        """No map of the endpoint that is read from then on is older; None where none needs to be there."""
        shown = [number for number, names in self.synced if number >= added and name not in names]
        return max([*shown, *([self.verdicts[name, added]] if (name, added) in self.verdicts else [])], default=None)


# ---- each answer

class Sizes:
    """The sizes of maps. Endpoints of equal labels have maps of one size, while nothing that decides it changes."""

    def __init__(self):
        self.found = {}

    def of(self, state, endpoint):
        """The size of the endpoint's map at a state that is kept."""
        key = (id(state.policies), id(state.rows), state.mode, endpoint.labels, endpoint.identity == 5)
        if key not in self.found:
            self.found[key] = rules.map_size(state, endpoint)
        return self.found[key]


class Judge:
    """Judges the lines of one output, in order."""

    def __init__(self, script, answers, mode, localhost, limit):
        if len(lines_of(script)) != len(answers):
            raise Wrong(f"{len(answers)} answers to {len(lines_of(script))} lines")
        self.lines, self.sizes = read_all(script, answers), Sizes()
        self.limit = limit
        for line in self.lines:
            self.told(line, lambda: read_answer(line))
        self.history = history_of(self.lines)
        self.states = states_of(self.history, mode, localhost)
        self.caps = caps_of(self.lines, self.history)
        self.ended, self.sessions, self.phase, self.committed = Seen(), {}, 0, 0

    def told(self, line, step):
        try:
            step()
        except Wrong as wrong:
            raise Wrong(f"line {line.at}: {line.told}: {wrong}") from None

    def judge(self):
        for line in self.lines:
            if line.phase != self.phase:
                self.end_phase(line.phase)
            seen = self.sessions.setdefault(line.command.session, Seen())
            endpoint = self.told(line, lambda: None) or self.one(line, seen)
            seen.take(line, endpoint)

    def end_phase(self, phase):
        for seen in self.sessions.values():
            self.ended.join(seen)
        self.committed = sum(is_ok(line) and line.phase < phase for line in self.lines)
        self.phase = phase
        for seen in self.sessions.values():
            seen.synced, seen.verdicts = [], {}

    def one(self, line, seen):
        """Judges a line; gives the endpoint of a verdict."""
        found = []
        kinds = {"commit": self.refusal, "sync": self.sync, "verdict": self.verdict, "trace": self.trace}
        self.told(line, lambda: found.append(kinds[line.command.kind](line, seen)))
        return found[0]

    def bounds(self, line, seen):
        return max(seen.floor, self.committed), self.caps[line.at]

    def moment(self, line, seen):
        """The state at the revision that the line prints, which is one between its bounds."""
        low, high = self.bounds(line, seen)
        if not low <= line.revision <= high:
            raise Wrong(f"the revision isn't one from {low} to {high}")
        return self.states[line.revision]

    def refusal(self, line, seen):
        if is_ok(line):
            return
        number = int(line.found.group(1))
        found = rules.fault(self.moment(line, seen), line.command.ask)
        if found != number or FAULTS[found] != line.found.group(2):
            raise Wrong(f"its fault there is {found}")

    def map_floor(self, name, added, seen):
        return max((it for it in (seen.map_floor(name, added), self.ended.map_floor(name, added)) if it is not None), default=None)

    def number_at(self, state, query):
        return query.identity if query.address is None else rules.remote(state, query.address)

    def verdict(self, line, seen):
        query, word = line.command.ask, line.found.group(1)
        if word in ("notyet", "noendpoint"):
            return self.no_verdict(query, word, self.moment(line, seen), seen)
        low, high = self.bounds(line, seen)
        state = self.states[line.revision] if line.revision < len(self.states) else None
        endpoint = state and state.endpoints.get(query.endpoint)
        if not endpoint:
            raise Wrong("the endpoint isn't live at that revision")
        at = max(low, line.revision)
        now = self.states[at].endpoints.get(query.endpoint) if at <= high else None
        if now is None or now.added != endpoint.added:
            raise Wrong(f"the endpoint isn't live at a revision from {at} to {high}")
        floor = self.map_floor(query.endpoint, endpoint.added, seen)
        if floor is not None and line.revision < floor:
            raise Wrong(f"a map of revision {floor} was seen before")
        right = rules.explain(state, endpoint, query.direction, (self.number_at(state, query), query.protocol, query.port))[0]
        if right != word:
            raise Wrong(f"the verdict there is {right}")
        if self.is_too_large(line.revision, query.endpoint, endpoint.added):
            raise Wrong("the map there is above the limit")
        return endpoint

    def no_verdict(self, query, word, state, seen):
        endpoint = state.endpoints.get(query.endpoint)
        if (word == "notyet") != (endpoint is not None):
            raise Wrong("whether an endpoint is live there")
        if endpoint is not None and self.map_floor(query.endpoint, endpoint.added, seen) is not None:
            raise Wrong("a map was seen before")

    def trace(self, line, seen):
        query, state = line.command.ask, self.moment(line, seen)
        endpoint = state.endpoints.get(query.endpoint)
        if line.form == 0 or endpoint is None:
            if line.form != 0 or endpoint is not None:
                raise Wrong("whether an endpoint is live there")
            return
        number = self.number_at(state, query)
        word, denies, allows = rules.explain(state, endpoint, query.direction, (number, query.protocol, query.port))
        right = f"trace {word} at {line.revision} remote {number} denies {','.join(denies) or '-'} allows {','.join(allows) or '-'}"
        if right != line.told:
            raise Wrong(f"it is {right}")

    # ---- maps that are too large

    def size(self, revision, name):
        state = self.states[revision]
        return self.sizes.of(state, state.endpoints[name])

    def is_too_large(self, revision, name, added):
        endpoint = self.states[revision].endpoints.get(name)
        live = self.limit is not None and endpoint is not None and endpoint.added == added
        return live and self.size(revision, name) > self.limit

    def sync(self, line, seen):
        self.moment(line, seen)
        cap, of = self.caps[line.at], []
        if line.rows != sorted(line.rows, key=lambda row: row[:2]):
            raise Wrong("rows that aren't sorted")
        for name, revision, count in line.rows:
            endpoint = self.states[revision].endpoints.get(name) if line.revision <= revision <= cap else None
            if endpoint is None or not self.is_too_large(revision, name, endpoint.added) or self.size(revision, name) != count:
                raise Wrong(f"the row {name}@{revision}={count}")
            of.append((name, endpoint.added))
        if len({*of}) < len(of):
            raise Wrong("two rows of one endpoint")
        for name, endpoint in self.states[line.revision].endpoints.items():
            if (name, endpoint.added) not in of and all(
                    self.is_too_large(revision, name, endpoint.added) for revision in range(line.revision, cap + 1)):
                raise Wrong(f"no row of {name}, whose map is above the limit")


def is_marked(answer):
    return answer.startswith(("refused ", "notyet ", "noendpoint "))


def wrong_with(script, output, status, mode="default", localhost=True, limit=None):
    """What is wrong with an output, None where it is a run of the policy machine. Without a limit no map is too large."""
    try:
        text = output.decode("ascii")
        answers = text.split("\n")[:-1]
        if text and not text.endswith("\n"):
            raise Wrong("no newline at the end")
        Judge(script, answers, mode, localhost, limit).judge()
        if status != (1 if any(map(is_marked, answers)) else 0):
            raise Wrong(f"the status {status}")
    except Wrong as wrong:
        return str(wrong)
    return None
