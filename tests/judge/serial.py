"""What a script is answered in one session, and what a drill of a crash writes, from docs/RULES.md ("Drills of crashes") alone.

`drilled` gives the output and the status of a drill: they follow from the script, the call and the options.
"""
from . import LIMIT, rules
from .documents import Refused
from .reading import lines_of, read_line
from .runs import FAULTS, Sizes, is_marked

# How many calls of the disk opening makes, and how many each request that is accepted.
OPENING, ACCEPTED = 3, 4


class Serial:
    """One session, whose lines are answered one after another."""

    def __init__(self, mode, localhost, limit):
        self.states, self.maps, self.phases = [rules.start(mode, localhost)], {}, 0
        self.limit, self.sizes = limit, Sizes()

    def answer(self, line):
        """The answer to the next line."""
        try:
            command = read_line(line)
        except Refused as refused:
            return f"refused {refused}"
        return getattr(self, command.kind)(command.ask)

    @property
    def now(self):
        return self.states[-1]

    def commit(self, request):
        fault = rules.fault(self.now, request)
        if fault is not None:
            return f"refused {fault} {FAULTS[fault]} at {self.now.revision}"
        state, number = rules.after(self.now, request)
        self.states.append(state)
        return f"ok {state.revision}" + ("" if number is None else f" identity {number}")

    def sync(self, _):
        """Makes the map of each live endpoint; one above the limit isn't published."""
        rows = []
        for name, endpoint in sorted(self.now.endpoints.items()):
            size = self.sizes.of(self.now, endpoint)
            if size > self.limit:
                rows.append(f" {name}@{self.now.revision}={size}")
            else:
                self.maps[name, endpoint.added] = self.now.revision
        return f"synced {self.now.revision}" + (" full" if rows else "") + "".join(rows)

    def verdict(self, query):
        endpoint = self.now.endpoints.get(query.endpoint)
        if endpoint is None:
            return f"noendpoint at {self.now.revision}"
        if (query.endpoint, endpoint.added) not in self.maps:
            return f"notyet at {self.now.revision}"
        state = self.states[self.maps[query.endpoint, endpoint.added]]
        return f"{explained(state, query)[1][0]} at {state.revision}"

    def trace(self, query):
        if query.endpoint not in self.now.endpoints:
            return f"noendpoint at {self.now.revision}"
        number, (word, denies, allows) = explained(self.now, query)
        return f"trace {word} at {self.now.revision} remote {number} denies {','.join(denies) or '-'} allows {','.join(allows) or '-'}"

    def phase(self, _):
        self.phases += 1
        return f"phase {self.phases}"


def explained(state, query):
    """The number of the other side, and the explanation, at a state in which the endpoint is live."""
    number = query.identity if query.address is None else rules.remote(state, query.address)
    packet = (number, query.protocol, query.port)
    return number, rules.explain(state, state.endpoints[query.endpoint], query.direction, packet)


def crashed(script, call, serial):
    """The answers before that call of the disk fails, and how many requests are found after the crash."""
    answers, calls, accepted = [], OPENING, 0
    for line in lines_of(script) if call > OPENING else ():
        answer = serial.answer(line)
        if answer.startswith("ok "):
            calls += ACCEPTED
            if calls >= call:
                # Its last call is a sync: where that is the one to fail, the gate is open in what was written, which is kept.
                return answers, accepted + (calls == call and call % 2 == 1)
            accepted += 1
        answers.append(answer)
    return answers, accepted


def drilled(script, call, mode="default", localhost=True, limit=LIMIT):
    """The output of a drill, and its status."""
    answers, found = crashed(script, call, Serial(mode, localhost, limit))
    return "".join(f"{it}\n" for it in [*answers, f"restart {found}"]).encode(), int(any(map(is_marked, answers)))
