#!/usr/bin/env python3
"""A stand-in for policyd, for checks of what asks it: answers a script by tests/judge, which is written from the rules alone.

It has one session, and each map is at once up to date. Words are taken and mean nothing.
"""
import pathlib
import sys

sys.dont_write_bytecode = True
sys.path.insert(0, str(pathlib.Path(__file__).resolve().parent))
from judge import rules  # noqa: E402
from judge.documents import Refused  # noqa: E402
from judge.reading import lines_of, read_line  # noqa: E402


def answered(state, command):
    """The answer to a command, and the state after it."""
    if command.kind == "sync":
        return f"synced {state.revision}", state
    if command.kind == "commit":
        fault = rules.fault(state, command.ask)
        if fault is not None:
            return f"refused {fault} fault at {state.revision}", state
        state, number = rules.after(state, command.ask)
        return f"ok {state.revision}" + ("" if number is None else f" identity {number}"), state
    it = command.ask
    endpoint = state.endpoints.get(it.endpoint)
    if endpoint is None:
        return f"noendpoint at {state.revision}", state
    number = it.identity if it.address is None else rules.remote(state, it.address)
    word, *places = rules.explain(state, endpoint, it.direction, (number, it.protocol, it.port))
    if command.kind == "verdict":
        return f"{word} at {state.revision}", state
    denies, allows = (",".join(each) or "-" for each in places)
    return f"trace {word} at {state.revision} remote {number} denies {denies} allows {allows}", state


def answers(data):
    """The answers to a script, one a line."""
    state, out = rules.start("default", True), []
    for line in lines_of(data):
        try:
            text, state = answered(state, read_line(line))
        except Refused as refused:
            text = f"refused {refused}"
        out.append(text)
    return out


def main(data):
    out = answers(data)
    sys.stdout.write("".join(f"{it}\n" for it in out))
    return 1 if any(it.startswith(("refused", "noendpoint")) for it in out) else 0


if __name__ == "__main__":
    sys.exit(main(sys.stdin.buffer.read()))
