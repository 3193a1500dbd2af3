"""The command: which question is asked, of what state, and in which form its answer is written."""
from __future__ import annotations

import argparse
import contextlib
import os
import pathlib
import sys
from typing import Any, Optional, Sequence

from lib import labels, state as bridge
from lib.reading import Bad, decoded, text_of
from lib.writing import Unwritten, put

from . import children, kubectl, lint, programs, words as lines_of, writing
from .asked import Asked
from .core import NoAnswer
from .programs import NoProgram
from .progress import Progress
from .report import Report
from .states import States, changed, with_pods
from .statuses import BAD, BAD_WORDS, NO_ANSWER, NOTHING


STANDARD_INPUT = "standard input"


class Run:
    """A question that is asked, with its words."""

    def __init__(self, command: str, name: str, words: argparse.Namespace):
        self.command, self.name, self.words = command, name, words
        self.progress = Progress(command, words.quiet)
        self.notes: list[str] = []
        self.known: Optional[programs.Program] = None
        self.looks: programs.Looks = {}
        self.commit = ""

    def say(self, text: str) -> None:
        self.progress.end()
        # (where nobody can hear it, the answer is given all the same)
        with contextlib.suppress(OSError):
            for line in text.split("\n"):
                print(f"{self.command}: {line}", file=sys.stderr, flush=True)

    def option(self, name: str) -> Any:
        return getattr(self.words, name, None)

    # What is asked about.

    def text(self, name: str) -> str:
        """The text of a file, or of standard input where that is a dash."""
        return decoded(STANDARD_INPUT, sys.stdin.buffer.read() if sys.stdin else b"") if name == "-" else text_of(name)

    def state(self, name: Optional[str]) -> bridge.State:
        """A state of a file, or of kubectl where none is named."""
        words = self.words
        if name is None:
            text, self.notes = kubectl.asked(words.context, self.progress)
            if words.save:
                kubectl.saved(text, words.save)
            return with_pods(bridge.read(text, labels.choice(words), words.cluster_name, "kubectl", "kubectl: document"), "kubectl")
        whole = STANDARD_INPUT if name == "-" else name
        return with_pods(bridge.read(self.text(name), labels.choice(words), words.cluster_name, whole, f"{whole}: document"), whole)

    def states(self) -> States:
        before = self.state(self.words.state)
        added, removed, after = self.option("add") or [], self.option("remove") or [], self.option("state_after")
        states = changed(before, added, removed, self.text) if added or removed else States(before, self.state(after), are_whole=True) if after else States(before)
        if self.option("strict") and states.unread():
            raise Bad("\n".join(states.unread()))
        nodes = sorted({it.node for it in states.before.cluster.live})
        if self.option("node") is not None and self.words.node not in nodes:
            raise Bad(f"--node {self.words.node}: no pod of the state is on it; there are {', '.join(nodes) or 'none'}")
        return states

    # The answer.

    def program(self) -> programs.Program:
        """The program that answers, looked for once."""
        self.known = self.known or programs.found(self.say, self.progress, self.looks)
        return self.known

    def lists(self) -> Optional[programs.Program]:
        """The program that lists connections, where it stands."""
        return programs.connections(self.looks)

    def look_ahead(self, states: States) -> None:
        """Finds what most answers need, while there is nothing to do but to wait."""
        states.slips()
        # (where a program is broken, that is said when it is asked)
        with contextlib.suppress(NoProgram):
            self.known = self.known or programs.there(self.looks)
        if self.words.format == "json":
            self.commit = self.commit or programs.commit()

    def report(self) -> Report:
        states = self.states()
        if self.name == "lint":
            return lint.report(states)
        # (what is asked of the state after a change alone needs no other)
        if self.name in ("list", "check"):
            states = states.afterwards()
        return self.made(Asked(states, self.program, self.progress, self.option("node"), self.lists, lambda: self.look_ahead(states)))

    def made(self, asked: Asked) -> Report:
        # (a question's module is read where that is asked, and so is a form's)
        words = self.words
        if self.name == "diff":
            from . import diffing

            return diffing.report(asked)
        if self.name == "list":
            from . import listing

            return listing.report(asked, getattr(words, "from"), words.to, words.port, words.by)
        if self.name == "why":
            from . import why

            return why.report(asked, getattr(words, "from"), words.to, words.protocol_port)
        if self.name == "check":
            from . import check

            return check.report(asked, self.text(words.expectations), words.expectations)
        from . import replay

        return replay.report(asked, self.text(words.flows), words.flows)

    def written(self, report: Report) -> str:
        form = self.words.format
        if form == "json":
            standing = None if self.name == "lint" else self.known or programs.there(self.looks)
            return writing.as_json(report, self.commit or programs.commit(), bool(standing and standing.is_proved))
        if form in ("table", "markdown"):
            return (writing.table if form == "table" else writing.markdown)(report)
        from . import drawing, page

        return (drawing.dot if form == "dot" else page.html)(report)


def answer(command: str, name: str, words: Sequence[str]) -> int:
    """Asks a question, and gives the status."""
    run = Run(command, name, lines_of.parsed(command, name, words))
    try:
        report = run.report()
        report = report._replace(notes=[*run.notes, *report.notes])
        text = run.written(report)
    except (Bad, NoAnswer, NoProgram) as wrong:
        run.say(str(wrong))
        return BAD if isinstance(wrong, Bad) else NO_ANSWER
    for it in report.notes:
        run.say(it)
    put(text)
    if run.words.format == "table":
        run.say(report.summary)
    return report.status


def main(words: Sequence[str], command: str = "wenirako") -> int:
    """Runs the command with its words, and gives the status."""
    sys.stderr = sys.stderr or open(os.devnull, "w")
    return children.ended_by(lambda: answered(list(words), command))


def answered(words: list[str], command: str) -> int:
    try:
        return asked_for(words, command)
    except Unwritten as wrong:
        print(f"{command}: {wrong}", file=sys.stderr)
        return NO_ANSWER


def asked_for(words: list[str], command: str) -> int:
    first = words[0] if words else "--help"
    if first in lines_of.QUESTIONS:
        return answer(command, first, words[1:])
    if first == "play":
        from . import play

        return play.main(words[1:])
    if first in ("--help", "-h", "help"):
        put(lines_of.help_text() + "\n")
        return NOTHING if words else BAD_WORDS
    if first == "--version":
        put(programs.version() + "\n")
        return NOTHING
    if words == ["completion", "bash"]:
        put(lines_of.completion())
        return NOTHING
    if first == "completion":
        print(f"{command}: completion is for bash: {command} completion bash", file=sys.stderr)
        return BAD_WORDS
    print(f"{command}: {first}: no question is called so", file=sys.stderr)
    print(lines_of.help_text(), file=sys.stderr)
    return BAD_WORDS


def name_of(path: str) -> str:
    """The command's name: as a plugin, kubectl says it in two words."""
    name = pathlib.Path(path).name
    return "kubectl wenirako" if name == "kubectl-wenirako" else name
