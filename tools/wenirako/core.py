"""Asks the core what it says of packets, in as few runs as may be.

This is the one place that knows which program judges packets: `policyd`, which is given scripts. What is open between all
ends at once is asked of `connections`, by `opened`.
"""
from __future__ import annotations

import collections
import os
import queue
import re
import threading
from typing import Callable, Iterable, NamedTuple, Optional, Sequence, Union

from lib.reading import line_of

from . import children
from .programs import Program
from .progress import Progress

ENDPOINTS_MOST, FIRST = 256, 256
# How many endpoints, and how many questions, a run is given at least and at most where several run at once.
ENDPOINTS_LEAST, QUESTIONS_LEAST, QUESTIONS_MOST, WORKERS_MOST = 24, 200, 50_000, 4
TRACE = re.compile(r"trace (\S+) at \d+ remote \d+ denies (\S+) allows (\S+)")
VERDICT = re.compile(r"(allowed|denied-by-rule|denied-by-default) at (\d+)")
ALLOWED, BY_RULE, BY_DEFAULT = "allowed", "denied-by-rule", "denied-by-default"
SYNC = line_of("", {"op": "sync"})

# How a question names the other side: ("set", NUMBER), ("identity", NUMBER) or ("address", TEXT).
Remote = tuple
# How many questions a batch has, and what is answered to them, or what was raised in the place of that.
Outcome = tuple[int, Union[dict, BaseException]]


class NoAnswer(Exception):
    """Why the core gave no answers."""


class Misjudged(Exception):
    """The core refuses other policies than was foreseen: what it answered to all that it refused, by their lines."""

    def __init__(self, refused: dict[str, str]):
        super().__init__(refused)
        self.refused = refused


class Question(NamedTuple):
    """A packet of an endpoint that stands for a set of labels, with the policies before (0) or after (1) a change."""

    phase: int
    at: int
    direction: str
    remote: Remote
    protocol: str
    port: int


class Answer(NamedTuple):
    """A verdict with the entries that deny and that allow."""

    word: str
    denies: tuple
    allows: tuple

    @property
    def is_allowed(self) -> bool:
        return self.word == ALLOWED

    def is_free(self) -> bool:
        """Whether nothing speaks of the packet and it passes: its direction isn't enforced."""
        return self.is_allowed and not self.denies and not self.allows


def answer_of(text: str) -> Answer:
    found = TRACE.fullmatch(text)
    if not found:
        raise NoAnswer(f"policyd answered {text!r} to a trace")
    word, *places = found.groups()
    return Answer(word, *(() if it == "-" else tuple(it.split(",")) for it in places))


class Core:
    """Answers questions about sets of labels, each with an address of its own, by policyd.

    `phases` has the lines of the policies before a change, and those that make it. `refused` has those of them that are
    thought to be refused: where the core says otherwise, `Misjudged` tells what it refuses.
    """

    def __init__(self, find: Callable[[], Program], sets: Sequence, progress: Progress):
        """`find` gives the program: it is called once, when there is something to ask."""
        self.find, self.sets, self.progress = find, sets, progress
        self.program: Optional[Program] = None
        self.phases: Sequence[Sequence[str]] = ()
        self.refused: set[str] = set()
        self.runs = self.lines = 0

    def verdicts(self, questions: Iterable[Question], what: str) -> dict[Question, str]:
        """The word of each question, with all policies in force."""
        return self.each(batches(sorted(set(questions))), self.judged, what)

    def reasons(self, questions: Iterable[Question], policies: Callable[[Question], tuple], what: str) -> dict[Question, Answer]:
        """Each question's answer with its entries, where the policies that select its endpoint are in force by themselves.

        An explanation looks at every rule that is in force, so this is asked with as few as may be.
        """
        return self.each(batches(sorted(set(questions))), lambda batch: self.explained(batch, policies), what)

    def each(self, batches: Sequence[Sequence[Question]], ask: Callable[[Sequence[Question]], dict], what: str) -> dict:
        """What is answered to all batches, some of which run at once."""
        if batches and self.program is None:
            self.program = self.find()
        self.progress.begin(what, sum(map(len, batches)))
        found = ask(batches[0]) if len(batches) == 1 else self.at_once(batches, ask)
        self.progress.end()
        return found

    def at_once(self, batches: Sequence[Sequence[Question]], ask: Callable[[Sequence[Question]], dict]) -> dict:
        waiting, done = collections.deque(batches), queue.SimpleQueue[Outcome]()
        threads = [threading.Thread(target=work_off, args=(waiting, ask, done)) for _ in range(min(workers(), len(batches)))]
        found: dict = {}
        try:
            for it in threads:
                it.start()
            for _ in batches:
                count, answers = self.next_of(done)
                found.update(answers)
                self.progress.step(count)
        except BaseException:
            waiting.clear()
            children.end_all()
            raise
        finally:
            for it in threads:
                if it.ident is not None:
                    it.join()
        return found

    def next_of(self, done: queue.SimpleQueue[Outcome]) -> tuple[int, dict]:
        """The next batch that has run: how many questions it has, and what is answered; what it raised is raised here."""
        while True:
            try:
                count, answers = done.get(timeout=children.TICK)
            except queue.Empty:
                self.progress.tick()
                continue
            if isinstance(answers, BaseException):
                raise answers
            return count, answers

    # Verdicts: one script for a batch, whose endpoints are live at once.

    def judged(self, batch: Sequence[Question]) -> dict[Question, str]:
        numbers = numbers_of(batch)
        lines = self.identities(numbers)
        policies: dict[int, str] = {}
        places: dict[Question, tuple[int, int]] = {}
        for phase, of_phase in enumerate(self.phases):
            policies.update((len(lines) + at, line) for at, line in enumerate(of_phase))
            lines += of_phase
            lines += [] if phase else [self.endpoint(at) for at in sorted({it.at for it in batch})]
            synced = len(lines)
            lines.append(SYNC)
            for it in batch:
                if it.phase == phase:
                    places[it] = len(lines), synced
                    lines.append(query("verdict", it, numbers))
        said = self.play(lines, numbers)
        refused = {line: said[at].split(" ", 1)[1] for at, line in policies.items() if said[at].startswith("refused")}
        if {*refused} != self.refused & {*policies.values()}:
            raise Misjudged(refused)
        found = {it: word_of(said[place], said[synced]) for it, (place, synced) in places.items()}
        late = [it for it, word in found.items() if word is None]
        return {**{it: word for it, word in found.items() if word is not None}, **self.traced(late)}

    def traced(self, questions: Sequence[Question]) -> dict[Question, str]:
        """The words of questions about endpoints whose map is too large to be kept up to date."""
        if not questions:
            return {}
        numbers = numbers_of(questions)
        lines, places = self.identities(numbers), {}
        for phase, of_phase in enumerate(self.phases):
            lines += [*of_phase, *([] if phase else [self.endpoint(at) for at in sorted({it.at for it in questions})])]
            for it in questions:
                if it.phase == phase:
                    places[it] = len(lines)
                    lines.append(query("trace", it, numbers))
        said = self.play(lines, numbers)
        return {it: answer_of(said[place]).word for it, place in places.items()}

    # Reasons: in the same script, for each set of policies after another.

    def explained(self, batch: Sequence[Question], policies: Callable[[Question], tuple]) -> dict[Question, Answer]:
        numbers = numbers_of(batch)
        lines, places = self.identities(numbers), {}
        by_policies: dict[tuple, list[Question]] = {}
        for it in batch:
            by_policies.setdefault(policies(it), []).append(it)
        for those, questions in by_policies.items():
            ends = sorted({it.at for it in questions})
            lines += [*(it.line for it in those), *map(self.endpoint, ends)]
            for it in questions:
                places[it] = len(lines)
                lines.append(query("trace", it, numbers))
            lines += [*map(removal, ends), *(it.deletion() for it in those)]
        said = self.play(lines, numbers)
        return {it: answer_of(said[place]) for it, place in places.items()}

    # Lines.

    def identities(self, numbers: dict[int, int]) -> list[str]:
        return [line_of("", {"op": "identity", "name": f"i{at}", "labels": self.sets[at].labels}) for at in numbers]

    def endpoint(self, at: int) -> str:
        return line_of("", {"op": "endpoint", "name": str(at), "labels": self.sets[at].labels, "address": self.sets[at].address})

    def play(self, lines: Sequence[str], numbers: dict[int, int]) -> list[str]:
        """The answers to a script that begins with identities, one a line."""
        assert self.program is not None
        tick = self.progress.tick if threading.current_thread() is threading.main_thread() else lambda: None
        # (one session alone asks, so maps that are made while it waits gain nothing)
        done = children.run([*self.program.command, "--workers", "0"], "".join(f"{it}\n" for it in lines).encode(), tick)
        said = done.out.decode().splitlines()
        self.runs, self.lines = self.runs + 1, self.lines + len(lines)
        if done.status not in (0, 1) or len(said) != len(lines):
            raise NoAnswer(done.said("policyd"))
        for number, at in enumerate(numbers):
            if not said[number].endswith(f" identity {numbers[at]}"):
                raise NoAnswer(f"policyd answered {said[number]!r} where identity {numbers[at]} was due")
        return said


def work_off(waiting: collections.deque, ask: Callable[[Sequence[Question]], dict], done: queue.SimpleQueue[Outcome]) -> None:
    """Asks about one of the batches that wait after another, until none does."""
    while True:
        try:
            batch = waiting.popleft()
        except IndexError:
            return
        try:
            done.put((len(batch), ask(batch)))
        except BaseException as wrong:
            done.put((len(batch), wrong))


def workers() -> int:
    """How many runs go on at once."""
    return max(1, min(WORKERS_MOST, len(os.sched_getaffinity(0))))


def batches(questions: Sequence[Question]) -> list[list[Question]]:
    """Questions in parts for runs of their own; those about one endpoint stay together as far as may be."""
    by_end: dict[int, list[Question]] = {}
    for it in questions:
        by_end.setdefault(it.at, []).append(it)
    ends = min(ENDPOINTS_MOST, max(ENDPOINTS_LEAST, -(-len(by_end) // workers())))
    most = min(QUESTIONS_MOST, max(QUESTIONS_LEAST, -(-len(questions) // workers())))
    found: list[list[Question]] = []
    count = ends
    for listed in by_end.values():
        for at in range(0, len(listed), QUESTIONS_MOST):
            part = listed[at : at + QUESTIONS_MOST]
            if count >= ends or len(found[-1]) >= most:
                found.append([])
                count = 0
            found[-1] += part
            count += 1
    return found


def numbers_of(questions: Iterable[Question]) -> dict[int, int]:
    """The sets of labels at either side of questions, with the numbers that policyd gives them, in the order of the lines."""
    found = {it.at for it in questions} | {it.remote[1] for it in questions if it.remote[0] == "set"}
    return {at: FIRST + number for number, at in enumerate(sorted(found))}


def word_of(text: str, synced: str) -> Optional[str]:
    """The word of a verdict, or None where it is older than the synchronisation before it."""
    found = VERDICT.fullmatch(text)
    if not found:
        raise NoAnswer(f"policyd answered {text!r} to a verdict")
    return found[1] if int(found[2]) >= int(synced.split()[1]) else None


def query(operation: str, it: Question, numbers: dict[int, int]) -> str:
    """The line of a question, in JSON: no part of it has a character that is escaped there."""
    kind, value = it.remote
    remote = f'"{kind}":"{value}"' if kind == "address" else f'"identity":{numbers[value] if kind == "set" else value}'
    return f'{{"op":"{operation}","endpoint":"{it.at}","direction":"{it.direction}",{remote},"protocol":"{it.protocol}","port":{it.port}}}'


def removal(at: int) -> str:
    return line_of("", {"op": "remove-endpoint", "name": str(at)})
