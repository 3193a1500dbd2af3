"""Asks `connections` what is open: all between some ends at once, where a proved build of that program is there.

It is given the policies of a state, and each set of labels as a named identity. What it writes of a pair is what passes by
both halves, so what only one half says is asked of policyd, as all is where there is no such build.
"""
from __future__ import annotations

import io
import itertools
import json
import tempfile
from typing import Callable, Collection, Iterable, Iterator, Mapping, Optional, Sequence

from lib import addresses, regions
from lib.reading import line_of

from . import children
from .connections import Ranges, wanted
from .core import Misjudged, NoAnswer
from .ends import ENTITIES, End, Group, Outside
from .halves import Halves
from .programs import Program
from .progress import Progress
from .statuses import BAD, BAD_WORDS, NOTHING, TELLS

# It is asked where the connections in question are no fewer than one of so many that it goes through.
SHARE = 4
# The statuses at which it has no answer that policyd may have: memory was short, or the scripts are too long together.
MEMORY, TOO_LONG = 5, 6
# What stands between two scripts, and what the second is called.
DIVIDER, AFTER = "--", "after"
# An end as `connections` writes it: what it is, and its name.
Key = tuple[str, str]
# The ranges of open ports of each protocol.
Open = Mapping[str, Ranges]


class Untold(Exception):
    """Why `connections` can't tell what policyd may."""


class NoWord(Exception):
    """A `connections` of another commit doesn't know a word that it is asked with."""


class Opened:
    """Answers which connections are open, as `connections` says."""

    def __init__(self, find: Callable[[], Optional[Program]], halves: Halves, progress: Progress, meanwhile: Callable[[], None] = children.nothing):
        """`find` gives the program where it is there: it is called once, when there is something to ask. `meanwhile` is
        called while it works."""
        self.find, self.halves, self.progress, self.meanwhile = find, halves, progress, meanwhile
        self.found: Optional[tuple[Optional[Program]]] = None
        # What is said of answers that it lacks.
        self.notes: list[str] = []

    def lacks(self, what: str, why: Untold) -> None:
        """Notes what isn't asked of it, since it couldn't tell; it isn't asked any more."""
        self.notes.append(f"{what}: {why}")
        self.found = (None,)

    def program(self) -> Optional[Program]:
        self.found = self.found or (self.find(),)
        return self.found[0]

    def told(self, pairs: Mapping[tuple, tuple[End, End]], phase: int) -> dict[tuple, Open]:
        """What is open of pairs, by their keys; without those that it can't tell of, and empty where it isn't asked."""
        known = {key: pair for key, pair in pairs.items() if self.is_known(pair, phase)}
        ends = {it.number(phase) for pair in known.values() for it in pair if isinstance(it, Group)}
        place = Places(self.halves, phase)
        if not known or len(known) * SHARE < place.pairs(len(ends)) or self.program() is None:
            return {}
        named = {key: (place.of(source), place.of(target)) for key, (source, target) in known.items()}
        try:
            said = self.said(sorted(ends), phase, {*named.values()})
        except Untold as why:
            self.lacks("what is open is asked of policyd alone", why)
            return {}
        return {key: said.get(it, {}) for key, it in named.items()}

    def is_known(self, pair: tuple[End, End], phase: int) -> bool:
        """Whether it can tell of a pair: not where a packet can't have an end, nor where names open unknown addresses."""
        halves = self.halves
        if any(halves.remote(it) is None for it in pair if isinstance(it, Outside)):
            return False
        return not any(isinstance(side, Outside) and halves.beside.names(phase, at, direction) for _, at, direction, side in wanted(*pair, phase))

    def said(self, ends: Sequence[int], phase: int, asked: Collection[tuple[Key, Key]]) -> Mapping[tuple[Key, Key], Open]:
        """What is open of connections between sets of labels, and between them and what is no pod."""
        return by_pairs(map(json.loads, self.answers([self.script({name_of(at): at for at in ends}, phase)], "asking what is open")), asked)

    def script(self, sets: Mapping[str, int], phase: int) -> list[str]:
        """The policies of a state, and sets of labels by names."""
        labels = lambda at: self.halves.universe.sets[at].labels
        return [*(line_of("", {"op": "identity", "name": name, "labels": labels(at)}) for name, at in sets.items()), *(it.line for it in self.halves.policies[phase])]

    def answers(self, scripts: Sequence[Sequence[str]], what: str, words: Sequence[str] = ()) -> Iterable[str]:
        """The lines that are written of a script, or of two, but for what is refused, which has to be as was foreseen."""
        self.progress.begin(what)
        first, others = parted(self.play([*scripts[0], *(line for it in scripts[1:] for line in (DIVIDER, *it))], words))
        self.progress.end()
        refused = {scripts[it.get("side") == AFTER][it["line"] - 1]: it["answer"].split(" ", 1)[1] for it in first}
        policies = {*self.halves.documents} & {line for it in scripts for line in it}
        if not refused.keys() <= policies:
            raise NoAnswer(f"connections refuses {next(it for it in refused if it not in policies)}")
        if {*refused} != self.halves.core.refused & policies:
            raise Misjudged(refused)
        return others

    def play(self, lines: Sequence[str], words: Sequence[str] = ()) -> Iterator[str]:
        """What the program writes of a script with these words, line by line."""
        program = self.program()
        assert program is not None
        with tempfile.TemporaryFile() as written:
            done = children.run([*program.command, *words], "".join(f"{it}\n" for it in lines).encode(), self.progress.tick, self.meanwhile, stdout=written)
            if done.status == BAD_WORDS and words:
                raise NoWord(done.said("connections"))
            if done.status not in (NOTHING, BAD, TELLS):
                raise (Untold if done.status in (MEMORY, TOO_LONG) else NoAnswer)(done.said("connections"))
            written.seek(0)
            yield from io.TextIOWrapper(written, encoding="utf-8", newline="\n")


class Places:
    """How `connections` names ends of a state, or of several."""

    def __init__(self, halves: Halves, *phases: int):
        self.halves, self.phases = halves, phases
        rules = dict.fromkeys(rule for it in phases for rule in halves.selections[it].rules)
        self.held = regions.nested(frozenset(regions.named(entry for it in rules for _, entry in it.part.entries())))
        self.kept: dict[Outside, Key] = {}

    def pairs(self, count: int) -> int:
        """How many connections are gone through between so many sets of labels, and between them and what is no pod."""
        return count * (count + 2 * (len(ENTITIES) + len(self.held.prefixes)))

    def of(self, end: End) -> Key:
        if isinstance(end, Group):
            return "identity", name_of(end.at(self.phases[0]))
        if end not in self.kept:
            self.kept[end] = self.outside(end)
        return self.kept[end]

    def outside(self, end: Outside) -> Key:
        """An entity, or the region of the address that stands for an end: the longest prefix around it that is held."""
        kind, value = self.halves.remote(end) or ("", "")
        if kind == "identity":
            return "reserved", ENTITIES[value]
        region = self.held.of(addresses.known(value))
        assert region is not None
        return "region", addresses.written(region)


def name_of(at: Optional[int]) -> str:
    return f"i{at}"


def parted(listed: Iterable[str]) -> tuple[list[dict], Iterable[str]]:
    """Lines of what is refused, which stand first, read, and the others."""
    refused: list[dict] = []
    others = iter(listed)
    for line in others:
        it = json.loads(line)
        if "answer" not in it:
            return refused, itertools.chain([line], others)
        refused.append(it)
    return refused, others


def by_pairs(listed: Iterable[dict], asked: Collection[tuple[Key, Key]]) -> Mapping[tuple[Key, Key], Open]:
    """Lines of open ports by their ends, of those that are asked about."""
    found: dict[tuple[Key, Key], dict[str, list]] = {}
    for it in listed:
        ((source,), (target,)) = it["from"].items(), it["to"].items()
        if (source, target) in asked:
            found.setdefault((source, target), {}).setdefault(it["protocol"], []).append(tuple(it["ports"]))
    return found
