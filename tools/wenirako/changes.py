"""What `connections` says of a change: at which ports a half of a connection changes, and what both halves are before and after.

It names ends by the sets of labels that it was given, by entities and by all prefixes that a policy of either state names;
here they are the ends that rows have.
"""
from __future__ import annotations

import bisect
import json
from typing import Iterable, Mapping, NamedTuple, Optional, Sequence

from lib import regions
from lib.addresses import known

from .connections import pairs_with
from .core import ALLOWED, NoAnswer
from .ends import End, Group, Outside
from .opened import Key, Opened, Places
from .selecting import EGRESS, INGRESS
from .stretch import is_asked

# What stands between two ends in a line, and between them and what is said of them.
TARGET, SAID = ',"to":', ',"protocol":'
# The word that asks for halves that change where the connection doesn't.
HALVES = "--halves"
# The words of a half that sends and of one that receives.
Words = tuple[str, str]


class Said(NamedTuple):
    """Ports at which a half of a connection changes, with the words of both halves before and after."""

    protocol: str
    low: int
    high: int
    before: Words
    after: Words

    @property
    def opens(self) -> bool:
        return all(it == ALLOWED for it in self.after)

    @property
    def changes(self) -> bool:
        """Whether the connection opens or shuts."""
        return all(it == ALLOWED for it in self.before) != self.opens


class Heard:
    """All that is said of a connection; one object for all of which the same is said."""

    def __init__(self, said: Iterable[Said]):
        self.said = tuple(said)
        self.by_protocol: dict[str, list[Said]] = {}
        for it in self.said:
            self.by_protocol.setdefault(it.protocol, []).append(it)
        self.lows = {protocol: [it.low for it in listed] for protocol, listed in self.by_protocol.items()}
        # Whether the entries of the half that sends, and of the one that receives, are asked about.
        self.asks = tuple(any(is_asked(it.opens, it.before[at], it.after[at]) for it in self.said) for at in (0, 1))

    def at(self, protocol: str, low: int, high: int) -> Optional[Said]:
        """What is said of a stretch of ports; it lies in one range of which something is said, or apart from all."""
        said = self.by_protocol.get(protocol, [])
        found = bisect.bisect_right(self.lows.get(protocol, []), high) - 1
        if found < 0 or said[found].high < low:
            return None
        it = said[found]
        if it.low > low or high > it.high:
            raise NoAnswer(f"connections tells the ports {it.low} to {it.high} from others, and {low} to {high} were thought to be judged alike")
        return it


class Changes:
    """What is said of ends that stand before and after a change."""

    def __init__(self, opened: Opened, groups: Sequence[Group]):
        self.opened, self.halves = opened, opened.halves
        self.groups = {f"g{at}": it for at, it in enumerate(groups)}
        self.names = {id(it): name for name, it in self.groups.items()}
        self.places = Places(self.halves, 0, 1)
        self.keys: dict[str, Key] = {}
        self.made: dict[tuple, Heard] = {}
        self.outer: dict[tuple, Outer] = {}
        self.outer_of: dict[tuple[Group, str], Outer] = {}

    def told(self, *words: str) -> Mapping[tuple[End, End], Heard]:
        """What is said of each connection between ends that rows have; with `HALVES` where a half alone changes, too."""
        scripts = shared_first(*(self.opened.script({name: it.number(phase) for name, it in self.groups.items()}, phase) for phase in (0, 1)))
        found: dict[tuple[End, End], Heard] = {}
        for ends, lines in by_ends(self.opened.answers(scripts, "asking what opens and shuts", words)):
            pair, told = self.pair(*ends.split(TARGET)), self.made_of(lines)
            # (several prefixes of other policies may lie in one that a half tells apart)
            if pair is not None and found.setdefault(pair, told) is not told:
                raise NoAnswer(f"connections tells {ends} from others that were thought to be judged alike")
        return found

    def made_of(self, lines: tuple[str, ...]) -> Heard:
        """What lines say behind their ends, made once for the same lines."""
        if lines not in self.made:
            self.made[lines] = Heard(said_of(json.loads(f'{{"protocol":{it}')) for it in lines)
        return self.made[lines]

    def pair(self, source: str, target: str) -> Optional[tuple[End, End]]:
        """The ends of a line; None where no row can have them."""
        one, other = self.key_of(f"{source}}}"), self.key_of(target)
        ends = self.end(one, other, INGRESS), self.end(other, one, EGRESS)
        if ends[0] is None or ends[1] is None or not pairs_with(ends[0], ends[1], self.halves.universe.node is not None):
            return None
        return ends[0], ends[1]

    def key_of(self, text: str) -> Key:
        if text not in self.keys:
            value = json.loads(text)
            ((kind, name),) = value.get("from", value).items()
            self.keys[text] = kind, name
        return self.keys[text]

    def key(self, end: End) -> Key:
        return ("identity", self.names[id(end)]) if isinstance(end, Group) else self.places.of(end)

    def written(self, key: Key) -> str:
        return self.groups[key[1]].pods[0].name if key[0] == "identity" else key[1]

    def end(self, key: Key, other: Key, direction: str) -> Optional[End]:
        """The end of that name, where the half of the other one has this direction."""
        return self.groups[key[1]] if key[0] == "identity" else self.beside(self.groups[other[1]], direction).end(key)

    def beside(self, group: Group, direction: str) -> Outer:
        """What isn't a pod at the other side of a half, before or after; made once for all halves that are alike."""
        found = self.outer_of.get((group, direction))
        if found is None:
            asked = [(phase, group.number(phase), direction) for phase in (0, 1)]
            halves = tuple(self.halves.half(*it) for it in asked)
            if halves not in self.outer:
                self.outer[halves] = Outer(self.halves.outer(*asked), self.places)
            found = self.outer_of[group, direction] = self.outer[halves]
        return found


class Outer:
    """What isn't a pod at the other side of a half, found by the names of `connections`."""

    def __init__(self, listed: Sequence[Outside], places: Places):
        self.entities = {places.of(it): it for it in listed if it.kind == "entity"}
        self.regions = {it.region: it for it in listed if it.kind == "region"}
        # (the regions of a list are those of the same prefixes)
        self.nested = regions.nested(next((it.prefixes for it in self.regions.values()), frozenset()))
        self.known: dict[Key, Optional[Outside]] = {}

    def end(self, key: Key) -> Optional[Outside]:
        """The entity, or the nearest region around that of a name, where it is listed: None where no packet is of it."""
        if key not in self.known:
            nearest = self.nested.of(known(key[1])) if key[0] == "region" else None
            self.known[key] = self.entities.get(key) if key[0] == "reserved" else self.regions.get(nearest) if nearest is not None else None
        return self.known[key]


def by_ends(lines: Iterable[str]) -> Iterable[tuple[str, tuple[str, ...]]]:
    """Lines of the same ends, which stand together: their ends, and what each says of them."""
    listed: list[str] = []
    whose = ""
    for line in lines:
        ends, is_of_ends, said = line.partition(SAID)
        if not is_of_ends:
            continue
        if ends != whose and listed:
            yield whose, tuple(listed)
            listed = []
        whose = ends
        listed.append(said)
    if listed:
        yield whose, tuple(listed)


def shared_first(before: Sequence[str], after: Sequence[str]) -> list[list[str]]:
    """Two scripts, each with the lines that both have first, in one order, and then its own.

    `connections` numbers labels and prefixes as they come. Where those of both have the same numbers it need not look at
    pairs that are the same, and what is told hangs on no order.
    """
    shared = {*before} & {*after}
    first = [it for it in before if it in shared]
    return [[*first, *(it for it in lines if it not in shared)] for lines in (before, after)]


def said_of(it: dict) -> Said:
    low, high = it["ports"]
    return Said(it["protocol"], low, high, words_of(it["before"]), words_of(it["after"]))


def words_of(said: object) -> Words:
    return (said[EGRESS], said[INGRESS]) if isinstance(said, dict) else (ALLOWED, ALLOWED)
