"""What the core says of halves of connections: an endpoint's direction, towards each kind of other side, for every port.

Endpoints that the same rules select are judged alike in a direction, so one is asked for all. So are other sides that
differ in no label that these rules speak of. And from a port where some range of their entries begins, or where one has
just ended, to the next such port no verdict changes. So few questions give each half whole, and exactly.

Verdicts are asked with all policies in force, reasons with those of the half by themselves: the two have to agree.
"""
from __future__ import annotations

from typing import Any, Callable, Iterable, NamedTuple, Optional, Sequence, TypeVar, Union

from lib import ports
from lib.addresses import Network
from lib.label_index import LabelIndex

from . import mentions
from .beside import Beside, Plain, named, parted
from .core import ALLOWED, BY_DEFAULT, Answer, Core, Misjudged, NoAnswer, Question
from .ends import ENTITIES, HOST, End, Group, Outside, Universe, inside
from .mentions import Mentions, Sets, Told
from .reasons import isolating
from .selecting import DIRECTIONS, Half, Interned, Rule, Selection

# A number that nobody has.
NOBODY = ("identity", 4_294_967_295)

Given = TypeVar("Given")
Made = TypeVar("Made")
# The other side of a half: the number of a set of labels, or what isn't a pod.
Side = Union[int, Outside]


class Segment(NamedTuple):
    """A stretch of ports with the word that is that of each packet in it, and the question that was asked for all.

    `names` has the entries that open the unknown addresses of a name, where the other side is those.
    """

    low: int
    high: int
    word: str
    question: Question
    names: tuple[str, ...] = ()

    @property
    def is_allowed(self) -> bool:
        return self.word == ALLOWED


# The segments of each protocol, in the order of ports.
Profile = dict


class Halves:
    """Asks about halves, and keeps what was answered."""

    def __init__(self, universe: Universe, core: Core, phases: Sequence[Sequence]):
        """`phases` has the policies that are given to the core, before and after a change, or those of one state."""
        self.universe, self.core, self.policies = universe, core, phases
        self.beside = Beside(universe)
        self.unforeseen: dict[str, str] = {}
        core.phases = [[it.line for it in phases[0]], *(changing(phases[0], it) for it in phases[1:])]
        self.documents = {it.line: it for phase in phases for it in phase}
        self.select({line for line, it in self.documents.items() if it.why_unread()})

    def select(self, refused: set[str]) -> None:
        """Works out who selects whom, where the core refuses these policies."""
        self.core.refused = refused
        labels = [it.labels for it in self.universe.sets]
        interned, self.sets = Interned(LabelIndex(labels)), Sets(labels)
        self.selections = [Selection(it, refused, interned) for it in self.policies]
        self.profiles: dict[tuple, Profile] = {}
        # Questions that wait for answers, each with those that are asked for them.
        self.pending: dict[tuple, tuple[dict, dict]] = {}
        self.asked: dict[tuple, dict] = {}
        self.to_nobody: dict[int, str] = {}
        self.stand_ins: dict[Half, tuple[int, int]] = {}
        # A number for what each half says, and the first half that says it.
        self.numbers: dict[tuple, int] = {}
        self.said_by: dict[Half, int] = {}
        self.firsts: list[Half] = []
        self.of_said: dict[int, Told] = {}
        self.words: dict[Question, str] = {}
        self.answers: dict[Question, Answer] = {}
        self.kept: dict[tuple, Any] = {}
        self.kinds: dict[tuple, int] = {}

    def reselect(self) -> None:
        """To be called where the universe has more sets of labels than before."""
        self.select(self.core.refused)

    def half(self, phase: int, at: int, direction: str) -> Half:
        return self.selections[phase].half(at, direction)

    def foreseen(self, work: Callable[[], Made]) -> Made:
        """Does the work, once more where the core refuses other policies than was foreseen; and what came of it."""
        for _ in range(3):
            try:
                return work()
            except Misjudged as found:
                more = {line: why for line, why in found.refused.items() if line not in self.core.refused and line in self.documents}
                self.unforeseen.update({self.documents[line].name: why for line, why in more.items()})
                self.universe.mistrust((self.documents[line], why) for line, why in more.items())
                self.beside = Beside(self.universe)
                self.select({*self.core.refused, *more} if more else {*found.refused})
        raise NoAnswer("policyd refuses other policies each time")

    # Asking for verdicts.

    def ask(self, wanted: Iterable[tuple[int, int, str, Side]], what: str) -> None:
        """Asks about halves, each given by its phase, its endpoint's set of labels, its direction and the other side."""
        asked: set[Question] = set()
        for phase, at, direction, side in wanted:
            half = self.half(phase, at, direction)
            key = (half, self.alike(half, side))
            if key in self.profiles or key in self.pending:
                continue
            remote = self.remote(side)
            if remote is not None:
                phase, at = self.stand_ins.setdefault(half, (phase, at))
                own = self.questions(half, phase, at, remote)
                # (halves that say the same are asked about once, but for a packet that shows whether they isolate alike)
                first = self.asked.setdefault((self.said(half), key[1]), own)
                self.pending[key] = own, first
                asked.update(it for each in first.values() for _, _, it in each if it not in self.words)
                asked.add(Question(phase, at, direction, NOBODY, "TCP", 0))
        if asked:
            self.take(self.core.verdicts(asked, what))

    def take(self, words: dict[Question, str]) -> None:
        self.words.update(words)
        for it, word in words.items():
            if it.remote == NOBODY:
                self.isolates_alike(it, word)
        for (half, alike), (own, first) in self.pending.items():
            profile: Profile = {}
            for protocol, each in own.items():
                found = [(low, high, self.words.setdefault(it, self.words[one]), it) for (low, high, it), (_, _, one) in zip(each, first[protocol])]
                segments = whole([Segment(*it) for it in found])
                for like in self.stretches(half)[protocol][1]:
                    profile[like] = segments
            self.profiles[half, alike] = profile
        self.pending = {}

    def isolates_alike(self, it: Question, word: str) -> None:
        """Complains where a packet from nobody shows that others isolate a half than was thought."""
        half = self.half(it.phase, it.at, it.direction)
        if self.to_nobody.setdefault(self.said(half), word) != word or word != ALLOWED and not half.rules:
            names = ", ".join(isolating(half)) or "no policy"
            raise NoAnswer(f"{word} is what {self.universe.sets[it.at].labels} has for a packet from nobody ({it.direction}), and {names} was thought to isolate it")

    def questions(self, half: Half, phase: int, at: int, remote: tuple) -> dict[str, list]:
        """What is asked of a half: a question for each stretch of ports, of each protocol that it tells from those before."""
        question = lambda protocol, low: Question(phase, at, half.direction, remote, protocol, low)
        return {protocol: [(low, high, question(protocol, low)) for low, high in cuts.items()] for protocol, (cuts, _) in self.stretches(half).items()}

    def unasked(self, phase: int, at: int, direction: str, side: Side, word: str = "") -> Profile:
        """A half that wasn't asked about: each stretch, with this word and the question that asks for its reasons."""
        half, remote = self.half(phase, at, direction), self.remote(side)
        key = ("unasked", half, self.alike(half, side), word)
        found = self.kept.get(key)
        if found is None:
            assert remote is not None
            stand_in = self.stand_ins.setdefault(half, (phase, at))
            each = {protocol: [Segment(low, high, word, it) for low, high, it in listed] for protocol, listed in self.questions(half, *stand_in, remote).items()}
            found = self.kept[key] = {like: each[protocol] for protocol, (_, alike) in self.stretches(half).items() for like in alike}
        return found

    def beside_names(self, phase: int, at: int, direction: str, side: Side) -> Profile:
        """A half that wasn't asked about; of the world with a cut wherever an entry that opens unknown addresses begins or ends."""
        entries = self.beside.names(phase, at, direction) if isinstance(side, Outside) and side.is_world else []
        found = self.unasked(phase, at, direction, side)
        return parted(found, entries) if entries else found

    def told(self, segment: Segment, word: str) -> Segment:
        """A segment of which the word is told by connections; made once."""
        key = ("told", segment, word)
        found = self.kept.get(key)
        if found is None:
            if self.words.setdefault(segment.question, word) != word:
                raise NoAnswer(f"connections says {word} of {segment.question}, and {self.words[segment.question]} was said of it")
            found = self.kept[key] = segment._replace(word=word)
        return found

    def key(self, phase: int, at: int, direction: str, side: Side) -> tuple:
        """What the verdicts of a half depend on."""
        half = self.half(phase, at, direction)
        names = self.beside.names(phase, at, direction) if isinstance(side, Outside) and side.kind in ("name", "region") else []
        # (the addresses of a name lie in a world's region, and are judged otherwise)
        of_names = (side.kind, side.value, *((it.place, it.names) for it in names)) if isinstance(side, Outside) and names else ()
        return half, self.alike(half, side), of_names

    def profile(self, phase: int, at: int, direction: str, side: Side) -> Optional[Profile]:
        """What was answered of a half; None where no packet can have that other side."""
        half = self.half(phase, at, direction)
        found = self.profiles.get((half, self.alike(half, side)))
        if found is None or not isinstance(side, Outside):
            return found
        entries = self.beside.names(phase, at, direction)
        if not entries:
            return found
        if side.kind == "name":
            return named(found, [it for it in entries if side.value in it.names])
        return parted(found, entries) if side.is_world else found

    def plain(self, asked: tuple, segment: Segment) -> Plain:
        """A half's verdict as far as doubts about it ask."""
        return Plain(segment.word, segment.is_allowed and not self.once(isolating, self.half(*asked[:3])))

    def differ(self, before: tuple, after: tuple, one: Segment, other: Segment) -> bool:
        """Whether a half changes at a stretch of ports, or may for what isn't read."""
        if one.is_allowed != other.is_allowed or not self.beside.has_doubts:
            return one.is_allowed != other.is_allowed
        return self.beside.may_differ(before, after, self.plain(before, one), self.plain(after, other))

    def is_shut(self, phase: int, at: int, direction: str, side: Side) -> bool:
        """Whether no packet of a half is allowed."""
        if isinstance(side, Outside) and side.kind == "name":
            return False
        key = ("shut", self.half(phase, at, direction), self.alike(self.half(phase, at, direction), side))
        if key not in self.kept:
            found = self.profiles.get(key[1:])
            self.kept[key] = not found or not any(it.is_allowed for segments in found.values() for it in segments)
        return self.kept[key]

    # Asking for reasons.

    def explain(self, segments: Iterable[Segment], what: str) -> None:
        """Asks for the reasons of segments."""
        asked = {it.question: self.words[it.question] for it in segments if it.question not in self.answers}
        if not asked:
            return
        found = self.core.reasons(asked, self.in_force, what)
        for it, answer in found.items():
            if answer.word != asked[it]:
                raise NoAnswer(f"{self.universe.sets[it.at].labels} was thought to be selected by other policies ({it.direction}): {asked[it]}, and {answer.word} with these alone")
        self.answers.update(found)

    def in_force(self, it: Question) -> tuple:
        """The policies that select a question's endpoint and speak of its direction, as the core is given them."""
        rules = self.half(it.phase, it.at, it.direction).rules
        return tuple({rule.given.line: rule.given for rule in rules}.values())

    def why(self, segment: Segment) -> Answer:
        answer = self.answers[segment.question]
        return answer._replace(word=ALLOWED, allows=(*answer.allows, *segment.names)) if segment.names else answer

    def half_of(self, segment: Segment) -> Half:
        it = segment.question
        return self.half(it.phase, it.at, it.direction)

    # What is alike.

    def once(self, make: Callable[[Given], Made], given: Given) -> Made:
        """What is made of something, a half say, made once."""
        key = (make, given)
        if key not in self.kept:
            self.kept[key] = make(given)
        return self.kept[key]

    def stretches(self, half: Half) -> dict:
        return self.once(stretches_of, half)

    def alike(self, half: Half, side: Side) -> object:
        """What a half's rules can tell of an other side: sides of which they can tell the same are judged alike."""
        if not isinstance(side, Outside):
            return self.apart(half)[side]
        if side.kind == "entity":
            return self.once(self.entity, (self.said(half), side))
        return side if side.kind != "name" else Outside("region", side.region, side.prefixes)

    def said(self, half: Half) -> int:
        """A number for what the rules of a half say, but for their names and subjects: halves of one number are judged alike."""
        found = self.said_by.get(half)
        if found is None:
            found = self.said_by[half] = self.numbers.setdefault((half.direction, *sorted(self.once(Rule.said, it) for it in half.rules)), len(self.firsts))
            self.firsts += [half] if found == len(self.firsts) else []
        return found

    def apart(self, half: Half) -> Told:
        """What a half's rules can tell of each set of labels at the other side."""
        said = self.said(half)
        found = self.of_said.get(said)
        if found is None:
            found = self.of_said[said] = self.told_apart(said)
        return found

    def told_apart(self, said: int) -> Told:
        return self.sets.told_by(self.once(mentions.of_half, self.firsts[said]))

    def entity(self, asked: tuple[int, Outside]) -> object:
        """An entity by itself where halves name it, or where it is the host; else what they can tell of its label."""
        said, side = asked
        found, name = self.once(mentions.of_half, self.firsts[said]), ENTITIES[side.value]
        return side if side.value == HOST or found.names(name) else found.seen([f"reserved:{name}"])

    def kind(self, phase: int, end: End) -> int:
        """A number that is the same for ends that all halves of a state judge alike, at either side."""
        if isinstance(end, Outside):
            return self.kinds.setdefault((end,), len(self.kinds))
        at = end.number(phase)
        key = ("kind", phase, at)
        if key not in self.kept:
            ways = [(self.half(phase, at, it), self.beside.number(phase, at, it), *((one.place, one.names) for one in self.beside.names(phase, at, it))) for it in DIRECTIONS]
            self.kept[key] = self.kinds.setdefault((phase, self.once(self.mentioned, phase)[at], *ways), len(self.kinds))
        return self.kept[key]

    def mentioned(self, phase: int) -> Told:
        """What all rules of a state can tell of each set of labels at their other sides."""
        return self.sets.told_by(Mentions(self.selections[phase].rules, DIRECTIONS))

    def merged(self, groups: Iterable[Group]) -> list[Group]:
        """Groups, with those made one whose pods are judged alike in each state, and that changed their labels or didn't."""
        found: dict[tuple, list[Group]] = {}
        for it in groups:
            kinds = [it.at(phase) if it.at(phase) is None else self.kind(phase, it) for phase in range(len(self.policies))]
            found.setdefault((*kinds, it.is_local, it.before == it.after), []).append(it)
        return [it[0] if len(it) == 1 else Group(it[0].before, it[0].after, [pod for one in it for pod in one.pods], it[0].is_local) for it in found.values()]

    def remote(self, side: Side) -> Optional[tuple]:
        if not isinstance(side, Outside):
            return "set", side
        key = ("remote", side)
        if key not in self.kept:
            self.kept[key] = side.remote(self.universe.taken)
        return self.kept[key]

    def outer(self, *asked: tuple[int, int, str], within: Optional[Network] = None) -> list[Outside]:
        """What isn't a pod at the other side of halves, as far as they tell it apart and a packet can have it there: the
        entities, the regions of prefixes and the names of unknown addresses; or the regions of one prefix alone."""
        halves = tuple(self.half(*it) for it in asked)
        key = ("outer", halves, within)
        if key not in self.kept:
            listed = inside(halves, within) if within is not None else self.universe.outside(halves)
            self.kept[key] = [it for it in listed if self.remote(it) is not None]
        found = self.kept[key]
        worlds = [it for it in found if it.is_world]
        names = self.beside.listed_names(asked) if worlds else []
        return [*found, *(it._replace(kind="name", value=name, world=it.region) for name in names for it in worlds)]


def changing(before: Sequence, after: Sequence) -> list[str]:
    """The lines that make one state of policies another."""
    old, new = ({(it.key, it.line): it for it in phase} for phase in (before, after))
    kept = {key for key, _ in new}
    gone = [it.deletion() for (key, _), it in old.items() if key not in kept]
    return [*gone, *(it.line for key, it in new.items() if key not in old)]


def whole(segments: Sequence[Segment]) -> list[Segment]:
    """Segments with those joined that no entry allows and that touch: there is nothing that tells them apart."""
    found: list[Segment] = []
    for it in segments:
        if found and it.word == found[-1].word == BY_DEFAULT:
            found[-1] = found[-1]._replace(high=it.high)
        else:
            found.append(it)
    return found


def stretches_of(half: Half) -> dict:
    return ports.stretches(half.entries())


def joined(profiles: Sequence[Profile]) -> Iterable[tuple[str, int, int, list[Segment]]]:
    """The stretches in which each of several halves has one answer, with their segments, by protocol."""
    for protocol in ports.PROTOCOLS:
        parts = [it[protocol] for it in profiles]
        places, low = [0] * len(parts), 0
        while low <= ports.LAST:
            here = [part[at] for part, at in zip(parts, places)]
            high = min(it.high for it in here)
            yield protocol, low, high, here
            places = [at + (it.high == high) for at, it in zip(places, here)]
            low = high + 1
