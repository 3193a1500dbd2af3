"""The states that a question is about: a cluster's as it is, and as it is after a change."""
from __future__ import annotations

from typing import Callable, Iterable, Optional, Sequence

from lib import change, force, lint
from lib.cluster import lacks, left_out
from lib.reading import Bad, text_of
from lib.state import State


class States:
    """The state before and after a change; one and the same where nothing changes."""

    def __init__(self, before: State, after: Optional[State] = None, skipped: Sequence[str] = (), are_whole: bool = False):
        """`skipped` has what is said of manifests that aren't read; `are_whole` is so of two states that are given whole."""
        self.before, self.after, self.skipped, self.are_whole = before, after or before, list(skipped), are_whole
        self.change = change.Change(self.before, self.after)
        self.known_slips: Optional[list] = None

    def afterwards(self) -> States:
        """The state after the change by itself."""
        return self if self.is_one else States(self.after, skipped=[*self.skipped, *(it.text for it in self.slips())])

    @property
    def is_one(self) -> bool:
        return self.after is self.before

    def ends(self) -> list[State]:
        return [self.before] if self.is_one else [self.before, self.after]

    def phases(self) -> list[list]:
        """The policies that the core is given, before and after."""
        return [it.parts() for it in self.ends()]

    def incoming(self) -> list:
        """The policies that come, or that come in another form, as they are written."""
        return self.change.coming()

    def notes(self, has_slips: bool = True) -> Iterable[str]:
        """What is said of what answers lack, and of slips of the policies that come."""
        yield from self.before.cluster.warned
        yield from left_out(self.before.cluster, come=True)
        yield from lacks(self.before.cluster)
        yield from self.skipped
        known = list(force.beside(self.before))
        yield from known
        yield from (it for it in force.beside(self.after) if it not in known)
        yield from (it.text for it in self.slips() if has_slips)
        yield from self.unread()

    def slips(self) -> list:
        """The slips of the policies that come, looked for once."""
        if self.known_slips is None:
            self.known_slips = [] if self.is_one else lint.slips(self.after, {it.key for it in self.incoming()})
        return self.known_slips

    def unread(self) -> list[str]:
        """What is said of what isn't read of policies, before a change and after it."""
        return list(dict.fromkeys(it for state in self.ends() for it in force.said(state, {}, state.ends)))

    def marks(self, listed: Iterable[str]) -> list[str]:
        """The marks of entries that let a half pass, where each of them has one."""
        state = self.ends()[-1]
        each = [state.marks(state.place(it)) for it in listed]
        return [one for it in each for one in it] if each and all(each) else []

    def written(self, place: str, phase: int = 1) -> str:
        """An answer's place of an entry, in the policy as it was written, with its marks."""
        state = self.ends()[-1] if phase else self.before
        place = state.place(place)
        marks = state.marks(place)
        return f"{place} ({', '.join(marks)})" if marks else place


def changed(before: State, added: Sequence[str], removed: Sequence[str], text: Callable[[str], str] = text_of) -> States:
    """The state with manifests that come and policies that go; `text` reads a file."""
    found = change.of_files(before, added, removed, text)
    return States(before, found.after, found.skipped)


def with_pods(state: State, name: str) -> State:
    """A state in which somebody can be asked about."""
    if not state.cluster.pods and not state.cluster.templates:
        raise Bad(f"{name}: no pod is in it, so nothing can be asked about")
    return state
