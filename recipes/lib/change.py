"""A change from one state to another: which policies come, go and are replaced, and what policyd is told of it."""
from __future__ import annotations

import typing

from . import manifests
from .reading import Bad, text_of
from .state import State


class Change:
    """Two states, and what lies between them."""

    def __init__(self, before: State, after: State, skipped: typing.Sequence[str] = ()):
        self.states, self.skipped = (before, after), list(skipped)
        self.before, self.after = before, after
        # What each state applies, by its keys.
        self.applied = tuple({part.key: part for part in it.parts()} for it in self.states)
        old, new = self.applied
        self.lines = [part.deletion() for key, part in old.items() if key not in new]
        self.lines += [part.line for key, part in new.items() if key not in old or old[key].line != part.line]

    def before_lines(self) -> typing.List[str]:
        return [part.line for part in self.applied[0].values()]

    def coming(self) -> list:
        """The policies that come or are replaced by others, as they are written."""
        old = self.before.policies
        return [it for key, it in self.after.policies.items() if key not in old or old[key].line != it.line]

    def changed(self) -> typing.Set[tuple]:
        """The keys of the policies that come, go or are replaced."""
        return {it.key for it in self.coming()} | {*self.before.policies} - {*self.after.policies}

    def changes(self) -> bool:
        """Whether anything is another: a policy that policyd is given, or a pod's labels."""
        old, new = ({it.name: it.labels for it in state.ends} for state in self.states)
        return bool(self.lines) or old != new


def of_files(before: State, added: typing.Sequence[str], removed: typing.Sequence[str], text: typing.Callable[[str], str] = text_of) -> Change:
    """The change by the manifests of files and by the policies that texts such as `cnp/pay/web` name; `text` reads a file."""
    read = manifests.Manifests(added, text)
    found = Change(before, manifests.after(before, read, manifests.removed(before, removed)), list(read.said()))
    for key in read.objects:
        refused = found.after.rewritten[key].refused if key in found.after.rewritten else None
        if refused:
            raise Bad(f"{read.objects[key][0]}: {found.after.policies[key].name} can't come: Cilium refuses it: {refused}")
    return found
