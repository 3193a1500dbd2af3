"""Which labels make a pod's identity: the filter of Cilium's documentation, 'Limiting Identity-Relevant Labels'.

A pattern is `[SOURCE:][!]EXPRESSION`. It matches a label whose source is SOURCE, where one is written, and whose key
begins with what the expression matches. A label counts where the longest match of a pattern without `!` is longer than
the shortest match of one with `!`; and, where the list adds no pattern without `!` to the default ones, also where none
with `!` matches. (Cilium goes through the patterns in their order, and a match of nothing counts as none from there on.)
"""
from __future__ import annotations

import argparse
import re
import typing

from .reading import Bad
from .words import Once, cluster_name

# The patterns that Cilium begins with.
DEFAULT = r"""
    reserved:.*
    io\.kubernetes\.pod\.namespace
    io\.cilium\.k8s\.namespace\.labels
    app\.kubernetes\.io
    io\.cilium\.k8s\.policy\.cluster
    io\.cilium\.k8s\.policy\.serviceaccount
    !io\.kubernetes
    !kubernetes\.io
    !statefulset\.kubernetes\.io/pod-name
    !apps\.kubernetes\.io/pod-index
    !batch\.kubernetes\.io/job-completion-index
    !batch\.kubernetes\.io/controller-uid
    !.*beta\.kubernetes\.io
    !k8s\.io
    !pod-template-generation
    !pod-template-hash
    !controller-revision-hash
    !annotation.*
    !controller-uid
    !etcd_node
""".split()


class Pattern:
    """One pattern of a filter."""

    def __init__(self, text: str):
        source, colon, rest = text.partition(":")
        self.source, rest = (source, rest) if colon else ("", text)
        self.is_out = rest.startswith("!")
        if not rest.lstrip("!") or source.startswith("!") and colon:
            raise Bad(f"--labels: {text!r} is no pattern: it is [SOURCE:][!]EXPRESSION")
        if "[[:" in rest:
            raise Bad(f"--labels: {text!r} has a class of characters by its name, which Python doesn't read: write them out")
        try:
            self.expression = re.compile(rest[self.is_out :])
        except re.error as error:
            raise Bad(f"--labels: {text!r} is no pattern: {error}")

    def length(self, source: str, key: str) -> int:
        """How much of the key it matches, and -1 where it matches nothing."""
        found = self.expression.match(key) if self.source in ("", source) else None
        return found.end() if found else -1


class Filter:
    """The default patterns with those of a list; without a filter every label counts."""

    def __init__(self, listed: str = "", is_off: bool = False):
        self.is_off = is_off
        more = [Pattern(it) for it in listed.split()]
        self.patterns = [*(Pattern(it) for it in DEFAULT), *more]
        self.is_closed = any(not it.is_out for it in more)
        self.known: typing.Dict[typing.Tuple[str, str], bool] = {}

    def counts(self, key: str, source: str = "k8s") -> bool:
        if (source, key) not in self.known:
            self.known[source, key] = self.is_off or self.is_counted(key, source)
        return self.known[source, key]

    def is_counted(self, key: str, source: str) -> bool:
        taken = out = 0
        for it in self.patterns:
            length = it.length(source, key)
            if not it.is_out:
                taken = max(taken, length)
            elif length >= 0 and (not out or length < out):
                out = length
        return (not self.is_closed and not out) or taken > out


def add_words(parser: argparse.ArgumentParser) -> None:
    """The words of a command that say which labels count."""
    parser.add_argument("--cluster-name", metavar="NAME", default="default", action=Once, type=cluster_name, help="the cluster's name in the pods' labels (default: default)")
    some = parser.add_mutually_exclusive_group()
    some.add_argument("--labels", metavar="LIST", default="", action=Once, help="more patterns for the label filter, as Cilium's option `labels` has them, with blanks between them")
    some.add_argument("--all-labels", action="store_true", help="no label filter: every label counts")


def choice(words: argparse.Namespace) -> Filter:
    return Filter(words.labels, words.all_labels)
