"""Words of the recipes' command lines."""
from __future__ import annotations

import argparse
import re
import typing

# A value of a label, as Kubernetes has it, that isn't empty.
LABEL_VALUE = re.compile(r"[A-Za-z0-9]([A-Za-z0-9._-]{0,61}[A-Za-z0-9])?")


class Once(argparse.Action):
    """A word that stands once at most, with its value."""

    def __call__(self, parser: argparse.ArgumentParser, words: argparse.Namespace, value: typing.Any, word: typing.Optional[str] = None) -> None:
        seen = words.__dict__.setdefault("seen", set())
        if self.dest in seen:
            parser.error(f"{word} stands twice")
        seen.add(self.dest)
        setattr(words, self.dest, value)


def cluster_name(text: str) -> str:
    """The cluster's name, which stands in labels as a value."""
    if not LABEL_VALUE.fullmatch(text):
        raise argparse.ArgumentTypeError(f"it is 1 to 63 letters, digits, '-', '.' and '_', with a letter or digit at both ends, and not {text!r}")
    return text
