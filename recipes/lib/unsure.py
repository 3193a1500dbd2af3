"""Which rows may be others for what isn't read: each verdict that something unread may turn is unsure."""
from __future__ import annotations

import typing


def of_half(answer: typing.Any, listed: typing.Sequence) -> list:
    """The unread things among those that touch a half that may turn its verdict."""
    if answer.is_allowed:
        return [it for it in listed if it.denies or it.isolates and answer.is_free()]
    if answer.word == "denied-by-rule":
        return [it for it in listed if it.overrides]
    return [it for it in listed if it.allows or it.overrides]


def of_connection(halves: typing.Iterable[tuple]) -> list:
    """The unread things that may turn the verdict on a connection; `halves` has pairs of an answer and what touches it."""
    turned = [(answer, of_half(answer, listed)) for answer, listed in halves]
    if any(not answer.is_allowed and not may for answer, may in turned):
        return []
    return [it for _, may in turned for it in may]
