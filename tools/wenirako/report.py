"""An answer as a question gives it, before it is written in some form."""
from __future__ import annotations

from typing import Mapping, NamedTuple, Optional, Sequence

from .naming import Names
from .rows import Line
from .statuses import NOTHING


class Report(NamedTuple):
    """What is answered: a line that sums it up, a table, the same for programs, and what is said beside it.

    `cells` has a text for each of `heads`; `rows` has the same for programs, in the form of docs/answer.schema.json.
    Where the answer is about connections, `lines` has them for the forms that draw them, with how their ends are named.
    """

    question: str
    summary: str
    heads: tuple[str, ...]
    cells: list[list[str]]
    rows: list[dict]
    notes: Sequence[str] = ()
    status: int = NOTHING
    lines: Optional[list[Line]] = None
    names: Optional[Names] = None
    more: Mapping[str, list] = {}
    # What stands above the table: which rows may be otherwise, and why.
    above: str = ""


def doubt(policies: Sequence[str]) -> str:
    """What is said above a table of policies that aren't read whole; empty where there is none."""
    return f"unsure: {', '.join(policies)} isn't read whole, so rows marked unsure may be others" if policies else ""


def counted(count: int, one: str, many: str) -> str:
    return f"{count} {one if count == 1 else many}"
