"""Connections as one HTML file that needs no network: a matrix of workloads, folded to namespaces, with what decides."""
from __future__ import annotations

import json
import pathlib
from typing import Iterable

from .drawing import name_of, places_of, what
from .report import Report
from .rows import Line, with_one_world, written_ports

TEMPLATE = pathlib.Path(__file__).resolve().parent / "page.html"
DATA, TITLE = "/*DATA*/", "<!--TITLE-->"


def html(report: Report) -> str:
    """The page's text."""
    text = json.dumps(data(report), separators=(",", ":"), ensure_ascii=False)
    # (a text in a script may not end it)
    text = text.replace("<", "\\u003c")
    return TEMPLATE.read_text().replace(TITLE, escaped(f"Wenirako: {report.summary}")).replace(DATA, text)


def escaped(text: str) -> str:
    return text.replace("&", "&amp;").replace("<", "&lt;").replace(">", "&gt;")


def data(report: Report) -> dict:
    """What the page shows: its ends with their namespaces, and lines that name them by their numbers."""
    ends: dict[tuple[str, str], int] = {}
    lines = [line_of(it, report, ends) for it in with_one_world(report.lines or [])]
    listed = [{"name": name_of(it), "namespace": it[0]} for it in ends]
    return {"question": report.question, "summary": report.summary, "ends": listed, "lines": lines, "notes": report.notes}


def line_of(line: Line, report: Report, ends: dict[tuple[str, str], int]) -> dict:
    sides = [numbers(it, ends) for it in (line.froms, line.tos)]
    assert report.names is not None
    names = [", ".join(report.names.side(*it)) for it in ((line.froms, line.tos), (line.tos, line.froms))]
    reasons = line.told.written().split("; ") if line.told.written() else []
    return {
        "from": sides[0],
        "to": sides[1],
        "froms": names[0],
        "tos": names[1],
        "does": what(line, report.question == "diff"),
        "ports": written_ports(line.ports),
        "before": line.told.before,
        "after": line.told.after,
        "reasons": reasons,
        "unsure": bool(line.told.unsure),
    }


def numbers(side: Iterable, ends: dict[tuple[str, str], int]) -> list[int]:
    """The numbers of an end's workloads; new ones are given a number."""
    places = sorted({place for end in side for place in places_of(end)})
    return [ends.setdefault(it, len(ends)) for it in places]
