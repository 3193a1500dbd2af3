"""`lint`: what policies say that is read, and that their writers can hardly mean."""
from __future__ import annotations

from lib import lint as slips_of

from .report import Report, counted
from .states import States
from .statuses import NOTHING, TELLS

HEADS = ("POLICY", "PLACE", "SLIP", "WHAT")


def report(states: States) -> Report:
    """The slips of the state's policies; where policies come, of those alone."""
    only = None if states.is_one else {it.key for it in states.incoming()}
    found = slips_of.slips(states.after, only)
    rows = [{"kind": it.kind, "policy": it.policy, "place": it.place, "text": it.text} for it in found]
    cells = [[it.policy, it.place, it.kind, it.text] for it in found]
    return Report("lint", counted(len(found), "slip", "slips") if found else "no slip was found", HEADS, cells, rows, list(states.notes(has_slips=False)), TELLS if found else NOTHING)
