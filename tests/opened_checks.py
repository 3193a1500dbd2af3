"""Checks of the model of connections: it tells what the cases of tests/connections have, which were worked out by hand."""
import compare
from judge import opened, script_options

# The statuses at which something may be written.
ANSWERED = (0, 1, 3)


def of_case(case):
    """What is wrong with what the model tells of a case, in lines."""
    words = case.words()
    mode, localhost, _ = script_options([it for it in words if it != "--halves"])
    told, status = opened.told(case.given(), mode, localhost, "--halves" in words)
    wrong = [] if status == case.status() else [f"status {status}, and not {case.status()}"]
    return wrong + compare.difference(case.name, case.out(), told)


def checks():
    """Pairs of a name and what finds out what is wrong, in lines."""
    for case in compare.cases("connections", "connections"):
        if case.status() in ANSWERED:
            yield f"opened: {case.name}", lambda case=case: of_case(case)
