"""Checks of the judge of outputs: it takes what is a run, and refuses what isn't, of small outputs and of the cases.

Of a drill of a crash it says what is written, and the cases have that; a script's answers in one session are a run.
"""
import compare
from judge import LIMIT, crash_of, options, script_options, small
from judge.runs import wrong_with
from judge.serial import drilled

# The statuses at which the output is the answers to a script.
ANSWERED = (0, 1)
# The judge keeps each state of a history, and copies it where a request changes it: of more commits it isn't asked.
COMMITS = 10_000
# A call of the disk that no small script makes.
BEHIND = 1_000_000


def is_judged(case):
    """Whether the case has fixed answers to a script, of not too many commits."""
    fixed = case.status() in ANSWERED and not case.runs() and script_options(case.words())
    return fixed and sum(line.startswith(b"ok ") for line in case.out().splitlines()) <= COMMITS


def of_case(case):
    """What is wrong with the answers of a case, in lines."""
    wrong = wrong_with(case.given(), case.out(), case.status(), *script_options(case.words()))
    return [wrong] if wrong else []


def is_drill(case):
    """Whether the case drills a crash, and is answered."""
    return case.status() in ANSWERED and crash_of(case.words()) is not None


def of_drill(case):
    """What a case of a drill has that the judge hasn't, in lines."""
    output, status = drilled(case.given(), crash_of(case.words()), *options(case.words()))
    wrong = [] if status == case.status() else [f"the status is {status}"]
    return [*wrong, *compare.difference("the drill", output, case.out())]


def of_small(shorts, answers, limit, is_run):
    """What is wrong with what the judge says of a small output, in lines."""
    status = 1 if small.is_marked(answers) else 0
    wrong = wrong_with(small.script(shorts), small.output(answers), status, limit=limit)
    if is_run:
        return [f"it is refused: {wrong}"] if wrong else []
    return [] if wrong else ["it is taken for a run"]


def of_serial(shorts, limit):
    """What is wrong with a small script's answers in one session, line after line, as a run, in lines."""
    given = small.script(shorts)
    output, status = drilled(given, BEHIND, limit=LIMIT if limit is None else limit)
    wrong = wrong_with(given, output.rpartition(b"restart ")[0], status, limit=limit)
    return [wrong] if wrong else []


def of_status():
    script, output = small.script("E a"), small.output("ok 1 identity 256")
    return [] if wrong_with(script, output, 1) and wrong_with(script, output[:-1], 0) else ["a wrong status or a cut line is taken"]


def checks():
    """Pairs of a name and what finds out what is wrong, in lines."""
    for outputs, limit, is_run in ((small.RUNS, None, True), (small.REFUTED, None, False),
                                   (small.LIMITED_RUNS, small.LIMIT, True), (small.LIMITED_REFUTED, small.LIMIT, False)):
        for name, *given in outputs:
            yield f"judge: {'' if is_run else 'no run: '}{name}", lambda given=given, rest=(limit, is_run): of_small(*given, *rest)
            yield f"judge: in one session: {name}", lambda shorts=given[0], limit=limit: of_serial(shorts, limit)
    yield "judge: no run: another status", of_status
    for case in compare.cases("case", "cases"):
        if is_judged(case):
            yield f"judge: {case.name}", lambda case=case: of_case(case)
        elif is_drill(case):
            yield f"judge: {case.name}", lambda case=case: of_drill(case)
