"""The checks of tests/bridge, for tests/run."""
from bridge import lint_checks, made_checks, random_states, random_unread, rewriting_checks, rows_checks, state_checks

# The random states that are played; in one of those with something unread the policy that goes alone speaks of a name.
SEEDS = range(1, 13)
UNREAD = (*SEEDS, 111)
# Of these the answer is compared with that over connections; in two of the first, names have rows of their own.
OVER, OVER_UNREAD = (1, 8, 14), (1, 5, 9)


def run(check):
    wrong = []

    def told(name, got, wanted):
        if got != wanted:
            wrong.append(f"{name}: {got!r}, and not {wanted!r}")

    check(told)
    return wrong


def checks():
    listed = [it for module in (rows_checks, rewriting_checks, state_checks, lint_checks, made_checks) for it in module.checks()]
    named = [(f"bridge {it.__name__.replace('_', ' ')}", lambda it=it: run(it)) for it in listed]
    named += [(f"bridge random state {it}", lambda it=it: random_states.play(it)[0]) for it in SEEDS]
    named += [(f"bridge slips of random state {it}", lambda it=it: random_states.play_slips(it)[0]) for it in SEEDS]
    named += [(f"bridge random state {it}, over connections", lambda it=it: random_states.play_over(it)) for it in OVER]
    named += [(f"bridge random state with something unread {it}, over connections", lambda it=it: random_unread.play_over(it)) for it in OVER_UNREAD]
    return [*named, *((f"bridge random state with something unread {it}", lambda it=it: random_unread.play(it)[0]) for it in UNREAD)]
