"""diff in one process, over the judge in the place of policyd: what decides there is written from docs/RULES.md alone."""
import json
import pathlib
import sys
import tempfile

TOP = pathlib.Path(__file__).resolve().parent.parent.parent
sys.path[:0] = [str(TOP / it) for it in ("recipes", "tools", "tests")]
import front_random  # noqa: E402
from judge import rules  # noqa: E402
from lib import change, state  # noqa: E402
from lib.labels import Filter  # noqa: E402
from wenirako import diffing, listing, states, writing  # noqa: E402


def remembering(select):
    """The rules that select labels, found once for the same policies."""
    kept = {}

    def selecting(held, labels):
        key = (id(held.policies), labels)
        if key not in kept:
            # (the policies are kept too, so that no others have their place in memory)
            kept[key] = (held.policies, select(held, labels))
        return kept[key][1]

    return selecting


rules.selecting = remembering(rules.selecting)


def listed(items):
    return json.dumps({"apiVersion": "v1", "kind": "List", "items": list(items)})


def read(items, cluster="default", choice=None):
    return state.read(listed(items), choice or Filter(), cluster)


def changed(items, added=(), removed=(), cluster="default"):
    """The change of a state, or of one with these objects, by objects that come, and by policies that go."""
    before = items if isinstance(items, state.State) else read(items, cluster)
    with tempfile.NamedTemporaryFile("w", suffix=".json") as file:
        file.write(listed(added))
        file.flush()
        return change.of_files(before, [file.name] if added else [], removed)


def report_of(made, node=None):
    """The answer about a change."""
    return diffing.report(front_random.asked(states.States(made.before, made.after, made.skipped), node))


def differences(made):
    """What the answer about a change says otherwise where connections is asked, in lines."""
    return front_random.differences(states.States(made.before, made.after, made.skipped), diffing.report)


def rows_of(made, node=None):
    """The rows that are shown, as JSON has them."""
    return report_of(made, node).rows


def open_rows_of(found):
    """What is open in a state, as JSON has it."""
    return listing.report(front_random.asked(states.States(found)), None, None, None, "pod").rows


def text_of(made):
    """The table."""
    return writing.table(report_of(made))
