"""The rows of bench/results.tsv, which says what the benches have measured.

A row has the date, the commit that was measured, the machine, what was measured, its size, the median and the least of
some runs, and their unit. Where nothing is known, as of rows that were written down before there was this table, a field
is empty. A bench appends its rows by the word `--keep`, and then of a checkout without changes alone, so that the commit
is the one that was measured.
"""
import datetime
import os
import pathlib
import platform
import statistics
import subprocess

TOP = pathlib.Path(__file__).resolve().parent.parent
TABLE = TOP / "bench" / "results.tsv"
FIELDS = ("date", "commit", "machine", "what", "size", "median", "least", "unit")


def commit():
    """The commit of this checkout, None where files were changed since."""
    said = lambda *words: subprocess.run(["git", *words], cwd=TOP, stdout=subprocess.PIPE, text=True).stdout.splitlines()
    changed = set(said("diff", "HEAD", "--name-only")) - {"bench/results.tsv"}
    return None if changed else said("rev-parse", "--short=8", "HEAD")[0]


def machine():
    """How many processors, what the first is called, and how many processes wanted one in the last minute."""
    try:
        names = [it.partition(":")[2].strip() for it in pathlib.Path("/proc/cpuinfo").read_text().splitlines() if it.startswith("model name")]
    except OSError:
        names = []
    return f"{os.cpu_count()} x {names[0] if names else platform.machine()}, at a load of {os.getloadavg()[0]:.0f}"


def shown(figure):
    """A figure with three digits that count, or all of a whole number."""
    return str(figure) if isinstance(figure, int) else f"{figure:.0f}" if figure >= 100 else f"{figure:.3g}"


class Rows:
    """Appends rows to the table where they are to be kept, and else does nothing."""

    def __init__(self, kept):
        self.front = None
        if kept:
            known = commit()
            if known is None:
                raise SystemExit("--keep: files were changed since the last commit, so no commit has been measured")
            self.front = (datetime.date.today().isoformat(), known, machine())

    def add(self, what, size, figures, unit):
        """A row of the figures of some runs."""
        if self.front:
            row = (*self.front, what, str(size), shown(statistics.median(figures)), shown(min(figures)), unit)
            with TABLE.open("a") as table:
                table.write("\t".join(row) + "\n")
