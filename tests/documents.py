"""Checks what the documents claim, where that is cheap.

Blocks of the language `console` show commands, each behind `$ `, with what they print: `commands` gives those that run
the program as cases. Such a command ends in `./play WORDS`, which may stand behind a pipe, or asks the front door. Those that
run policyd_kept, or touch its journal, are played by kept_checks. A block `text stderr` has what the command before it
writes to standard error.
"""
import re
import subprocess

import compare
import definitions
import edits
import families
import kinds
import layers
import names
import program
import rooms
import widths

TOP = compare.TOP
PLAY, ASKING = "./play ", ("recipes/what-if ", "./wenirako ")
# What is said of a build, and of work that lives: that depends on the build that is there, and on the machine.
PASSING = re.compile(rb"^(play: |wenirako: (NOT PROVED|building it) |(wenirako|what-if): asking .* since )")
# What a crate's README has.
SECTIONS = ("What it is for", "Its calls", "What it gives to the layer above", "Where to begin reading", "What is proved", "What no clause says")


def pages():
    """The pages of the repository."""
    found = [*TOP.glob("*.md"), *TOP.glob("docs/*.md"), *TOP.glob("examples/**/*.md"), *TOP.glob("crates/*/README.md")]
    return sorted(it for it in found if "out" not in it.relative_to(TOP).parts)


def name_of(page):
    return str(page.relative_to(TOP))


# Commands.


class Command:
    """A command in a page, with the lines that it prints."""

    def __init__(self, page, number, text, printed):
        self.name, self.text = f"command {name_of(page)}:{number}", text
        self.printed, self.said = "".join(f"{it}\n" for it in printed).encode(), None
        before, self.piped, last = text.rpartition("| ")
        self.before, self.is_play = before, last.startswith(PLAY)
        self.last = last.split()[1:] if self.is_play else []
        self.runs = self.is_play or text.startswith(ASKING)
        # (which kept_checks plays)
        self.is_over_file = "policyd_kept" in text or ".journal" in text

    def given(self):
        """The script that ./play is given."""
        if self.last[0] != "-":
            return (TOP / self.last[0]).read_bytes()
        return subprocess.run(["bash", "-o", "pipefail", "-c", self.before], cwd=TOP, stdout=subprocess.PIPE, stderr=subprocess.DEVNULL, check=True).stdout

    def words(self):
        return self.last[1:]

    def out(self):
        return self.printed

    def status(self):
        return None

    def play(self, _):
        """Runs the whole command, and returns what is wrong with what it prints."""
        try:
            ended = subprocess.run(["bash", "-c", self.text], cwd=TOP, stdin=subprocess.DEVNULL, stdout=subprocess.PIPE, stderr=subprocess.PIPE, timeout=compare.SECONDS)
        except subprocess.TimeoutExpired:
            return [f"no end within {compare.SECONDS} seconds"]
        found = compare.difference("the answers", self.printed, ended.stdout)
        said = compare.difference("what is said", self.said, of_recipes(ended.stderr)) if self.said is not None else []
        return [*said, *found, *(compare.lines_of(ended.stderr)[-5:] if found else [])]


def of_recipes(said):
    """What recipes and the front door say, without what depends on the build that is there and on the machine."""
    return b"".join(it for it in said.splitlines(keepends=True) if not PASSING.match(it))


def shown(page):
    """The commands that a page shows, in order."""
    found, number, text, printed = [], 0, None, []

    def end():
        if text is not None:
            found.append(Command(page, number, text, printed))

    inside, errors = False, None
    for at, line in enumerate(page.read_text().splitlines(), 1):
        if line.startswith("```"):
            if errors is not None:
                found[-1].said = of_recipes("".join(errors).encode())
            end()
            inside, text, errors = line == "```console", None, [] if line == "```text stderr" else None
        elif errors is not None:
            errors.append(f"{line}\n")
        elif inside and line.startswith("$ "):
            end()
            number, text, printed = at, line[2:], []
        elif inside and text is not None and text.endswith("\\") and not printed:
            text = text[:-1] + line.strip()
        elif inside:
            printed.append(line)
    return found


def commands():
    """What documents show of the program, as cases."""
    return [Table(TOP / "examples" / "README.md"), *(it for page in pages() for it in shown(page) if it.runs)]


# Links.


def anchors(page):
    """The anchors of a page's headings, as GitHub makes them."""
    heads = re.findall(r"(?m)^#+ (.*)$", without_blocks(page.read_text()))
    return {re.sub(r"[^\w\- ]", "", it.lower()).replace(" ", "-") for it in heads}


def without_blocks(text):
    return re.sub(r"(?ms)^```.*?^```$", "", text)


def lost_links(page):
    lost = []
    for target in re.findall(r"\]\(([^)\s]+)\)", without_blocks(page.read_text())):
        if re.match(r"\w+:", target):
            continue
        path, _, anchor = target.partition("#")
        to = (page.parent / path).resolve() if path else page
        if not to.exists():
            lost.append(f"the link {target} leads nowhere")
        elif anchor and anchor not in anchors(to):
            lost.append(f"the link {target} leads to no heading of {name_of(to)}")
    return lost


def lost_paths(page):
    """Paths of the repository that a page names in code marks, and that aren't there."""
    tops = "|".join(("bench", "crates", "docs", "examples", "recipes", "tests", "tools", r"\.ci"))
    named = re.findall(rf"`((?:{tops})/[\w./-]+)`", without_blocks(page.read_text()))
    return [f"there is no {it}" for it in named if not (TOP / it).exists() and "/out" not in it and "NAME" not in it]


# The table of the examples, whose rows are lines of a script and their answers.


class Table:
    """The rows `| LINE | ANSWER | .. |` of a page, in code marks, as a case."""

    def __init__(self, page):
        self.name = f"table {name_of(page)}"
        self.rows = re.findall(r"(?m)^\| `(\{.*?\})` \| `([^`]*)` \|", page.read_text())

    def given(self):
        return "".join(f"{line}\n" for line, _ in self.rows).encode()

    def words(self):
        return []

    def out(self):
        return "".join(f"{answer}\n" for _, answer in self.rows).encode()

    def status(self):
        return None

    def play(self, command):
        ended = subprocess.run(command, input=self.given(), stdout=subprocess.PIPE, timeout=compare.SECONDS)
        return compare.difference("the answers", self.out(), ended.stdout)


def example():
    """The table of the examples is the script that it names."""
    page = TOP / "examples" / "README.md"
    return compare.difference(f"the lines of {name_of(page)}", (TOP / "examples" / "star-wars.jsonl").read_bytes(), Table(page).given())


def counted():
    """The program's crates are counted right."""
    said = f"of the {len(program.parts())} crates that the program is made of"
    return [] if said in (TOP / "CONTRIBUTING.md").read_text() else [f"it doesn't say '{said}'"]


# Crates.


def sources(name):
    """The text of a crate's code and definitions."""
    below = [*(TOP / "crates" / name / "src").rglob("*.rt"), *(TOP / "crates" / name / "specs").rglob("*.antt")]
    return "\n".join(it.read_text() for it in below)


def libraries():
    """The crates, and the libraries that they name."""
    listed = program.crates()
    return {*listed}.union(*listed.values())


def lost_names(text, names):
    """Names in code marks that the code of none of the crates has."""
    code = "\n".join(map(sources, names))
    lost = []
    for named in re.findall(r"`([A-Za-z_]\w*(?:::\w+)?)(?:<\w+>)?`", text):
        kind, _, call = named.rpartition("::")
        known = re.search(rf"\bfn {call}\b", code) and re.search(rf"\b{kind}\b", code) if kind else re.search(rf"\b{call}\b", code)
        if not known and named not in libraries():
            lost.append(f"{' and '.join(names)}: nothing there is named {named}")
    return lost


def diagram():
    """The diagram of docs/LAYERS.md is what crates.txt says, and says something of each crate."""
    wanted = layers.drawn()
    wrong = compare.difference("the diagram", wanted.encode(), layers.there().encode())
    unsaid = [it for it, what in layers.described().items() if what == layers.UNKNOWN]
    return [*wrong, *(["tools/layers.py --write draws it"] if wrong else []), *(f"it doesn't say what {it} is" for it in unsaid)]


def introduced(name):
    """A crate's README has the sections that a reader wants, and what it names is in the crate's code."""
    page = TOP / "crates" / name / "README.md"
    if not page.is_file():
        return [f"crates/{name}/README.md isn't there"]
    text = page.read_text()
    # Why a crate is so may be said of what others have.
    own = re.sub(r"(?ms)^## Why so$.*?(?=^## )", "", text)
    return [*(f"it has no section {it}" for it in SECTIONS if f"\n## {it}\n" not in text), *lost_names(own, [name])]


# What was measured.

MEASURED = TOP / "bench" / "results.tsv"
FIELDS = {"date": r"(\d{4}-\d\d-\d\d)?", "commit": "([0-9a-f]{8})?", "machine": ".*", "what": ".+", "size": ".*",
          "median": r"(\d+(\.\d+)?)?", "least": r"(\d+(\.\d+)?)?", "unit": ".+"}


def is_measured(row):
    """Whether a row of the table has its fields, and a figure."""
    fields = row.split("\t")
    known = len(fields) == len(FIELDS) and all(map(re.fullmatch, FIELDS.values(), fields))
    return known and any(fields[5:7])


def odd_rows():
    head, *rows = MEASURED.read_text().splitlines()
    return ([] if head.split("\t") == [*FIELDS] else [head]) + [it for it in rows if not is_measured(it)]


def checks():
    yield "rows of bench/results.tsv", odd_rows
    yield "diagram docs/LAYERS.md", diagram
    yield from rooms.checks()
    yield from definitions.checks()
    yield from kinds.checks()
    yield from names.checks()
    yield from widths.checks()
    yield from edits.checks()
    yield from families.checks()
    for name in program.crates():
        yield f"readme crates/{name}", lambda name=name: introduced(name)
    yield "example examples/README.md", example
    yield "count CONTRIBUTING.md", counted
    for page in pages():
        yield f"links {name_of(page)}", lambda page=page: lost_links(page) + lost_paths(page)
    for page in pages():
        for it in shown(page):
            if not it.runs and not it.is_over_file:
                yield it.name, lambda it=it: it.play(None)
