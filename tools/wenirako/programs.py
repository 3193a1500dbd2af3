"""Which program answers: the one of an archive, a proved build of the sources, or a build without proof.

In an archive that `tools/release` made, `MANIFEST.json` stands beside the command, and `bin/policyd` answers, where its
sum is that of the manifest; and `bin/connections`, where the manifest names that too. In a repository `tools/program.py`
knows whether a proved build of the present sources is there, and `tools/unproved.py` whether one without proof is; where
there is neither, one without proof is built and kept.
"""
from __future__ import annotations

import hashlib
import importlib
import json
import pathlib
import sys
from typing import Any, Callable, NamedTuple, Optional

from . import children
from .progress import Progress

TOP = pathlib.Path(__file__).resolve().parent.parent.parent
MANIFEST, NAME, LISTS = TOP / "MANIFEST.json", "policyd", "connections"
NOT_PROVED = "NOT PROVED: this build was checked by no proof. ./play --prove proves it, and .ci/run all crates with their tests"


# What the files of crates look like, by the crates' names: for who asks about several programs at one time.
Looks = dict[str, list]


class NoProgram(Exception):
    """Why there is no program to ask."""


class Program(NamedTuple):
    """A program that answers scripts: its command, whether it is proved, and where it comes from, in words."""

    command: list[str]
    is_proved: bool
    origin: str


def of_repository(name: str) -> Any:
    """A module beside this package, which an archive doesn't have."""
    return importlib.import_module(name)


def manifest() -> Optional[dict]:
    """What is known of the archive that this stands in, or None where it is a repository."""
    return json.loads(MANIFEST.read_text()) if MANIFEST.is_file() else None


def of_archive(told: dict, name: str = NAME) -> Program:
    path, wanted = TOP / "bin" / name, told["files"].get(f"bin/{name}")
    if not path.is_file():
        raise NoProgram(f"{path} isn't there, and {MANIFEST} names it: unpack the archive once more")
    if hashlib.sha256(path.read_bytes()).hexdigest() != wanted:
        raise NoProgram(f"{path} isn't the program that {MANIFEST} names: its sum is another one. Unpack the archive once more")
    return Program([str(path)], told["proved"], f"of the archive of {told['commit']}")


def there(looks: Optional[Looks] = None) -> Optional[Program]:
    """The program that stands, without building one; None where none does."""
    told = manifest()
    if told is not None:
        return of_archive(told)
    program = of_repository("program")
    if program.is_proved(looks):
        return Program([str(program.PROGRAM)], True, "a proved build of the sources")
    unproved = of_repository("unproved")
    if unproved.is_kept():
        return Program([str(unproved.KEPT)], False, "a build without proof, which is kept")
    return None


def connections(looks: Optional[Looks] = None) -> Optional[Program]:
    """The program that lists connections, where it stands proved, in an archive of proved programs too; None where it doesn't.

    A build of it without proof isn't asked: it tells no more than policyd does, and takes longer.
    """
    told = manifest()
    if told is not None:
        return of_archive(told, LISTS) if told["proved"] and f"bin/{LISTS}" in told["files"] else None
    build = of_repository("program").CONNECTIONS
    return Program([str(build.program)], True, "a proved build of the sources") if build.is_proved(looks) else None


def found(say: Callable[[str], None], progress: Progress, looks: Optional[Looks] = None) -> Program:
    """The program that answers. Where none stands, one is built without proof, and that is said once."""
    standing = there(looks)
    if standing is not None:
        return standing
    build(say, progress)
    # (a kit that lays its work out otherwise keeps no program, and builds one for each script)
    return there() or Program([str(TOP / "play"), "-"], False, "a build without proof for each script")


def build(say: Callable[[str], None], progress: Progress) -> None:
    """Builds the program without proof."""
    say(NOT_PROVED)
    say("building it once, in one to three minutes; it is kept until a source changes ..")
    progress.begin("building policyd without proof")
    done = children.run([sys.executable, str(TOP / "tools" / "unproved.py"), "build"], tick=progress.tick)
    progress.end()
    if done.status:
        raise NoProgram((done.status > 0 and done.err.decode(errors="replace").rstrip()) or done.said("the build"))


def version() -> str:
    """What `--version` says: the commit, and what the programs are."""
    judge, is_proved = origin(there, "not built yet: the first question builds it without proof")
    lists, _ = origin(connections, "no proved build stands, so policyd is asked alone")
    return f"wenirako {commit()}\n{NAME}: {judge}\n{LISTS}: {lists}\n{'PROVED' if is_proved else 'NOT PROVED'}"


def origin(find: Callable[[], Optional[Program]], lacking: str) -> tuple[str, bool]:
    """Where a program comes from, or why there is none, and whether it is proved."""
    try:
        found = find()
    except NoProgram as wrong:
        return str(wrong), False
    return (found.origin, found.is_proved) if found else (lacking, False)


def commit() -> str:
    """The commit that this is of."""
    told = manifest()
    return told["commit"] if told else commit_of(TOP)


def commit_of(folder: pathlib.Path) -> str:
    """The commit that a repository stands at, with a plus where files of it are changed."""
    try:
        done = children.run(["git", "-C", str(folder), "describe", "--always", "--abbrev=12", "--dirty=+", "--exclude=*"])
    except OSError:
        return "of no known commit"
    return done.out.decode().strip() if done.status == 0 else "of no known commit"
