"""Plays a script and prints its answers.

    ./play [--prove] [SCRIPT [WORD ..]]

SCRIPT is a file, or - for standard input; without it examples/star-wars.jsonl is played. A cluster's objects, as
kubectl prints them, are no script: recipes/from-kubectl makes one of them. With --audit it is the text of two tables.
The WORDs are given to the program:

    [--workers 0..8] [--enable-policy default|always|never] [--allow-localhost always|policy] [--policy-map-max 256..65536] [--generate 1..10000] [--map NAME] [--audit] [--crash-at 1..1000000]

The status is the program's, 2 where a word doesn't fit, and 70 where there is no answer.

Where a proved build of the sources stands, it plays at once. Otherwise a build without proof does. It is made once, in
one to three minutes, which is said, and kept until a source changes. It stops at each overflow, bad index and
bad access, and is some hundred times slower than a proved one. --prove proves the program's crates first, which takes
many minutes, and keeps that build. An old build is never used. --version says which build answers.
"""
from __future__ import annotations

import json
import os
import re
import signal
import subprocess
import sys
import tempfile
import textwrap
from typing import IO, Optional, Sequence

from . import children, programs
from .programs import TOP, NoProgram, Program
from .progress import Progress
from .statuses import BAD_WORDS, NO_ANSWER, NOTHING

# How wide a line of help is at most, and what stands for a blank that isn't cut at.
WIDEST, GLUE = 120, "\0"
# Signals by which a program is told to end, or is ended for want of memory: no fault of its own.
TOLD_TO_END = (signal.SIGHUP, signal.SIGINT, signal.SIGKILL, signal.SIGTERM)
DEMO = TOP / "examples" / "star-wars.jsonl"
# The form of a value that may be any text, and the words of which one at most may stand there, group by group.
ANY_TEXT, ONE_AT_MOST = "NAME", (("--generate", "--map", "--audit", "--crash-at"), ("--policy-map-max", "--generate"))
# The program reads one byte more than it takes, and then says that it is too much.
READ_MOST = 67_108_864 + 1


def say(text: str) -> None:
    print(f"play: {text}", file=sys.stderr, flush=True)


def fitted(text: str) -> str:
    """A text whose long lines, of words in brackets, are cut between these, so that it fits a screen."""
    whole = lambda line: re.sub(r"\[[^]]*\]", lambda it: it[0].replace(" ", GLUE), line)
    cut = lambda line: textwrap.fill(whole(line), WIDEST, subsequent_indent="    ", break_long_words=False, break_on_hyphens=False)
    return "\n".join(cut(it).replace(GLUE, " ") if len(it) > WIDEST else it for it in text.split("\n"))


# What is asked, before anything is built.


def forms() -> dict[str, Optional[str]]:
    """The program's words and the form of their values, as the usage above gives them."""
    usage = next(it for it in __doc__.splitlines() if "--workers" in it)
    return {word: form or None for word, form in re.findall(r"\[(--[a-z-]+)(?: ([^\]]+))?\]", usage)}


def fits(value: str, form: str) -> bool:
    if form == ANY_TEXT:
        return True
    low, between, high = form.partition("..")
    if not between:
        return value in form.split("|")
    return bool(re.fullmatch(r"\+?[0-9]+", value)) and int(low) <= int(value) <= int(high)


def wrong_word(words: Sequence[str]) -> Optional[str]:
    """What is wrong with the program's words, or None."""
    left, known, seen = list(words), forms(), set()
    while left:
        # (a value may stand behind an equals sign too)
        word, equals, value = left.pop(0).partition("=")
        if word == "--prove":
            return "--prove stands first, before the script"
        if word not in known:
            return f"{word}: the program has no such word"
        if word in seen:
            return f"{word} stands twice"
        seen.add(word)
        wrong = wrong_value(known[word], value if equals else None, left)
        if wrong:
            return f"{word}: {wrong}"
    both = next((found for group in ONE_AT_MOST if len(found := [word for word in group if word in seen]) > 1), None)
    return f"{both[0]} and {both[1]}: one of them may be asked for" if both else None


def wrong_value(form: Optional[str], value: Optional[str], left: list[str]) -> Optional[str]:
    """What is wrong with a word's value, which is taken from the words that are left where none is given; or None."""
    if form is None:
        return None if value is None else f"it takes no value, and not {value}"
    if value is None and left and (left[0] == "-" or not left[0].startswith("-")):
        value = left.pop(0)
    if value is not None and fits(value, form):
        return None
    found = value if value is not None else left[0] if left else None
    return f"it takes {form}" + ("" if found is None else f", and not {found}")


def wrong_script(text: bytes) -> Optional[str]:
    """Why a text is no script, or None: it is empty, or what kubectl prints."""
    if not text.strip():
        return "the script is empty. Where a command before this one failed, it has said why"
    head = text[3:].lstrip() if text.startswith(b"\xef\xbb\xbf") else text.lstrip()
    if re.match(rb"(%.*\n|---\s|#.*\n|- |\s)*[\"']?(apiVersion|kind|metadata|items|spec)[\"']?:", head):
        return "this is YAML, and no script: recipes/from-kubectl makes a script of what kubectl prints with -o json"
    if head.startswith(b"{"):
        try:
            first, _ = json.JSONDecoder().raw_decode(head.decode(errors="replace"))
        except (ValueError, RecursionError):
            return None
        if "op" not in first and {"apiVersion", "kind"} <= {*first}:
            return f"this is a {first['kind']} as kubectl prints it, and no script: recipes/from-kubectl makes one of it"
    return None


# Playing.


def played(program: Program, script: IO[bytes], words: Sequence[str]) -> int:
    """Plays a script by a program, and gives the status."""
    if program.is_proved:
        os.dup2(script.fileno(), 0)
        os.execv(program.command[0], [programs.NAME, *words])
    if len(program.command) > 1:
        say("this kit keeps no build without proof: building it once more, for this script ..")
        return tried(script, words)
    sys.stdout.flush()
    done = children.run([*program.command, *words], stdin=script, stdout=None)
    if done.status >= 0:
        sys.stderr.write(done.err.decode(errors="replace"))
        return done.status
    if -done.status in TOLD_TO_END:
        say(done.said("the build"))
        return NO_ANSWER
    # (its place is told by `rt try` alone)
    say("the build stopped at a fault. Where it is takes another build ..")
    script.seek(0)
    return tried(script, words)


def tried(script: IO[bytes], words: Sequence[str]) -> int:
    """Builds the program without proof for this one script, and plays it."""
    unproved, program = programs.of_repository("unproved"), programs.of_repository("program")
    done = children.run(unproved.command(words), cwd=program.CRATE, stdin=script, stdout=None)
    said, status = unproved.told(done.err)
    sys.stderr.write(said)
    if status is None:
        say("no answer from a build without proof: ./play --prove plays scripts of any size within the limits")
        return NO_ANSWER
    return status


def script_of(name: str, words: Sequence[str]) -> IO[bytes]:
    """The script in a file of its own, from its beginning."""
    script = tempfile.TemporaryFile()
    if "--generate" not in [it.partition("=")[0] for it in words]:
        with sys.stdin.buffer if name == "-" else open(name, "rb") as given:
            script.write(given.read(READ_MOST))
        script.seek(0)
        wrong = None if "--audit" in words else wrong_script(script.read())
        if wrong:
            raise ValueError(f"{'standard input' if name == '-' else name}: {wrong}")
        script.seek(0)
    return script


def prove() -> Optional[str]:
    """Proves the program, where no proved build of the sources stands. Returns what went wrong, or None."""
    if programs.manifest() is not None:
        return "an archive has no sources to prove"
    program = programs.of_repository("program")
    run = lambda words, folder: children.run(words, cwd=folder, stderr=subprocess.STDOUT)[:2]
    return None if program.is_proved() else program.prove(say, run)


def wrong_words(words: Sequence[str], has_demo: bool) -> Optional[str]:
    """What is wrong with the words of the command, or None."""
    if not words:
        return None if has_demo else "SCRIPT is missing"
    is_named = not words[0].startswith("--")
    return wrong_word(words[1 if is_named else 0 :]) or (None if is_named else f"{words[0]}: the script comes first, and then the program's words")


def main(words: list[str], has_demo: bool = False) -> int:
    """Plays what the words say, the demo where they name no script and there is one; and gives the status."""
    wants_proof = words[:1] == ["--prove"]
    words = words[wants_proof:]
    if {"-h", "--help"} & {*words}:
        print(fitted(__doc__), end="")
        return NOTHING
    if words == ["--version"]:
        print(programs.version())
        return NOTHING
    wrong = wrong_words(words, has_demo)
    if wrong:
        say(wrong)
        print(fitted("\n".join(__doc__.split("\n\n")[1:4:2])), file=sys.stderr)
        return BAD_WORDS
    name = words[0] if words else str(DEMO)
    try:
        script = script_of(name, words)
    except (OSError, ValueError) as error:
        say(f"{name}: {error.strerror}" if isinstance(error, OSError) else str(error))
        return NO_ANSWER
    try:
        why = prove() if wants_proof else None
        if why:
            say(why)
            return NO_ANSWER
        return played(programs.found(say, Progress("play")), script, words[1:])
    except NoProgram as error:
        print(error, file=sys.stderr)
        return NO_ANSWER
    except FileNotFoundError as error:
        say(f"{error.filename} isn't there: the Rattle kit's command rt builds the program")
        return NO_ANSWER
