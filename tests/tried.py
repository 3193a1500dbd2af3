"""Plays cases of policyd by a build without proof: by the one that is kept, or else `rt try --cases` builds one for all.

`rt try` tells no standard error, and gives no answers over a mebibyte, and the kept build takes long for as many: cases
that want more are left out, and named. A case has a name, and gives its script, the program's words, the answers and
the status, which may be None.
"""
import pathlib
import re
import subprocess
import tempfile

import compare
import documents
import program
import unproved

# What `rt try` gives of answers at most.
ANSWERS_MOST = 1 << 20
# How long a case may take: such a build is some hundred times slower than a proved one.
SECONDS = 5 * compare.SECONDS


def lay(case, folder, name):
    """Writes the case as `rt try` reads it."""
    folder.joinpath(name).write_bytes(case.given())
    folder.joinpath(f"{name}.args").write_text("".join(f"{word}\n" for word in case.words()))
    folder.joinpath(f"{name}.stdout").write_bytes(case.out())


def play(cases):
    """Yields the name of each case that was played, and what is wrong with it, in lines."""
    small = [it for it in cases if len(it.out() or b"") <= ANSWERS_MOST]
    for it in cases:
        if it not in small:
            print(f"left out, since a build without proof can't play it: {it.name}")
    if not unproved.is_kept():
        unproved.build()
    compare.SECONDS = SECONDS
    if unproved.is_kept():
        yield from ((it.name, it.play([str(unproved.KEPT)])) for it in small)
        return
    at_once = [it for it in small if not plays_itself(it)]
    for it in small:
        if it not in at_once:
            print(f"left out, since no build without proof is kept: {it.name}")
    if at_once:
        yield from play_at_once(at_once)


def plays_itself(case):
    """Whether a case is a command that calls ./play more than once, or is played several times, and so no script."""
    return isinstance(case, documents.Command) and not case.is_play or case.name.startswith("what-if ") or case.out() is None


def play_at_once(small):
    """Builds the program for all cases, and plays them."""
    with tempfile.TemporaryDirectory() as folder:
        for number, it in enumerate(small):
            lay(it, pathlib.Path(folder), f"case{number}")
        words = ["rt", "try", "--seconds", str(SECONDS), "--cases", folder]
        ended = subprocess.run(words, cwd=program.CRATE, stdin=subprocess.DEVNULL, stdout=subprocess.PIPE, stderr=subprocess.PIPE)
    told, before = {}, []
    for line in ended.stderr.decode(errors="replace").splitlines():
        end = re.match(r"case=(\S+) (.*)", line)
        if end:
            told[end[1]] = (end[2], before)
            before = []
        else:
            before.append(line)
    for number, it in enumerate(small):
        yield it.name, wrong_with(it, told.get(f"case{number}"), before)


def wrong_with(case, told, rest):
    if told is None:
        return ["it wasn't played:", *rest[-20:]]
    end, before = told
    wanted = case.status()
    if re.match(rf"run=ended status={r'[01]' if wanted is None else wanted} .*output=expected", end):
        return []
    return [end if wanted is None else f"{end}, where status {wanted} is wanted", *before]
