"""Names of a crate that others hand on: what they re-export, by its own name, by another one, or as a part of another type.

Only what is written is read: a name that is bound by `use` of such a crate, or of such a name, counts as one of its own.
"""
import re

COMMENT = re.compile(r"//[^\n]*|/\*.*?\*/", re.S)
USE = re.compile(r"(?m)^\s*(pub\s+|pub\s*\([^)]*\)\s*)?use\s+([^;]+);")
TYPE = re.compile(r"(?m)^\s*pub\s+type\s+(\w+)[^=;]*=([^;]+);")
EXTERN = re.compile(r"(?m)^\s*pub\s+extern\s+crate\s+(\w+)(?:\s+as\s+(\w+))?\s*;")
WORD = re.compile(r"\w+")
ALL = "*"


def parts(text):
    """The items of a list between braces."""
    found, depth, start = [], 0, 0
    for at, letter in enumerate(text):
        depth += {"{": 1, "}": -1}.get(letter, 0)
        if letter == "," and depth == 0:
            found.append(text[start:at])
            start = at + 1
    return [it.strip() for it in (*found, text[start:]) if it.strip()]


def leaves(tree, front=()):
    """Each path of a `use`, as its words, and the name that it binds."""
    head, brace, rest = tree.strip().partition("{")
    path, _, other = re.sub(r"\s+", " ", head).strip().partition(" as ")
    words = (*front, *(it.strip() for it in path.split("::") if it.strip()))
    if brace:
        for it in parts(rest.rstrip().removesuffix("}")):
            yield from leaves(it, words)
    else:
        words = words[:-1] if words[-1:] == ("self",) and len(words) > 1 else words
        yield words, other.strip() or words[-1]


def uses(text):
    """The uses of a file: each path, the name that it binds, and whether all may use that."""
    for found in USE.finditer(COMMENT.sub("", text)):
        for words, name in leaves(found[2]):
            yield words, name, (found[1] or "").strip() == "pub"


def handed(texts, crates):
    """What the files of a crate hand on of other crates: names, and `*` where it can't be told which."""
    texts = [COMMENT.sub("", it) for it in texts]
    all_uses = [it for text in texts for it in uses(text)]
    known, count = {*crates}, 0
    while count != len(known):
        count = len(known)
        known |= {name for words, name, _ in all_uses if known & {*words} and name != ALL}
    found = {name for words, name, is_public in all_uses if is_public and known & {*words, name}}
    found |= {ALL for words, name, _ in all_uses if name == ALL and known & {*words}}
    found |= {it[1] for text in texts for it in TYPE.finditer(text) if known & {*WORD.findall(it[2])}}
    return found | {it[2] or it[1] for text in texts for it in EXTERN.finditer(text) if it[1] in known}


# What is seen of a crate `board` in texts.
SEEN = (
    ("use board::Board;\nuse board::{Op, view::{self, Seen}};", set()),
    ("pub(crate) use board::Board;\n// pub use board::Board;", set()),
    ("pub use board::Board;", {"Board"}),
    ("pub use board::{\n    Board,\n    view::{Seen as Look, self},\n};", {"Board", "Look", "view"}),
    ("use board as b;\npub use b::Board as Desk;", {"Desk"}),
    ("mod inner {\n    pub(super) use board::Board;\n}\npub use inner::Board;", {"Board"}),
    ("use board::Board;\npub type Desk<T> = Option<Board<T>>;", {"Desk"}),
    ("pub extern crate board as desk;", {"desk"}),
    ("pub use board::*;", {ALL}),
    ("use other::Seat;\npub use other::Seat as Chair;", set()),
)


def seen():
    """What is wrong with what is seen, in lines."""
    return [f"{text!r} hands on {sorted(handed([text], {'board'}))}, and not {sorted(wanted)}" for text, wanted in SEEN if handed([text], {"board"}) != wanted]
