"""Each edit can be applied: those of must-fail/, which the gate tries, and those of edits/, which `dev/edits` tries.

What `rt ci` can't apply it counts for nothing, and nobody tries the others unless their crate changes.
"""
import re

import program


def why_not(crate, lines):
    """Why the edit of these lines can't be applied, or None: the text behind each `old:` stands once where it is replaced."""
    path, old, texts = "", None, {}
    for line in lines:
        if line.startswith("file: "):
            path = line[len("file: "):].strip()
            if not re.match(r"(src|specs|proofs)/", path) or not (crate / path).is_file():
                return f"there is no file {path}"
            texts.setdefault(path, (crate / path).read_text())
        elif line.startswith("old: "):
            old = line[len("old: "):]
        elif line.startswith("new:"):
            if not path or not old:
                return "a `new:` stands before any `file:` or `old:`"
            if texts[path].count(old) != 1:
                return f"an `old:` stands {texts[path].count(old)} times in {path}, and not once"
            texts[path], old = texts[path].replace(old, re.sub(r"\A ", "", line[len("new:"):])), None
        elif line:
            return f"a line is neither `file:` nor `old:` nor `new:`: {line[:60]}"
    return None if any(text != (crate / path).read_text() for path, text in texts.items()) else "it changes nothing"


def wrong():
    for folder in ("must-fail", "edits"):
        for edit in sorted((program.TOP / "crates").glob(f"*/{folder}/*")):
            why = why_not(edit.parent.parent, edit.read_text().split("\n")) if edit.suffix == ".edit" else "it is no edit"
            if why:
                yield f"{edit.relative_to(program.TOP)}: {why}"


def checks():
    yield "edits can be applied", lambda: list(wrong())
