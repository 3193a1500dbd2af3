#!/usr/bin/env python3
"""The layer diagram of docs/LAYERS.md, drawn from crates.txt.

    tools/layers.py             prints the diagram as crates.txt has it
    tools/layers.py --write     puts it into docs/LAYERS.md

A crate is one layer above the highest crate that it stands on. Right of it stand the crates below it, without those
that stand below another of them. What a crate is, in a few words, is taken from the diagram that is there.
"""
import re
import sys

import program

PAGE = program.TOP / "docs" / "LAYERS.md"
BLOCK = re.compile(r"(?ms)^```layers\n(.*?)^```$")
UNKNOWN = "?"
# What was found below each crate: crates.txt has very many ways down.
BELOW = {}


def below(name, listed):
    """All crates of the repository that a crate stands on."""
    if name not in BELOW:
        own = [it for it in listed[name] if it in listed]
        BELOW[name] = {*own}.union(*(below(it, listed) for it in own))
    return BELOW[name]


def nearest(name, listed):
    """The crates that it stands on, without those below another of them."""
    all_below = below(name, listed)
    return [it for it in listed if it in all_below and not any(it in below(other, listed) for other in all_below)]


def height(name, listed):
    return 1 + max((height(it, listed) for it in nearest(name, listed)), default=0)


def there():
    """The diagram that the page has."""
    found = BLOCK.search(PAGE.read_text())
    return found[1] if found else ""


def described():
    """What the diagram that is there says of each crate."""
    return dict(re.findall(r"(?m)^\s*\d* +(\w+) {2,}(\S.*?)(?: {2,}.*)?$", there()))


def drawn():
    """The diagram as it must be."""
    listed, words = program.crates(), described()
    rows = [(height(it, listed), it, words.get(it, UNKNOWN), ", ".join(nearest(it, listed))) for it in listed]
    rows.sort(key=lambda row: -row[0])
    wide, text, last = [max(len(row[at]) for row in rows) for at in (1, 2)], "", None
    for layer, name, what, on in rows:
        text += f"{layer if layer != last else ' ':>2}  {name:{wide[0]}}  {what:{wide[1]}}  {on}".rstrip() + "\n"
        last = layer
    return text


def main(words):
    if words == ["--write"]:
        PAGE.write_text(BLOCK.sub(lambda _: f"```layers\n{drawn()}```", PAGE.read_text()))
        return 0
    print(drawn(), end="")
    return 0


if __name__ == "__main__":
    sys.dont_write_bytecode = True
    sys.exit(main(sys.argv[1:]))
