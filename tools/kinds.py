#!/usr/bin/env python3
"""Where a change goes: the files that ask of which kind a peer, a protocol, an answer or a fault is.

    tools/kinds.py             prints the lists as the sources have them
    tools/kinds.py --write     puts them into docs/ARCHITECTURE.md

A file of `src` or `specs` is listed under a type where it tells two kinds of it apart, or names all its kinds.

- In code a kind is `Peer::Labels`. It is told apart before `=>`, in `matches!`, behind `let`, and beside `==` or `!=`.
- In definitions a kind has the name under which `Peer.TheVariants` is imported. It is told apart left of the `=` of an
  equation, and in a line with `→`, which says what follows for that kind.

The room of tests and benchmarks isn't searched: nothing stands on it, and its examples only make values.
"""
import pathlib
import re
import sys

# (rooms needs a module of the tests)
sys.path.append(str(pathlib.Path(__file__).resolve().parent.parent / "tests"))
import program  # noqa: E402
import rooms  # noqa: E402

PAGE = program.TOP / "docs" / "ARCHITECTURE.md"
BLOCK = re.compile(r"(?ms)^```kinds\n(.*?)^```$")
TYPES = ("Peer", "Entity", "Proto", "KeyProto", "Answer", "Fault", "LineFault", "DocFault", "RuleCause")


def searched():
    """The files of code and definitions, by crate in the order of their names."""
    for name in sorted(it for it, room in rooms.room_of().items() if room != rooms.HIGHEST):
        folder = program.TOP / "crates" / name
        for path in sorted([*folder.glob("specs/**/*.antt"), *folder.glob("src/**/*.rt")]):
            yield name, str(path.relative_to(folder)), path.read_text()


def declared(kind, files):
    """The file that declares the type, and the kinds that it has."""
    for name, path, text in files:
        found = re.search(rf"(?ms)^pub enum {kind} {{\n(.*?)^}}", text)
        if found:
            return f"crates/{name}/{path}", re.findall(r"(?m)^    (\w+)(?=[ ({,])", found[1])
    return None, []


def names_of(kind, variants, text):
    """The names that the kinds of the type have in definitions and clauses of a file."""
    names = {}
    for short, listed in re.findall(rf"(?m)^(?:ghost )?use \S+\.{kind}\.TheVariants(?: as (\w+)|\.{{([^}}]*)}})", text):
        own = [it.split(" as ") for it in re.split(r",\s*", listed.strip())] if listed else [[it, f"{short}.{it}"] for it in variants]
        names.update((it[0], it[-1]) for it in own)
    return names


def stands(name, text):
    return bool(re.search(rf"(?<![\w.]){re.escape(name)}(?!\w)", text))


def all_stand(names, variants, text):
    """Whether a text that imports are left out of names all kinds."""
    rest = re.sub(r"(?m)^(ghost )?use .*", "", text)
    return all(it in names and stands(names[it], rest) for it in variants)


def tells_in_code(kind, variants, text):
    """Whether code tells two kinds of the type apart, or names all of them, as a clause may too."""
    if kind not in text:
        return False
    code = re.sub(r"//.*", "", text)
    if re.search(rf"\bimpl\b.*\b{kind} {{", code):
        code = code.replace("Self::", f"{kind}::")
    one = rf"\b{kind}::(?:{'|'.join(variants)})\b"
    inside = r"(?:\s*\{[^{}]*\}|\((?:[^()]|\([^()]*\))*\))?"
    told = rf"{one}{inside}[^\n]*=>|\bmatches!\([^;{{}}]*{one}|\blet [^=;]*{one}|[!=]= {one}|{one} [!=]="
    named = {it: f"{kind}::{it}" for it in variants}
    return bool(re.search(told, code)) or all_stand(named, variants, code) or all_stand(names_of(kind, variants, code), variants, code)


def tells_in_definitions(kind, variants, text):
    """Whether definitions tell two kinds of the type apart, or name all of them."""
    names, plain = names_of(kind, variants, text), re.sub(r"--.*", "", text)
    # (the left side of an equation begins at the margin)
    lines = [it for it in plain.splitlines() if not it.startswith("use ")]
    sides = [it.partition(" =")[0] for it in lines if re.match(r"\w", it) and " =" in it] + [it for it in lines if "→" in it]
    return any(stands(it, side) for it in names.values() for side in sides) or all_stand(names, variants, plain)


# The lists.


def lists():
    """For each type the file that declares it, and the files that tell its kinds apart, by crate."""
    files, found = [*searched()], {}
    for kind in TYPES:
        where, variants = declared(kind, files)
        found[kind] = where, {}
        for name, path, text in files:
            tells = tells_in_code if path.endswith(".rt") else tells_in_definitions
            if variants and tells(kind, variants, text):
                found[kind][1].setdefault(name, []).append(path)
    return found


def drawn():
    """The lists as they must be."""
    text = ""
    for kind, (where, files) in lists().items():
        text += f"{kind}, of {where}\n"
        text += "".join(f"    {name}: {' '.join(paths)}\n" for name, paths in files.items())
    return text


def there():
    """The lists that the page has."""
    found = BLOCK.search(PAGE.read_text())
    return found[1] if found else ""


def entries(text):
    """Each file of the lists, with the type that it stands under; a type with the file that declares it is an entry too."""
    found, kind = set(), None
    for line in text.splitlines():
        name, _, paths = line.strip().partition(": ")
        if line.startswith(" "):
            found.update(f"{kind}: crates/{name}/{it}" for it in paths.split())
        else:
            kind = line.partition(",")[0]
            found.add(line)
    return found


def compared():
    """The lists of docs/ARCHITECTURE.md are those that a search of the sources finds."""
    wanted, has = drawn(), there()
    wrong = [f"lacking: {it}" for it in sorted(entries(wanted) - entries(has))]
    wrong += [f"too much: {it}" for it in sorted(entries(has) - entries(wanted))]
    return [*wrong, "tools/kinds.py --write lists them"] if wanted != has else []


def checks():
    yield "kinds docs/ARCHITECTURE.md", compared


def main(words):
    if words == ["--write"]:
        PAGE.write_text(BLOCK.sub(lambda _: f"```kinds\n{drawn()}```", PAGE.read_text()))
        return 0
    print(drawn(), end="")
    return 0


if __name__ == "__main__":
    sys.dont_write_bytecode = True
    sys.exit(main(sys.argv[1:]))
