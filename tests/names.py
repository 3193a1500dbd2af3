"""A name of a public type stands once in the repository: no other type of any crate has it.

A type is an `enum`, `struct`, `trait`, `union` or `type` that begins at the margin of a file of `src`; it is public
where it is `pub`, whoever else it is handed on by. TWICE has the names that aren't so yet, each with the crates whose
types have it. It may only shrink: a name that stands once, or whose crates are others, is told too.

A crate's name says what the crate holds: no crate takes a name back that said less.
"""
import re

import program

TYPE = re.compile(r"(?m)^(pub )?(?:pub\(\w+\) )?(?:enum|struct|trait|union|type) (\w+)")
TWICE = {
    "Entries": "pol_audit pol_rule",
    "Kept": "pol_kept pol_kept_filters",
    "Status": "pol_status policyd",
    "Stopped": "pol_play_kept pol_sessions",
}

# Names that crates had, which said less of what they hold than those that they have.
TOO_SHORT = {"pol_base", "pol_change_list", "pol_change_log", "pol_core", "pol_delta", "pol_k8s", "pol_l4", "pol_lpm", "pol_moves", "pol_placed", "pol_pool", "pol_raw_entries"}


def types():
    """For each name of a public type the crates with types of that name; a crate stands there once for each of them."""
    found, public = {}, set()
    for crate in sorted(program.crates()):
        for path in sorted((program.TOP / "crates" / crate / "src").rglob("*.rt")):
            for is_public, name in TYPE.findall(path.read_text()):
                found.setdefault(name, []).append(crate)
                public.update([name] if is_public else [])
    return {name: found[name] for name in sorted(public)}


def once():
    """Each name of a public type stands once, or is in TWICE with its crates."""
    several = {name: " ".join(crates) for name, crates in types().items() if len(crates) > 1}
    wrong = [f"{name} stands more than once, in {it}: a new type takes a name of its own" for name, it in several.items() if name not in TWICE]
    wrong += [f"{name} stands in {it}, and TWICE has {TWICE[name]}" for name, it in several.items() if TWICE.get(name, it) != it]
    return [*wrong, *(f"{name} stands once now: TWICE needs it no more" for name in TWICE if name not in several)]


def telling():
    """No crate has a name that says too little of it."""
    return [f"{it} was given up, since it says too little of what the crate holds" for it in program.crates() if it in TOO_SHORT]


def checks():
    yield "names of public types", once
    yield "names of crates", telling
