"""The rooms of crates.txt: its sections, the picture of them in docs/ARCHITECTURE.md, and what each README says.

A line `# Room: NAME` of crates.txt begins a room, and the crates up to the next such line stand in it. The picture is
drawn by hand; a box of it begins with `+-- NAME, N crates -`.
"""
import re

import handed
import layers
import program

PAGE = program.TOP / "docs" / "ARCHITECTURE.md"
BLOCK = re.compile(r"(?ms)^```rooms\n(.*?)^```$")
BOX = re.compile(r"\+-- ([a-z ]+), (\d+) crates -")
ROOM = re.compile(r"# Room: (.+)")
# The picture fits a screen.
LINES_MOST, COLUMNS_MOST = 40, 100
# The room that nothing stands on.
HIGHEST = "tests and benchmarks"
# The sessions, and the crates by which events of a history are made, which nothing above the sessions names.
SESSIONS, MAKERS = "pol_sessions", {"pol_history_log", "pol_board", "pol_node"}
# What others hand on of these crates: by none of it an event is made.
HANDED = {"pol_sessions": {"Config", "SeenHistory"}}


def rooms():
    """The rooms of crates.txt in its order, each as its name and its crates; 'no room' where crates stand before the first."""
    found = []
    for line in (program.TOP / "crates.txt").read_text().splitlines():
        head, crate = ROOM.fullmatch(line), program.crate_of(line)
        if head:
            found.append((head[1], []))
        elif crate:
            found or found.append(("no room", []))
            found[-1][1].append(crate[0])
    return found


def room_of():
    """The room of each crate."""
    return {crate: room for room, crates in rooms() for crate in crates}


# The sections of crates.txt.


def cut_rooms():
    """Rooms that begin twice."""
    names = [room for room, _ in rooms()]
    return [f"the room {it} begins twice" for it in sorted({*names}) if names.count(it) > 1]


def upward():
    """Crates that use one that stands after them: of their own room, or of a higher one."""
    of, wrong, seen = room_of(), [], set()
    for crate, libraries in program.crates().items():
        wrong += [f"{crate} of the room {of[crate]} uses {it} of the room {of[it]}, which stands after it" for it in libraries if it in of and it not in seen]
        seen.add(crate)
    return wrong


def used_tests():
    """Crates that use one of the highest room, which nothing stands on."""
    of = room_of()
    return [f"{crate} uses {it} of the room {HIGHEST}" for crate, libraries in program.crates().items() for it in libraries if of.get(it) == HIGHEST]


def makers_named():
    """Crates above the sessions that name one by which events of a history are made: so what they give back was played."""
    listed = program.crates()
    above = [it for it in listed if SESSIONS in layers.below(it, listed)]
    return [f"{crate} stands on {SESSIONS} and uses {it}, by which events are made" for crate in above for it in listed[crate] if it in MAKERS]


def makers_handed():
    """Crates below those above the sessions that hand on what is of such a crate, under whatever name."""
    listed, wrong = program.crates(), []
    above = [it for it in listed if SESSIONS in layers.below(it, listed)]
    for crate in sorted({*above}.union(*(layers.below(it, listed) for it in above)) - MAKERS):
        texts = [it.read_text() for it in sorted((program.TOP / "crates" / crate / "src").rglob("*.rt"))]
        found = handed.handed(texts, MAKERS) - HANDED.get(crate, set())
        wrong += [f"{crate} hands on {it} of a crate by which events are made" for it in sorted(found)]
    return wrong


def listed():
    """Each room of crates.txt is one section, each crate stands behind all that it uses, and none above the sessions makes events."""
    return [*cut_rooms(), *upward(), *used_tests(), *makers_named(), *makers_handed()]


# The picture.


def picture():
    """The picture has a box for each room, with as many crates as it has, and fits a screen."""
    block = BLOCK.search(PAGE.read_text())
    if not block:
        return ["there is no picture of the rooms"]
    lines = block[1].splitlines()
    boxes, wanted = BOX.findall(block[1]), [(room, str(len(crates))) for room, crates in rooms()]
    wrong = [f"there is no box '+-- {room}, {count} crates -'" for room, count in wanted if (room, count) not in boxes]
    wrong += [f"no room is as the box of {room}, {count} crates" for room, count in boxes if (room, count) not in wanted or boxes.count((room, count)) > 1]
    wrong += [f"it has {len(lines)} lines, and {LINES_MOST} fit a screen"] if len(lines) > LINES_MOST else []
    return [*wrong, *(f"wider than {COLUMNS_MOST}: {it}" for it in lines if len(it) > COLUMNS_MOST)]


# What the READMEs say.


def sentence(room):
    return f"Its room is [{room}](../../docs/ARCHITECTURE.md#the-rooms)."


def said(name):
    """A crate's README says its room below its title."""
    page = program.TOP / "crates" / name / "README.md"
    lines = page.read_text().splitlines() if page.is_file() else []
    wanted = sentence(room_of()[name])
    return [] if lines[1:4] == ["", wanted, ""] else [f"below the title it doesn't say: {wanted}"]


def checks():
    yield "rooms crates.txt", listed
    yield "rooms what a crate hands on", handed.seen
    yield "rooms docs/ARCHITECTURE.md", picture
    for name in program.crates():
        yield f"room crates/{name}", lambda name=name: said(name)
