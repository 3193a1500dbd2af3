"""Checks of tools/release: an archive that is unpacked into an empty folder answers without the kit.

They pack the proved builds where such stand, and else those without proof where they are kept; where there is none of
policyd they are left out, and say so. Where there is none of connections, tests/standin_connections.py is packed as one.
"""
import hashlib
import importlib.util
import json
import os
import pathlib
import subprocess
import sys
import tarfile
import tempfile
from importlib.machinery import SourceFileLoader
from unittest import mock

import compare
import program
import unproved
from archive import LISTS, calling
from play_checks import told

TOP = compare.TOP
# What connections is asked about in an archive.
LIST = ["list", "--state", "examples/cluster/state.json"]
QUESTION = ["diff", "--state", "examples/cluster/state.json", "--add", "examples/cluster/proposed.json", "--add", "examples/cluster/cart-to-ledger.json"]


def release():
    """tools/release as a module."""
    loader = SourceFileLoader("release", str(TOP / "tools" / "release"))
    found = importlib.util.module_from_spec(importlib.util.spec_from_loader("release", loader))
    loader.exec_module(found)
    return found


def unpacked(folder):
    """An archive of the present files, unpacked into an empty folder."""
    tool = release()
    tool.programs.commit_of = lambda _: "0123456789ab"
    with_connections(tool, pathlib.Path(folder))
    path = tool.write(pathlib.Path(folder), *tool.packed(True))
    target = pathlib.Path(folder) / "empty"
    with tarfile.open(path) as archive:
        archive.extractall(target)
    return tool, next(target.iterdir())


def with_connections(tool, folder):
    """Lets connections be packed where no proved build of it stands: a stand-in."""
    plain, stand_in = tool.built, folder / "connections"
    stand_in.write_text(calling(LISTS))

    def built(takes_unproved):
        found, is_proved = plain(takes_unproved)
        if not is_proved and {*found} != {"policyd"}:
            raise AssertionError(f"beside a build without proof stand {sorted(found)}")
        return {"connections": stand_in, **found}, is_proved

    tool.built = built


def without_kit():
    """A PATH on which Python and the shell's commands are, and no `rt`."""
    folders = [str(pathlib.Path(sys.executable).resolve().parent), "/usr/bin", "/bin"]
    return ":".join(it for it in folders if not (pathlib.Path(it) / "rt").exists())


def an_archive_answers(folder, wrong):
    tool, top = unpacked(folder)
    told(wrong, "its name", top.name.startswith("wenirako-0123456789ab"), True)
    told(wrong, "what is wrong with its sums", tool.wrong_of(top), None)
    env = {"PATH": without_kit(), "HOME": folder}
    told(wrong, "whether the kit is there", subprocess.run(["sh", "-c", "command -v rt"], env=env, stdout=subprocess.DEVNULL).returncode == 0, False)
    done = subprocess.run(["./wenirako", *QUESTION], cwd=top, env=env, stdout=subprocess.PIPE, stderr=subprocess.PIPE, text=True)
    row = "shop/cart-5d8b4-t6k9z  pay/ledger-0  TCP 8443  denied-by-default  allowed  egress: shop/cart-to-ledger#0.egress[0]; ingress: pay/ledger-from-cart#0.ingress[0]"
    told(wrong, "the answer", (done.returncode, done.stdout.splitlines()[1:]), (3, [row]))
    version = subprocess.run(["./wenirako", "--version"], cwd=top, env=env, stdout=subprocess.PIPE, text=True).stdout.splitlines()
    of = "of the archive of 0123456789ab"
    lists = of if program.is_proved() else "no proved build stands, so policyd is asked alone"
    told(wrong, "--version", version, ["wenirako 0123456789ab", f"policyd: {of}", f"connections: {lists}", "PROVED" if program.is_proved() else "NOT PROVED"])
    connections_are_asked(top, env, wrong)
    told(wrong, "a script", subprocess.run(["./play", "-"], cwd=top, env=env, input='{"op":"sync"}\n', stdout=subprocess.PIPE, text=True).stdout, "synced 0\n")
    manifest(top, wrong)
    path = top / "recipes" / "lib" / "reading.py"
    path.write_text(path.read_text() + "\n")
    told(wrong, "a changed file", tool.wrong_of(top), "recipes/lib/reading.py isn't the file that the manifest names")


def connections_are_asked(top, env, wrong):
    """What is open is asked of connections in an archive of proved programs, and it is what policyd alone says there."""
    ask = lambda: subprocess.run(["./wenirako", *LIST], cwd=top, env=env, stdout=subprocess.PIPE, stderr=subprocess.PIPE, text=True)
    path, named = top / "bin" / "connections", top / "MANIFEST.json"
    plain, value = path.read_bytes(), named.read_text()
    others = {**json.loads(value), "proved": True}
    named.write_text(json.dumps(others))
    there = ask()
    told(wrong, "what is open", (there.returncode, "pay/teller-6c9f7-hx2wd  pay/ledger-0" in there.stdout), (0, True))
    path.write_text("another one")
    told(wrong, "with another file in its place", ask().returncode, 70)
    named.write_text(json.dumps({**others, "proved": False}))
    told(wrong, "with another file in its place, where nothing is proved", ask().returncode, 0)
    others["files"].pop("bin/connections")
    named.write_text(json.dumps(others))
    alone = ask()
    told(wrong, "without it", (alone.returncode, alone.stdout, alone.stderr), (there.returncode, there.stdout, there.stderr))
    path.write_bytes(plain)
    named.write_text(value)


def manifest(top, wrong):
    """The manifest says what was proved."""
    value = json.loads((top / "MANIFEST.json").read_text())
    for name in ("policyd", "connections"):
        path = top / "bin" / name
        told(wrong, f"the sum of {name}", value["files"][f"bin/{name}"], hashlib.sha256(path.read_bytes()).hexdigest())
        told(wrong, f"whether {name} can be run", os.access(path, os.X_OK), True)
    told(wrong, "whether it is proved", (value["proved"], "NOT-PROVED" in top.name), (program.is_proved(), not program.is_proved()))
    if value["proved"]:
        told(wrong, "what was proved", ({*value["proof"]["crates"]}, {*value["proof"]["sources"]}, bool(value["proof"]["kit"])), ({*program.parts(), *program.CONNECTIONS.parts()}, {"policyd", "connections"}, True))


def only_what_is_proved(folder, wrong):
    """Without --unproved an archive is made of a proved build alone."""
    tool = release()
    with mock.patch.object(tool.program.POLICYD, "is_proved", lambda: False):
        try:
            tool.packed(False)
            wrong.append("an archive is made without a proved build")
        except tool.Cannot as cannot:
            told(wrong, "why", str(cannot), "no proved build of the present sources stands: ./play --prove makes one")


def run(check):
    with tempfile.TemporaryDirectory() as folder:
        wrong = []
        check(folder, wrong)
        return wrong


def checks():
    listed = [only_what_is_proved]
    if program.is_proved() or unproved.is_kept():
        listed.append(an_archive_answers)
    else:
        print("left out, since no build of policyd stands: release an archive answers")
    return [(f"release {it.__name__.replace('_', ' ')}", lambda it=it: run(it)) for it in listed]
