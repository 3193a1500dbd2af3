"""At which ports verdicts can differ.

An entry covers whole ranges of ports of a protocol. So from one port where some range begins, or where one has just
ended, to the next such port every packet between the same two ends has the same verdict: the first port of each such
stretch stands for all of it, and asking there is exact for every port.
"""
from __future__ import annotations

import typing

PROTOCOLS = ("TCP", "UDP", "SCTP")
LAST = 65_535
Ranges = typing.List[typing.Tuple[int, int]]


def ranges(entry: dict) -> typing.Dict[str, Ranges]:
    """The ranges of an entry's ports, by protocol; an entry without ports has none."""
    found: typing.Dict[str, Ranges] = {it: [] for it in PROTOCOLS}
    for item in entry.get("toPorts") or []:
        for port in item.get("ports") or []:
            low = int(port["port"])
            high = max(low, port.get("endPort") or 0)
            named = (port.get("protocol") or "ANY").upper()
            for protocol in PROTOCOLS if named == "ANY" else (named,):
                found[protocol].append((low, high) if low else (0, LAST))
    return found


def stretches(entries: typing.Iterable[dict]) -> typing.Dict[str, typing.Tuple[typing.Dict[int, int], typing.Tuple[str, ...]]]:
    """The stretches of ports, each with its last port, of each protocol that the entries tell from those before it, and
    which protocols they treat like it."""
    all_ranges = [ranges(it) for it in entries]
    alike: typing.Dict[tuple, typing.List[str]] = {}
    for protocol in PROTOCOLS:
        alike.setdefault(tuple(tuple(it[protocol]) for it in all_ranges), []).append(protocol)
    found = {}
    for of_entries, protocols in alike.items():
        cuts = sorted({0, *(cut for of_entry in of_entries for low, high in of_entry for cut in (low, high + 1) if cut <= LAST)})
        found[protocols[0]] = dict(zip(cuts, [it - 1 for it in cuts[1:]] + [LAST])), tuple(protocols)
    return found


def merged(stretches: typing.Iterable[typing.Tuple[int, int]]) -> typing.Tuple[typing.Tuple[int, int], ...]:
    """Stretches, with those that touch made one."""
    found: Ranges = []
    for low, high in sorted(stretches):
        if found and found[-1][1] + 1 == low:
            found[-1] = (found[-1][0], high)
        else:
            found.append((low, high))
    return tuple(found)


def written(stretches: typing.Sequence[typing.Tuple[int, int]]) -> str:
    if stretches == ((0, LAST),):
        return "every port"
    return ", ".join(f"{low}" if low == high else f"{low}-{high}" for low, high in stretches)
