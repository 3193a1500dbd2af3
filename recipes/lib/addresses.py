"""Addresses and prefixes of both families: their texts, as docs/RULES.md has them, and which prefix lies in another."""
from __future__ import annotations

import functools
import ipaddress
import re
import typing

Address = typing.Union[ipaddress.IPv4Address, ipaddress.IPv6Address]
Network = typing.Union[ipaddress.IPv4Network, ipaddress.IPv6Network]

NETWORKS: typing.Dict[int, typing.Callable[..., Network]] = {4: ipaddress.IPv4Network, 6: ipaddress.IPv6Network}
# The worlds: the prefixes of all addresses of each family.
WORLDS: typing.Tuple[Network, ...] = (ipaddress.IPv4Network("0.0.0.0/0"), ipaddress.IPv6Network("::/0"))
BYTE = r"(0|[1-9]\d?|1\d\d|2[0-4]\d|25[0-5])"
# What Python's reader takes beside these isn't read: leading zeros, an IPv4 address at the end, zones.
IPV4 = re.compile(rf"{BYTE}(\.{BYTE}){{3}}", re.ASCII)
IPV6 = re.compile(r"[0-9A-Fa-f:]*:[0-9A-Fa-f:]*")
ENDING = re.compile(rf"(?P<front>[0-9A-Fa-f:]*:)(?P<octets>{BYTE}(\.{BYTE}){{3}})(?P<rest>/.*)?", re.ASCII)
LENGTH = re.compile(r"0|[1-9]\d{0,2}", re.ASCII)
GROUPS, GROUP_BITS = 8, 16


@functools.lru_cache(maxsize=None)
def parsed(text: str) -> typing.Optional[Address]:
    """The address of a text, or None."""
    if IPV4.fullmatch(text):
        return ipaddress.IPv4Address(int.from_bytes(map(int, text.split(".")), "big"))
    if not IPV6.fullmatch(text):
        return None
    try:
        return ipaddress.ip_address(text)
    except ValueError:
        return None


def address(text: object) -> str:
    """The one text of an address, which is the same for the same address; empty where the text is none."""
    if isinstance(text, str) and IPV4.fullmatch(text):
        return text
    found = parsed(text) if isinstance(text, str) else None
    return written(found) if found else ""


@functools.lru_cache(maxsize=None)
def prefix(text: str) -> typing.Optional[Network]:
    """The prefix of a CIDR text, without its host bits, or None."""
    head, slash, length = text.partition("/")
    found = parsed(head)
    if found is None:
        return None
    if slash and (not LENGTH.fullmatch(length) or int(length) > found.max_prefixlen):
        return None
    return NETWORKS[found.version]((int(found), int(length) if slash else found.max_prefixlen), strict=False)


def known(text: str) -> Network:
    """The prefix of a text that is known to be one."""
    found = prefix(text)
    assert found is not None
    return found


def written(it: typing.Union[Address, Network]) -> str:
    """An address or a prefix, an IPv6 address in its shortest text (RFC 5952, section 4), with no IPv4 address at its end."""
    if isinstance(it, (ipaddress.IPv4Network, ipaddress.IPv6Network)):
        return f"{written(it.network_address)}/{it.prefixlen}"
    if it.version == 4:
        return str(it)
    groups = [int(it) >> GROUP_BITS * at & 0xFFFF for at in reversed(range(GROUPS))]
    runs = [next((to for to in range(at, GROUPS) if groups[to]), GROUPS) - at for at in range(GROUPS)]
    longest = max(runs)
    text = lambda part: ":".join(f"{one:x}" for one in part)
    if longest < 2:
        return text(groups)
    at = runs.index(longest)
    return f"{text(groups[:at])}::{text(groups[at + longest:])}"


def without_ending(text: str) -> str:
    """A text of IPv6 with two groups in the place of an IPv4 address at the end of the address; any other text as it is."""
    found = ENDING.fullmatch(text)
    if not found:
        return text
    number = int(ipaddress.IPv4Address(found["octets"]))
    return f"{found['front']}{number >> GROUP_BITS:x}:{number & 0xFFFF:x}{found['rest'] or ''}"


def lies_in(inner: Network, whole: Network) -> bool:
    """Whether a prefix lies in another one: of its own family alone."""
    if inner.version != whole.version or inner.prefixlen < whole.prefixlen:
        return False
    rest = whole.max_prefixlen - whole.prefixlen
    return int(inner.network_address) >> rest == int(whole.network_address) >> rest


def order(it: Network) -> tuple:
    """The place of a prefix among others: those of IPv4 first, then by address, the shorter first."""
    return it.version, int(it.network_address), it.prefixlen


def is_one(it: Network) -> bool:
    """Whether a prefix has one address alone."""
    return it.prefixlen == it.max_prefixlen


def is_world(it: Network) -> bool:
    return it.prefixlen == 0
