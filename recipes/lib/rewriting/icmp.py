"""Protocols without ports: policyd's packets are of TCP, UDP and SCTP, so an entry of ICMP alone isolates and covers none."""
from __future__ import annotations

import typing

from .work import Entry, Work

PROTOCOLS = ("ICMP", "ICMPV6", "VRRP", "IGMP")


def rewrite(work: Work, entry: Entry, word: str) -> typing.List[Entry]:
    """The entry without its ports of such protocols; where it has none but these, one that covers nothing."""
    if entry.value.get("icmps"):
        return [entry.with_value({})]
    items = entry.value.get("toPorts") or []
    ports = [port for item in items for port in item.get("ports") or []]
    kept = [port for port in ports if not is_without_ports(port)]
    if len(kept) == len(ports) and "icmps" not in entry.value:
        return [entry]
    value = {name: it for name, it in entry.value.items() if name != "icmps"}
    if len(kept) == len(ports):
        return [entry.with_value(value)]
    if not kept:
        return [entry.with_value({})]
    value["toPorts"] = [{**item, "ports": left} for item in items for left in [[it for it in item["ports"] if not is_without_ports(it)]] if left]
    return [entry.with_value(value)]


def is_without_ports(port: dict) -> bool:
    return str(port.get("protocol") or "").upper() in PROTOCOLS
