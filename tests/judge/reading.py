"""Lines of a script to what they ask, written from docs/RULES.md alone."""
import json
import re
from dataclasses import dataclass

from .documents import KINDS, NETWORK_KIND, Refused, is_number, policy_key, present, read_policy, shown
from .rules import PROTOCOLS, address_of, label_of

# Of each operation its members, in the order in which they are judged; `?` may be absent.
MEMBERS = {
    "endpoint": ["name", "labels", "address", "session?"],
    "remove-endpoint": ["name", "session?"],
    "identity": ["name", "labels", "session?"],
    "remove-identity": ["name", "session?"],
    "apply": ["policy", "session?"],
    "delete": ["kind", "namespace?", "name", "session?"],
    "mode": ["enable", "session?"],
    "verdict": ["endpoint", "direction", "identity?", "address?", "protocol", "port", "session?"],
    "trace": ["endpoint", "direction", "identity?", "address?", "protocol", "port", "session?"],
    "sync": ["session?"],
    "phase": [],
}
NAME = re.compile("[a-zA-Z0-9._/-]{1,253}")


@dataclass(frozen=True)
class Query:
    endpoint: str
    direction: str
    identity: object
    address: object
    protocol: str
    port: int


@dataclass(frozen=True)
class Command:
    """What a line asks: `commit`, `verdict`, `trace`, `sync` or `phase`."""
    kind: str
    session: int
    ask: object = None


def is_name(value):
    return isinstance(value, str) and NAME.fullmatch(value) is not None


def is_text(value):
    return isinstance(value, str)


FORMS = {
    "name": is_name, "endpoint": is_name, "namespace": is_name, "address": is_text,
    "labels": lambda value: isinstance(value, list) and all(map(is_text, value)),
    "policy": lambda value: True,
    "kind": lambda value: value in (*KINDS, NETWORK_KIND),
    "enable": lambda value: value in ("default", "always", "never"),
    "direction": lambda value: value in ("ingress", "egress"),
    "identity": lambda value: is_number(value) and value < 2 ** 32,
    "protocol": lambda value: is_text(value) and value.encode().upper().decode() in PROTOCOLS,
    "port": lambda value: is_number(value) and value < 2 ** 16,
    "session": lambda value: is_number(value) and 1 <= value <= 8,
}




def no_constant(word):
    raise ValueError(word)


def whole(text):
    """A number without fraction and exponent; -0 and what has over 20 digits are no whole numbers here."""
    return float(text) if text == "-0" or len(text) > 20 else int(text)


def object_of(line):
    """The JSON object of a line (RFC 8259)."""
    try:
        value = json.loads(line.decode("utf-8"), parse_constant=no_constant, parse_int=whole)
    except (ValueError, RecursionError):
        raise Refused("1 json") from None
    if not isinstance(value, dict):
        raise Refused("1 json")
    return value


def bad_field(name):
    return Refused(f"3 bad-field {name}")


def check_members(op, value):
    query = op in ("verdict", "trace")
    for word in MEMBERS[op]:
        name, there = word.rstrip("?"), present(value, word.rstrip("?"))
        if there is None and not word.endswith("?") or there is not None and not FORMS[name](there):
            raise bad_field(name)
        if query and name == "identity" and (there is None) == (present(value, "address") is None):
            raise bad_field("identity")
    known = {word.rstrip("?") for word in MEMBERS[op]} | {"op"}
    unknown = sorted((name for name, it in value.items() if it is not None and name not in known), key=lambda it: it.encode())
    if unknown:
        raise Refused(f"4 unknown-field {shown(unknown[0])}")


def labels_of(texts):
    labels = [label_of(text) for text in texts]
    if None in labels:
        raise Refused("39 bad-label")
    if len({label[:2] for label in labels}) < len(labels):
        raise Refused("40 duplicate-label-key")
    return frozenset(labels)


def read_address(text):
    address = address_of(text)
    if address is None:
        raise Refused("42 bad-address")
    return address


def request_of(op, value):
    if op == "endpoint":
        labels = labels_of(value["labels"])
        return (op, value["name"], labels, read_address(value["address"]))
    if op == "identity":
        return (op, value["name"], labels_of(value["labels"]))
    if op == "apply":
        return (op, read_policy(value["policy"]))
    if op == "delete":
        return (op, policy_key(value["kind"], value.get("namespace"), value["name"]))
    return (op, value["enable"] if op == "mode" else value["name"])


def query_of(value):
    text = value.get("address")
    address = None if text is None else read_address(text)
    return Query(value["endpoint"], value["direction"], value.get("identity"), address, value["protocol"].upper(), value["port"])


def read_line(line):
    """What the line asks; raises `Refused` with its first fault."""
    value = object_of(line)
    op = present(value, "op")
    if not isinstance(op, str) or op not in MEMBERS:
        raise Refused("2 no-op")
    check_members(op, value)
    session = value.get("session") or 1
    if op in ("sync", "phase"):
        return Command(op, session)
    if op in ("verdict", "trace"):
        return Command(op, session, query_of(value))
    return Command("commit", session, request_of(op, value))


def lines_of(script):
    lines = script.split(b"\n")
    return lines[:-1] if lines[-1] == b"" else lines
