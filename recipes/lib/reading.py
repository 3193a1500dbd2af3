"""What kubectl prints, as objects with their places, and what is wrong with it."""
from __future__ import annotations

import json
import re
import typing

from .addresses import address

KEY, VALUE = re.compile(r"[!-<>-~]+"), re.compile(r"[!-~]*")
YAML = re.compile(r"""\s*(%.*\n\s*|---\s+|#.*\n\s*|- +)*(["']?)[A-Za-z][A-Za-z0-9]*\2:(\s|$)""")
AS_JSON = "kubectl patch --local --type=merge -p '{}' -o json -f FILE"
LINES = json.JSONEncoder(separators=(",", ":"), allow_nan=False)
# What kubectl says on standard error, where a shell has put that into the same file: a warning, or why it gave less.
BLANKS = re.compile(r"\s*")
WARNS = re.compile(r"(Warning|W\d{4} |No resources found)[^\n]*")
FAILS = re.compile(r"(error:|Error from server|Error:|Unable to connect|The connection to the server|E\d{4} )[^\n]*")


class Bad(Exception):
    """What is wrong with the input, and where."""


def line_of(place: str, value: object) -> str:
    try:
        return LINES.encode(value)
    except (ValueError, RecursionError) as error:
        raise Bad(f"{place}: {'a number is too large' if 'float' in str(error) else 'it is nested too deeply, or holds itself'}")


def text_of(name: str) -> str:
    """The text of a file."""
    try:
        with open(name, "rb") as file:
            return decoded(name, file.read())
    except OSError as error:
        raise Bad(f"{name}: {error.strerror}")


def decoded(name: str, data: bytes) -> str:
    try:
        return data.decode("utf-8-sig")
    except UnicodeDecodeError as error:
        raise Bad(f"{name} isn't UTF-8, at byte {error.start}")


def no_constant(name: str) -> typing.NoReturn:
    raise ValueError(f"{name} is no number")


def documents(text: str, whole: str = "standard input", part: str = "document", warned: typing.Optional[typing.List[str]] = None) -> typing.Iterator[typing.Tuple[str, typing.Any]]:
    """The JSON values that stand one after another in the text, each with its place; kubectl's warnings go to a list."""
    warned = [] if warned is None else warned
    at, number = past_lines_of_kubectl(text, 0, warned, whole), 0
    values = of_yaml(text[at:], whole) if YAML.match(text, at) else of_json(text, at, part, warned, whole)
    for number, value in enumerate(values, 1):
        yield f"{part} {number}", value
    if not number:
        raise Bad(f"{whole} is empty: it takes what kubectl get .. -o json prints")


def past_lines_of_kubectl(text: str, at: int, warned: typing.List[str], whole: str) -> int:
    """Where the text goes on behind blanks and kubectl's warnings; Bad where kubectl says there that it failed."""
    while True:
        blank = BLANKS.match(text, at)
        at = blank.end() if blank else at
        warns, fails = WARNS.match(text, at), FAILS.match(text, at)
        if fails:
            raise Bad(f"{whole} has what kubectl said where it failed, so it isn't all that was asked for: {fails[0]}")
        if not warns:
            return at
        warned.append(warns[0])
        at = warns.end()


def of_json(text: str, at: int, part: str, warned: typing.List[str], whole: str) -> typing.Iterator[object]:
    """The JSON values of a text from a place on."""
    decoder, number = json.JSONDecoder(parse_constant=no_constant), 0
    while True:
        at = past_lines_of_kubectl(text, at, warned, whole)
        if at == len(text):
            return
        number += 1
        try:
            value, at = decoder.raw_decode(text, at)
        except ValueError as error:
            where = f", at line {error.lineno}, column {error.colno} of the input" if isinstance(error, json.JSONDecodeError) else ""
            raise Bad(f"{part} {number}: no JSON: {getattr(error, 'msg', error)}{where}")
        except RecursionError:
            raise Bad(f"{part} {number}: it is nested too deeply")
        yield value


def of_yaml(text: str, whole: str) -> typing.Iterator[object]:
    """The values of a text in YAML, where PyYAML is there; documents of nothing are passed over."""
    try:
        import yaml
    except ImportError:
        raise Bad(f"{whole} is YAML, which Python reads with PyYAML alone, and that isn't there: `{AS_JSON}` prints it as JSON without a server, and so do `yq -o json` and kubectl get with -o json")
    try:
        yield from (it for it in yaml.load_all(text, Loader=loader(yaml)) if it is not None)
    except (yaml.YAMLError, ValueError, RecursionError) as error:
        raise Bad(f"{whole}: no YAML: {' '.join(str(error).split())}")


def loader(yaml: typing.Any) -> type:
    """PyYAML's safe loader with the texts that kubectl reads as texts: dates, `yes` and `no`, and numbers like 1:30."""

    plain = "tag:yaml.org,2002:"
    kinds = [*(f"{plain}{it}" for it in ("null", "bool", "int", "float", "str", "seq", "map")), None]

    class Loader(yaml.SafeLoader):
        yaml_implicit_resolvers: typing.Dict[str, list] = {}
        # (what JSON doesn't have is none of kubectl's)
        yaml_constructors = {it: yaml.SafeLoader.yaml_constructors[it] for it in kinds}

        def construct_mapping(self, node: typing.Any, deep: bool = False) -> typing.Dict[str, typing.Any]:
            return {key_text(it): value for it, value in super().construct_mapping(node, deep).items()}

    for name, form, firsts in (
        ("bool", r"true|True|TRUE|false|False|FALSE", "tTfF"),
        ("int", r"[-+]?(0|[1-9][0-9]*)|0x[0-9a-fA-F]+", "-+0123456789"),
        ("float", r"[-+]?([0-9]+\.[0-9]*|\.[0-9]+)([eE][-+]?[0-9]+)?|[-+]?[0-9]+[eE][-+]?[0-9]+", "-+.0123456789"),
        ("null", r"~|null|Null|NULL|", ["~", "n", "N", ""]),
        ("merge", r"<<", "<"),
    ):
        Loader.add_implicit_resolver(f"{plain}{name}", re.compile(f"^(?:{form})$"), list(firsts))
    return Loader


def key_text(key: object) -> str:
    """The name of a member of an object in YAML, which kubectl takes as text where it is a number or a boolean."""
    if not isinstance(key, (str, int, float)):
        raise ValueError(f"{key!r} is no name of a member")
    return key if isinstance(key, str) else json.dumps(key)


def objects(text: str, whole: str = "standard input", part: str = "document", warned: typing.Optional[typing.List[str]] = None) -> typing.Iterator[typing.Tuple[str, dict]]:
    """The objects of all documents with their places: a list's items, and what stands alone."""
    for place, value in documents(text, whole, part, warned):
        kind = kind_of(place, value)
        items = value.get("items")
        if kind != "List" and not (kind.endswith("List") and "items" in value):
            yield place, value
            continue
        if not isinstance(items, list):
            raise Bad(f"{place}: {kind}: items is no list")
        for number, item in enumerate(items, 1):
            # (the items of a list of one kind, as the API server gives it, don't name their kind)
            if kind != "List" and isinstance(item, dict):
                item = {"apiVersion": value["apiVersion"], "kind": kind[: -len("List")], **item}
            kind_of(f"{place}, item {number}", item)
            yield f"{place}, item {number}", item


def kind_of(place: str, value: object) -> str:
    if not isinstance(value, dict):
        raise Bad(f"{place}: it is no object")
    for name in ("apiVersion", "kind"):
        if not isinstance(value.get(name), str):
            raise Bad(f"{place}: {name} is missing, or no text")
    return value["kind"]


def member(place: str, value: dict, name: str, shape: type, otherwise: typing.Any) -> typing.Any:
    """A member of an object, and `otherwise` where it is absent or null."""
    found = value.get(name)
    if found is None:
        return otherwise
    if not isinstance(found, shape) or (shape is not bool and isinstance(found, bool)):
        words = {dict: "object", str: "text", list: "list", bool: "boolean"}
        raise Bad(f"{place}: {name} is no {words[shape]}")
    return found


def name_of(place: str, value: dict) -> typing.Tuple[dict, str]:
    """An object's metadata and name."""
    metadata = member(place, value, "metadata", dict, {})
    name = member(f"{place}: metadata", metadata, "name", str, "")
    if not name:
        raise Bad(f"{place}: {value['kind']} without metadata.name")
    return metadata, name


def labels_of(place: str, metadata: dict) -> typing.Dict[str, str]:
    labels = member(f"{place}: metadata", metadata, "labels", dict, {})
    for key, value in labels.items():
        if not isinstance(value, str) or not KEY.fullmatch(key) or not VALUE.fullmatch(value):
            raise Bad(f"{place}: the label {key!r} with the value {value!r} is none of Kubernetes")
    return labels


def addresses_of(place: str, value: dict, many: str, one: str) -> typing.List[str]:
    """The addresses among the objects `{"ip": ..}`, or texts, of a list, and then the one that stands alone."""
    texts = []
    for number, it in enumerate(member(place, value, many, list, [])):
        if isinstance(it, str) and many == "clusterIPs":
            texts.append(it)
        elif not isinstance(it, dict):
            raise Bad(f"{place}: {many}[{number}] is no object")
        else:
            texts.append(member(f"{place}: {many}[{number}]", it, "ip", str, ""))
    texts.append(member(place, value, one, str, ""))
    return [*dict.fromkeys(filter(None, map(address, texts)))]
