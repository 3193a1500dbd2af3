"""Members that no table has, wherever they stand in an entry.

They are looked for before anything is rewritten, since what is rewritten goes with all that stands in it.
"""
from __future__ import annotations

import typing

from ..unread import ANY, LEFT_OUT, SHAPES, Unread, Way

# What policyd doesn't read and is rewritten, with its form.
REWRITTEN: typing.Dict[str, typing.Any] = {
    "fromRequires": ["selector"],
    "toRequires": ["selector"],
    "fromNodes": ["selector"],
    "toNodes": ["selector"],
    "toServices": ["service"],
    "toFQDNs": ["name"],
    "cidrGroupSelector": "selector",
}
FORMS: typing.Dict[str, dict] = {
    **{form: {**members, **{it: REWRITTEN.get(it, ANY) for it in LEFT_OUT.get(form, ())}} for form, members in SHAPES.items()},
    "service": {"k8sService": "service by name", "k8sServiceSelector": "services by labels"},
    "service by name": {"serviceName": ANY, "namespace": ANY},
    "services by labels": {"selector": "selector", "namespace": ANY},
    "name": {"matchName": ANY, "matchPattern": ANY},
}


def check(value: object, form: typing.Any, way: Way) -> None:
    """Unread at the first member that isn't known; what has another shape is left to others."""
    if isinstance(form, list):
        for at, it in enumerate(value if isinstance(value, list) else []):
            check(it, form[0], (way, at))
    elif isinstance(value, dict) and form in FORMS:
        known = FORMS[form]
        for name in sorted(it for it in value if value[it] is not None):
            if name not in known:
                raise Unread("unknown-member", (way, name))
            check(value[name], known[name], (way, name))
