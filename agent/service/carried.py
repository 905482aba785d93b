"""Requests and what is told, as a socket carries them: one line of JSON each, which names its kind.

Processes of two versions talk so while a machine is upgraded: what a newer one tells beside what is known here is left out, and what an older
one doesn't tell yet has its default; what has its default isn't told, so that an older one needn't know it. Of a request nothing that is unknown
is left out, since it would be done otherwise than it was meant.

Owes the filters nothing: a line that is none is refused before anything is done.
"""
from __future__ import annotations

import json
import types
import typing
from typing import Any

from agent.service import requests


class BadRequest(ValueError):
    """A line that is no request and no answer."""


def written(value: object) -> str:
    """A value as JSON, without a line's end."""
    return json.dumps({"kind": type(value).__name__} | plain(value, is_whole=False))


def plain(value: Any, is_whole: bool = True) -> Any:
    """A value as JSON has it: each named tuple as an object, with what has its default where it is to be whole."""
    if hasattr(value, "_fields"):
        told = zip(value._fields, value)
        return {name: plain(each, is_whole) for name, each in told if is_whole or name not in value._field_defaults or value._field_defaults[name] != each}
    if isinstance(value, dict):
        return {key: plain(each, is_whole) for key, each in value.items()}
    return [plain(each, is_whole) for each in value] if isinstance(value, tuple) else value


def read(text: str | bytes, *, is_told: bool = False) -> object:
    """The request that a line spells, or the answer, which may be a newer version's."""
    try:
        found = json.loads(text)
        kind = kind_of(str(found.pop("kind")))
    except (ValueError, KeyError, TypeError, AttributeError):
        raise BadRequest("a line that names no request and no answer") from None
    return made(kind, found, is_told)


def kind_of(name: str) -> Any:
    """The class of this name."""
    if not hasattr(requests, name):
        from agent.service import operators

        return vars(operators)[name]
    return vars(requests)[name]


def made(kind: Any, value: Any, is_told: bool = False) -> Any:
    """A value of this kind, out of what JSON holds. Of what is told unknown fields are left out."""
    origin, args = typing.get_origin(kind), typing.get_args(kind)
    if origin is types.UnionType:
        return None if value is None and type(None) in args else made(args[0], value, is_told)
    if origin is tuple and isinstance(value, list):
        return tuple(made(args[0], each, is_told) for each in value)
    if origin is dict and isinstance(value, dict):
        return {key: made(args[1], each, is_told) for key, each in value.items()}
    if hasattr(kind, "_fields") and isinstance(value, dict):
        hints = typing.get_type_hints(kind)
        unknown = value.keys() - hints.keys()
        if unknown and not is_told:
            raise BadRequest(f"{kind.__name__} has no {', '.join(sorted(unknown))}")
        try:
            return kind(**{name: made(hints[name], each, is_told) for name, each in value.items() if name in hints})
        except TypeError as fault:
            raise BadRequest(f"{kind.__name__}: {fault}") from None
    if kind is float and type(value) is int:
        return float(value)
    if origin is None and type(value) is kind:
        return value
    raise BadRequest(f"{value!r:.80} is no {getattr(kind, '__name__', kind)}")
