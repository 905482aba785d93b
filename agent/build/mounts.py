"""The cache mounts of a RUN, and which folder each wants.

Owes the filters that no id becomes a path, and that what can't be carried out is refused by its name and line.
"""
from __future__ import annotations

import posixpath
import re
from dataclasses import dataclass
from typing import Iterable, Mapping

from agent.build.dockertext import BadDockerfile
from agent.words import SHARINGS, folder_text


@dataclass
class Mount:
    line: int
    id: str
    sharing: str
    target: str
    writable: bool
    uid: int
    gid: int
    mode: int

    @property
    def folder(self) -> str:
        return folder_text(self.sharing, self.id)


class _Parts:
    """The keys of a mount's word, each taken once."""

    def __init__(self, line: int, word: str) -> None:
        self.line, self.word = line, word
        self.values: dict[str, str | None] = {}
        for part in word.split(","):
            key, equals, value = part.partition("=")
            name = key.strip().lower()
            if name in self.values and "cache" in word.lower():
                raise self.refuse(f"{name} is said twice")
            self.values[name] = value if equals else None

    def refuse(self, why: str) -> BadDockerfile:
        shown = self.word if len(self.word) <= 200 else f"{self.word[:200]}.."
        return BadDockerfile(self.line, f"cache mount {shown!r}: {why}")

    def take(self, *keys: str) -> str | None:
        """The value of one of these keys; none where it is empty."""
        found = [value for value in (self.values.pop(key, None) for key in keys) if value]
        if len(found) > 1:
            raise self.refuse(f"{' and '.join(keys)} say the same thing twice")
        return found[0] if found else None

    def number(self, key: str, base: int, least: int, most: int) -> int:
        value = self.values.pop(key, None)
        if value is None:
            return least
        if not re.fullmatch(r"[0-7]{1,11}" if base == 8 else r"[0-9]{1,10}", value) or int(value, base) > most:
            raise self.refuse(f"{key}={value} is no number in its range")
        return int(value, base)

    def flag(self, key: str) -> bool | None:
        if key not in self.values:
            return None
        value = self.values.pop(key)
        if value not in (None, "", "true", "false", "1", "0"):
            raise self.refuse(f"{key} is true or false")
        return value not in ("false", "0")


def modes_of(words: Iterable[str]) -> dict[str, str]:
    """What each id's SHARED mounts are treated as, and under "" all others: of words `MODE` and `ID=MODE`."""
    return {"": "shared"} | {identifier: mode for identifier, _, mode in (word.rpartition("=") for word in words)}


def mount_of(line: int, word: str, modes: Mapping[str, str]) -> Mount | None:
    """The cache mount that a `--mount=` word says; none where it is of another type. What SHARED ones are treated as `modes` says."""
    parts = _Parts(line, word)
    if (parts.take("type") or "bind").lower() != "cache":
        return None
    begins = parts.take("from")
    if begins:
        raise parts.refuse(f"from={begins} isn't carried out: a leased folder begins with its last version, and with no stage")
    source = parts.take("source", "src")
    if source and source != "/":
        raise parts.refuse(f"source={source} isn't carried out: without a `from` there is nothing that it lies in")
    target = _target(parts)
    sharing = (parts.take("sharing") or "shared").lower()
    if sharing not in SHARINGS:
        raise parts.refuse(f"sharing={sharing}: it is shared, private or locked")
    writable = _is_writable(parts)
    uid, gid, mode = parts.number("uid", 10, 0, 2**31), parts.number("gid", 10, 0, 2**31), parts.number("mode", 8, 0o755, 0o7777)
    identifier = parts.take("id") or target
    if parts.values:
        raise parts.refuse(f"{', '.join(sorted(parts.values))}: no key of a cache mount that is carried out")
    return Mount(line, identifier, modes.get(identifier, modes[""]) if sharing == "shared" else sharing, target, writable, uid, gid, mode)


def _target(parts: _Parts) -> str:
    target = parts.take("target", "dst", "destination")
    if not target:
        raise parts.refuse("it has no target")
    if not target.startswith("/"):
        raise parts.refuse(f"target={target} is relative, and the builder refuses that")
    if re.search(r"[\s\"'\\$,\ud800-\udfff]", target):
        raise parts.refuse("its target has a space, quote, backslash or $, which the builder would read once more, or what isn't UTF-8")
    whole = posixpath.normpath("/" + target.lstrip("/"))
    if whole == "/":
        raise parts.refuse("a target of / hides the image")
    return whole


def _is_writable(parts: _Parts) -> bool:
    read_only = [flag for flag in (parts.flag("readonly"), parts.flag("ro")) if flag is not None]
    writable = [flag for flag in (parts.flag("readwrite"), parts.flag("rw")) if flag is not None]
    said = {*writable, *(not flag for flag in read_only)}
    if len(said) > 1:
        raise parts.refuse("it is said to be read-only and not")
    return said != {False}
