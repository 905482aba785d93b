"""One thing that came to pass, as a line of JSON.

Owes the filters nothing. A line that is none is skipped by whoever reads it.
"""
from __future__ import annotations

import hashlib
import json
import re
from typing import Any, Iterable, NamedTuple

from agent.words import lined

WORD = re.compile(r"[!-~]+")
WHO = re.compile(r"[!-~]{1,64}")
ENDS = ("commit", "release", "fence", "withdraw", "lost")  # of a lease
KINDS = ("ask", "wait", "deny", "leave", "grant", "begin", *ENDS, "prune", "retire")
STEPS = "steps"  # in the place of a slot, of hits: how many of a build's steps were cached
FOLDERS_MOST, FOLDER_MOST = 16, 256  # of one event, and characters of one: more are cut
GREATEST = 2**53  # a number that every reader of JSON takes as it is


class Event(NamedTuple):
    """What came to pass. Of what isn't known there is nothing."""

    kind: str
    number: int = 0  # rises from one event to the next
    at: float = 0.0  # time of day
    node: int = 0  # none: the operator's
    ticket: int = 0
    ask: int = 0
    folders: tuple[str, ...] = ()  # slots of a lease, or the folders of an ask; `ro=` before one that is only read
    who: str = ""
    versions: dict[str, tuple[int, int | None, int | None]] = {}  # of a slot: the number, files and bytes of its new version
    waited: float | None = None  # seconds: from the ask to the grant, or until nobody wanted it any more; of a begin from the caller's wish on
    held: float | None = None  # seconds from the grant to this end of it
    hits: dict[str, tuple[int, int]] = {}  # of a slot's ccache, or of `steps`: how much was there, of how much

    def is_of(self, folder: str) -> bool:
        """Whether it is of a folder, or of one slot."""
        return any(slot_name(each).partition("#")[0] == folder or slot_name(each) == folder for each in self.folders)


def slot_name(word: str) -> str:
    return word.removeprefix("ro=")


def cut(text: str) -> str:
    """A folder as events name it: one that is too long by its beginning, and a digest."""
    front, mark, instance = text.partition("#")
    if len(front) > FOLDER_MOST:
        front = f"{front[:FOLDER_MOST - 20]}..{hashlib.sha256(front.encode()).hexdigest()[:16]}"
    return f"{front}{mark}{instance[:8]}"


def slot_of(folder: str) -> str:
    """The name under which the history has a folder: what a merged one commits is of the locked one."""
    return cut(lined(folder))


def cut_all(words: Iterable[str]) -> tuple[str, ...]:
    found = [word for word in words if WORD.fullmatch(word)][:FOLDERS_MOST]
    return tuple("ro=" * word.startswith("ro=") + cut(slot_name(word)) for word in found)


def line_of(event: Event) -> str:
    """The event as a line, without its end. What isn't known is left out."""
    known = ((name, value) for name, value in zip(event._fields, event) if value or isinstance(value, float))
    return json.dumps({name: round(value, 3) if isinstance(value, float) else value for name, value in known}, separators=(",", ":"))


def event_of(line: str) -> Event | None:
    """The event that a line spells; none, where it spells none. What a newer agent tells beside is left out."""
    try:
        found = json.loads(line)
        return _made(found) if isinstance(found, dict) and is_event(found) else None
    except (ValueError, TypeError, RecursionError):
        return None


def _made(found: dict[str, Any]) -> Event:
    versions, hits = ({slot: tuple(some) for slot, some in found.get(name, {}).items()} for name in ("versions", "hits"))
    known = {name: value for name, value in found.items() if name in SHAPES}
    whole: dict[str, Any] = known | {"folders": tuple(found.get("folders", ())), "versions": versions, "hits": hits}
    return Event(**whole)


def is_event(found: dict[str, Any]) -> bool:
    """Whether each value is one that an event may have."""
    return found.get("kind") in KINDS and _is_time(found.get("at")) and all(SHAPES[name](value) for name, value in found.items() if name in SHAPES)


def _is_number(value: Any) -> bool:
    return type(value) is int and 0 <= value < GREATEST


def _is_time(value: Any) -> bool:
    return type(value) in (int, float) and 0 <= value < 1e11


def _is_folder(value: Any) -> bool:
    return isinstance(value, str) and len(value) <= FOLDER_MOST + 12 and WORD.fullmatch(value) is not None


def _are_folders(value: Any) -> bool:
    return isinstance(value, list) and len(value) <= FOLDERS_MOST and all(map(_is_folder, value))


def _are_versions(value: Any) -> bool:
    return isinstance(value, dict) and _are_folders(list(value)) and all(map(_is_version, value.values()))


def _is_version(value: Any) -> bool:
    return isinstance(value, list) and len(value) == 3 and _is_number(value[0]) and all(each is None or _is_number(each) for each in value[1:])


def _are_hits(value: Any) -> bool:
    return isinstance(value, dict) and _are_folders(list(value)) and all(map(_are_counts, value.values()))


def _are_counts(value: Any) -> bool:
    return isinstance(value, list) and len(value) == 2 and all(map(_is_number, value)) and value[0] <= value[1]


SHAPES = {
    "kind": lambda value: value in KINDS, "number": _is_number, "at": _is_time, "node": _is_number, "ticket": _is_number, "ask": _is_number,
    "folders": _are_folders, "who": lambda value: isinstance(value, str) and WHO.fullmatch(value) is not None, "versions": _are_versions,
    "waited": _is_time, "held": _is_time, "hits": _are_hits,
}
