"""What people are told of the past: of versions, and of a folder that somebody waits for.

Owes the filters nothing.
"""
from __future__ import annotations

import json
import re
from itertools import islice
from typing import Iterable

from agent.history.events import STEPS, Event, cut, slot_name, slot_of
from agent.history.kept import History
from agent.service.operators import HistoryRequest, Past, Status, Usual, Version, Why

AT = re.compile(r'"at":([0-9]+(\.[0-9]+)?)', re.ASCII)
HOLDS_MOST = 1_000  # of the newest, of which a median is taken
TOLD_MOST = 20_000  # events that are told at once
COUNTS = ("commit", "release")  # ends of which is learned how long something takes


def past_of(history: History, asked: HistoryRequest) -> Past:
    """Lines of what somebody asks for, the newest last, and of little else."""
    if asked.after is not None:
        last, lines = history.after(asked.after if asked.after <= history.number else 0)
        return Past(last=last, lines=tuple(lines))
    parts = [] if asked.folder is None else [part_of(slot_of(asked.folder))]
    parts += [] if asked.node is None else [f'"node":{asked.node},']
    lines, left_out = list[str](), 0
    for line in history.lines(*parts):
        if asked.since is not None and (found := AT.search(line)) and float(found[1]) < asked.since:
            break
        if len(lines) < TOLD_MOST:
            lines.append(line)
        else:
            left_out += 1
    return Past(last=history.number, lines=tuple(reversed(lines)), left_out=left_out)


def part_of(slot: str) -> str:
    """What a line has that names a folder, or any instance of it."""
    return json.dumps(slot.partition("#")[0])[1:-1]


def with_past(history: History, slot: str, versions: Iterable[Version]) -> tuple[Version, ...]:
    """Versions with what the history has of each."""
    name = cut(slot)
    known: dict[int, Event] = {}
    for kind in ("commit", "prune"):
        for event in history.events(f'"kind":"{kind}"', part_of(name)):
            if event.is_of(name):
                known.setdefault(event.ticket, event)
    return tuple(_with_event(version, name, known.get(version.ticket)) for version in versions)


def _with_event(version: Version, slot: str, event: Event | None) -> Version:
    if event is None:
        return version
    number, files, size = event.versions.get(slot, (version.version, None, None))
    if number != version.version:  # of a generation before this one
        return version
    return version._replace(at=event.at, node=event.node, who=event.who, files=files, size=size, held=event.held, hits=event.hits.get(slot, event.hits.get(STEPS)))


def why_of(history: History, folder: str, status: Status) -> Why:
    """Who has a folder, who waits for it, and how long that usually takes."""
    name = slot_of(folder)

    def has(words: Iterable[str]) -> bool:
        return Event("ask", folders=tuple(map(cut_word, words))).is_of(name)

    ends = list(islice((event for event in history.events('"held":', part_of(name)) if event.kind in COUNTS and event.is_of(name)), HOLDS_MOST))
    return Why(
        now=status.now, leases=tuple(lease for lease in status.leases if has(lease.slots)),
        waiting=tuple(each for each in status.waiting if has(each.folders)), snapshots=tuple(each for each in status.snapshots if has([each.slot])),
        held=usual(event.held for event in ends), waited=usual(event.waited for event in ends),
        is_known=any(has([each.slot]) for each in status.folders),
    )


def cut_word(word: str) -> str:
    return cut(slot_name(word))


def median(found: list[float]) -> float:
    sorts = sorted(found)
    return (sorts[(len(sorts) - 1) // 2] + sorts[len(sorts) // 2]) / 2


def usual(seconds: Iterable[float | None]) -> Usual | None:
    found = [each for each in seconds if each is not None]
    return Usual(times=len(found), median=median(found), most=max(found)) if found else None
