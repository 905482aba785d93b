"""Commands that tell the past: what came to pass, and why somebody waits.

Owes the filters nothing.
"""
from __future__ import annotations

import argparse
import time
from typing import Sequence

from agent.faults import FarmFault, UsageFault, show, tell
from agent.history.events import STEPS, Event, event_of, slot_of
from agent.service import client
from agent.service.operators import HistoryRequest, Lease, Past, Usual, Waiting, Why, WhyRequest
from agent.words import WANTED


def clock(at: float) -> str:
    return time.strftime("%Y-%m-%dT%H:%M:%SZ", time.gmtime(at))


def size_words(files: int | None, size: int | None) -> str:
    return "" if files is None or size is None else f"{files} file{'s' * (files != 1)} {size} bytes"


def hits_words(hits: Sequence[int] | None) -> str:
    return f"{hits[0]} of {hits[1]} hits" if hits else ""


def check_folder(folder: str) -> str:
    if not WANTED.fullmatch(folder.partition("#")[0]):
        raise UsageFault(f"{folder!r} is no folder")
    return folder


def do_history(args: argparse.Namespace) -> int:
    asked = HistoryRequest(folder=args.folder and check_folder(args.folder), node=args.node, since=args.since)
    told = client.told_at(f"{args.home}/coordinator.sock", asked, Past)
    slot = asked.folder and slot_of(asked.folder)
    for line in told.lines:
        event = event_of(line)
        if event and (not slot or event.is_of(slot)) and asked.node in (None, event.node):
            show(line if args.json else words_of(event))
    if told.left_out:
        tell(f"{told.left_out} older events are left out: name a folder, a --node, or --since")
    return 0


def words_of(event: Event) -> str:
    """An event in one line."""
    where = f"node {event.node}" if event.node else "operator"
    folders = " ".join(f"{slot} {_version(event, slot)}".rstrip() for slot in event.folders)
    ticket = f"ticket {event.ticket}" if event.ticket else f"ask {event.ask}" if event.ask else ""
    by = f"by {event.who}" if event.who else ""
    waited = f"waited {event.waited:.1f} s" if event.waited is not None and event.kind != "commit" else ""
    held = f"held {event.held:.1f} s" if event.held is not None else ""
    hits = ", ".join(f"{name} {hits_words(found)}" if name == STEPS or len(event.hits) > 1 else hits_words(found) for name, found in event.hits.items())
    return " ".join(filter(None, (clock(event.at), where, event.kind, folders, ticket, by, waited, held, hits)))


def _version(event: Event, slot: str) -> str:
    number, files, size = event.versions.get(slot, (None, None, None))
    return "" if number is None else f"version {number} {size_words(files, size)}".rstrip()


def do_why(args: argparse.Namespace) -> int:
    told = client.told_at(f"{args.home}/coordinator.sock", WhyRequest(folder=check_folder(args.folder)), Why)
    for lease in told.leases:
        show(f"{_name(lease)} has it{_since(lease.since, told.now)}, ticket {lease.ticket}")
    for each in told.snapshots:
        does = f"runs a command on version {each.version} of it" if each.state == "running" else "merges into it"
        show(f"node {each.node} {does}{_since(each.since, told.now)}")
    if not told.leases:
        show("nobody has it")
    before = [_name(lease) for lease in told.leases]
    for waiting in told.waiting:
        for_whom = f" for {' and '.join(before)}" if before else ""
        left = ", and nobody there wants it any more" if waiting.left else ""
        show(f"{_name(waiting)} waits{for_whom}{_since(waiting.since, told.now)}{left}")
        before.append(_name(waiting))
    if not told.is_known and not told.leases and not told.waiting and told.held is None:
        raise FarmFault(f"nobody ever had {args.folder}, as far as this farm knows")
    show(_usually("it is usually held", told.held))
    show(_usually("an ask for it usually waits", told.waited))
    return 0


def _name(who: Lease | Waiting) -> str:
    return f"node {who.node}{f' ({who.who})' if who.who else ''}"


def _since(at: float | None, now: float) -> str:
    return f" since {clock(at)} ({max(0.0, now - at):.0f} s)" if at else ""


def _usually(what: str, usual: Usual | None) -> str:
    if usual is None:
        return f"{what} for a time that the history doesn't know"
    return f"{what} for {usual.median:.1f} s (the median of {usual.times} time{'s' * (usual.times != 1)}, the longest {usual.most:.1f} s)"
