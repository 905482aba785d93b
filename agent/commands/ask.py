"""Commands that ask the coordinator, and those that clear away.

Owes the filters nothing.
"""
from __future__ import annotations

import argparse
import contextlib
import json
import os
import subprocess
import tempfile
import time
from typing import TYPE_CHECKING

from agent.commands.run import node_sockets
from agent.faults import FAULT, FarmFault, UsageFault, show, tell
from agent.service import client
from agent.service.carried import plain
from agent.service.operators import (
    Counted, CountsRequest, HistoryRequest, LogRequest, LostRequest, Past, PruneRequest, RetireRequest, Status, StatusRequest, Version, Versions,
    WithdrawRequest,
)
from agent.service.requests import StorePlace, StoreRequest
from agent.words import version_of

if TYPE_CHECKING:
    from agent.counts import Sample
    from agent.store.folder import Store

LAST = 3  # versions of a folder that `status --json` and the page tell


def coordinator_of(args: argparse.Namespace) -> str:
    """The coordinator's socket."""
    return f"{args.home}/coordinator.sock"


def operate(args: argparse.Namespace, request: WithdrawRequest | RetireRequest | PruneRequest) -> int:
    """Has the coordinator do something. What came of it is said."""
    return client.ask(coordinator_of(args), request).status


def _ago(at: float | None) -> str:
    return f"for {time.time() - at:.0f} s" if at else "since before its agent began"


def do_status(args: argparse.Namespace) -> int:
    told = client.told_at(coordinator_of(args), StatusRequest(last=LAST if args.json else 0), Status)
    if args.json:
        show(json.dumps(plain(told), indent=2))
        return 0
    for lease in told.leases:
        slots = ", ".join(lease.slots)
        what = f"has {slots} open" if lease.kind == "tenure" else f"has {slots}" if slots else "runs a command without folders of its own"
        show(f"node {lease.node} {what} {_ago(lease.since)}, ticket {lease.ticket}")
    for waiting in told.waiting:
        left = ", and nobody there wants it any more" if waiting.left else ""
        show(f"node {waiting.node} waits for {', '.join(waiting.folders)}{left}")
    for each in told.snapshots:
        what = f"runs a command on {each.slot} version {each.version}" if each.state == "running" else f"merges into {each.slot}"
        show(f"node {each.node} {what} {_ago(each.since)}")
    for folder in told.folders:
        show(f"{folder.slot} is at version {folder.version}")
    if told.folders:
        show(f"{told.versions} versions in all, in a record of {told.record / 1e6:.1f} MB")
    for node in told.gone:
        show(f"node {node} was retired")
    if not told.leases and not told.waiting and not told.snapshots:
        show("nobody has or wants a folder")
    for trouble in told.troubles:
        show(trouble)
    return 0


def do_web(args: argparse.Namespace) -> int:
    from agent.web import web

    def read() -> Status:
        return client.told_at(coordinator_of(args), StatusRequest(last=LAST), Status, shows=False)

    def past(after: int) -> Past:
        return client.told_at(coordinator_of(args), HistoryRequest(after=after), Past, shows=False)

    return web.serve(args.address, args.port, web.Sources(read, past, lambda: counted(args.home)))


def counted(home: str) -> tuple[Sample, ...]:
    """What the agents of this machine counted, each process once."""
    found = dict[int, Counted]()
    for path in (f"{home}/coordinator.sock", *node_sockets(home)):
        with contextlib.suppress(FarmFault):  # also where an older version of it runs
            told = client.told_at(path, CountsRequest(), Counted, shows=False)
            found.setdefault(told.process, told)
    return tuple(sample for told in found.values() for sample in told.samples)


def do_log(args: argparse.Namespace) -> int:
    if not args.lost and not args.folder:
        raise UsageFault("farm log wants a folder, as farm log locked:ccache")
    told = client.told_at(coordinator_of(args), log_of(args, args.folder), Versions)
    if not told.slots and not args.lost:
        raise FarmFault(f"{args.folder} has no version")
    if args.json:
        show(json.dumps(plain(told.slots), indent=2))
        return 0
    for slot, versions in told.slots.items():
        for version in versions:
            how = "lost" if args.lost else f"ticket {version.ticket}"
            show(" ".join(filter(None, (f"{slot} version {version.version} {how} {version.digest}", past_of(version), version.note))))
    return 0


def past_of(version: Version) -> str:
    """What the history has of a version, in words."""
    if version.at is None:
        return ""
    from agent.commands.past import clock, hits_words, size_words

    where = f"node {version.node}" if version.node else "pruned"
    by = f"by {version.who}" if version.who else ""
    held = f"held {version.held:.1f} s" if version.held is not None else ""
    return " ".join(filter(None, (clock(version.at), where, by, size_words(version.files, version.size), held, hits_words(version.hits))))


def log_of(args: argparse.Namespace, folder: str | None) -> LogRequest | LostRequest:
    return LostRequest(folder=folder) if args.lost else LogRequest(folder=folder or "")


def do_get(args: argparse.Namespace) -> int:
    from agent.folders import trees

    folder, number = version_of(args.folder)
    told = client.told_at(coordinator_of(args), log_of(args, folder), Versions).slots
    if len(told) != 1:
        raise FarmFault(f"{folder} has no version" if not told else f"name one of {', '.join(told)}")
    versions = next(iter(told.values()))
    found = [each for each in versions if number in (None, each.version)]
    if not found:
        raise FarmFault(f"{folder} has the versions 1 to {len(versions)}")
    store = store_at(args.home, client.told_at(coordinator_of(args), StoreRequest(), StorePlace))
    index = store.index(found[-1].digest)
    if index is None:
        raise FarmFault(f"the content of version {found[-1].version} isn't in the store any more")
    if args.to != "-":
        trees.extract_whole(store, index, os.path.abspath(args.to))
        return 0
    with tempfile.TemporaryDirectory() as room:
        trees.extract_whole(store, index, f"{room}/folder")
        return subprocess.run(["tar", "-C", f"{room}/folder", "-c", "."], stdin=subprocess.DEVNULL).returncode and FAULT


def store_at(home: str, place: StorePlace) -> Store:
    """The store of a farm of this machine."""
    from agent.store.opened import open_store
    from agent.transport.keys import key_of
    from agent.transport.redis_wire import signed_in

    key = key_of(home)
    return open_store(home, [signed_in(each, key.password()) for each in (place.broker or "").split()], place.contents, key.names)


def do_withdraw(args: argparse.Namespace) -> int:
    return operate(args, WithdrawRequest(ticket=args.ticket))


def do_retire(args: argparse.Namespace) -> int:
    return operate(args, RetireRequest(node=args.node, is_gone=args.gone, is_last_too=args.yes))


def do_expel(args: argparse.Namespace) -> int:
    return operate(args, RetireRequest(node=args.node, is_gone=True, is_last_too=True))


def do_prune(args: argparse.Namespace) -> int:
    return operate(args, PruneRequest(folder=args.folder))


def do_gc(args: argparse.Namespace) -> int:
    """On the coordinator's machine all that the farm keeps; on another one what its own nodes have."""
    from agent.service.forgetting import Rule, alone, collect

    with alone(args.home, waits=True) if os.path.isdir(args.home) else contextlib.nullcontext():
        done = collect(args.home, Rule(keep=args.keep, grace=args.grace), list(node_sockets(args.home)), lambda place: store_at(args.home, place))
    for each in done.stores:
        if each.is_shared:
            show(f"{each.name} forgot {each.indexes} indexes and {each.chunks} chunks")
    own = [each for each in done.stores if not each.is_shared]
    show(f"forgot {done.contents} contents of nodes, {sum(each.indexes for each in own)} indexes and {sum(each.chunks for each in own)} chunks")
    for text in done.unreadable:
        tell(text)
    return FAULT if done.unreadable else 0
