"""How much room versions take in a farm's store.

Owes the filters nothing.
"""
from __future__ import annotations

import argparse
import json
from collections import Counter
from dataclasses import asdict, dataclass

from agent.commands.ask import coordinator_of, store_at
from agent.faults import show
from agent.service import client
from agent.service.forgetting import size_of
from agent.service.operators import FolderStatus, Status, StatusRequest
from agent.service.requests import StorePlace, StoreRequest
from agent.store.chunks import chunk_names
from agent.store.folder import Store, Tally
from agent.words import EMPTY

ALL = 1 << 62  # versions of a folder


@dataclass(frozen=True)
class Size:
    """What one slot's versions take."""

    slot: str
    versions: int  # that it ever had
    kept: int  # those whose contents are in the store
    size: int  # bytes of these, each chunk once
    own: int  # of chunks that no other slot has


def do_du(args: argparse.Namespace) -> int:
    told = client.told_at(coordinator_of(args), StatusRequest(last=ALL), Status)
    store = store_at(args.home, client.told_at(coordinator_of(args), StoreRequest(), StorePlace))
    tally = store.tally()
    used = [(folder, _chunks_of(store, tally, folder)) for folder in told.folders]
    users = Counter(name for _, names in used for name in names)
    sizes = [_size(folder, names, tally, users) for folder, names in used]
    unused = tally.size() - sum(size for name, size in tally.chunks.items() if users[name]) - sum(kept.size for kept in tally.indexes.values())
    if args.json:
        show(json.dumps({"folders": [asdict(each) for each in sizes], "bytes": tally.size(), "unused": unused}, indent=2))
        return 0
    for each in sorted(sizes, key=lambda each: -each.size):
        show(f"{each.slot}: {size_of(each.size)}, {size_of(each.own)} of it no other folder's; {each.kept} of {each.versions} versions are kept")
    show(f"{size_of(tally.size())} in {len(tally.indexes)} contents and {len(tally.chunks)} chunks; no version names {size_of(unused)} of it")
    return 0


def _chunks_of(store: Store, tally: Tally, folder: FolderStatus) -> set[str]:
    """The chunks that are there of a slot's versions."""
    indexes = (store.index(digest) for digest in {version.digest for version in folder.versions} if digest in tally.indexes)
    return {name for index in indexes if index for name in chunk_names(index) if name in tally.chunks}


def _size(folder: FolderStatus, names: set[str], tally: Tally, users: Counter[str]) -> Size:
    kept = sum(version.digest in tally.indexes or version.digest == EMPTY for version in folder.versions)
    own = sum(tally.chunks[name] for name in names if users[name] == 1)
    return Size(folder.slot, folder.version, kept, sum(tally.chunks[name] for name in names), own)
