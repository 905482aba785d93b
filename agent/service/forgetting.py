"""Forgetting what nothing needs: by hand, as `farm gc` asks, and by itself, by a thread of an agent.

Owes the filters nothing: stores see to it that what is needed, held or young stays, and an agent's filter to what that has.
"""
from __future__ import annotations

import contextlib
import fcntl
import os
import threading
import time
from collections import Counter
from dataclasses import dataclass
from typing import Callable, Iterator, NamedTuple

from agent.counts import Counts
from agent.faults import FarmFault, UsageFault, sentence, tell
from agent.logs import DEBUG, ERROR, NOTICE, WARNING, Log
from agent.service import client
from agent.service.operators import Status, StatusRequest
from agent.service.requests import Digests, ForgetRequest, Forgotten, NeededRequest, StorePlace, StoreRequest
from agent.store.chunks import chunk_names
from agent.store.folder import FolderStore, Store, Tally
from agent.store.shared import SharedStore

GRACE = 3600.0  # seconds
FULL = 0.8  # of the most bytes: what has more is told


@dataclass(frozen=True, kw_only=True)
class Rule:
    """What stays, beside what a live lease needs or a commit holds: the last versions of each folder, and what is younger than the grace."""

    keep: int = 1
    grace: float = GRACE  # seconds
    young: float = 0.0  # seconds: what is younger stays too, unless a store has more than the most bytes
    most: int | None = None  # bytes of a store
    every: float | None = None  # seconds from one run to the next; none: by hand alone


class Forgot(NamedTuple):
    """What went from one store."""

    name: str
    is_shared: bool
    indexes: int
    chunks: int
    before: Tally | None  # where it was asked for
    after: Tally | None


class Done(NamedTuple):
    contents: int  # of nodes
    stores: tuple[Forgot, ...]
    unreadable: tuple[str, ...]  # what is needed and can't be read, in words


def collect(home: str, rule: Rule, sockets: list[str], open_store: Callable[[StorePlace], Store], is_by_hand: bool = True) -> Done:
    """Forgets, on the coordinator's machine, all that the farm keeps and needs no more; on another one what its own nodes have. By hand what an
    agent refuses is shown, else what each store had and has is looked at."""
    if rule.keep < 1:
        raise UsageFault("the last version of a folder is always kept: --keep is at least 1")
    coordinator = f"{home}/coordinator.sock"
    is_coordinators = client.is_there(coordinator) or not sockets
    shows, path, begun, unreadable = is_by_hand, coordinator if is_coordinators else sockets[0], time.monotonic(), set[str]()
    kept = client.told_at(path, StoreRequest(), StorePlace, shows=shows)

    def needed() -> set[str]:
        return set(client.told_at(path, NeededRequest(keep=rule.keep), Digests, shows=shows).digests)

    def grace(seconds: float) -> float:
        return seconds + time.monotonic() - begun

    forgets = ForgetRequest(needed=tuple(sorted(needed())), grace=grace(max(rule.grace, rule.young)))
    contents = sum(client.told_at(node, forgets, Forgotten, shows=shows).contents for node in sockets)
    store = open_store(kept)
    done = list[Forgot]()
    if is_coordinators and isinstance(store, SharedStore):
        done.append(_forget(store, kept.contents or "Redis", rule, needed, grace, unreadable.add, is_by_hand))
    folder = store.folder if isinstance(store, SharedStore) else store
    assert isinstance(folder, FolderStore)
    is_known = folder is store  # of what a shared store has a machine's own folder need not have all
    if is_coordinators or not is_known or not kept.contents:  # a folder that all see is the coordinator's business
        done.append(_forget(folder, folder.root, rule, needed, grace, unreadable.add if is_known else lambda digest: None, is_by_hand))
    return Done(contents, tuple(done), tuple(_unreadable(path, rule.keep, unreadable, shows) if is_coordinators else ()))


def _forget(
    store: Store, name: str, rule: Rule, needed: Callable[[], set[str]], grace: Callable[[float], float], tell: Callable[[str], None],
    is_by_hand: bool,
) -> Forgot:
    before = None if is_by_hand else store.tally()
    indexes, chunks = store.forget(needed, grace(max(rule.grace, rule.young)), tell)
    tried = set[str]()
    while rule.most is not None and rule.young > rule.grace and (found := _beyond(store, rule, needed(), tried)) is not None:
        age, stays = found  # what is younger may be as old as that by the time that it is looked at
        more, pieces = store.forget(lambda: needed() | stays, max(age, rule.grace), lambda digest: None if digest in stays else tell(digest))
        indexes, chunks = indexes + more, chunks + pieces
    return Forgot(name, isinstance(store, SharedStore), indexes, chunks, before, None if is_by_hand else store.tally())


def _beyond(store: Store, rule: Rule, kept: set[str], tried: set[str]) -> tuple[float, set[str]] | None:
    """The age from which on contents have to go, so that the store has no more than the most bytes, and those that stay: of those that aren't
    needed, and weren't tried before and held, the oldest go first. None where it hasn't more, or no others are there."""
    tally = store.tally()
    over, age = tally.size() - (rule.most or 0), None
    old = sorted(((each.age, digest) for digest, each in tally.indexes.items() if digest not in kept | tried and each.age > rule.grace), reverse=True)
    users = Counter(name for digest in tally.indexes if old and over > 0 for name in chunk_names(store.index(digest) or b""))
    for age_of_next, digest in old:
        if over <= 0:
            break
        over -= tally.indexes[digest].size + _alone(tally, users, chunk_names(store.index(digest) or b""))
        tried.add(digest)
        age = age_of_next
    return None if age is None else (age, tally.indexes.keys() - tried)


def _alone(tally: Tally, users: Counter[str], names: list[str]) -> int:
    """The bytes of the chunks that nothing names any more once this content is gone."""
    users.subtract(names)
    return sum(tally.chunks.get(name, 0) for name in names if not users[name])


def _unreadable(path: str, keep: int, digests: set[str], shows: bool) -> Iterator[str]:
    """Names the versions that couldn't be read."""
    folders = client.told_at(path, StatusRequest(last=keep), Status, shows=shows).folders if digests else ()
    for digest in sorted(digests):
        names = [f"{each.slot} version {version.version}" for each in folders for version in each.versions if version.digest == digest]
        yield (
            f"the content {digest} of {', '.join(names) or 'a live lease'} can't be read, so no chunk that may be its own is forgotten: run a command on "
            "that folder, which asks the other nodes for it, or farm prune it"
        )


@contextlib.contextmanager
def alone(home: str, waits: bool) -> Iterator[bool]:
    """Whether nobody else forgets in this home meanwhile. It takes no room, so that a full disk can be cleared."""
    lock = os.open(home, os.O_RDONLY | os.O_DIRECTORY)
    try:
        is_alone = _locks(lock, fcntl.LOCK_NB)
        if not is_alone and waits:
            tell("waiting for another gc in this home")
            is_alone = _locks(lock, 0)
        yield is_alone
    finally:
        os.close(lock)


def _locks(handle: int, how: int) -> bool:
    try:
        fcntl.flock(handle, fcntl.LOCK_EX | how)
        return True
    except BlockingIOError:
        return False


class ByItself:
    """Forgets at its times, in a thread of an agent. A run that fails is tried again at the next time."""

    def __init__(self, home: str, rule: Rule, store: Store, sockets: list[str], counts: Counts, log: Log) -> None:
        self.home, self.rule, self.store, self.sockets, self.counts, self.log = home, rule, store, sockets, counts, log.of(part="gc")
        self.over = threading.Event()
        for how in ("done", "failed"):
            counts.add("gc_runs_total", 0, how=how)

    def start(self) -> None:
        threading.Thread(target=self._run, daemon=True).start()

    def _run(self) -> None:
        assert self.rule.every is not None
        pause = self._first(self.rule.every)
        while not self.over.wait(pause):
            begun = time.monotonic()
            self.once()
            pause = max(0.0, self.rule.every - (time.monotonic() - begun))

    def _first(self, every: float) -> float:
        """Seconds until the first run: an agent that is often started anew forgets too."""
        with contextlib.suppress(OSError):
            since = time.time() - os.stat(f"{self.home}/gc").st_mtime
            return every - since if 0 <= since < every else 0.0 if since >= every else every
        return every

    def once(self) -> bool:
        """One run. Whether it was done."""
        try:
            with alone(self.home, waits=False) as is_alone:
                if not is_alone:
                    self.log("another one is under way in this home, so this one is left out", NOTICE)
                    return False
                with contextlib.suppress(OSError), open(f"{self.home}/gc", "w"):
                    pass  # its time tells the agents after this one when the last run began
                self._collect()
        except (FarmFault, OSError) as fault:
            if not self.over.is_set():
                why = sentence(fault) if isinstance(fault, OSError) else str(fault)
                self.log(f"it wasn't done, and is tried again in {self.rule.every or 0:.0f} s: {why}", ERROR)
                self.counts.add("gc_runs_total", how="failed")
            return False
        except Exception as fault:
            self.log.fault(fault)
            self.counts.add("gc_runs_total", how="failed")
            return False
        self.counts.add("gc_runs_total", how="done")
        self.counts.set("gc_last_seconds", time.time())
        return True

    def _collect(self) -> None:
        begun = time.monotonic()
        done = collect(self.home, self.rule, [path for path in self.sockets if client.is_there(path)], lambda place: self.store, is_by_hand=False)
        for text in done.unreadable:
            self.log(text, WARNING)
        for forgot in done.stores:
            if forgot.before and forgot.after:
                self._tell(forgot, forgot.before, forgot.after, time.monotonic() - begun)

    def _tell(self, forgot: Forgot, before: Tally, after: Tally, seconds: float) -> None:
        freed = sum(size for name, size in before.chunks.items() if name not in after.chunks)
        freed += sum(kept.size for digest, kept in before.indexes.items() if digest not in after.indexes)
        has, most = after.size(), self.rule.most
        self.log(
            f"{forgot.name} has {len(after.indexes)} contents and {len(after.chunks)} chunks, {size_of(has)}; it forgot {forgot.indexes} contents and "
            f"{forgot.chunks} chunks, {size_of(freed)}, in {seconds:.1f} s", NOTICE if after.indexes or forgot.chunks else DEBUG,
        )
        for name, value in (("store_bytes", has), ("store_chunks", len(after.chunks)), ("store_contents", len(after.indexes))):
            self.counts.set(name, value, store=forgot.name)
        self.counts.add("gc_freed_bytes_total", freed, store=forgot.name)
        if most is not None:
            self.counts.set("store_most_bytes", most, store=forgot.name)
            if has > most:
                self.log(f"{forgot.name} has {size_of(has)}, of --most-bytes {size_of(most)}, and all of it is needed, or too young to go", ERROR)
            elif has > FULL * most:
                self.log(f"{forgot.name} has {size_of(has)}, of --most-bytes {size_of(most)}", WARNING)


def size_of(count: float) -> str:
    """Bytes, for people."""
    for unit in ("bytes", "kB", "MB", "GB"):
        if count < 1000:
            return f"{count:.0f} {unit}" if unit == "bytes" else f"{count:.1f} {unit}"
        count /= 1000
    return f"{count:.1f} TB"
