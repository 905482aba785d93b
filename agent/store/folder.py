"""Where contents are kept: the indexes of folders by their digests, and the chunks that they name.

Owes the filters that an index and all its chunks are on the device, and in the shared store, before `publish` returns: only then may a
Commit name the digest. A store need not be trusted for what it hands out: an index is checked by its digest, a chunk by its name.
"""
from __future__ import annotations

import contextlib
import fcntl
import hashlib
import os
import time
from typing import Callable, Iterable, Iterator, NamedTuple, Protocol

from agent.counts import Counts
from agent.faults import FarmFault
from agent.logs import SILENT, Log
from agent.store.chunks import chunk_names, chunk_path, chunk_sizes, folder_size
from agent.store.holds import Holds
from agent.store.lasting import clock_of, put_file
from agent.store.packing import CHECKED, ChunkSpoilt, unpacked, wrong_names
from agent.words import DIGEST, EMPTY

LARGEST_CONTENT = 16 << 20  # bytes


FORGOTTEN_AT_ONCE, PAUSE = 200, 0.02  # chunks, and seconds between some and the next: in these commits that wait go on


class ChunksMissing(FarmFault):
    """Chunks of a content aren't here now. Another machine may give them to the store."""


class Kept(NamedTuple):
    """An index in a store."""

    age: float  # seconds since it was given, by the store's clock
    size: int  # bytes


class Tally(NamedTuple):
    """What a store has."""

    indexes: dict[str, Kept]  # by digest
    chunks: dict[str, int]  # of each the bytes that it takes

    def size(self) -> int:
        return sum(kept.size for kept in self.indexes.values()) + sum(self.chunks.values())


class Store(Protocol):
    chunks: str  # the folder in which casync reads and writes chunks
    counts: Counts
    log: Log

    def making(self) -> contextlib.AbstractContextManager[None]:
        """As long as it is held, nothing is forgotten."""

    def publish(self, index: bytes, away: Callable[[str], None] = lambda why: None, base: bytes = b"") -> str:
        """Keeps an index whose chunks are in the folder, and gives its digest. All of it lasts then. Why it isn't so yet `away` hears now and
        then, while a store that other machines share can't be reached. Each chunk is compared with its name before it is relied on. What the
        index of a version that isn't forgotten meanwhile has, the `base`, isn't looked for in a shared store where it was found already. It is
        held, so that nothing of it is forgotten, until `release`."""

    def release(self, digest: str, is_answered: bool = True) -> None:
        """What `publish` kept isn't held any more: its commit was answered; or what came of that isn't known, and it is held for the grace."""

    def index(self, digest: str) -> bytes | None:
        """The index of a digest; none where it isn't here."""

    def fetch(self, index: bytes) -> None:
        """Sees to it that the chunks of an index are in the folder."""

    def mend(self, index: bytes) -> bool:
        """Reads all chunks of an index anew: those that are spoilt are as good as missing. Whether any is."""

    def offer(self, digest: str) -> bool:
        """Gives the shared store what another machine misses there, where it is here. Whether it did."""

    def forget(self, ask: Callable[[], set[str]], grace: float, tell: Callable[[str], None] = lambda digest: None) -> tuple[int, int]:
        """Removes each index that isn't needed or held, and each chunk that no index left names, if it is older than the grace; how many of both
        went. Asks what is needed once nothing can be committed unseen. Where a content that is needed can't be read `tell` hears its digest,
        and of chunks only those go that what was removed had: the others may be its own."""

    def tally(self) -> Tally:
        """What it has, while others change that."""


def is_old(path: str, oldest: float) -> bool:
    """Whether a file was there at that time, and hasn't been written since."""
    try:
        return os.lstat(path).st_mtime <= oldest
    except FileNotFoundError:
        return False  # it has its whole name now, or somebody else forgot it


class FolderStore:
    """A folder, which several machines may share."""

    def __init__(self, root: str) -> None:
        self.root, self.chunks, self.indexes = root, f"{root}/chunks", f"{root}/indexes"
        self.holds = Holds(f"{root}/holds")
        self.counts, self.log = Counts(), SILENT
        os.makedirs(self.chunks, exist_ok=True)
        os.makedirs(self.indexes, exist_ok=True)

    @contextlib.contextmanager
    def _locked(self, how: int) -> Iterator[None]:
        handle = os.open(f"{self.root}/lock", os.O_RDWR | os.O_CREAT, 0o600)
        try:
            fcntl.flock(handle, how)
            yield
        finally:
            os.close(handle)

    def making(self) -> contextlib.AbstractContextManager[None]:
        return self._locked(fcntl.LOCK_SH)

    def publish(self, index: bytes, away: Callable[[str], None] = lambda why: None, base: bytes = b"") -> str:
        if len(index) > LARGEST_CONTENT:
            raise FarmFault(
                f"TooLarge: the content has {len(index)} bytes, and no line carries more than {LARGEST_CONTENT}. It is the index of a folder of "
                f"{folder_size(index)} bytes: keep that in several folders"
            )
        digest = hashlib.sha256(index).hexdigest()
        with self.counts.timed(self.root, "keep", self.log):
            self.fetch(index)
            self.holds.hold(digest)
            put_file(f"{self.indexes}/{digest}", index)
        return digest

    def release(self, digest: str, is_answered: bool = True) -> None:
        self.holds.release(digest, is_answered)

    def index(self, digest: str) -> bytes | None:
        if digest == EMPTY:
            return b""
        if not DIGEST.fullmatch(digest):
            return None
        try:
            with open(f"{self.indexes}/{digest}", "rb") as file:
                data = file.read()
        except FileNotFoundError:
            return None
        return data if hashlib.sha256(data).hexdigest() == digest else None

    def fetch(self, index: bytes) -> None:
        missing = self.missing(index)
        if missing:
            raise FarmFault(f"{len(missing)} chunks of a version aren't in {self.chunks} as they were made, {missing[0]} among them")

    def missing(self, index: bytes) -> list[str]:
        """The chunks of an index that aren't here, or aren't what their names say."""
        return wrong_names(self.chunks, chunk_sizes(index))

    def spoilt(self, index: bytes) -> list[str]:
        """The chunks of an index that aren't here, or aren't what their names say. All are read."""
        found = []
        for name, size in chunk_sizes(index).items():
            try:
                unpacked(self.chunks, name, size)
            except ChunkSpoilt:
                found.append(name)
        return found

    def mend(self, index: bytes) -> bool:
        for name in self.spoilt(index):
            CHECKED.forget(chunk_path(self.chunks, name))
        return bool(self.missing(index))

    def offer(self, digest: str) -> bool:
        return False  # all see one folder

    def forget(self, ask: Callable[[], set[str]], grace: float, tell: Callable[[str], None] = lambda digest: None) -> tuple[int, int]:
        """Waits until nobody makes anything, and then removes indexes; what is made meanwhile waits. Chunks it removes a few at a time. What
        indexes name is read before, as far as that can be known."""
        forgetting = _Forgetting(self)
        forgetting.read(forgetting.there() - self._old(ask(), grace))
        with self._locked(fcntl.LOCK_EX):
            held = self.holds.held(grace)  # before it is asked: what is answered meanwhile is needed then
            needed = ask() | held
            gone = self._old(needed, grace)
            forgetting.read(forgetting.there() - gone)
            unread = forgetting.unread & needed
            had = {name for digest in gone for name in chunk_names(self.index(digest) or b"")} if unread else None
            for digest in gone:
                os.unlink(f"{self.indexes}/{digest}")
        for digest in unread:
            tell(digest)
        return len(gone), forgetting.forget_chunks(self._clock() - grace, had)

    def _clock(self) -> float:
        """The time of day by the folder's clock."""
        os.close(os.open(f"{self.root}/lock", os.O_RDWR | os.O_CREAT, 0o600))
        return clock_of(f"{self.root}/lock")

    def _old(self, needed: set[str], grace: float) -> set[str]:
        """The indexes that aren't needed, and are older than the grace."""
        oldest = self._clock() - grace
        return {digest for digest in os.listdir(self.indexes) if digest not in needed and is_old(f"{self.indexes}/{digest}", oldest)}

    def tally(self) -> Tally:
        now, indexes, chunks = self._clock(), dict[str, Kept](), dict[str, int]()
        for digest in os.listdir(self.indexes):
            with contextlib.suppress(FileNotFoundError):
                there = os.lstat(f"{self.indexes}/{digest}")
                indexes[digest] = Kept(now - there.st_mtime, there.st_size)
        for path, name in self.all_chunks():
            with contextlib.suppress(FileNotFoundError):
                chunks[name] = os.lstat(path).st_size
        return Tally(indexes, chunks)

    def all_chunks(self) -> Iterator[tuple[str, str]]:
        """The path and name of each chunk; also of what a killed casync left, whose names end otherwise."""
        for folder, _, names in os.walk(self.chunks):
            for name in names:
                yield f"{folder}/{name}", name.removesuffix(".cacnk")


class _Forgetting:
    """What one going through a folder learned."""

    def __init__(self, store: FolderStore) -> None:
        self.store = store
        self.seen, self.unread = set[str](), set[str]()  # digests
        self.used = set[str]()  # chunks

    def there(self) -> set[str]:
        return set(os.listdir(self.store.indexes))

    def read(self, digests: Iterable[str]) -> None:
        """Takes what these have as used."""
        for digest in set(digests) - self.seen:
            index = self.store.index(digest)
            if index is None:  # it may be given anew
                self.unread.add(digest)
                continue
            self.used.update(chunk_names(index))
            self.seen.add(digest)
            self.unread.discard(digest)

    def forget_chunks(self, oldest: float, only: set[str] | None) -> int:
        """Removes the chunks that nothing uses, of some or of all: how many. What came between two turns is read first."""
        unused = [(path, name) for path, name in self.store.all_chunks() if name not in self.used and (only is None or name in only)]
        count = 0
        for at in range(0, len(unused), FORGOTTEN_AT_ONCE):
            time.sleep(PAUSE)
            with self.store._locked(fcntl.LOCK_EX):
                self.read(self.there())
                for path, name in unused[at : at + FORGOTTEN_AT_ONCE]:
                    if name not in self.used and is_old(path, oldest):
                        os.unlink(path)
                        count += 1
        return count
