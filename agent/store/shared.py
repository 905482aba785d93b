"""A store that several machines share, behind a folder of each machine's own.

Owes the filters what `folder` says. What the store hands out isn't trusted: a chunk that isn't what its name says is as good as missing. A
chunk that is there already is compared before a commit relies on it, once in an agent's life.
"""
from __future__ import annotations

import abc
import contextlib
import hashlib
import secrets
import threading
from typing import Callable, TypeGuard

from agent.counts import Counts
from agent.faults import FarmFault
from agent.logs import NOTICE, SILENT, WARNING
from agent.store.chunks import chunk_path, chunk_sizes
from agent.store.folder import ChunksMissing, FolderStore, Tally
from agent.store.lasting import put_file
from agent.store.packing import Fresh, unpacked_of

AT_ONCE = 64  # chunks of one request
AWAY = 120.0  # seconds for which a store that is away is tried again: what a command made would be lost
SEAL = 32  # bytes that older agents wrote before a chunk
SPARE = 1 << 10  # bytes that a chunk may be longer, packed
COMPARED_MOST = 1 << 18  # chunks


def most_packed(size: int) -> int:
    """The bytes that a chunk of a size can have, packed."""
    return size + (size >> 8) + SPARE


def is_content(data: object, digest: str) -> TypeGuard[bytes]:
    """Whether what a store handed out is what it was asked for."""
    return isinstance(data, bytes) and hashlib.sha256(data).hexdigest() == digest


class SharedStore(abc.ABC):
    name: str  # as people are told it

    def __init__(self, root: str, owner: str) -> None:
        self.owner, self.own = owner, secrets.token_hex(4)  # of what it holds: which agent of the farm, and which process of it
        self.is_followed = False  # whether what processes before this one held is let go
        self.folder = FolderStore(root)
        self.counts, self.log = Counts(), SILENT
        self.lock = threading.Lock()  # it has `compared`
        self.compared: dict[str, None] = {}  # chunks that were there as they are here
        self.chunks = self.folder.chunks

    @abc.abstractmethod
    def _send(self, digest: str, index: bytes, away: Callable[[str], None] | None = None, base: bytes = b"") -> None:
        """Gives the store a content that is in the folder. Where nobody hears that it is away all is given, and once."""

    @abc.abstractmethod
    def _packed_there(self, names: list[str], sizes: dict[str, int]) -> list[object]:
        """What the store has of some chunks: no more than they can have, packed. ChunksMissing where it can't be asked."""

    @abc.abstractmethod
    def _index_there(self, digest: str) -> object:
        """What the store has as an index. None where it can't be asked, too."""

    @abc.abstractmethod
    def forget(self, ask: Callable[[], set[str]], grace: float, tell: Callable[[str], None] = lambda digest: None) -> tuple[int, int]:
        """Removes from the store what is removed from a folder."""

    @abc.abstractmethod
    def tally(self) -> Tally:
        """What the store has."""

    def keeps_well(self) -> bool:
        """Whether what was given lasts."""
        return True

    def making(self) -> contextlib.AbstractContextManager[None]:
        return self.folder.making()

    def publish(self, index: bytes, away: Callable[[str], None] = lambda why: None, base: bytes = b"") -> str:
        digest = self.folder.publish(index, base=base)

        def heard_away(why: str) -> None:
            self._reached(why.partition("no contents: ")[2] or why)
            away(why)

        try:
            with self.counts.timed(self.name, "give", self.log):
                self._send(digest, index, heard_away, base)
        except BaseException:
            self.release(digest, is_answered=False)
            raise
        return digest

    def release(self, digest: str, is_answered: bool = True) -> None:
        self.folder.release(digest, is_answered)

    def mend(self, index: bytes) -> bool:
        return self.folder.mend(index)

    def offer(self, digest: str) -> bool:
        """Sends a content anew, all of it, where all of it is in this machine's folder."""
        index = self.folder.index(digest)
        if not index or self.folder.spoilt(index):
            return False
        try:
            self.folder.fetch(index)
            self._send(digest, index)
        except (FarmFault, OSError):
            return False
        return True

    def index(self, digest: str) -> bytes | None:
        found = self.folder.index(digest)
        if found is not None:
            return found
        data = self._index_there(digest)
        return data if is_content(data, digest) else None

    def fetch(self, index: bytes) -> None:
        missing, sizes, bad = self.folder.missing(index), chunk_sizes(index), 0
        with Fresh(self.chunks) as fresh:
            for at in range(0, len(missing), AT_ONCE):
                names = missing[at : at + AT_ONCE]
                bad += len(self._get(fresh, names, sizes))
            fresh.settle()
        if bad:
            raise ChunksMissing(f"{bad} chunks of a version are neither here nor, as they were made, in {self.name}")
        path = f"{self.folder.indexes}/{hashlib.sha256(index).hexdigest()}"
        if index and self.folder.index(hashlib.sha256(index).hexdigest()) is None:
            put_file(path, index)  # all of it is here: this machine can offer it

    def _get(self, fresh: Fresh, names: list[str], sizes: dict[str, int]) -> list[str]:
        """Puts some chunks into the folder. Those that the store hasn't, or not as they were made."""
        with self.counts.timed(self.name, "get", self.log):
            there = self._packed_there(names, sizes)
        return [name for name, data in zip(names, there) if not self._take(fresh, name, data, sizes[name])]

    def _take(self, fresh: Fresh, name: str, data: object, size: int) -> bool:
        """Puts a chunk into the folder, where it is what its name says."""
        for packed in (data, data[SEAL:]) if isinstance(data, bytes) else ():
            if unpacked_of(name, packed, size) is not None:
                fresh.add(name, packed)
                self._moved("got", [packed])
                return True
        return False

    def _reached(self, why: str = "") -> None:
        if said := self.counts.reached(self.name, why):
            self.log(said, WARNING if why else NOTICE)

    def _moved(self, way: str, chunks: list[bytes]) -> None:
        """Chunks were given or got."""
        self.counts.add("chunks_total", len(chunks), way=way)
        self.counts.add("chunk_bytes_total", sum(map(len, chunks)), way=way)

    def _take_compared(self, names: list[str]) -> None:
        """Some chunks are there as they are here. Hold the lock."""
        self.compared.update(dict.fromkeys(names))
        while len(self.compared) > COMPARED_MOST:
            del self.compared[next(iter(self.compared))]

    def _packed(self, name: str) -> bytes:
        with open(chunk_path(self.chunks, name), "rb") as file:
            return file.read()
