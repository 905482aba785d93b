"""A version's listing and bytes, read from the chunks of its index without a folder made of it.

Owes the filters that what is read is what casync would make of that index: each chunk is checked by its name. What lies in chunks that
another version has too, in the same order, isn't read again.
"""
from __future__ import annotations

import hashlib
import marshal
import os
import stat
import struct
import threading
from bisect import bisect_left, bisect_right
from functools import cached_property
from typing import Any, Callable, Iterator

from agent.faults import FarmFault
from agent.folders.layout import ENTRY, FILENAME, GOODBYE, HEAD, PAYLOAD, SYMLINK, Layout, shown
from agent.folders.listing import KINDS, Entry, Listing
from agent.store.chunks import table
from agent.store.packing import unpacked

REMEMBERED = 250_000  # paths of the versions in memory
PIECE = 1 << 20  # bytes of a file that are read at once


class Version:
    """A version: its index, and what its folder holds."""

    def __init__(self, chunks: str, index: bytes, listing: Listing, layout: Layout | None = None, old: Version | None = None) -> None:
        self.chunks, self.index, self.listing = chunks, index, listing
        self._layout = layout
        self._old = old  # one that differs little, until the layout is made
        rows = table(index)
        pairs = list(struct.iter_unpack("<Q32s", index[rows.start : rows.start + 40 * len(rows)]))
        self.ends: list[int] = [end for end, _ in pairs]
        self.names = [name.hex() for _, name in pairs]

    @cached_property
    def digest(self) -> str:
        return hashlib.sha256(self.index).hexdigest()

    @property
    def layout(self) -> Layout:
        if self._layout is None:
            self._layout = Layout(self.listing, self._old._layout if self._old else None)
            self._old = None
        return self._layout

    def reader(self) -> Reader:
        return Reader(self.chunks, self.ends, self.names)

    def pieces(self, path: str, reader: Reader) -> Iterator[bytes]:
        """The bytes of a file."""
        at, size = self.layout.payload(path), self.listing[path].size
        for begin in range(0, size, PIECE):
            yield reader.read(at + begin, min(PIECE, size - begin))


class Reader:
    """The archive of a version, from anywhere. It keeps the chunk that it read last."""

    def __init__(self, chunks: str, ends: list[int], names: list[str]) -> None:
        self.chunks, self.ends, self.names = chunks, ends, names
        self.size = ends[-1] if ends else 0
        self.number, self.data = -1, b""

    def begin_of(self, number: int) -> int:
        return self.ends[number - 1] if number else 0

    def _chunk(self, number: int) -> bytes:
        if number != self.number:
            size = self.ends[number] - self.begin_of(number)
            self.number, self.data = number, unpacked(self.chunks, self.names[number], size)
        return self.data

    def read(self, offset: int, size: int) -> bytes:
        parts, number = list[bytes](), bisect_right(self.ends, offset)
        if offset + size > self.size or size < 0:
            raise FarmFault("a version's archive is cut short")
        while size > 0:
            begin = offset - self.begin_of(number)
            some = self._chunk(number)[begin : begin + size]
            parts.append(some)
            offset, size, number = offset + len(some), size - len(some), number + 1
        return b"".join(parts)


def none(chunks: str) -> Version:
    """The version of a folder that has none."""
    return Version(chunks, b"", {})


class _Reading:
    """The listing of an index, as it is read."""

    def __init__(self, chunks: str, index: bytes, old: Version, check: Callable[[], None]) -> None:
        self.version = Version(chunks, index, {}, old=old)
        self.reader, self.old, self.check = self.version.reader(), old, check
        self.found = self.version.listing
        self.where = {name: number for number, name in enumerate(old.names)}
        self.folders: list[str] = []  # around what is read
        self.path, self.tried = "", -1
        self.entry: Entry | None = None

    def run(self) -> Version:
        at = 0
        while at < self.reader.size:
            at = self._item(at)
        return self.version

    def _item(self, at: int) -> int:
        """Reads an item. Where the next one begins."""
        size, kind = struct.unpack("<QQ", self.reader.read(at, 16))
        if size < 16:
            raise FarmFault("a version's archive is spoilt")
        if kind == FILENAME:
            name = os.fsdecode(self.reader.read(at + 16, size - 17))
            self.path = f"{self.folders[-1]}/{name}" if self.folders[-1] else name
            at_same = self._skip(at)
            if at_same != at:
                return at_same
        elif kind == ENTRY:
            self._take_entry(self.reader.read(at + 16, HEAD - 16))
        elif kind == PAYLOAD:
            self._take_bytes(at + 16, size - 16)
        elif kind == SYMLINK:
            self._take(what=os.fsdecode(self.reader.read(at + 16, size - 17)))
        elif kind == GOODBYE:
            self.folders.pop()
        else:
            raise FarmFault(f"a version's archive holds an item {kind:x}, which isn't read here")
        return int(at + size)

    def _take_entry(self, data: bytes) -> None:
        _, mode, _, uid, gid, time = struct.unpack("<6Q", data)
        self.entry = Entry(KINDS[stat.S_IFMT(mode)], stat.S_IMODE(mode), uid, gid, time)
        self.found[shown(self.path)] = self.entry
        if self.entry.kind == "d":
            self.folders.append(self.path)

    def _take(self, what: str, size: int = 0) -> None:
        assert self.entry
        self.found[shown(self.path)] = self.entry._replace(what=what, size=size)

    def _take_bytes(self, at: int, size: int) -> None:
        self.check()
        digest = hashlib.sha256()
        for begin in range(0, size, PIECE):
            digest.update(self.reader.read(at + begin, min(PIECE, size - begin)))
        self._take(digest.hexdigest(), size)

    def _skip(self, at: int) -> int:
        """Takes what follows from the old version, as far as that has the same chunks: where to read on. A record begins at `at`."""
        ends, names, old = self.reader.ends, self.reader.names, self.old
        chunk = bisect_right(ends, at)
        same = self.where.get(names[chunk])
        if chunk == self.tried or same is None:
            return at
        self.tried = chunk
        shift = self.reader.begin_of(chunk) - (old.ends[same - 1] if same else 0)
        layout = old.layout
        first = bisect_left(layout.heads, at - shift)
        if first >= len(layout.heads) or layout.heads[first] != at - shift or layout.archived[first] != self.path:
            return at
        while same + 1 < len(old.names) and chunk + 1 < len(names) and old.names[same + 1] == names[chunk + 1]:
            same, chunk = same + 1, chunk + 1
        last = bisect_right(layout.heads, old.ends[same]) - 1  # the last one that begins there: it may end behind
        if last <= first:
            return at
        run = layout.paths[first:last]
        self.found.update(zip(run, map(self.old.listing.__getitem__, run)))
        self.folders = _around(layout.archived[last])
        self.tried = chunk
        return int(layout.heads[last] + shift)


def _around(path: str) -> list[str]:
    names = path.split("/")
    return ["", *("/".join(names[:count]) for count in range(1, len(names)))]


def read(chunks: str, index: bytes, old: Version, check: Callable[[], None] = lambda: None) -> Version:
    """The version of an index, whose chunks are in this folder."""
    return _Reading(chunks, index, old, check).run()


class Versions:
    """The versions whose listings are in memory. One lock has them."""

    def __init__(self) -> None:
        self.lock = threading.Lock()
        self.known: dict[str, Version] = {}

    def of(self, chunks: str, index: bytes, check: Callable[[], None] = lambda: None) -> Version:
        """The version of an index, whose chunks are in this folder."""
        if not index:
            return none(chunks)
        found = self.find(hashlib.sha256(index).hexdigest())
        if found is None:
            found = read(chunks, index, self._nearest(chunks, index), check)
        self.add(found)
        return found

    def find(self, digest: str) -> Version | None:
        with self.lock:
            return self.known.get(digest)

    def add(self, version: Version) -> None:
        with self.lock:
            self.known.pop(version.digest, None)
            self.known[version.digest] = version
            while len(self.known) > 2 and sum(len(each.listing) for each in self.known.values()) > REMEMBERED:
                del self.known[next(iter(self.known))]

    def _nearest(self, chunks: str, index: bytes) -> Version:
        """Of those in memory the one that has the most chunks in common."""
        names = {index[at + 8 : at + 40].hex() for at in table(index)}
        with self.lock:
            known = list(self.known.values())
        return max(known, key=lambda version: len(names.intersection(version.names)), default=none(chunks))


def loaded(path: str, form: str) -> list[Any] | None:
    """The rows of a file of the node's own, which begins with a digest of the rest; none where it isn't there, or isn't whole."""
    try:
        with open(path, "rb") as file:
            data = file.read()
        if hashlib.sha256(data[32:]).digest() != data[:32]:
            return None
        found, rows = marshal.loads(data[32:])
    except (OSError, ValueError, EOFError, TypeError):
        return None
    return rows if found == form else None
