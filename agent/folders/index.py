"""The index of a folder, made of an older version's and of the files that differ.

Owes the filters that casync makes the folder of it again, and that its chunks are in the store's folder when it is there. That they last
is the store's business.

Chunks end where a file of this rule ends, so that what is equal in two versions has equal chunks, wherever it lies. A file of 64 KiB or more, and such a
table of a folder, has chunks of its own; in a file they end behind eight bytes of a pattern. Others lie together in chunks of at least 16 KiB:
one ends at a folder's end, behind a file whose digest begins so, or before it would be too long.
"""
from __future__ import annotations

import hashlib
import os
import struct
from bisect import bisect_left, bisect_right
from concurrent.futures import ThreadPoolExecutor
from dataclasses import dataclass
from itertools import islice
from typing import Callable, Iterable, Iterator

from agent.faults import FarmFault
from agent.folders.held import Held
from agent.folders.layout import FLAGS, LARGE, Layout, Part
from agent.folders.listing import folder_of, mark_of
from agent.folders.versions import PIECE, Version, none
from agent.store.chunks import INDEX, TABLE, TAIL
from agent.store.folder import Store
from agent.store.packing import CHECKED, Fresh, name_of, packed

LEAST, USUAL, MOST = 1 << 14, 1 << 16, 1 << 18  # bytes of a chunk
FULL = 1 << 17  # bytes behind which the next record that is done ends a chunk
SEEDS = "0123"  # what the digest of a file begins with behind which a chunk may end
AT_ONCE, THREADS = 32, 4  # chunks that are made together
TABLED = 1 << 12  # bytes of a folder's table that has chunks of its own: it is another one whenever something in the folder is
# Each byte is one of four letters, as a digest says; eight bytes whose letters are these end a chunk: of 65,536 eight bytes one.
LETTERS = bytes(b"abcd"[hashlib.sha256(bytes([byte])).digest()[0] & 3] for byte in range(256))
PATTERN = b"abcdbadc"


@dataclass(frozen=True)
class Cut:
    """A chunk: from a place in one part of an archive to a place in the same or a later one."""

    first: int
    begin: int  # bytes from the part's beginning
    last: int
    end: int


def cuts(layout: Layout, ends_of: Callable[[int], list[int]], first: int = 0) -> Iterator[Cut]:
    """The chunks of a layout from a part on at which one begins. Where those of a large file end `ends_of` says of its part."""
    size, starts, listing = 0, layout.starts, layout.listing
    for number in range(first, len(layout.parts)):
        kind, path = layout.parts[number]
        length = starts[number + 1] - starts[number]
        if kind == "body" or kind == "end" and length >= TABLED:
            if size:
                yield Cut(first, 0, number - 1, starts[number] - starts[number - 1])
            ends = ends_of(number) if kind == "body" else [*range(LARGE, length, LARGE), length]
            for begin, end in zip([0, *ends], ends):
                yield Cut(number, begin, number, end)
            first, size = number + 1, 0
            continue
        size += length
        if size >= FULL or size >= LEAST and (kind == "end" or listing[path].kind == "f" and listing[path].what[0] in SEEDS):
            yield Cut(first, 0, number, length)
            first, size = number + 1, 0
    if size:
        yield Cut(first, 0, len(layout.parts) - 1, starts[-1] - starts[-2])


def ends_in(pieces: Iterable[bytes]) -> Iterator[int]:
    """Where the chunks of large bytes end."""
    begin, at, rest = 0, 0, b""  # where the chunk began; where `rest` begins
    for piece in pieces:
        rest += piece
        while len(rest) - (begin - at) > MOST:
            end = begin + _end_in(rest[begin - at : begin - at + MOST])
            yield end
            begin = end
        rest, at = rest[begin - at :], begin
    while rest:
        end = _end_in(rest[:MOST])
        begin, rest = begin + end, rest[end:]
        yield begin


def _end_in(data: bytes) -> int:
    found = data.translate(LETTERS).find(PATTERN, LEAST - len(PATTERN))
    return found + len(PATTERN) if found >= 0 else len(data)


class _Making:
    """One making of an index."""

    def __init__(self, held: Held, old: Version, chunks: str, check: Callable[[], None]) -> None:
        self.held, self.old, self.chunks, self.check = held, old, chunks, check
        self.layout = Layout(dict(held.entries), old.layout if old.names else None)
        self.fresh = sorted(self._fresh())
        self.old_begins = {begin: number for number, begin in enumerate([0, *old.ends[:-1]])} if old.names else {}

    def _fresh(self) -> Iterator[int]:
        """The numbers of the parts that aren't in the old archive as they are here."""
        now, before, at = self.layout.listing, self.old.listing, self.layout.at
        resized = set[str](before.keys() - now.keys())
        for path, entry in now.items():
            old = before.get(path)
            if old is entry or old == entry:
                continue
            yield at["head", path]
            if ("body", path) in at and (old is None or (old.kind, old.what, old.size) != (entry.kind, entry.what, entry.size)):
                yield at["body", path]
            if old is None or old.kind != entry.kind or entry.kind == "f" and old.size != entry.size or entry.kind == "l":
                resized.add(path)
        # A folder's table tells how far from it, and how long, each thing that it holds is.
        yield from (at["end", folder] for folder in (_above(resized) | resized) & self.layout.inside.keys())

    def run(self) -> Version:
        rows, made = list[tuple[int, str | None]](), list[tuple[int, Cut]]()
        at = 0
        while at < len(self.layout.parts):
            at = self._taken_over(at, rows)
            for cut in cuts(self.layout, self._ends_of, at):
                name = self._old_name(cut)
                if name is None:
                    made.append((len(rows), cut))
                rows.append((self.layout.starts[cut.last] + cut.end, name))
                at = cut.last + 1
                if name is not None and rows[-1][0] == self.layout.starts[at]:
                    break  # from here on the old chunks may be taken over
        with Fresh(self.chunks) as fresh, ThreadPoolExecutor(THREADS) as pool:
            rest = iter(made)
            while some := list(islice(rest, AT_ONCE)):
                self.check()
                datas = [self._bytes(cut) for _, cut in some]
                for (number, _), name in zip(some, pool.map(lambda data: self._put(fresh, data), datas)):
                    rows[number] = (rows[number][0], name)
            fresh.settle()
        table = b"".join(struct.pack("<Q", end) + bytes.fromhex(str(name)) for end, name in rows)
        size = 16 + len(table) + 40
        head = struct.pack("<8Q", 48, INDEX, FLAGS, LEAST, USUAL, MOST, 2**64 - 1, TABLE)
        return Version(self.chunks, head + table + struct.pack("<5Q", 0, 0, 48, size, TAIL), self.layout.listing, self.layout)

    def _taken_over(self, first: int, rows: list[tuple[int, str | None]]) -> int:
        """Takes chunks of the old version over, as long as what they hold is as it was: the number of the part behind them."""
        if not self.old.names:
            return first
        old, parts, starts = self.old.layout, self.layout.parts, self.layout.starts
        was = old.at.get(parts[first])
        number = self.old_begins.get(old.starts[was]) if was is not None else None
        place = bisect_left(self.fresh, first)
        end = self.fresh[place] if place < len(self.fresh) else len(parts)
        if was is None or number is None or end <= first:
            return first
        end = self._same_until(first, end, was)
        last = bisect_right(self.old.ends, old.starts[was + end - first - 1]) - 1  # the last one that ends before a part which is as it was
        while last >= number and self.old.ends[last] not in old.starts_at:
            last -= 1  # it ends amid a large file or table
        if last < number:
            return first
        shift = starts[first] - old.starts[was]
        rows += zip((at + shift for at in self.old.ends[number : last + 1]), self.old.names[number : last + 1])
        return first + old.starts_at[self.old.ends[last]] - was

    def _same_until(self, first: int, end: int, was: int) -> int:
        """Up to which part the old archive has the same ones in the same order: something that it has between them may be gone."""
        parts, old = self.layout.parts, self.old.layout.parts
        while parts[first:end] != old[was : was + end - first]:
            end = first + (end - first) // 2
        return end

    def _put(self, fresh: Fresh, data: bytes) -> str:
        """Makes a chunk where none is there that is right."""
        name = name_of(data)
        if not CHECKED.is_right(self.chunks, name, len(data)):
            fresh.add(name, packed(data))
        return name

    def _old_name(self, cut: Cut) -> str | None:
        """The name of the old chunk that holds just this."""
        if not self.old.names or bisect_left(self.fresh, cut.first) != bisect_right(self.fresh, cut.last):
            return None
        old, parts = self.old.layout, self.layout.parts
        first, last = old.at.get(parts[cut.first]), old.at.get(parts[cut.last])
        if first is None or last is None or last - first != cut.last - cut.first:
            return None
        number = self.old_begins.get(old.starts[first] + cut.begin)
        if number is None or self.old.ends[number] != old.starts[last] + cut.end:
            return None
        return str(self.old.names[number])

    def _ends_of(self, number: int) -> list[int]:
        """Where the chunks of a large file end: of one that the old version has as that has it."""
        path = self.layout.parts[number][1]
        is_fresh = bisect_left(self.fresh, number) != bisect_right(self.fresh, number)
        old = self.old.layout.at.get(("body", path)) if self.old.names and not is_fresh else None
        if old is not None:
            begin, end = self.old.layout.starts[old : old + 2]
            if begin in self.old_begins:
                first = self.old_begins[begin]
                found = []
                for at in self.old.ends[first:]:
                    found.append(at - begin)
                    if at >= end:
                        break
                if found[-1] == end - begin:
                    return found
        return list(ends_in(self._pieces(path)))

    def _pieces(self, path: str, begin: int = 0, end: int | None = None) -> Iterator[bytes]:
        """The bytes of a file, which is as it was when it was looked at."""
        entry, whole = self.layout.listing[path], f"{self.held.path}/{path}"
        end = entry.size if end is None else end
        with open(whole, "rb") as file:
            file.seek(begin)
            while begin < end and (piece := file.read(min(PIECE, end - begin))):
                begin += len(piece)
                yield piece
            mark = self.held.marks.get(path)
            if begin != end or mark and mark_of(os.fstat(file.fileno())) != mark:
                raise FarmFault(f"{whole} was changed while it was kept")

    def _bytes(self, cut: Cut) -> bytes:
        parts = self.layout.parts
        kind, path = parts[cut.first]
        if kind == "body":
            return b"".join(self._pieces(path, cut.begin, cut.end))
        said = b"".join(self._part(parts[number]) for number in range(cut.first, cut.last + 1))
        return said[cut.begin : cut.begin + self._length(cut)]

    def _length(self, cut: Cut) -> int:
        return self.layout.starts[cut.last] + cut.end - self.layout.starts[cut.first] - cut.begin

    def _part(self, part: Part) -> bytes:
        kind, path = part
        if kind == "end":
            return self.layout.end(path)
        entry, head = self.layout.listing[path], self.layout.head(path)
        return head + b"".join(self._pieces(path)) if entry.kind == "f" and entry.size < LARGE else head


def _above(paths: Iterable[str]) -> set[str]:
    """All folders around these."""
    found = set[str]()
    for path in paths:
        while path and (path := folder_of(path)) not in found:
            found.add(path)
    return found


def make(held: Held, old: Version, chunks: str, check: Callable[[], None] = lambda: None) -> Version:
    """The version of a folder that was looked at just now, whose chunks are in this folder then. Hold `store.making` from before it until the
    index is published. Where `check` finds that nobody waits for it any more it ends."""
    if old.index and old.listing == held.entries:
        return old
    return _Making(held, old, chunks, check).run()


def make_whole(store: Store, path: str) -> bytes:
    """The index of a folder, all of which is read."""
    held = Held(path, os.devnull)
    held.look()
    return make(held, none(store.chunks), store.chunks).index
