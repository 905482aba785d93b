"""Where a folder's archive, of which a casync index tells the chunks, has what.

Owes the filters that the archive of a listing is the one that casync reads back into that folder. Its form is that of casync's
`caformat.h`: the top's entry; then, by rising name, a record for each that a folder holds: its name, its entry, and its bytes, target or
own records; and at each folder's end a table of what it holds, by a hash of the names. So a listing tells where each record begins.
"""
from __future__ import annotations

import functools
import os
import stat
import struct
from bisect import bisect_left
from functools import cached_property
from itertools import accumulate
from typing import Sequence

from agent.folders.listing import Entry, Listing, folder_of, order

ENTRY, FILENAME, PAYLOAD, SYMLINK, GOODBYE = 0x1396FABCEA5BBB51, 0x6DBB6EBCB3161F0B, 0x8B9E1D93D6DCFFC9, 0x664A6FB6830E0D6C, 0xDFD35C5E8327C403
MARKER = 0x57446FA533702943
FLAGS = 0x3000000000000B22  # what of a file is kept: those of `trees.FEATURES`
HASH_KEY = (0x8574442B0F1D84B3, 0x2736ED30D1C22EC1)
MODES = {"f": stat.S_IFREG, "d": stat.S_IFDIR, "l": stat.S_IFLNK, "p": stat.S_IFIFO}
EXCLUDE = ".caexclude"  # casync leaves out what a file of this name lists: in an archive each such file has a `%` more
HEAD, FRAME = 64, 16  # bytes of an entry, and of the front of any other item
MANY = 2_000  # paths that come and go: a layout of more is made anew
LARGE = 1 << 16  # bytes: a file or table of so many has chunks of its own
_64 = (1 << 64) - 1


def is_exclude(name: str) -> bool:
    return name.startswith(EXCLUDE) and not name[len(EXCLUDE) :].strip("%")


def archived(path: str) -> str:
    """A path as the archive spells it."""
    if EXCLUDE not in path:
        return path
    return "/".join(f"{name}%" if is_exclude(name) else name for name in path.split("/"))


def shown(path: str) -> str:
    """The path of which the archive has this spelling."""
    if EXCLUDE not in path:
        return path
    return "/".join(name[:-1] if is_exclude(name) and name != EXCLUDE else name for name in path.split("/"))


# A piece of an archive that is made or taken whole, of a path: its `head`, up to its bytes where these are large; `body`, these bytes; the
# `end` of a folder.
Part = tuple[str, str]


@functools.lru_cache(1 << 12)
def name_hash(name: bytes) -> int:
    """SipHash-2-4 of a name, which a folder's table is sorted by."""
    v0, v1, v2, v3 = (key ^ word for key, word in zip(HASH_KEY * 2, (0x736F6D6570736575, 0x646F72616E646F6D, 0x6C7967656E657261, 0x7465646279746573)))
    padded = name + bytes(7 - len(name) % 8) + bytes([len(name) & 255])
    words = [*struct.unpack(f"<{len(padded) // 8}Q", padded), None]
    for word in words:
        if word is None:
            v2 ^= 0xFF
        else:
            v3 ^= word
        for _ in range(4 if word is None else 2):
            v0 = (v0 + v1) & _64
            v1 = (v1 << 13 & _64 | v1 >> 51) ^ v0
            v0 = v0 << 32 & _64 | v0 >> 32
            v2 = (v2 + v3) & _64
            v3 = (v3 << 16 & _64 | v3 >> 48) ^ v2
            v0 = (v0 + v3) & _64
            v3 = (v3 << 21 & _64 | v3 >> 43) ^ v0
            v2 = (v2 + v1) & _64
            v1 = (v1 << 17 & _64 | v1 >> 47) ^ v2
            v2 = v2 << 32 & _64 | v2 >> 32
        if word is not None:
            v0 ^= word
    return v0 ^ v1 ^ v2 ^ v3


@functools.lru_cache(1 << 18)
def path_hash(path: str) -> int:
    """The hash of a path's own name."""
    return name_hash(_name_of(path))


def item(kind: int, data: bytes) -> bytes:
    return struct.pack("<QQ", FRAME + len(data), kind) + data


def _name_of(path: str) -> bytes:
    return os.fsencode(archived(path.rpartition("/")[2]))


def _name_size(path: str) -> int:
    return FRAME + len(_name_of(path)) + 1 if path else 0


def _tail_size(entry: Entry) -> int:
    """The bytes of what follows an entry's head, of what is no folder."""
    if entry.kind == "f":
        return FRAME + entry.size
    return FRAME + len(os.fsencode(entry.what)) + 1 if entry.kind == "l" else 0


class Layout:
    """Where the archive of a listing has what: its parts in order, and where each begins. One that differs little from an older one is made
    of that."""

    def __init__(self, listing: Listing, old: Layout | None = None) -> None:
        self.listing = listing
        if old is None or not self._lay_by_difference(old):
            self._lay()
        self.at = dict(zip(self.parts, range(len(self.parts))))
        self.starts = [0, *accumulate(self.sizes)]
        self.size = self.starts[-1]  # it begins no part

    def _lay(self) -> None:
        paths = sorted(self.listing, key=_spelled_order)
        self.inside: dict[str, list[str]] = {path: [] for path in paths if self.listing[path].kind == "d"}  # what each holds, by rising name
        for path in paths:
            if path:
                self.inside[folder_of(path)].append(path)
        self.parts: list[Part] = []
        self.sizes: list[int] = []
        open_: list[str] = []
        for path in paths:
            if path:
                above = folder_of(path)
                while open_[-1] != above:
                    self._append(("end", open_.pop()))
            entry = self.listing[path]
            self._append(("head", path))
            if entry.kind == "d":
                open_.append(path)
            elif entry.size >= LARGE:
                self._append(("body", path))
        while open_:
            self._append(("end", open_.pop()))

    def _append(self, part: Part) -> None:
        self.parts.append(part)
        self.sizes.append(self._size_of(part))

    def _size_of(self, part: Part) -> int:
        kind, path = part
        entry = self.listing[path]
        if kind == "end":
            return FRAME + 24 * (len(self.inside[path]) + 1)
        if kind == "body":
            return entry.size
        head = _name_size(path) + HEAD
        return head + FRAME if entry.kind == "f" and entry.size >= LARGE else head + _tail_size(entry)

    def _lay_by_difference(self, old: Layout) -> bool:
        """Takes the older one's parts over. False where too much differs."""
        now, before = self.listing, old.listing
        gone = before.keys() - now.keys()
        new = now.keys() - before.keys()
        changed = [path for path, entry in now.items() if (other := before.get(path)) is not entry and other is not None and other != entry]
        remade = {path for path in changed if _parts_of(path, now[path]) != _parts_of(path, before[path])}
        gone, new = gone | remade, new | remade
        if len(gone) + len(new) > MANY or "" in gone or "" in new:
            return False
        self.inside = dict(old.inside)
        touched = {folder_of(path) for path in gone | new}
        for path in gone:
            self.inside.pop(path, None)
        for path in new:
            if now[path].kind == "d":
                self.inside[path] = []
        for folder in touched & self.inside.keys():
            kept = [path for path in self.inside[folder] if path not in gone]
            self.inside[folder] = sorted([*kept, *(path for path in new if folder_of(path) == folder)], key=_spelled_order)
        dropped = {part for path in gone for part in _parts_of(path, before[path])}
        self.parts = [part for part in old.parts if part not in dropped] if dropped else list(old.parts)
        self.sizes = [size for part, size in zip(old.parts, old.sizes) if part not in dropped] if dropped else list(old.sizes)
        for path in sorted(new, key=_spelled_order):
            for part in _parts_of(path, now[path]):
                place = self._place_of(part)
                self.parts.insert(place, part)
                self.sizes.insert(place, self._size_of(part))
        resized = {("end", folder) for folder in touched & self.inside.keys()} | {("head", path) for path in changed} | {
            ("body", path) for path in changed if now[path].size >= LARGE and now[path].kind == "f"
        }
        for part in resized:
            self.sizes[self._place_of(part)] = self._size_of(part)
        return True

    def _place_of(self, part: Part) -> int:
        """The number that a part has or would have. The end of the folder itself is the last one."""
        last = len(self.parts) - 1
        return last if part == ("end", "") else bisect_left(self.parts, _part_order(part), hi=last, key=_part_order)

    @cached_property
    def paths(self) -> list[str]:
        """All paths, in the archive's order."""
        return [path for kind, path in self.parts if kind == "head"]

    @cached_property
    def archived(self) -> list[str]:
        return [archived(path) for path in self.paths]

    @cached_property
    def heads(self) -> list[int]:
        """Where the record of each of `paths` begins."""
        return [start for (kind, _), start in zip(self.parts, self.starts) if kind == "head"]

    @cached_property
    def starts_at(self) -> dict[int, int]:
        """Of where a part begins, or the archive ends: the part's number."""
        return {start: number for number, start in enumerate(self.starts)}

    def start_of(self, kind: str, path: str) -> int:
        return self.starts[self.at[kind, path]]

    def payload(self, path: str) -> int:
        """Where the bytes of a file begin."""
        return self.start_of("head", path) + _name_size(path) + HEAD + FRAME

    def head(self, path: str) -> bytes:
        """A path's record up to its bytes, if it has any."""
        entry = self.listing[path]
        said = item(FILENAME, _name_of(path) + b"\0") if path else b""
        said += struct.pack("<8Q", HEAD, ENTRY, FLAGS, MODES[entry.kind] | entry.mode, 0, entry.uid, entry.gid, entry.time)
        if entry.kind == "f":
            said += struct.pack("<QQ", FRAME + entry.size, PAYLOAD)
        return said + item(SYMLINK, os.fsencode(entry.what) + b"\0") if entry.kind == "l" else said

    def end(self, folder: str) -> bytes:
        """A folder's table. What the folder holds lies there without gaps, so each thing ends where the next one begins."""
        begin = self.start_of("end", folder)
        at, starts, inside = self.at, self.starts, self.inside[folder]
        firsts = [starts[at["head", path]] for path in inside]
        rows = sorted(zip(map(path_hash, inside), firsts, [*firsts[1:], begin]))
        heap: list[bytes] = [b""] * len(rows)
        for place, (digest, first, last) in zip(_heap_order(len(rows)), rows):
            heap[place] = struct.pack("<QQQ", begin - first, last - first, digest)
        size = FRAME + 24 * (len(rows) + 1)
        here = self.start_of("head", folder) + _name_size(folder)
        return struct.pack("<QQ", size, GOODBYE) + b"".join(heap) + struct.pack("<QQQ", begin - here, size, MARKER)


def _spelled_order(path: str) -> bytes:
    return order(archived(path) if EXCLUDE in path else path)


def _part_order(part: Part) -> tuple[bytes, int]:
    """What the parts of an archive are sorted by, but for the end of the folder itself, which is the last: a folder's end comes behind all
    that is within it, and before whatever has a longer name."""
    kind, path = part
    spelled = _spelled_order(path)
    return (spelled + b"\1", 0) if kind == "end" else (spelled, 1 if kind == "head" else 2)


def _parts_of(path: str, entry: Entry) -> list[Part]:
    """The parts that a path has."""
    if entry.kind == "d":
        return [("head", path), ("end", path)]
    return [("head", path), ("body", path)] if entry.kind == "f" and entry.size >= LARGE else [("head", path)]


@functools.lru_cache(64)
def _heap_order(count: int) -> Sequence[int]:
    """Of a sorted row: which place in a heap's order of a balanced search tree, filled from the left, each has."""
    places = [0] * count
    rest = iter(range(count))

    def fill(place: int) -> None:
        if place < count:
            fill(2 * place + 1)
            places[next(rest)] = place
            fill(2 * place + 2)

    fill(0)
    return places
