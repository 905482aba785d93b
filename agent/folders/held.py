"""A folder of the farm's own whose paths' marks are known, so that what it holds is told without reading it, and that is brought to
what a version holds by writing only what differs.

Owes the filters that it holds then what the version holds, and nothing else: what a version doesn't keep, as hard links, extended
attributes and sockets, goes, so that the folder is as it would be elsewhere. One thread at a time has it.
"""
from __future__ import annotations

import contextlib
import hashlib
import marshal
import os
import time
from dataclasses import dataclass
from typing import Any, Callable, Iterable, Iterator

from agent.folders import trees
from agent.folders.listing import Entry, Listing, Mark, Walked, folder_of, mark_of, order, walk
from agent.folders.standing import TICK, boot, identity, is_trusted
from agent.folders.versions import loaded
from agent.store.lasting import put_file

FRESH = ".farm-new-"  # what the name of a file begins with that isn't whole yet
FORM = "farm folder 1"


@dataclass(frozen=True)
class Brought:
    """What was written and removed."""

    written: int
    removed: int


class Held:
    """A folder, and the file beside which its marks are kept. The marks are good for one boot of the machine, and one folder."""

    def __init__(self, path: str, note: str) -> None:
        self.path, self.note = path, note
        self.entries: Listing = {}
        self.marks: dict[str, Mark] = {}
        self.odd: list[str] = []
        self.others: list[str] = []
        self.newest = 0  # when something there was changed last, in nanoseconds
        self.is_saved = False
        self.stands = ""  # a version that it held when somebody left it, if that is known
        self._load()

    def _load(self) -> None:
        rows = loaded(self.note, FORM)
        if rows and os.path.isdir(self.path) and tuple(rows[0]) == self._whose():
            for path, *rest in rows[1:]:
                self.entries[path] = Entry(*rest[:7])
                self.marks[path] = Mark(*rest[7:])
            self.is_saved = True

    def _whose(self) -> tuple[Any, ...]:
        return (boot(), self.path, os.lstat(self.path).st_dev, *identity(self.path))

    def save(self) -> None:
        """Keeps what is known for agents after this one."""
        if self.is_saved:
            return
        marked = ((path, *self.entries[path], *mark) for path, mark in self.marks.items())
        data = marshal.dumps([FORM, [self._whose(), *marked]])
        put_file(self.note, hashlib.sha256(data).digest() + data)
        self.is_saved = True

    def look(self, check: Callable[[], None] = lambda: None) -> bool:
        """Sees what it holds. Whether that is another thing than it was. Where the times of its file system aren't trusted all is read."""
        walked = walk(self.path, self.entries, self.marks if is_trusted(self.path) else {}, check)
        is_changed = walked.entries != self.entries or bool(walked.others)
        self._take(walked)
        return is_changed

    def _take(self, walked: Walked) -> None:
        self.entries, self.marks, self.odd, self.others = walked.entries, walked.marks, walked.odd, walked.others
        self.newest = max(self.newest, walked.newest)
        self.is_saved = self.is_saved and not walked.changed

    def take_as(self, entries: Listing) -> None:
        """It was filled just now with all of this."""
        self._take(walk(self.path, entries, {}, is_filled=True))
        self.is_saved = False

    def settle(self) -> None:
        """Waits until whatever is changed from now on has another time than what was changed before: two changes in one tick of the
        kernel's clock may have one. Before a command begins."""
        rest = self.newest / 1e9 + TICK - time.time()
        if 0 < rest <= TICK:
            time.sleep(rest)

    def forget(self) -> None:
        """The folder isn't what was known of it."""
        self.entries, self.marks, self.odd, self.others, self.is_saved = {}, {}, [], [], False

    def bring(self, target: Listing, pieces: Callable[[str], Iterable[bytes]], check: Callable[[], None] = lambda: None) -> Brought:
        """Makes it what a listing says; `look` came just before, and nobody else has it. The bytes of a path are those of `pieces`: where
        they can't be had, or written, or `check` finds that nobody waits, the folder is as it was."""
        return _Bringing(self, target, pieces, check).run()


class _Bringing:
    """One bringing of a folder."""

    def __init__(self, held: Held, target: Listing, pieces: Callable[[str], Iterable[bytes]], check: Callable[[], None]) -> None:
        self.held, self.target, self.pieces, self.check = held, target, pieces, check
        self.now = held.entries
        self.room = f"{held.path}/{FRESH}{os.getpid()}"  # what is new is made there first
        self.staged: dict[str, str] = {}  # of a path: where what is new for it stands
        self.touched: set[str] = set()  # folders whose time isn't theirs any more
        self.differing = [
            name for name in self.now.keys() | target.keys() if (old := self.now.get(name)) is not (new := target.get(name)) and old != new
        ]

    def _whole(self, name: str) -> str:
        return f"{self.held.path}/{name}" if name else self.held.path

    def run(self) -> Brought:
        held = self.held
        if self.differing or held.odd or held.others:
            held.is_saved = False
        try:
            self._stage()
            plain = self._make_plain()
            removed = self._remove()
            written = self._write()
        finally:
            if self.staged:
                trees.remove(self.room)
        if self.staged:
            _dress(held.path, self.target[""])
        changed = {*self.differing, *self.touched, *plain, *([""] if self.staged else [])}
        for name in changed & self.target.keys():
            held.marks[name] = mark = mark_of(os.lstat(self._whole(name)))
            held.newest = max(held.newest, mark.changed)
        held.entries, held.odd, held.others = dict(self.target), [], []
        return Brought(written, removed)

    def _stage(self) -> None:
        """Makes each file, link and pipe that is new, or that hard links make another one."""
        try:
            for name in self.differing:
                new, old = self.target.get(name), self.now.get(name)
                if new and new.kind != "d" and not (old and (old.kind, old.what, old.size) == (new.kind, new.what, new.size)):
                    self.check()
                    self._make(name, new, self.pieces(name) if new.kind == "f" else ())
            for name in self.held.odd:
                entry, path = self.now[name], self._whole(name)
                if entry == self.target.get(name) and entry.kind != "d" and os.lstat(path).st_nlink > 1:
                    self._make(name, entry, _read(path) if entry.kind == "f" else ())
        except BaseException:
            if self.staged:
                trees.remove(self.room)
                _dress(self.held.path, self.now[""])
            raise

    def _make(self, name: str, entry: Entry, pieces: Iterable[bytes]) -> None:
        fresh = f"{self.room}/{len(self.staged)}"
        if not self.staged:
            trees.remove(self.room)
            os.mkdir(self.room, 0o700)
        self.staged[name] = fresh
        if entry.kind == "f":
            with open(fresh, "wb") as file:
                for piece in pieces:
                    file.write(piece)
        elif entry.kind == "l":
            os.symlink(entry.what, fresh)
        else:
            os.mkfifo(fresh)
        _dress(fresh, entry)

    def _make_plain(self) -> list[str]:
        """Takes away what a version doesn't keep. The paths that stay, and were more than that."""
        for name in self.held.others:
            trees.remove(self._whole(name))
            self.touched.add(folder_of(name))
        odd = [name for name in self.held.odd if self.now.get(name) is self.target.get(name) or self.now.get(name) == self.target.get(name)]
        for name in odd:
            path = self._whole(name)
            with contextlib.suppress(OSError):  # none are there
                for each in os.listxattr(path, follow_symlinks=False):
                    os.removexattr(path, each, follow_symlinks=False)
            if name in self.staged:
                os.rename(self.staged[name], path)
                self.touched.add(folder_of(name))
        return odd

    def _remove(self) -> int:
        count = 0
        for name in sorted(self.differing, key=order, reverse=True):  # what is within goes first
            old, new = self.now.get(name), self.target.get(name)
            if name and old and (new is None or "d" in (old.kind, new.kind) and old.kind != new.kind):
                trees.remove(self._whole(name))
                self.touched.add(folder_of(name))
                self.held.marks.pop(name, None)
                count += 1
        return count

    def _write(self) -> int:
        count, folders = 0, set[str]()
        for name in sorted(self.differing, key=order):
            new, old = self.target.get(name), self.now.get(name)
            if new is None:
                continue
            if new.kind == "d":
                if name and (old is None or old.kind != "d"):
                    os.mkdir(self._whole(name), 0o700)
                    self.touched.add(folder_of(name))
                folders.add(name)
                continue
            count += 1
            if name not in self.staged:
                _dress(self._whole(name), new)
                continue
            os.rename(self.staged[name], self._whole(name))
            self.touched.add(folder_of(name))
        for name in sorted(folders | self.touched & self.target.keys(), key=order, reverse=True):
            _dress(self._whole(name), self.target[name])
        self.touched |= folders
        return count


def _read(path: str) -> Iterator[bytes]:
    with open(path, "rb") as file:
        while piece := file.read(1 << 20):
            yield piece


def _dress(path: str, entry: Entry) -> None:
    os.chown(path, entry.uid, entry.gid, follow_symlinks=False)
    if entry.kind != "l":
        os.chmod(path, entry.mode)
    os.utime(path, ns=(entry.time, entry.time), follow_symlinks=False)
