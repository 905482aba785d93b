"""What a version or a folder holds, path by path.

Owes the filters that a listing tells all that a version keeps: kind, mode, owner, time, bytes (by their digest) or target, and that a
folder's file isn't read only where the kernel's times say that it is as it was when it was read last (`standing` says when these are
trusted).
"""
from __future__ import annotations

import errno
import hashlib
import os
import stat
from dataclasses import dataclass, field
from typing import Callable, Iterator, Mapping, NamedTuple
from urllib.parse import quote_from_bytes

from agent.faults import FarmFault

KINDS = {stat.S_IFREG: "f", stat.S_IFDIR: "d", stat.S_IFLNK: "l", stat.S_IFIFO: "p"}
LONGEST = 237  # bytes of the name of what is no folder: it is made under a name that is longer
DEEPEST = 63  # names from a folder down to what it holds: casync goes no deeper
PLAIN = "!\"$&'()*+,-./:;<=>?[\\]^_`{|}~"  # beside letters and digits, what a listing's text doesn't escape


class Entry(NamedTuple):
    """What stands at a path."""

    kind: str  # f, d, l, p
    mode: int
    uid: int
    gid: int
    time: int  # nanoseconds since 1970
    size: int = 0
    what: str = ""  # a file's sha256, a link's target


Listing = dict[str, Entry]  # of the paths below a folder's top, parted by `/`; the top itself is ""


class Mark(NamedTuple):
    """What the kernel says of a path; all but the first two are in its entry too."""

    changed: int  # nanoseconds
    number: int
    mode: int
    uid: int
    gid: int
    time: int
    size: int


def order(path: str) -> bytes:
    """What paths are sorted by, so that what is within a folder comes right behind it."""
    return os.fsencode(path).replace(b"/", b"\0")


def folder_of(path: str) -> str:
    return path.rpartition("/")[0]


def plain(entry: Entry | None) -> Entry | None:
    """What counts of an entry: a folder's time is that of its last change, by whomever."""
    return entry._replace(time=0) if entry and entry.kind == "d" else entry


def is_same(one: Entry | None, other: Entry | None) -> bool:
    return one is other or one == other or plain(one) == plain(other)


def edits(base: Mapping[str, Entry], mine: Mapping[str, Entry]) -> list[str]:
    """The paths that were added, changed or removed."""
    changed = [path for path, entry in mine.items() if (old := base.get(path)) is not entry and not is_same(old, entry)]
    return changed + [path for path in base.keys() - mine.keys()]


def escaped(path: str) -> str:
    return quote_from_bytes(os.fsencode(path), PLAIN)


def entry_text(entry: Entry) -> str:
    """An entry as `farmd merge` reads it: a file's time first, in a fixed number of digits, so that the later one has the greater bytes."""
    time = f"{max(0, entry.time):020d}"
    if entry.kind == "d":
        return f"d {entry.mode:o} {entry.uid} {entry.gid}"
    if entry.kind == "f":
        return f"f {time} {entry.what} {entry.mode:o} {entry.uid} {entry.gid} {entry.size}"
    return f"{entry.kind} {time} {entry.mode:o} {entry.uid} {entry.gid}{entry.what and ' '}{escaped(entry.what)}"


def text_of(listing: Mapping[str, Entry]) -> str:
    """A listing as `farmd merge` reads it, without the folder's top."""
    return "".join(f"{escaped(path)} {entry_text(listing[path])}\n" for path in sorted(filter(None, listing), key=order))


def mark_of(here: os.stat_result) -> Mark:
    return Mark(here.st_ctime_ns, here.st_ino, here.st_mode, here.st_uid, here.st_gid, here.st_mtime_ns, here.st_size)


@dataclass
class Walked:
    """What a folder holds."""

    entries: Listing = field(default_factory=dict)
    marks: dict[str, Mark] = field(default_factory=dict)
    odd: list[str] = field(default_factory=list)  # what is more than a version keeps, as hard links: it has no mark, and is read each time
    others: list[str] = field(default_factory=list)  # what a version doesn't keep: device nodes and sockets
    changed: int = 0  # paths that weren't as they were, those that are there no more among them
    newest: int = 0  # when something there was changed last


def _scan(path: str, front: str) -> Iterator[tuple[str, os.stat_result]]:
    yield front, os.lstat(path)
    with os.scandir(path) as found:
        entries = list(found)
    if entries and front.count("/") >= DEEPEST - 1:
        raise FarmFault(f"{path} can't be kept: it goes more than {DEEPEST} names deep")
    for each in entries:
        name = f"{front}/{each.name}" if front else each.name
        if each.is_dir(follow_symlinks=False):
            yield from _scan(each.path, name)
        else:
            yield name, each.stat(follow_symlinks=False)


def walk(path: str, entries: Listing, marks: dict[str, Mark], check: Callable[[], None] = lambda: None, is_filled: bool = False) -> Walked:
    """What a folder holds that nobody changes meanwhile. What has the mark that it had isn't read again, nor, where the folder was just filled
    with these entries, what looks as its entry says. Refuses what casync couldn't bring back."""
    walked = Walked()
    for name, here in _scan(path, ""):
        mark = mark_of(here)
        walked.newest = max(walked.newest, mark.changed)
        kind = KINDS.get(stat.S_IFMT(mark.mode))
        if kind is None:
            walked.others.append(name)
            continue
        known = entries.get(name)
        if known and (marks.get(name) == mark or is_filled and _looks_as(mark, kind, known)):
            walked.entries[name], walked.marks[name] = known, mark
            continue
        check()
        whole = f"{path}/{name}" if name else path
        if _has_more(whole, here):
            walked.odd.append(name)
        else:
            walked.marks[name] = mark
        entry = _entry_of(whole, kind, mark)
        walked.entries[name] = known if known == entry else entry
        walked.changed += 1
    walked.changed += len(entries.keys() - walked.entries.keys())
    return walked


def _looks_as(mark: Mark, kind: str, entry: Entry) -> bool:
    seen = Entry(kind, stat.S_IMODE(mark.mode), mark.uid, mark.gid, mark.time, mark.size if kind == "f" else 0, entry.what)
    return seen == entry


def _has_more(path: str, here: os.stat_result) -> bool:
    """Whether this is more than a version keeps of it."""
    if not stat.S_ISDIR(here.st_mode) and here.st_nlink > 1:
        return True
    try:
        return bool(os.listxattr(path, follow_symlinks=False))
    except OSError as fault:
        return fault.errno != errno.ENOTSUP


def _entry_of(path: str, kind: str, mark: Mark) -> Entry:
    if kind in "fd" and not os.access(path, os.R_OK):
        raise FarmFault(f"{path} can't be kept: the agent may not read it")
    if mark.time < 0:
        raise FarmFault(f"{path} can't be kept: its time is before 1970")
    if kind != "d" and len(os.fsencode(os.path.basename(path))) > LONGEST:
        raise FarmFault(f"{path} can't be kept: its name has more than {LONGEST} bytes")
    what, size = "", 0
    if kind == "f":
        with open(path, "rb") as file:
            what, size = hashlib.file_digest(file, "sha256").hexdigest(), mark.size
    elif kind == "l":
        what = os.readlink(path)
    return Entry(kind, stat.S_IMODE(mark.mode), mark.uid, mark.gid, mark.time, size, what)
