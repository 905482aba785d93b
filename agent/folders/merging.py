"""What a command changed of a folder, merged into what the folder has become meanwhile.

Owes the filters nothing. Which side each path is of `farmd merge` decides, whose rule is proved; it is asked of the paths that the command
changed, the folders around them, and what the other side has within folders that the command took away: everything else is as the other
side has it. The time of a folder is the later one.
"""
from __future__ import annotations

import os
import subprocess
from dataclasses import dataclass
from typing import Mapping

from agent.faults import FarmFault
from agent.folders.listing import Entry, Listing, edits, entry_text, escaped, folder_of, is_same, text_of

RULES = ("newer", "theirs", "mine")
FAIL = "fail"  # any conflict is refused
SQLITE = b"SQLite format 3\0"  # what a database of it begins with


@dataclass(frozen=True)
class Merged:
    """What stands after a merge, and the paths at which both sides had something else in mind."""

    listing: Listing
    conflicts: tuple[str, ...]


def near(base: Mapping[str, Entry], mine: Mapping[str, Entry], theirs: Mapping[str, Entry]) -> set[str]:
    """The paths whose decision isn't theirs at once."""
    found = {path for path in edits(base, mine) if path}
    gone = {path for path in found if path in theirs and theirs[path].kind == "d" and (path not in mine or mine[path].kind != "d")}
    if gone:
        found.update(path for path in theirs if path not in found and _is_within(path, gone))
    for path in list(found):
        while (path := folder_of(path)) and path not in found:
            found.add(path)
    return found


def _is_within(path: str, folders: set[str]) -> bool:
    while path := folder_of(path):
        if path in folders:
            return True
    return False


def merge(program: str, room: str, base: Listing, mine: Listing, theirs: Listing, rule: str) -> Merged:
    """What stands after the command changed `base` to `mine`, where the folder has become `theirs`. Files of this call's own lie in the
    room."""
    paths = near(base, mine, theirs)
    listing, conflicts = dict(theirs), list[str]()
    if root := _root_of(base, mine, theirs, rule):
        listing[""] = root
    if paths:
        sides = {"mine": mine, "theirs": theirs}
        for path in paths:
            listing.pop(path, None)
        spelled = {escaped(path): path for path in paths}
        for line in _decided(program, room, (base, mine, theirs), paths, rule).splitlines():
            side, word, *_ = line.split(" ", 2)
            path = spelled[word]
            if side == "conflict":
                conflicts.append(path)
            else:
                listing[path] = _timed(sides[side][path], mine.get(path), theirs.get(path))
    return Merged(listing, tuple(conflicts))


def _timed(entry: Entry, mine: Entry | None, theirs: Entry | None) -> Entry:
    if entry.kind == "d" and mine and theirs and mine.kind == theirs.kind:
        return entry._replace(time=max(mine.time, theirs.time))
    return entry


def _root_of(base: Listing, mine: Listing, theirs: Listing, rule: str) -> Entry | None:
    """The folder's own entry, of which no listing has a line. A folder that was emptied has none."""
    old, own, other = base.get(""), mine.get(""), theirs.get("")
    if own is None or other is None:
        return own or other
    if is_same(own, old):
        return other
    if is_same(other, old) or rule == "mine":
        return own
    return other if rule == "theirs" else max(own, other, key=entry_text)


def _decided(program: str, room: str, listings: tuple[Listing, Listing, Listing], paths: set[str], rule: str) -> str:
    files = []
    for name, listing in zip(("base", "mine", "theirs"), listings):
        files.append(f"{room}/{name}")
        with open(files[-1], "w", encoding="ascii", newline="") as file:
            file.write(text_of({path: listing[path] for path in paths & listing.keys()}))
    words = [program, "merge", "--rule", rule, *files]
    done = subprocess.run(words, stdin=subprocess.DEVNULL, capture_output=True, text=True, env={"PATH": os.environ.get("PATH", os.defpath)})
    if done.returncode:
        raise FarmFault(f"{os.path.basename(program)} merge: {' '.join(done.stderr.split())[-300:] or f'status {done.returncode}'}")
    return done.stdout


def is_database(path: str) -> bool:
    """Whether a file is a database of SQLite, which keeps what two commands wrote in one file: of a conflict one side's rows are lost."""
    try:
        with open(path, "rb") as file:
            return file.read(len(SQLITE)) == SQLITE
    except OSError:
        return False
