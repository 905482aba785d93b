"""The words of folders, slots and grants, as far as folders are filled and shown by them.

Owes the filters nothing that safety rests on: a filter reads each word again and judges it itself.
"""
from __future__ import annotations

import os
import re
from typing import NamedTuple

from agent.faults import UsageFault

EMPTY = "e3b0c44298fc1c149afbf4c8996fb92427ae41e4649b934ca495991b7852b855"  # of no bytes: the content of a folder that has no version
SHARINGS = ("shared", "private", "locked")
USES = (*SHARINGS, "merged")  # what a command may do with a folder: of a `merged` one the slot is that of the `locked` one
MOST_FOLDERS = 16  # of one lease
LONGEST_FOLDER = 4096  # characters of a folder's text that a command names
WANTED = re.compile(r"(shared|private|locked|merged):((?:[!-\"$&-?A-~]|%[0-9A-F]{2})*)(@[0-9a-f]{64}\.\d{1,19})?")
FOLDER = re.compile(WANTED.pattern.replace("|merged", ""))
DIGEST = re.compile(r"[0-9a-f]{64}")


def escaped(text: str) -> str:
    """An id as a folder's text spells it: of the printable ASCII, `#`, `%` and `@` are escaped, and so is all else."""
    return "".join(chr(b) if 0x21 <= b <= 0x7E and b not in b"#%@" else f"%{b:02X}" for b in text.encode(errors="surrogateescape"))


def folder_text(sharing: str, identifier: str) -> str:
    return f"{sharing}:{escaped(identifier)}"


def is_folder(text: str) -> bool:
    return FOLDER.fullmatch(text) is not None


def lined(folder: str) -> str:
    """The folder whose line has the versions: of a merged one it is the locked one."""
    return "locked:" + folder.removeprefix("merged:") if folder.startswith("merged:") else folder


def short_name(text: str, kind: str = "farm") -> str:
    """A plain file name for any text: no id becomes a path."""
    import hashlib  # commands that only ask an agent do without

    digest = hashlib.sha256(os.fsencode(text)).hexdigest()
    return f"{kind}-{digest[:32]}"


def who_of(text: str) -> str:
    """A text as the history names somebody: of at most 64 characters, all of them printable ASCII."""
    return "".join(c if "!" <= c <= "~" else "_" for c in text.strip()[:64])


class Want(NamedTuple):
    """A folder that a command asks for, and where it wants it."""

    folder: str
    path: str
    writable: bool = True

    @property
    def word(self) -> str:
        return self.folder if self.writable else f"ro={self.folder}"

    @property
    def is_shared(self) -> bool:
        return self.folder.startswith("shared:")

    @property
    def is_merged(self) -> bool:
        return self.folder.startswith("merged:")


def want_of(word: str) -> Want:
    """`[ro=]FOLDER=PATH`. Both may have a `=` within: the path begins at the first one that `/` follows, or is the only one."""
    writable = not word.startswith("ro=")
    rest = word if writable else word[3:]
    whole = rest.find("=/")
    folder, path = (rest[:whole], rest[whole + 1 :]) if whole >= 0 else rest.rpartition("=")[::2]
    if not folder or not path:
        raise UsageFault(f"--folder wants FOLDER=PATH, as locked:ccache=/tmp/ccache, and got {word!r}")
    if whole < 0 and "=" in folder:
        raise UsageFault(f"{word!r} has several =, and each may end the folder: name the path from / on")
    if path.startswith("~"):
        raise UsageFault(f"{word!r}: no shell has replaced the ~ of this path. Write $HOME in its place")
    if len(folder) > LONGEST_FOLDER:
        raise UsageFault(f"{folder[:60]}.. is too long: a folder has at most {LONGEST_FOLDER} characters")
    if not WANTED.fullmatch(folder):
        sharing, colon, identifier = folder.partition(":")
        hint = f": write {folder_text(sharing, identifier)}" if colon and sharing in USES else ""
        raise UsageFault(f"{folder!r} is no folder: it begins with merged:, locked:, private: or shared:, and has no spaces{hint}")
    return Want(folder, path, writable)


class Slot(NamedTuple):
    """A slot of a grant, and the version that it begins from."""

    name: str
    writable: bool
    base: int
    digest: str

    @property
    def folder(self) -> str:
        return self.name.partition("#")[0]


class Grant(NamedTuple):
    node: int
    life: int
    ask: int
    ticket: int
    kind: str
    slots: tuple[Slot, ...]


def slot_of(word: str) -> Slot:
    """`[ro=]SLOT=BASE:DIGEST`. The slot ends at the last `=`."""
    writable = not word.startswith("ro=")
    name, _, version = (word if writable else word[3:]).rpartition("=")
    base, _, digest = version.partition(":")
    if not DIGEST.fullmatch(digest):
        raise ValueError(f"{word!r} is no slot of a grant")
    return Slot(name, writable, int(base), digest)


def grant_of(words: list[str]) -> Grant:
    """`N L A T KIND [ro=]SLOT=BASE:DIGEST..`."""
    node, life, ask, ticket = (int(word) for word in words[:4])
    return Grant(node, life, ask, ticket, words[4], tuple(slot_of(word) for word in words[5:]))


def versions_of(words: list[str]) -> dict[str, tuple[int, str]]:
    """`SLOT=NUMBER:DIGEST..`."""
    versions = {}
    for word in words:
        slot, _, version = word.rpartition("=")
        number, _, digest = version.partition(":")
        versions[slot] = (int(number), digest)
    return versions


def is_bucket(contents: str) -> bool:
    """Whether `--contents` names a bucket of an object store, and no folder."""
    return contents.startswith("s3://")


def version_of(text: str) -> tuple[str, int | None]:
    """`FOLDER[@NUMBER]`. What follows the `@` of a folder's own text has a point in it."""
    found = re.fullmatch(r"(.*)@([0-9]+)", text)
    return (found[1], int(found[2])) if found else (text, None)
