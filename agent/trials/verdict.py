"""What has to hold of a farm after a trial: of its lines, of what was told, and of what each version holds."""
from __future__ import annotations

import hashlib
import os
import shutil
import stat
from collections import Counter
from dataclasses import dataclass, field
from typing import Iterator, Protocol

from agent.folders import trees
from agent.faults import FarmFault
from agent.store.folder import Store

HALF = "half"  # a file that a command removes before it ends
Lines = dict[str, list[tuple[int, int, str]]]  # of a slot: number, ticket and digest of each version


@dataclass
class Told:
    """What a command said of itself."""

    token: str
    slots: list[str]  # the folders that it may write
    status: int
    committed: list[tuple[int, str, int]] = field(default_factory=list)  # ticket, slot, number
    ended: list[int] = field(default_factory=list)  # tickets that it said were fenced, or released after a failure
    said: str = ""

    @property
    def how(self) -> str:
        return "committed" if self.committed else "fenced or released" if self.ended else "unknown"


def told_of(token: str, slots: list[str], status: int, said: str) -> Told:
    told = Told(token, slots, status, said=said)
    for line in said.splitlines():
        words = line.removeprefix("farm: ").split(" ")
        if words[0] == "committed" and words[3:4] == ["version"]:
            told.committed.append((int(words[1]), words[2], int(words[4])))
        elif words[0] in ("fenced", "released") and words[1].rstrip(":").isdigit():
            told.ended.append(int(words[1].rstrip(":")))
    return told


class Source(Protocol):
    """A place from which versions can be taken."""

    name: str
    store: Store
    must_have: bool  # every version is there

    def is_spoilt(self, digest: str, index: bytes | None) -> bool:
        """Whether something of it was overwritten by others."""


class Verdict:
    """Collects what is wrong."""

    def __init__(self, lines: Lines, told: list[Told], history: str) -> None:
        self.lines, self.told, self.counts, self.wrong = lines, told, Counter[str](), list[str]()
        self.by_ticket: dict[int, list[tuple[str, int, str]]] = {}
        for slot, versions in lines.items():
            for number, ticket, digest in versions:
                self.by_ticket.setdefault(ticket, []).append((slot, number, digest))
        self.handed: dict[int, dict[str, str]] = {}
        self.learned: list[tuple[int, str, int, str]] = []
        self.dropped: set[int] = set()
        for words in history_of(history):
            self._hear(words)

    def _hear(self, words: list[str]) -> None:
        if words[1] == "finish":
            news = (word.rpartition("=") for word in words[3:])
            self.handed.setdefault(int(words[2]), {}).update({slot: digest for slot, _, digest in news})
        elif words[1] == "learned":
            for word in words[3:]:
                slot, _, version = word.rpartition("=")
                number, _, digest = version.partition(":")
                self.learned.append((int(words[2]), slot, int(number), digest))
        elif words[1] == "dropped" and words[2].isdigit():
            self.dropped.add(int(words[2]))

    def blame(self, text: str) -> None:
        self.wrong.append(text)

    # Lines and what was told.

    def judge_lines(self) -> None:
        for slot, versions in self.lines.items():
            if [number for number, _, _ in versions] != list(range(1, len(versions) + 1)):
                self.blame(f"{slot}: its numbers aren't 1, 2, ..")
            tickets = [ticket for _, ticket, _ in versions]
            if any(one >= other for one, other in zip(tickets, tickets[1:])):
                self.blame(f"{slot}: its tickets don't rise: {tickets}")
            for number, ticket, digest in versions:
                self.counts["versions"] += 1
                if self.handed.get(ticket, {}).get(slot) != digest:
                    self.blame(f"{slot} version {number}, ticket {ticket}: no node handed this content over")

    def judge_told(self) -> None:
        for ticket, slot, number, digest in self.learned:
            self.counts["commits that nodes learned"] += 1
            if (slot, number, digest) not in self.by_ticket.get(ticket, []):
                self.blame(f"a node learned {slot} version {number} of ticket {ticket}, and it isn't on its line so")
        for ticket in self.dropped & set(self.by_ticket):
            self.blame(f"a node learned that ticket {ticket} was fenced, and it is on a line")
        for told in self.told:
            self.counts[f"commands {told.how}"] += 1
            for ticket, slot, number in told.committed:
                if (slot, number) not in [found[:2] for found in self.by_ticket.get(ticket, [])]:
                    self.blame(f"{told.token} was told {slot} version {number} of ticket {ticket}, and it isn't on its line so")
            for ticket in told.ended:
                if ticket in self.by_ticket:
                    self.blame(f"{told.token} was told that ticket {ticket} doesn't count, and it is on a line")

    # What versions hold.

    def judge_contents(self, sources: list[Source], room: str) -> None:
        tokens = {told.token: told for told in self.told}
        for slot, versions in self.lines.items():
            before: list[str] = []
            unread = 0  # versions since the one before that can't be read
            for number, ticket, digest in versions:
                lineage = self._taken(f"{slot} version {number}", digest, sources, f"{room}/out")
                if lineage is None:
                    unread += 1
                    continue
                if slot.startswith("shared:"):
                    self._judge_shared(f"{slot} version {number}", before, lineage)
                else:
                    known = before + lineage[len(before) : len(before) + unread]
                    self._judge_next(f"{slot} version {number}", ticket, known, lineage, tokens)
                before, unread = lineage, 0

    def _taken(self, name: str, digest: str, sources: list[Source], out: str) -> list[str] | None:
        """The lineage of a version, from each source that has it: they have to be equal. There is none where the trial itself spoilt
        the store's copy and a node's."""
        found: dict[str, tuple[str, list[str]]] = {}
        spoilt: list[Source] = []
        lacking: dict[str, FarmFault] = {}
        for source in sources:
            index = source.store.index(digest)
            shutil.rmtree(out, ignore_errors=True)
            try:
                if index is None:
                    raise FarmFault("its index isn't there")
                trees.extract(source.store, index, out)
            except FarmFault as fault:
                if source.is_spoilt(digest, index):
                    spoilt.append(source)
                    continue
                lacking[source.name] = fault
                if source.must_have:
                    self.blame(f"{name} can't be taken from {source.name}: {fault}")
                continue
            found[source.name] = (tree_digest(out), lineage_of(out))
            self._judge_tree(name, out)
            self.counts[f"copies in {source.name}"] += 1
        if not found:
            if any(not source.must_have for source in spoilt):
                self.counts["versions of which the trial spoilt each copy"] += 1
            else:
                self.blame(f"{name} is nowhere: spoilt in {[source.name for source in spoilt]}, and {lacking}")
            return None
        self.counts["versions taken out"] += 1
        if len({tree for tree, _ in found.values()}) > 1:
            self.blame(f"{name} isn't the same everywhere")
        return next(iter(found.values()))[1]

    def _judge_tree(self, name: str, out: str) -> None:
        if os.path.lexists(f"{out}/{HALF}"):
            self.blame(f"{name} is of a command that hadn't ended")
        if os.path.exists(f"{out}/blob") and digest_of(f"{out}/blob") != lines_in(f"{out}/sum")[0].split()[0]:
            self.blame(f"{name}: its blob and its sum are of different commands")
        lineage = f"{out}/lineage"
        if os.path.exists(f"{out}/blob"):
            if stat.S_IMODE(os.stat(lineage).st_mode) != 0o751 or os.readlink(f"{out}/link") != "lineage":
                self.blame(f"{name}: a mode or a link was lost")

    def _judge_shared(self, name: str, before: list[str], lineage: list[str]) -> None:
        if lineage[: len(before)] != before or len(set(lineage)) != len(lineage):
            self.blame(f"{name} isn't the one before it and more: {before[-3:]} {lineage[-6:]}")

    def _judge_next(self, name: str, ticket: int, before: list[str], lineage: list[str], tokens: dict[str, Told]) -> None:
        if lineage[:-1] != before:
            self.blame(f"{name} isn't the one before it and one token: {before[-3:]} {lineage[-3:]}")
        told = tokens.get(lineage[-1]) if lineage else None
        if told is None:
            self.blame(f"{name} has a token of no command")
        elif told.how == "committed":
            if ticket not in [ticket for ticket, _, _ in told.committed]:
                self.blame(f"{name} has ticket {ticket}, and {told.token} was told {told.committed}")
        elif told.how != "unknown":
            self.blame(f"{name} is of {told.token}, which was told {told.how}")
        else:
            self.counts["versions of commands that never heard of it"] += 1


def history_of(path: str) -> Iterator[list[str]]:
    if os.path.exists(path):
        for line in lines_in(path):
            yield line.split(" ")


def lines_in(path: str) -> list[str]:
    with open(path, errors="replace") as file:
        return file.read().splitlines()


def lineage_of(path: str) -> list[str]:
    return lines_in(f"{path}/lineage") if os.path.exists(f"{path}/lineage") else []


def digest_of(path: str) -> str:
    with open(path, "rb") as file:
        return hashlib.sha256(file.read()).hexdigest()


def tree_digest(path: str) -> str:
    """A digest of a folder's names, kinds, modes, owners, times and bytes."""
    whole = hashlib.sha256()
    for folder, folders, files in os.walk(path):
        folders.sort()
        for name in (".", *sorted(files), *folders):
            full = os.path.join(folder, name)
            here = os.lstat(full)
            whole.update(f"{os.path.relpath(full, path)} {here.st_mode:o} {here.st_uid} {here.st_mtime_ns}\n".encode())
            if os.path.islink(full):
                whole.update(os.readlink(full).encode())
            elif os.path.isfile(full):
                whole.update(digest_of(full).encode())
    return whole.hexdigest()
