"""What an agent knows of its farm: the greatest ticket that was granted, and the last versions of each slot. It is kept in the agent's home
and told to others, so that a coordinator whose record is old, lost or a copy is noticed.

What the coordinator told bears its proof, which a node hands back and can't make: so a node that was taken over stops no coordinator.

Owes the filters nothing: it can only stop an agent.
"""
from __future__ import annotations

import json
import os
import threading
import time
from typing import Callable, Iterable, Iterator, NamedTuple

from agent.faults import FarmFault
from agent.store.lasting import put_file

KEPT = 8  # versions of a slot
PROOFS_MOST = 32  # of a slot: where there are more, those of what is no longer known go
AT_ONCE, LONGEST = 500, 200_000  # slots of one line, and their characters
SAVE_EVERY = 2.0  # seconds: it is kept at most so often, and only where it changed

Versions = dict[str, dict[int, str]]  # of a slot: the digests of some versions


class Knowledge:
    """What is known of one generation of the farm. What an earlier one left in the file is put beside it. One lock has it."""

    def __init__(self, path: str, generation: str) -> None:
        self.path, self.generation = path, generation
        self.lock = threading.Lock()
        self.ticket = 0
        self.versions: Versions = {}
        self.proofs: dict[str, str] = {}  # of words: what shows that the coordinator said them
        self.is_changed, self.saved = False, 0.0
        known = loaded(path)
        if known and known.of != generation:
            os.replace(path, f"{path}.{known.of}")
        elif known:
            self.ticket, self.versions, self.proofs = known.ticket, known.versions, known.proofs

    def take_ticket(self, ticket: int) -> None:
        with self.lock:
            if ticket > self.ticket:
                self.ticket, self.is_changed = ticket, True

    def take(self, slot: str, number: int, digest: str) -> str:
        """A version that is told: why it can't be, where another one is known."""
        if not number:
            return ""
        with self.lock:
            known = self.versions.setdefault(slot, {})
            if known.get(number, digest) != digest:
                return f"{slot} version {number} is known as {known[number]}, and is told as {digest}"
            if number not in known and (len(known) < KEPT or number > min(known)):
                known[number], self.is_changed = digest, True
                while len(known) > KEPT:
                    del known[min(known)]
        return ""

    def take_proofs(self, words: Iterable[str]) -> None:
        """Those of words that the coordinator told."""
        with self.lock:
            self.proofs.update(proven for word in words if (proven := parted(word))[1])
            if len(self.proofs) > PROOFS_MOST * (1 + len(self.versions)):
                known = {ticket_word(self.ticket), *(word for part in words_of(self.versions) for word in part)}
                self.proofs = {word: proof for word, proof in self.proofs.items() if word in known}

    def proven(self, words: Iterable[str]) -> list[str]:
        """Words with their proofs, where they have one."""
        with self.lock:
            return [f"{word}:{self.proofs[word]}" if word in self.proofs else word for word in words]

    def is_beyond(self, ticket: int, last: dict[str, int]) -> bool:
        """Whether more is known here than this ticket and these last versions."""
        with self.lock:
            return self.ticket > ticket or any(max(self.versions.get(slot, {0: ""})) > number for slot, number in last.items())

    def whole(self) -> tuple[int, Versions]:
        with self.lock:
            return self.ticket, {slot: dict(known) for slot, known in self.versions.items()}

    def lasts(self) -> Versions:
        """The last version of each slot."""
        with self.lock:
            return {slot: {(number := max(known)): known[number]} for slot, known in self.versions.items() if known}

    def save(self, at_once: bool = False) -> None:
        """Keeps it, where it changed, and not too often."""
        with self.lock:
            if not self.is_changed or time.monotonic() - self.saved < SAVE_EVERY and not at_once:
                return
            self.is_changed, self.saved = False, time.monotonic()
            data = json.dumps({"of": self.generation, "ticket": self.ticket, "versions": self.versions, "proofs": self.proofs}).encode()
        try:
            put_file(self.path, data)
        except OSError:  # as on a full disk: it is tried again
            with self.lock:
                self.is_changed = True


class Stored(NamedTuple):
    """What a file of knowledge holds."""

    of: str
    ticket: int
    versions: Versions
    proofs: dict[str, str]


def loaded(path: str) -> Stored | None:
    """What a file of knowledge holds; none where it isn't one."""
    try:
        with open(path) as file:
            known = json.load(file)
        versions = {str(slot): {int(number): str(digest) for number, digest in some.items()} for slot, some in known["versions"].items()}
        proofs = {str(word): str(proof) for word, proof in known.get("proofs", {}).items()}
        return Stored(of=str(known["of"]), ticket=int(known["ticket"]), versions=versions, proofs=proofs)
    except (OSError, ValueError, KeyError, TypeError, AttributeError):
        return None


def add_to(path: str, versions: Versions) -> None:
    """Adds versions to a file of them."""
    known = loaded(path)
    whole = known.versions if known else {}
    for slot, some in versions.items():
        whole.setdefault(slot, {}).update(some)
    put_file(path, json.dumps({"of": "", "ticket": 0, "versions": whole}).encode())


def older(path: str) -> Versions:
    """What earlier generations left beside a file of knowledge."""
    folder, name = os.path.split(path)
    names = os.listdir(folder) if os.path.isdir(folder) else []
    found: Versions = {}
    for each in sorted(names):
        if each.startswith(f"{name}.") and (known := loaded(f"{folder}/{each}")):
            for slot, some in known.versions.items():
                found.setdefault(slot, {}).update(some)
    return found


def words_of(versions: Versions) -> Iterator[list[str]]:
    """Versions as words of lines that aren't too long; at least one, which may be empty."""
    words, size = list[str](), 0
    for slot, known in versions.items():
        for number, digest in known.items():
            words.append(f"{slot}={number}:{digest}")
            size += len(words[-1])
        if len(words) >= AT_ONCE or size > LONGEST:
            yield words
            words, size = [], 0
    yield words


def told(words: Iterable[str]) -> Iterator[tuple[str, int, str]]:
    for word in words:
        slot, _, version = word.rpartition("=")
        number, _, digest = version.partition(":")
        yield slot, int(number), digest.partition(":")[0]


def ticket_word(ticket: int) -> str:
    return f"ticket={ticket}:granted"


def ticket_of(word: str) -> int:
    return int(word.removeprefix("ticket=").partition(":")[0])


def parted(word: str) -> tuple[str, str]:
    """A word and its proof, which may be empty."""
    front, _, last = word.rpartition(":")
    return (front, last) if ":" in front.rpartition("=")[2] else (word, "")


def beyond(ticket: int, lines: Callable[[str], list[str]], last: dict[str, int], known_ticket: int, known: Versions) -> tuple[list[str], Versions]:
    """What is known beyond a record, in words, and the versions of that. `lines` gives the digests of a slot's versions, in order."""
    found, lost = list[str](), Versions()
    if known_ticket > ticket:
        found.append(f"ticket {known_ticket} was granted, and the record's last is {ticket}")
    for slot, some in known.items():
        number, has = max(some), last.get(slot, 0)
        line = lines(slot) if has else []
        wrong = {at: digest for at, digest in some.items() if line[at - 1 : at] != [digest]}
        if wrong:
            lost[slot] = wrong
            found.append(f"{slot} had version {number}, and the record has {has}" if number > has else f"{slot} version {max(wrong)} was another one")
    return found, lost


class OldRecord(FarmFault):
    """The coordinator's record isn't the farm's last, or isn't the only one."""
