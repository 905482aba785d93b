"""Whether a coordinator's record is the farm's last one, and the only one.

Owes the filter that no line of a node comes to it before what that node knows was compared with the record: an old, empty or copied record
answers nothing that could count to a node which knows better. What a node says and proves can only stop the coordinator, and what it can't
prove keeps that node alone out. The thread that hears lines has all of it; the knowledge has a lock of its own, and `lock` has the news. Others only look who was told, and whether it stopped.
"""
from __future__ import annotations

import contextlib
import hmac
import os
import secrets
import threading
import time
from collections import deque
from typing import TYPE_CHECKING, Iterable

from agent.faults import tell
from agent.filters.knowledge import (
    Knowledge, OldRecord, Versions, add_to, beyond, loaded, older, parted, ticket_of, ticket_word, told, words_of,
)
from agent.transport.local import COORDINATOR

if TYPE_CHECKING:
    from agent.filters.coordinator import CoordinatorAgent

QUIET = 1.5  # seconds in which a coordinator over a broker answers nothing: another one, and the nodes, are asked
OWN_MOST = 20.0  # seconds for which nodes of this process are waited for
ASK_EVERY, NEWS_EVERY = 0.5, 2.0  # seconds
PARTS_MOST, LOST_MOST = 4_096, 10_000  # of what a node tells: lines, and slots of which versions were lost
NODES_MOST, LINES_MOST, LINE_MOST = 64, 16, 1 << 16  # what waits until its node has told: nodes, lines of one, bytes of a line
WAYS = (
    "It answers nothing. Put the farm's last record back, RECORD and RECORD.log together; or, where there is none, vouch for this one by "
    "--restored beside the words of this call: that begins a new generation of the farm, with a new key for every node (docs/REFUSALS.md)"
)


class Watch:
    def __init__(self, agent: CoordinatorAgent, has_broker: bool) -> None:
        self.agent, self.hints, self.home = agent, agent.hints, agent.setup.home
        self.knowledge = Knowledge(f"{self.home}/known", agent.key.names.generation)
        self.own = secrets.token_hex(8)  # this process, and the word that an answer to it has to have
        self.has_broker = has_broker
        self.begun = time.monotonic()
        self.told: set[int] = set()  # nodes that may be heard
        self.to_tell: set[int] = set()  # those of them that weren't told what is known here
        self.parts: dict[int, dict[int, list[str]]] = {}  # of a node: what it has told so far
        self.doubted: dict[int, str] = {}  # of a node: what it told beyond the record, and didn't prove
        self.waiting: dict[int, deque[str]] = {}
        self.asked: dict[int, float] = {}
        self.expected: set[int] = set()  # nodes that are asked at the beginning
        self.lock = threading.Lock()
        self.news: Versions = {}  # that no node was told yet
        self.due = 0.0
        self.fault: OldRecord | None = None

    # The record.

    def compare(self, who: str, ticket: int, known: Versions) -> None:
        """Stops the coordinator where more is known than its record has."""
        found, lost = self._beyond(ticket, known)
        if found:
            add_to(f"{self.home}/behind", lost)
            self.stop(f"the coordinator's record in {self.home} is older than the farm, or another one: {who} tells that {'; '.join(found[:3])}")

    def _beyond(self, ticket: int, known: Versions) -> tuple[list[str], Versions]:
        """What is known beyond the record, in words, and the versions of that."""
        status = self.agent.status()
        last = {each.slot: each.version for each in status.folders}
        lines: dict[str, list[str]] = {each.slot: [each.digest] for each in status.folders if each.version == 1}

        def line(slot: str) -> list[str]:
            return lines.get(slot) or [version.digest for version in self.agent.versions(slot)]

        newest = {each.slot: each.digest for each in status.folders}
        suspect = {slot: some for slot, some in known.items() if some and (last.get(slot), newest.get(slot)) != (max(some), some[max(some)])}
        return beyond(status.tickets, line, last, ticket, suspect)

    def stop(self, why: str) -> None:
        self.fault = self.fault or OldRecord(f"{why}. {WAYS.replace('RECORD', f'{self.home}/record')}")
        raise self.fault

    def check(self) -> None:
        if self.fault:
            raise self.fault

    def begin(self) -> None:
        """Compares the record with what this home knows, and asks whoever else may know more."""
        self.compare("this home", *self.knowledge.whole())
        status = self.agent.status()
        self.knowledge.take_ticket(status.tickets)
        for each in status.folders:
            self.knowledge.take(each.slot, each.version, each.digest)
        self.expected = {*map(int, status.lives), *range(1, self.agent.nodes + 1)} - set(status.gone)
        for node in self.expected:
            self.ask(node)
        self.say_here()

    def is_quiet(self) -> bool:
        """Whether nothing is answered yet."""
        return self.has_broker and time.monotonic() - self.begun < QUIET

    def settle(self, nodes: set[int]) -> None:
        """Waits until it may answer, and these nodes, of this process, have told what they know: on a busy machine that may take a while."""
        while self.is_quiet() or not nodes <= self.told | self.doubted.keys() and time.monotonic() - self.begun < OWN_MOST:
            self.check()
            time.sleep(0.01)
        self.check()

    # Lost versions.

    def lost(self) -> Versions:
        """The versions of generations before this one that the record doesn't have."""
        known = loaded(f"{self.home}/lost")
        return known.versions if known else {}

    def take_lost(self, known: Versions) -> None:
        """Keeps those of some old versions that the record doesn't have."""
        last = {each.slot: each.version for each in self.agent.status().folders}
        _, lost = beyond(0, lambda slot: [version.digest for version in self.agent.versions(slot)], last, 0, known)
        if lost:
            add_to(f"{self.home}/lost", lost)

    def restore(self) -> Versions:
        """The operator vouched for the record: what is known beyond it is lost."""
        homes = [self.home, *(f"{self.home}/{name}" for name in os.listdir(self.home) if name.startswith("node") and name[4:].isdigit())]
        for home in homes:
            self.take_lost(older(f"{home}/known"))
        behind = loaded(f"{self.home}/behind")
        if behind:
            self.take_lost(behind.versions)
            os.unlink(f"{self.home}/behind")
        return self.lost()

    # Nodes.

    def may_pass(self, line: str) -> bool:
        """Whether a line of a node goes to the filter now. Else it waits until the node has told what it knows."""
        words = line.split(" ", 2)
        if len(words) < 3 or not words[1].isdecimal() or len(words[1]) > 4:
            return True  # it is none of a node, and the filter says so
        node = int(words[1])
        if node in self.told and not self.is_quiet():
            return True
        if len(line) <= LINE_MOST and (node in self.waiting or len(self.waiting) < NODES_MOST):
            self.waiting.setdefault(node, deque(maxlen=LINES_MOST)).append(line)
        if node not in self.told:
            self.ask(node)
        return False

    def may_send(self, line: str) -> bool:
        """Whether a line of the filter goes to its node: not before that has told what it knows."""
        words = line.split(" ", 2)
        return self.fault is None and int(words[1]) in self.told

    def ask(self, node: int) -> None:
        now = time.monotonic()
        if now - self.asked.get(node, -ASK_EVERY) >= ASK_EVERY:
            self.asked[node] = now
            self.agent.tell(node, f"tell {node} {self.own}")

    def freed(self) -> list[str]:
        """Lines that waited, and may be heard."""
        if self.is_quiet():
            return []
        return [line for node in self.told & self.waiting.keys() for line in self.waiting.pop(node)]

    def hear(self, words: list[str]) -> None:
        """`knows NODE WORD NUMBER COUNT TICKET VERSIONS..`, `lost NODE VERSIONS..`, `coordinator ID HOW`, `iscoordinator ID WORD HOW`."""
        if words[0] == "here" and int(words[1]) not in self.told:
            self.ask(int(words[1]))
        elif words[0] == "knows":
            self._hear_knows(int(words[1]), words[2], int(words[3]), int(words[4]), words[5], words[6:])
        elif words[0] == "lost" and len(self.lost()) < LOST_MOST:
            self.take_lost(versions_told(words[2:]))
        elif words[0] == "coordinator" and words[1] != self.own:
            self.agent.setup.transport.send(COORDINATOR, self.hints.seal_to_coordinators(f"iscoordinator {self.own} {words[1]} {self._how()}"))
        elif words[0] == "iscoordinator" and words[1] != self.own and words[2] == self.own and (self.is_quiet() or words[3] == "stands"):
            self.stop(f"another coordinator of this farm runs, beside the one of {self.home}: which record is the right one only people know")

    def _hear_knows(self, node: int, word: str, number: int, count: int, ticket: str, words: list[str]) -> None:
        proven = [each for each in words if self._is_proven(each)]
        self.compare(f"node {node}", ticket_of(ticket) if self._is_proven(ticket) else 0, versions_told(proven))
        found, _ = self._beyond(ticket_of(ticket), versions_told(words))
        if found:
            self._doubt(node, "; ".join(found[:3]))
        elif word == self.own and number < count <= PARTS_MOST:
            parts = self.parts.setdefault(node, {})
            parts[number] = words
            if len(parts) == count and node not in self.told:
                self.told.add(node)
                self.to_tell.add(node)
                self._tell_new()

    def _tell_new(self) -> None:
        """Tells nodes that were heard what is known here, once it is sure that this is the only coordinator: a copy's tickets would stop the
        right one."""
        while self.to_tell and not self.is_quiet():
            self._tell(self.to_tell.pop(), self.knowledge.lasts())

    def _is_proven(self, word: str) -> bool:
        said, proof = parted(word)
        return hmac.compare_digest(proof.encode(), self.agent.key.proof(said).encode())

    def _doubt(self, node: int, why: str) -> None:
        """A node tells more than the record has, and doesn't prove it: it lies, or this record is an old one and the proof was lost."""
        self.told.discard(node)
        self.parts.pop(node, None)
        if self.doubted.get(node) != why:
            self.doubted[node] = why
            tell(f"node {node} isn't answered: it tells that {why}, without a proof of the coordinator's. docs/REFUSALS.md says what to do")

    def _how(self) -> str:
        return "quiet" if self.is_quiet() else "stands"

    def say_here(self) -> None:
        if self.has_broker:
            self.agent.setup.transport.send(COORDINATOR, self.hints.seal_to_coordinators(f"coordinator {self.own} {self._how()}"))

    # News.

    def take_line(self, line: str) -> None:
        """What a line to a node tells: a grant, or versions that count."""
        words = line.split(" ")
        with contextlib.suppress(ValueError, IndexError):
            if words[0] in ("granted", "committed"):
                self.knowledge.take_ticket(int(words[4] if words[0] == "granted" else words[3]))
                self._take_versions(told(words[4:-1]) if words[0] == "committed" else ())
                if int(words[1]) in self.told:  # its proof, before anybody can ask for it
                    self._tell(int(words[1]), versions_told(words[4:-1]) if words[0] == "committed" else {})

    def _take_versions(self, versions: Iterable[tuple[str, int, str]]) -> None:
        for slot, number, digest in versions:
            self.knowledge.take(slot, number, digest)
            with self.lock:
                self.news[slot] = {number: digest}

    def go_on(self) -> None:
        """Tells the nodes what is new, asks for other coordinators, and keeps what is known."""
        if time.monotonic() < self.due:
            return
        self.due = time.monotonic() + (NEWS_EVERY if not self.is_quiet() else ASK_EVERY)
        self.say_here()
        self._tell_new()
        with self.lock:
            news, self.news = self.news, {}
        for node in self.told if news else ():
            self._tell(node, news)
        for node in (self.waiting.keys() | (self.expected if self.is_quiet() else set())) - self.told:
            self.ask(node)
        self.knowledge.save()

    def _tell(self, node: int, versions: Versions) -> None:
        for words in words_of(versions):
            text = " ".join(["known", str(node), *(f"{word}:{self.agent.key.proof(word)}" for word in (ticket_word(self.knowledge.ticket), *words))])
            self.agent.tell(node, text)


def versions_told(words: list[str]) -> Versions:
    found: Versions = {}
    for slot, number, digest in told(words):
        found.setdefault(slot, {})[number] = digest
    return found

