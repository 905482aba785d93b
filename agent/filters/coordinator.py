"""The agent of the coordinator: carries its filter's lines, and says what people ask of it.

Owes the filter that what came from outside stands behind `m `, and that only the machine's own people speak without it. That a lease is
withdrawn too early costs its holder a build and nothing else, so the agent may guess.
"""
from __future__ import annotations

import contextlib
import os
import threading
import time

from agent.store.chunks import folder_size
from agent.faults import FarmFault, LifeOver, UsageFault, tell
from agent.logs import DEBUG, ERROR, NOTICE, WARNING
from agent.transport.keys import FarmKey
from agent.filters.bounds import MOST, Bounds
from agent.filters.lines import Answer, Talk, line_of
from agent.filters.measured import Measured
from agent.transport.needs import parts
from agent.filters.node import HEARTBEAT, Setup
from agent.filters.snapshots import Merges, Snapshots
from agent.filters.watch import Watch
from agent.history.kept import History
from agent.history.seen import Seen
from agent.transport.local import COORDINATOR, address_of, node_address
from agent.service.operators import FolderStatus, Lease, Status, Version, Waiting
from agent.words import DIGEST, EMPTY, is_folder, lined

NUDGE_MOST = 15.0
AT_ONCE = 64  # lines that are carried together
LAST_LIFE = 2**64 - 2  # of a node, in which it is put out
LIVES_MOST = 2**62  # lives of nodes, which begin with the seconds since 1970: in a later one a node that was taken over couldn't be put out
SINCE_MOST = 65_536  # leases whose beginning is known
LOOK_EVERY = 5.0  # seconds, of a node: from one look whether the leases of its commands live to the next
SILENT_LEAST = 3 * HEARTBEAT  # seconds: a shorter silence says nothing
REFUSALS = {  # what people are told beside the name of one
    "NotLive": "no live lease has this ticket, and farm status shows those that live",
    "Tenure": "a SHARED folder is open under this ticket until those who use it end",
    "SlotLeased": "wait until its lease ends, or withdraw that",
}


def _has_early_life(line: str) -> bool:
    """Whether a line is of a life that a node may come to."""
    life = line.split(" ", 3)[2:3]
    return not life or not life[0].isdecimal() or len(life[0]) <= 20 and int(life[0]) <= LIVES_MOST


class CoordinatorAgent:
    def __init__(
        self, setup: Setup, key: FarmKey, lease_timeout: float | None = None, nodes: int = 0, has_broker: bool = False, most_asks: int = MOST
    ) -> None:
        self.setup, self.lease_timeout, self.nodes = setup, lease_timeout, nodes
        self.log = setup.log.of(part="coordinator")
        self.measured = Measured(setup.counts, self.log)
        self.key, self.hints = key, key.hints()
        # The thread that hears lines changes these, others read single values: `heard`, `spoke`, `left`, `looked`. `lock` has `since` and `last`.
        self.since: dict[int, float] = {}  # of a ticket: when this agent saw it granted
        self.heard: dict[int, float] = {}  # of a node: the time of day at which it was heard
        self.spoke: dict[int, float] = {}  # of a node: the same by the clock that nobody sets
        self.last: dict[str, tuple[int, tuple[Version, ...]]] = {}  # of a slot: its last number, and its last versions
        self.left: dict[int, tuple[int, set[int]]] = {}  # of a node: a life, and its asks for which nobody waits any more
        self.looked: dict[int, float] = {}  # of a node: when it was looked whether its leases live
        self.snapshots = Snapshots(SILENT_LEAST)
        self.merges = Merges(f"{setup.home}/merges")
        self.history = History(f"{setup.home}/history", tell)
        self.seen = Seen(self.history)
        self.begun = time.monotonic()
        self.lock = threading.Lock()
        self.telling = threading.Lock()
        self.watch = Watch(self, has_broker)
        self.bounds = Bounds(most_asks, self._held_by)
        words = ["coordinator", "--record", f"{setup.home}/record", "--key", key.path]
        self.talk = Talk("coordinator", [setup.program, *words], lambda: None, self.hear)

    def hear(self, answer: Answer) -> None:
        words = answer.note.split(" ")
        self.seen.hear(answer)
        if not answer.note.startswith(("granted before", "nudged", "started")):
            self._hear_grants(answer.sends)
        if words[0] not in ("nothing", "nudged", "status", "line", "needed"):
            self.log(answer.note[:160])
        self.measured.answered(answer)
        for fact in answer.facts:
            self._hear_fact(fact.split(" "))
        for line in answer.sends:
            self.watch.take_line(line)
            if self.watch.may_send(line):
                self.setup.transport.send(address_of(line), line)

    def _hear_grants(self, lines: list[str]) -> None:
        """Grants that are made just now, also to asks that waited."""
        for line in lines:
            words = line.split(" ")
            if words[0] == "granted":
                self.measured.granted(words)
                with self.lock:
                    self.since[int(words[4])] = time.time()
                    while len(self.since) > SINCE_MOST:
                        del self.since[next(iter(self.since))]

    def _hear_fact(self, words: list[str]) -> None:
        if words[0] in ("ended", "outdated", "gone") and len(words) > 1:
            self._log_ending(words)
            self.tell(int(words[2] if words[0] == "ended" else words[1]), " ".join(words))
        elif words[0] in ("restarted", "down"):
            self.log(f"the record couldn't be saved: {' '.join(words)}", ERROR)

    def _log_ending(self, words: list[str]) -> None:
        if words[0] == "ended":
            self.log("the lease was ended before its commit", NOTICE, node=int(words[2]), ticket=int(words[1]))
        else:
            self.log("a later life of it was heard" if words[0] == "outdated" else "it was retired, and isn't heard", DEBUG, node=int(words[1]))

    def tell(self, node: int, text: str) -> None:
        """A hint to a node."""
        self.setup.transport.send(node_address(node), self.hints.seal(node, text))

    def call(self, line: str) -> Answer:
        return self.talk.call(line)

    def question(self, line: str) -> Answer:
        """The answer to a line that changes nothing, so that it may be said again."""
        for _ in range(3):
            with contextlib.suppress(LifeOver):
                answer = self.call(line)
                if answer.is_refused:
                    raise FarmFault(f"the coordinator doesn't answer {line!r}: {answer.note}")
                return answer
        raise FarmFault("the coordinator ends again and again")

    def serve(self) -> None:
        """Hears messages for ever, sends its grants again now and then, and withdraws the leases of nodes that fell silent."""
        delay, due = 1.0, time.monotonic() + 1.0
        while not self.talk.stopped and not self.watch.fault:
            try:
                lines = self._lines(0.1 if self.watch.is_quiet() else 0.5)
                self.watch.go_on()
                if any(note.startswith(("granted", "parked")) for note in self.receive(lines)):
                    delay = 1.0
                if time.monotonic() > due and not self.watch.is_quiet():
                    self.call("nudge")
                    self._withdraw_silent()
                    delay = min(delay * 2, NUDGE_MOST)
                    due = time.monotonic() + delay
            except LifeOver:
                delay = 1.0
            except Exception as fault:  # whatever was wrong with one line, the next one is heard
                self.log.fault(fault)
                time.sleep(1.0)

    def _lines(self, timeout: float) -> list[str]:
        """The lines that are here, once there is one."""
        lines = list[str]()
        line = self.setup.transport.receive(COORDINATOR, timeout)
        while line is not None:
            lines.append(line)
            line = self.setup.transport.receive(COORDINATOR, 0) if len(lines) < AT_ONCE else None
        return lines

    def receive(self, lines: list[str]) -> list[str]:
        """Lines from outside. The notes of the answers."""
        passed = []
        for line in lines:
            words = self.hints.open(line)
            if words:
                self._hear_hint(words)
            elif "\n" not in line and "\r" not in line and _has_early_life(line) and self.bounds.may_pass(line) and self.watch.may_pass(line):
                passed.append(line)
        passed += self.watch.freed()
        self.watch.check()
        notes = [answer.note for answer in self.talk.calls([f"m {line}" for line in passed])] if passed else []
        for line, note in zip(passed, notes):
            self.measured.heard(line, note)
            if not note.startswith(("dropped", "refused")):
                self._was_heard(int(line.split(" ", 2)[1]))
                self.seen.take(line, note)
        return notes

    def _was_heard(self, node: int) -> None:
        self.heard[node], self.spoke[node] = time.time(), time.monotonic()

    def _hear_hint(self, words: list[str]) -> None:
        if words[0] == "here":
            self._was_heard(int(words[1]))
            if words[2:]:
                self._tell_ended(int(words[1]), {int(word) for word in words[2:]})
        self.watch.hear(words)
        self.seen.hear_hint(words)
        if words[0] == "left":
            self.left[int(words[1])] = (int(words[2]), {int(word) for word in words[3:]})
        if words[0] == "who":
            node, ask, folders = int(words[1]), words[2], set(words[3:])
            with contextlib.suppress(FarmFault):  # while the coordinator refuses, nobody is told
                held = self.holders(node, folders)
                self.tell(node, f"held {node} {ask} {held}")
        if words[0] == "snapshots":
            self.snapshots.hear(words[1:])
        if words[0] == "merged":
            self.merges.hear(words[2:])
        if words[0] == "last":
            self._tell_last(int(words[1]), words[2], words[3])
        if words[0] == "needs" and self.telling.acquire(blocking=False):  # one at a time: old questions come again too
            threading.Thread(target=self._tell_needed, args=(int(words[1]), words[2], int(words[3])), daemon=True).start()

    def _tell_last(self, node: int, word: str, slot: str) -> None:
        """The last version of a slot, or of any instance of a folder, to a node that has no lease of it."""
        with contextlib.suppress(FarmFault):
            folders = [each for each in self.status().folders if slot in (each.slot, each.slot.partition("#")[0])]
            found = max(folders, key=lambda each: each.ticket, default=None)
            text = f"lastis {node} {word} {found.version} {found.digest}" if found else f"lastis {node} {word} 0 {EMPTY}"
            self.tell(node, text)

    def _tell_ended(self, node: int, tickets: set[int]) -> None:
        """Tells a node which of the leases that its commands run under are over: a restart tells it nobody, and what was told may be lost."""
        now = time.monotonic()
        if now - self.looked.get(node, -LOOK_EVERY) < LOOK_EVERY:
            return
        self.looked[node] = now
        with contextlib.suppress(FarmFault):
            for ticket in tickets - {lease.ticket for lease in self.status().leases}:
                self.tell(node, f"ended {ticket} {node}")

    def _tell_needed(self, node: int, word: str, keep: int) -> None:
        try:
            told = parts(self.needed(keep))
            for number, digests in enumerate(told):
                text = " ".join(["needed", str(node), word, str(number), str(len(told)), *digests])
                self.tell(node, text)
        except FarmFault as fault:
            self.log(f"it isn't told what is needed: {fault}", WARNING, node=node)
        finally:
            self.telling.release()

    def _held_by(self, node: int) -> int:
        """How many live leases and asks that wait a node has."""
        status = self.status()
        return sum(lease.node == node for lease in status.leases) + sum(ask.node == node for ask in status.waiting)

    def holders(self, node: int, folders: set[str]) -> str:
        """Who has one of these folders, in words."""
        found = []
        for lease in self.status().leases:
            slots = [slot for slot in lease.slots if slot.removeprefix("ro=").partition("#")[0] in folders]
            if slots:
                seconds = f"for {time.time() - lease.since:.0f} s" if lease.since else "since before this agent began"
                found.append(f"node {lease.node} has {', '.join(slots)} {seconds}, ticket {lease.ticket}")
        return "; ".join(found)

    def _withdraw_silent(self) -> None:
        if self.lease_timeout is None:
            return
        for lease in self.status().leases:
            silent = time.monotonic() - self.spoke.get(lease.node, self.begun)
            if silent > self.lease_timeout and lease.kind != "tenure":
                self.log(f"the node wasn't heard for {silent:.0f} s: its lease is withdrawn", WARNING, node=lease.node, ticket=lease.ticket)
                self.call(line_of("withdraw", str(lease.ticket)))

    def look_back(self) -> None:
        """Takes up what an earlier agent of this home saw of the leases that live."""
        self.seen.begin(self.status())
        with self.lock:
            self.since = self.seen.since() | self.since

    # What people ask.

    def status(self, last: int = 0) -> Status:
        """Who has what and who waits; of each folder the last version, and as many versions as are wanted, newest first."""
        facts = [fact.split(" ") for fact in self.question("status").facts]

        def of(kind: str) -> list[list[str]]:
            return [words[1:] for words in facts if words[0] == kind]

        return Status(
            leases=tuple(map(self._lease, of("lease"))), waiting=tuple(map(self._waiting, of("parked"))),
            folders=tuple(self._folder(words, last) for words in of("last")), lives={words[0]: int(words[1]) for words in of("life")},
            gone=tuple(int(words[0]) for words in of("gone")), retired=tuple(words[0] for words in of("retired")),
            tickets=max((int(words[0]) for words in of("tickets")), default=0), heard={str(node): at for node, at in list(self.heard.items())},
            now=time.time(), snapshots=self.snapshots.present(), versions=sum(int(words[1].partition(":")[0]) for words in of("last")),
            waited=self.measured.oldest({tuple(words[1:4]) for words in of("parked")}), record=self._record_size(), troubles=self.setup.counts.troubles("the broker redis"),
        )

    def _record_size(self) -> int:
        """The bytes of the record and its log."""
        found = 0
        for name in ("record", "record.log"):
            with contextlib.suppress(FileNotFoundError):
                found += os.path.getsize(f"{self.setup.home}/{name}")
        return found

    def _lease(self, words: list[str]) -> Lease:
        ticket, node, life, ask = (int(word) for word in words[:4])
        with self.lock:
            since = self.since.get(ticket)
        return Lease(ticket=ticket, node=node, life=life, ask=ask, kind=words[4], slots=tuple(words[5:]), since=since, who=self.seen.who(ticket))

    def _waiting(self, words: list[str]) -> Waiting:
        node, life, ask = (int(word) for word in words[1:4])
        left_of, asks = self.left.get(node, (0, set()))
        left = life == left_of and ask in asks
        since, who = self.seen.asked(node, life, ask)
        return Waiting(kind=words[0], node=node, life=life, ask=ask, folders=tuple(words[4:]), left=left, since=since, who=who)

    def _folder(self, words: list[str], last: int) -> FolderStatus:
        number, ticket, digest = words[1].split(":")
        versions = self._last_versions(words[0], int(number), last) if last else ()
        return FolderStatus(slot=words[0], version=int(number), ticket=int(ticket), digest=digest, versions=versions)

    def _last_versions(self, slot: str, number: int, count: int) -> tuple[Version, ...]:
        """Asked of the filter only where the folder has a new one."""
        with self.lock:
            known = self.last.get(slot)
        if known is None or known[0] != number or len(known[1]) < min(count, number):
            versions = self.versions(slot)[-count:][::-1]
            known = (number, tuple(version._replace(size=self._size(version.digest)) for version in versions))
            with self.lock:
                self.last[slot] = known
        return known[1][:count]

    def _size(self, digest: str) -> int | None:
        index = self.setup.store.index(digest)
        return None if index is None else folder_size(index)

    def slots_of(self, folder: str) -> list[str]:
        """The slots of a folder that have versions; a slot's own text names that one."""
        folder = lined(folder)
        if not is_folder(folder.partition("#")[0]):
            raise UsageFault(f"{folder!r} is no folder")
        found = [each.slot for each in self.status().folders]
        return [slot for slot in found if folder in (slot, slot.partition("#")[0])]

    def versions(self, slot: str) -> list[Version]:
        facts = (fact.split(" ") for fact in self.question(line_of("line", slot)).facts)
        return [
            Version(version=int(words[0]), ticket=int(words[1]), digest=words[2], note=self.merges.said.get(int(words[1]), "")) for words in facts
        ]

    def needed(self, keep: int) -> set[str]:
        """The digests of the last versions of each slot, and all that the filter says are needed."""
        needed = {fact for fact in self.question("needed").facts if DIGEST.fullmatch(fact)}
        for each in self.status().folders:
            needed.update(version.digest for version in self.versions(each.slot)[-keep:])
        return needed

    def operate(self, *words: str) -> str:
        """An operator's call. What came of it; a refusal is a fault."""
        self.watch.check()
        answer = self.call(line_of(*words))
        if answer.is_refused:
            why = REFUSALS.get(answer.note.removeprefix("refused "))
            raise FarmFault(f"{' '.join(words)}: {answer.note}{f': {why}' if why else ''}")
        if words[0] == "prune":
            self.seen.pruned(words[1], int(answer.note.split(" ")[1]))
        return answer.note

    def retire(self, node: int, is_gone: bool, is_last_too: bool = False) -> str:
        """Retires a node, and tells it. One that is gone for good, or was taken over, is put out with all that it has: whoever says so vouches
        that its executions are over, or that what they do counts for nothing."""
        status = self.status()
        if not is_last_too and {*map(int, status.lives)} - {*status.gone} == {node}:
            raise UsageFault(f"node {node} is the last one that isn't retired, and no command runs without one: farm retire {node} --yes does it")
        if is_gone:  # a newer life ends all that the node was leased, its tenures too
            self.talk.calls([f"m {self.key.of_node(node).seal(f'hello {node} {LAST_LIFE}')}"])
        try:
            done = self.operate("retire", str(node))
            self.tell(node, f"gone {node}")
            return done
        except FarmFault as fault:
            if "TenureHeld" in str(fault) and not is_gone:
                raise FarmFault(
                    f"node {node} has a SHARED folder open. Let it end, or, if the node is gone for good and all it ran is over: "
                    f"farm retire {node} --gone"
                ) from None
            raise

    def stop(self) -> None:
        self.talk.stop()
        self.history.close()
        with contextlib.suppress(OSError):
            self.watch.knowledge.save(at_once=True)
