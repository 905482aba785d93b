"""The agent of a node: carries its filter's lines, and begins its lives.

Owes the filter that executions of a life are over before the next one begins, that what came from outside stands behind `m `, that each
line it sends is sent on, and that a content it is handed is one that the store keeps.
"""
from __future__ import annotations

import contextlib
import os
import re
import threading
import time
from dataclasses import dataclass, field
from typing import Callable, Iterable

from agent.counts import Counts
from agent.runs.caller import LATE, Caller, Patience
from agent.runs.executions import Executions
from agent.faults import ClientGone, FarmFault, LifeOver, NodeRetired, WaitOver, tell
from agent.logs import DEBUG, ERROR, NOTICE, SILENT, WARNING, Log
from agent.transport.hints import from_nodes, to_nodes
from agent.transport.keys import Key
from agent.filters.knowledge import Knowledge, older, ticket_of, ticket_word, told, words_of
from agent.filters.lines import Answer, Talk, line_of
from agent.history import hints as past
from agent.transport.needs import Needs
from agent.folders.places import Places
from agent.folders.shared import SharedFolders
from agent.runs.merged import MergedFolders
from agent.store.folder import ChunksMissing, Store
from agent.store.lasting import put_file
from agent.tools import LOOK
from agent.transport.local import COORDINATOR, Transport, address_of, node_address
from agent.folders.trees import NotMade
from agent.words import DIGEST, EMPTY, Grant, Slot, grant_of, versions_of

AWAITED = ("took", "learned", "dropped", "denied", "blob", "recalled", "gave")  # notes that somebody may wait for
STATES = ("pending", "granted", "running", "committed", "fenced", "released", "content")  # answers to questions
ENDS = ("committed", "released", "fenced", "failed", "lost", "not_begun")  # of commands
STORE_FAULT = "refused StoreFault"
RECALL = re.compile(r"recall [0-9]{1,4} [0-9]{1,20} ([0-9]{1,20}) ", re.ASCII)
UNHEARD = "the coordinator hasn't answered yet: it may not run, or have another broker or key"
HEARTBEAT = 2.0
REMEMBERED = 1024  # commits
OFFERS = 4  # contents that are given to the store anew at once
LACK_MOST, LACK_EVERY = 30.0, 5.0  # seconds for which chunks are asked for, and from one asking to the next


@dataclass(frozen=True, kw_only=True)
class Setup:
    """What an agent is made of."""

    program: str
    home: str
    key: Key  # that this home has
    store: Store
    transport: Transport
    log: Log = SILENT
    counts: Counts = field(default_factory=Counts)


@dataclass(frozen=True)
class Ending:
    """What came of a commit: `committed` with versions, `fenced` or `released`."""

    how: str
    versions: dict[str, tuple[int, str]]


class NodeAgent:
    def __init__(self, node: int, nodes: int, setup: Setup) -> None:
        self.node, self.nodes, self.setup, self.store = node, nodes, setup, setup.store
        self.counts, self.log = setup.counts, setup.log.of(node=node)
        for how in ENDS:
            self.counts.add("commands_total", 0, how=how)
        self.home = f"{setup.home}/node{node}"
        os.makedirs(self.home, exist_ok=True)
        self.key = setup.key.of_node(node)
        self.hints = self.key.hints()
        self.executions = Executions(self.home, lambda text: self.log(text, WARNING))
        self.unleased = Executions(self.home, name="unleased")  # of commands that no life of the node matters to
        self.places = Places(self.home)
        self.changed = threading.Condition()
        self.events = 0
        self.resent = 0.0
        self.life = 0
        self.retired = False
        self.knowledge = Knowledge(f"{self.home}/known", self.key.names.generation)
        self.older = older(f"{self.home}/known")
        self.divided = ""  # why it takes part in nothing more
        # The lock of `changed` has the following, which several threads use.
        self.unwanted: set[tuple[int, int]] = set()  # epoch and ask: nobody waits for them, and no call takes them back
        self.holders: dict[int, str] = {}  # of an ask: who has its folders
        self.running: set[int] = set()  # tickets of commands
        self.ended: set[int] = set()  # tickets of these whose leases are said to have ended
        self.offered: dict[str, float] = {}  # of a content: when it was given to the store anew
        self.learned: dict[int, dict[str, tuple[int, str]]] = {}  # of a ticket: the versions of its commit
        self.offering = threading.Semaphore(OFFERS)
        self.needs = Needs()
        self.shared = SharedFolders(self)
        self.merged = MergedFolders(self)
        put_file(f"{self.home}/key", f"{self.key.digits}\n".encode())
        words = ["node", "--node", str(node), "--nodes", str(nodes), "--store", f"{self.home}/filter", "--key", f"{self.home}/key"]
        self.talk = Talk(f"node {node}", [setup.program, *words], self.all_over, self.hear)

    def all_over(self) -> None:
        """Ends the executions of a life, before the first one those of earlier agents too that had no lease."""
        self.executions.all_over()
        if not self.talk.epoch:
            self.unleased.all_over()

    def call(self, line: str, epoch: int | None = None) -> Answer:
        present = self.talk.epoch
        answer = self.talk.call(line, epoch)
        if answer.note == STORE_FAULT:  # it answers nothing else any more: what it keeps is read again by its next life
            self.log("the node couldn't keep a content, and begins a new life", ERROR)
            self.talk.restart(present)
            raise LifeOver("the node couldn't keep a content, and began a new life")
        return answer

    # What the filter says.

    def hear(self, answer: Answer) -> None:
        for fact in answer.facts:
            self.log(fact, WARNING if fact.startswith("skipped ") else DEBUG)
        self._hear_note(answer.note)
        looked: dict[str, bool] = {}
        for line in answer.sends:
            words = line.split(" ")
            if words[0] == "fetch" and looked.setdefault(words[3], False) is False:
                looked[words[3]] = self.take_stored(words[3])
            if not self.divided and (words[0] != "fetch" or not looked[words[3]]):
                self.setup.transport.send(address_of(line), line)

    def _hear_note(self, note: str) -> None:
        words = note.split(" ")
        if words[0] == "life":
            self.life = int(words[1])
            with self.changed:
                self.unwanted = {each for each in self.unwanted if each[0] == self.talk.epoch}
        if note not in ("nothing", "resent") and words[0] not in STATES:
            self.log(note[:160])
        if words[0] == "took":
            grant = grant_of(words[1:])
            self.know(grant.ticket, ((slot.name, slot.base, slot.digest) for slot in grant.slots))
            if self._forgets_unwanted(self.talk.epoch, grant.ask):
                threading.Thread(target=self.give_back, args=(grant.ticket, self.talk.epoch), daemon=True).start()
        if words[0] == "learned":
            self.know(int(words[1]), told(words[2:]))
            with self.changed:
                self.learned[int(words[1])] = versions_of(words[2:])
                while len(self.learned) > REMEMBERED:
                    del self.learned[next(iter(self.learned))]
        if words[0] == "recalled":
            threading.Thread(target=self.shared.recall, args=(int(words[1]),), daemon=True).start()
        if words[0] in AWAITED:
            self.wake()

    def _forgets_unwanted(self, epoch: int, ask: int) -> bool:
        """Whether nobody waited for an ask, which is over."""
        with self.changed:
            was_unwanted = (epoch, ask) in self.unwanted
            self.unwanted.discard((epoch, ask))
            return was_unwanted

    def runs(self, ticket: int, is_over: bool = False) -> None:
        """A command begins under a ticket, or has ended."""
        with self.changed:
            if is_over:
                self.running.discard(ticket)
                self.ended.discard(ticket)
            else:
                self.running.add(ticket)

    def know(self, ticket: int, versions: Iterable[tuple[str, int, str]]) -> None:
        """Takes what was told of the farm. Where another version is known by its number, two coordinators gave it out, or an old record did."""
        self.knowledge.take_ticket(ticket)
        wrong = [why for each in versions if (why := self.knowledge.take(*each))]
        if wrong and not self.divided:
            self.tell_known("news")
            self.divided = (
                f"node {self.node} takes part in nothing more: {wrong[0]}. Two coordinators gave it out, or one with an old record: "
                "docs/REFUSALS.md says what to do"
            )
            tell(self.divided)
            self.wake()

    def tell_known(self, word: str) -> None:
        """Tells the coordinator's agent what is known here, and what was known in generations before this one."""
        ticket, versions = self.knowledge.whole()
        parts = list(words_of(versions))
        ticket_told = self.knowledge.proven([ticket_word(ticket)])[0]
        texts = [["knows", self.node, word, number, len(parts), ticket_told, *self.knowledge.proven(part)] for number, part in enumerate(parts)]
        texts += [["lost", self.node, *part] for part in words_of(self.older) if part]
        for text in texts:
            self.setup.transport.send(COORDINATOR, self.hints.seal(" ".join(map(str, text))))

    def tell(self, hint: str) -> None:
        """A hint to the coordinator's agent."""
        self.setup.transport.send(COORDINATOR, self.hints.seal(hint))

    def tell_kept(self, ticket: int, digests: dict[str, str]) -> None:
        """Tells the coordinator's agent how large what is left in each slot is, where that is known."""
        sizes = {slot: size for slot, digest in digests.items() if (size := self.places.measure(digest))}
        if sizes:
            self.tell(past.keeps(self.node, ticket, sizes))

    def tell_hits(self, ticket: int, hits: dict[str, tuple[int, int]]) -> None:
        """Tells the coordinator's agent what caches had of what the command under this lease asked for."""
        if hits:
            self.tell(past.hits(self.node, ticket, hits))

    def wake(self) -> None:
        with self.changed:
            self.events += 1
            self.changed.notify_all()

    def take_stored(self, digest: str) -> bool:
        """Hands the filter a content that the store has."""
        data = self.store.index(digest)
        if data is None:
            return False
        try:
            with self.places.rooms.file(data) as file:
                return not self.call(line_of("blob", file)).is_refused
        except (LifeOver, OSError):  # the other nodes are asked for it
            return False

    # What comes from outside.

    def serve(self) -> None:
        """Hears messages for ever."""
        heard = 0.0
        while not self.talk.stopped:
            try:
                line = self.setup.transport.receive(node_address(self.node), 1.0)
                if time.monotonic() - heard > HEARTBEAT:
                    heard = time.monotonic()
                    with self.changed:
                        here = " ".join(map(str, ["here", self.node, *self.running]))
                    self.setup.transport.send(COORDINATOR, self.hints.seal(here))
                    self._tell_left()
                    self.merged.tell()
                if line is not None:
                    self.receive(line)
            except LifeOver:
                self.wake()
            except Exception as fault:  # whatever was wrong with one line, the next one is heard
                self.log.fault(fault)
                time.sleep(1.0)

    def receive(self, line: str) -> None:
        if self.divided:
            return
        if words := from_nodes(line):
            self._hear_node(words)
        elif words := self.hints.open(line):
            self._hear_hint(words)
        elif "\n" not in line and "\r" not in line and self._may_pass(line):
            self.call("m " + line)

    def _may_pass(self, line: str) -> bool:
        """Whether a line goes to the filter now."""
        recall = RECALL.match(line)
        return recall is None or self.shared.may_pass(int(recall[1]), line)

    def _hear_hint(self, words: list[str]) -> None:
        if words[0] == "ended" and int(words[2]) == self.node:
            with self.changed:
                self.ended.add(int(words[1]))
        elif words[0] == "held" and int(words[1]) == self.node:
            with self.changed:
                self.holders[int(words[2])] = " ".join(words[3:])
        elif words[0] == "needed" and int(words[1]) == self.node:
            self.needs.take(words[2:])
        elif words[0] == "lastis" and int(words[1]) == self.node:
            return self.merged.hear(words[2:])
        elif words[0] == "tell" and int(words[1]) == self.node:
            return self.tell_known(words[2])
        elif words[0] == "known" and int(words[1]) == self.node:
            ticket = ticket_of(words[2])
            if self.knowledge.is_beyond(ticket, {slot: number for slot, number, _ in told(words[3:])}):
                self.tell_known("news")
            self.know(ticket, told(words[3:]))
            return self.knowledge.take_proofs(words[2:])
        elif words[0] == "gone" and int(words[1]) == self.node:
            self.retired = True
            self.places.retire()
        elif words[0] == "outdated" and int(words[1]) == self.node and int(words[2]) > self.life:
            tell(f"a later life of node {self.node} was heard, so a new one begins here: does another agent run as node {self.node}?")
            self.talk.restart(self.talk.epoch)
        else:
            return
        self.wake()

    def _hear_node(self, words: list[str]) -> None:
        """What another node says, or anybody: nothing is taken from it but that a content may be wanted, or here."""
        if words[0] == "offered":
            self.wake()
        elif words[1].isdecimal() and DIGEST.fullmatch(words[2]) and self.offering.acquire(blocking=False):
            threading.Thread(target=self._offer, args=(int(words[1]), words[2]), daemon=True).start()

    def _offer(self, node: int, digest: str) -> None:
        """Gives the store a content that another node misses there, where this one has it."""
        try:
            now = time.monotonic()
            with self.changed:
                if now - self.offered.get(digest, -LACK_EVERY) < LACK_EVERY:
                    return
                self.offered[digest] = now
                while len(self.offered) > REMEMBERED:
                    del self.offered[next(iter(self.offered))]
            if self.store.offer(digest):
                self.log(f"node {node} missed the content {digest}: it is in the store anew", NOTICE)
                self.setup.transport.send(node_address(node), to_nodes(f"offered {node} {digest}"))
        finally:
            self.offering.release()

    def needed(self, keep: int) -> set[str]:
        """What the coordinator says must not be forgotten, and the last versions of each folder."""
        return self.needs.ask(lambda word: self.setup.transport.send(COORDINATOR, self.hints.seal(f"needs {self.node} {word} {keep}")))

    # Leases.

    def wait(self, epoch: int, patience: Patience, is_done: Callable[[], bool]) -> None:
        """Waits until something holds, and sends again what may have been lost, ever less often."""
        delay = 0.3
        while True:
            seen = self.events
            if is_done():
                return
            patience.check()
            due = time.monotonic() + delay
            with self.changed:
                while not (woken := self.changed.wait_for(lambda: self.events != seen, LOOK)) and time.monotonic() < due:
                    patience.check()
            if epoch != self.talk.epoch:
                raise LifeOver("the node began a new life")
            self.check_retired()
            if not woken and time.monotonic() - self.resent > delay / 2:
                self.resent = time.monotonic()
                self.call("resend", epoch)
                delay = min(delay * 2, 5.0)

    def check_retired(self) -> None:
        if self.divided:
            raise FarmFault(self.divided)
        if self.retired:
            raise NodeRetired(f"node {self.node} was retired for good, and runs nothing any more")

    def asked(self, line: str, epoch: int) -> int | None:
        """Makes an ask. None where it can't be made now."""
        note = self.call(line, epoch).note
        if note in ("refused NotHomeHere", "refused TenureHere"):
            return None
        if not note.startswith("asked "):
            raise FarmFault(f"the node refused it: {note.removeprefix('refused ')}")
        return int(note.removeprefix("asked "))

    def granted(self, ask: int, folders: list[str], epoch: int, patience: Patience) -> Grant:
        """Waits for the lease of an ask, and tells who has it meanwhile."""
        words: list[str] = []
        due, silent = time.monotonic() + 0.3, time.monotonic() + LATE

        def is_decided() -> bool:
            nonlocal words, due
            words = self.call(f"state {ask}", epoch).note.split(" ")
            if words[0] == "pending" and time.monotonic() > due:
                due = time.monotonic() + 2.0
                self.tell(f"who {self.node} {ask} {' '.join(folders)}")
                self.tell(past.waits(self.node, self.life, ask, patience.waited(), patience.who))
            held = self.holders.get(ask, UNHEARD if time.monotonic() > silent else "")
            if words[0] == "pending" and held:
                said = patience.of_shared if any(folder.startswith("shared:") for folder in folders) else ""
                patience.say(f"waiting for {', '.join(folders)}: {held}{said and '. '}{said}")
            return words[0] != "pending" and words != ["refused", "OutOfMemory"]

        try:
            self.wait(epoch, patience, is_decided)
        except LifeOver:
            raise  # the ask ended with its life
        except BaseException as fault:
            self._leave(ask, epoch)
            if isinstance(fault, WaitOver) and ask not in self.holders:
                raise WaitOver(f"{fault}: {UNHEARD}") from None
            raise
        finally:
            with self.changed:
                self.holders.pop(ask, None)
        if words[0] != "granted":
            raise FarmFault(f"it wasn't granted: {' '.join(words)}")
        return grant_of(words[1:])

    def _leave(self, ask: int, epoch: int) -> None:
        """Nobody waits for an ask any more: its lease is given back, now or as soon as it is granted."""
        with self.changed:
            self.unwanted.add((epoch, ask))
        with contextlib.suppress(FarmFault, OSError):
            words = self.call(f"state {ask}", epoch).note.split(" ")
            if words[0] == "granted":
                self.give_back(grant_of(words[1:]).ticket, epoch)
            if words[0] in ("granted", "denied", "none"):
                self._forgets_unwanted(epoch, ask)
        self._tell_left()

    def _tell_left(self) -> None:
        """Says for which asks nobody waits any more: no call takes them back, so they stand until they are granted."""
        with self.changed:
            asks = [str(ask) for epoch, ask in self.unwanted if epoch == self.talk.epoch]
        if asks:
            self.setup.transport.send(COORDINATOR, self.hints.seal(" ".join(["left", str(self.node), str(self.life), *asks])))

    def begin(self, ticket: int, epoch: int, patience: Patience) -> None:
        """Begins an execution, once the contents of its bases are here."""
        note = ""
        due = [time.monotonic() + 2.0]

        def is_begun() -> bool:
            nonlocal note
            note = self.call(f"begin {ticket}", epoch).note
            if note == "refused ContentsMissing" and time.monotonic() > due[0]:
                due[0] = time.monotonic() + 30.0
                patience.say("waiting for the content of a version: it isn't in the store, and the other nodes are asked for it")
            return note != "refused ContentsMissing"

        self.wait(epoch, patience, is_begun)
        if note != f"begun {ticket}":
            raise FarmFault(f"it can't begin: {note.removeprefix('refused ')}")

    def ending(
        self, ask: int, ticket: int, epoch: int, caller: Caller | None, patience: Patience | None = None,
        over: Callable[[bool], None] = lambda is_answered: None,
    ) -> Ending:
        """Waits for what came of a commit, and has what it named held until then: `over` hears whether it was answered. Its versions are in the
        note that it came with, which another thread may be about to hear."""
        words: list[str] = []
        late = 0.0

        def is_over() -> bool:
            nonlocal words, late
            words = self.call(f"state {ask}", epoch).note.split(" ")
            if words[0] == "committed" and not words[2:] and ticket not in self.learned:
                late = late or time.monotonic() + 2.0
                return time.monotonic() > late
            return words[0] in ("committed", "fenced", "released", "none")

        try:
            self.wait(epoch, patience or Patience(caller, None, unheard=f"waiting for the commit of {ticket}: {UNHEARD}"), is_over)
        except (ClientGone, WaitOver):
            threading.Thread(target=self._resend_until, args=(epoch, is_over, over), daemon=True).start()
            raise
        except BaseException:
            over(False)
            raise
        over(True)
        if words[0] != "committed":
            return Ending(words[0], {})
        return Ending(words[0], versions_of(words[2:]) or self.learned.get(ticket, {}))

    def _resend_until(self, epoch: int, is_over: Callable[[], bool], over: Callable[[bool], None]) -> None:
        """Sends a commit again until it is answered, though nobody waits for that: else its folders would stay leased."""
        is_answered = False
        with contextlib.suppress(FarmFault):
            self.wait(epoch, Patience(None, None), is_over)
            is_answered = True
        over(is_answered)

    def give_back(self, ticket: int, epoch: int) -> None:
        with contextlib.suppress(LifeOver):
            for _ in range(20):
                if self.call(f"abort {ticket}", epoch).note != "refused OutOfMemory":
                    return
                time.sleep(0.3)

    def content(self, slot: Slot, epoch: int, patience: Patience) -> bytes:
        """The content that a slot begins from, once all of it is here. What the store lacks the other nodes are asked for."""
        index = self._index(slot, epoch)
        begun, due = time.monotonic(), 0.0

        def is_here() -> bool:
            nonlocal due
            try:
                self.store.fetch(index)
                return True
            except ChunksMissing as fault:
                now, what = time.monotonic(), f"{slot.name} version {slot.base}: {fault}"
                if now - begun > LACK_MOST:
                    raise ChunksMissing(what) from None
                if now > due:
                    due = now + LACK_EVERY
                    patience.say(f"waiting for {what}, and the other nodes are asked for them")
                    for other in range(1, self.nodes + 1):
                        if other != self.node:
                            self.setup.transport.send(node_address(other), to_nodes(f"lacks {self.node} {slot.digest}"))
                return False

        self.wait(epoch, patience, is_here)
        return index

    def fill(self, slot: Slot, path: str, epoch: int, patience: Patience) -> None:
        """Makes a path that is held what a slot begins from. What stands there as it was needs no store. What is spoilt in the store is got
        anew, from where it is right."""
        gone = Patience(patience.caller, None).check
        if self.places.stands(path, slot.digest, gone):
            return
        index = self.content(slot, epoch, patience)
        try:
            self.places.fill(self.store, index, path, gone)
        except NotMade:
            if not self.store.mend(index):
                raise
            self.log("chunks of it were spoilt in the store, or forgotten meanwhile", WARNING, folder=slot.name)
            self.places.fill(self.store, self.content(slot, epoch, patience), path, gone)

    def _index(self, slot: Slot, epoch: int) -> bytes:
        if slot.digest == EMPTY:
            return b""
        found = self.store.index(slot.digest)
        if found is not None:
            return found
        with self.places.rooms.room() as room:
            note = self.call(line_of("content", slot.digest, f"{room}/content"), epoch).note
            if not note.startswith("content "):
                raise FarmFault(f"the content of {slot.name} isn't here: {note.removeprefix('refused ')}")
            with open(f"{room}/content", "rb") as file:
                return file.read()

    def stop(self) -> None:
        self.talk.stopped = True
        with self.talk.birth:  # no command starts between the two
            self.executions.all_over()
            self.unleased.all_over()
            self.talk.stop()
        with contextlib.suppress(OSError):
            self.knowledge.save(at_once=True)
