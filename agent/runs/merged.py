"""Folders that commands use without a lease, each command its own copy, and whose edits are merged into the last version of a LOCKED slot.

Owes the filter what `run` owes it for the moment in which it commits: the base of the lease is what was merged into. Which version a
command begins from is a hint of the coordinator's agent: a wrong one makes a wrong merge of nobody's work, since the lease's base counts.
"""
from __future__ import annotations

import contextlib
import os
import secrets
import shutil
import threading
import time
from dataclasses import dataclass, field
from typing import TYPE_CHECKING, Callable, Iterator

from agent.faults import LOST, ClientGone, FarmFault, LifeOver, WaitOver
from agent.filters.lines import check_finished, line_of
from agent.filters.snapshots import told_of
from agent.folders import index, trees
from agent.folders.held import Held
from agent.folders.listing import edits, escaped
from agent.folders.merging import FAIL, is_database, merge
from agent.folders.places import Places
from agent.folders.versions import REMEMBERED, Version, none
from agent.history.hints import begun
from agent.logs import INFO, WARNING
from agent.runs.caller import LATE, Patience
from agent.service.operators import Snapshot
from agent.store.packing import ChunkSpoilt
from agent.tools import LOOK
from agent.transport.local import COORDINATOR
from agent.words import Slot, Want, short_name

if TYPE_CHECKING:
    from agent.filters.node import NodeAgent

KEPT = 4  # folders of commands of one slot that nobody uses
AGE = 24 * 3600.0  # seconds after which one that nobody uses goes
ROOM = 0.1  # of a disk: where less is free those that nobody uses go
TURNS = 5  # tries to begin from a version that is forgotten meanwhile
SHOWN = 20  # conflicts that are told by their paths


class InConflict(FarmFault):
    """The command may not change what others changed too."""

    status = LOST


@dataclass
class Own:
    """A folder of one command."""

    want: Want
    slot: str  # locked:ID
    held: Held
    base: Version  # what it began from, or was merged into last
    number: int  # of that
    conflicts: set[str] = field(default_factory=set)
    changed: int = 0  # paths that the command added or changed
    removed: int = 0
    since: float = field(default_factory=time.time)
    state: str = "running"
    kept: list[str] = field(default_factory=list)  # digests that are held until a commit is answered
    hits: dict[str, tuple[int, int]] = field(default_factory=dict)  # what ccache had there for the command


@dataclass(frozen=True)
class Counted:
    """What came of a folder: the version that has it all; none, where the command changed nothing."""

    slot: str
    version: int | None
    said: str


class Targets:
    """The paths where folders are bound: commands of this process have one together, each in a mount namespace of its own. One lock has them."""

    def __init__(self) -> None:
        self.lock = threading.Lock()
        self.taken: dict[str, tuple[int, contextlib.ExitStack]] = {}  # by how many commands, and what holds the path
        self.claiming: set[str] = set()

    @contextlib.contextmanager
    def held(self, places: Places, path: str, check: Callable[[], None]) -> Iterator[None]:
        self._take(places, path, check)
        try:
            yield
        finally:
            with self.lock:
                count, held = self.taken.pop(path)
                if count > 1:
                    self.taken[path] = (count - 1, held)
            if count == 1:
                held.close()

    def _take(self, places: Places, path: str, check: Callable[[], None]) -> None:
        while True:
            with self.lock:
                if path in self.taken:
                    count, held = self.taken[path]
                    self.taken[path] = (count + 1, held)
                    return
                if path not in self.claiming:
                    self.claiming.add(path)
                    break
            check()
            time.sleep(0.05)
        try:
            with contextlib.ExitStack() as trying:
                trying.enter_context(places.held(path, check))
                places.clear(path)
                with self.lock:
                    self.taken[path] = (1, trying.pop_all())
        finally:
            with self.lock:
                self.claiming.discard(path)


TARGETS = Targets()


class MergedFolders:
    """The folders of a node's commands. One lock has what is said of them here; a folder itself has the command that took it."""

    def __init__(self, agent: NodeAgent) -> None:
        self.agent = agent
        self.home = f"{agent.home}/merged"
        self.lock = threading.Lock()
        self.told: dict[str, Slot] = {}  # answers to questions, each with a word of its own
        self.busy: set[str] = set()  # folders that commands have
        self.helds: dict[str, Held] = {}  # of a folder that nobody uses: what it holds
        self.waiting: dict[int, Own] = {}  # commits that are left to the agent
        self.present: dict[str, Own] = {}  # of a folder: the command that has it
        self.is_told = True  # that none is there

    # The last version, without a lease.

    def hear(self, words: list[str]) -> None:
        """An answer of the coordinator's agent: the question's word, and the last version."""
        if words[0] in self.told:
            self.told[words[0]] = Slot(self.told[words[0]].name, True, int(words[1]), words[2])
            self.agent.wake()

    def last(self, slot: str, patience: Patience) -> Slot:
        """The last version that the coordinator knows."""
        agent, word, due = self.agent, secrets.token_hex(8), 0.0
        late = time.monotonic() + LATE
        asked = self.told[word] = Slot(slot, True, -1, "")
        try:
            while self.told[word] is asked:
                if time.monotonic() > due:
                    due = time.monotonic() + 1.0
                    agent.setup.transport.send(COORDINATOR, agent.hints.seal(f"last {agent.node} {word} {slot}"))
                if time.monotonic() > late:
                    patience.say(f"waiting for the last version of {slot}: the coordinator hasn't answered yet")
                patience.check()
                self._check_life()
                with agent.changed:
                    agent.changed.wait_for(lambda: self.told[word] is not asked, LOOK)
            return self.told[word]
        finally:
            del self.told[word]

    def _check_life(self) -> None:
        self.agent.check_retired()
        if self.agent.talk.stopped:
            raise LifeOver("the agent ends")

    def _version(self, slot: Slot, patience: Patience) -> Version:
        """A version whose chunks are here. Hold `store.making` meanwhile."""
        agent = self.agent
        while True:
            try:
                content = agent.content(slot, agent.talk.settled_epoch(), patience)
                break
            except LifeOver:
                self._check_life()  # what was asked for isn't bound to a life: again
        try:
            return agent.places.versions.of(agent.store.chunks, content, Patience(patience.caller, None).check)
        except ChunkSpoilt:
            agent.store.mend(content)
            raise

    def tell(self) -> None:
        """Tells the coordinator's agent which commands run without a lease."""
        present = list(self.present.values())
        if present or not self.is_told:
            snapshots = [Snapshot(node=self.agent.node, slot=own.slot, version=own.number, since=own.since, state=own.state) for own in present]
            self.agent.setup.transport.send(COORDINATOR, self.agent.hints.seal(told_of(self.agent.node, snapshots)))
        self.is_told = not present

    # Folders.

    def enter(self, want: Want, patience: Patience, prepare: Callable[[str, bool], None]) -> Own:
        """A folder that holds the last version, for one command."""
        slot = "locked:" + want.folder.removeprefix("merged:")
        for turn in range(TURNS):
            last = self.last(slot, patience)
            try:
                with self.agent.store.making():
                    return self._enter(want, last, patience, prepare)
            except (LifeOver, WaitOver, ClientGone):
                raise
            except FarmFault:
                if turn == TURNS - 1:
                    raise
                time.sleep(0.2)  # it was forgotten meanwhile: a later one is the last
        raise AssertionError

    def _enter(self, want: Want, slot: Slot, patience: Patience, prepare: Callable[[str, bool], None]) -> Own:
        version = self._version(slot, patience)
        held = self._take(slot.name, version)
        try:
            own = Own(want, slot.name, held, version, slot.base)
            held.look(Patience(patience.caller, None).check)
            self._bring(own, version)
            if not version.listing:
                prepare(held.path, True)
            held.settle()
            self.present[held.path] = own
            return own
        except BaseException:
            self._free(held)
            raise

    def _bring(self, own: Own, target: Version) -> None:
        """Makes a folder that was looked at what a version holds."""
        held, store, reader = own.held, self.agent.store, target.reader()
        try:
            if held.entries.keys() <= {""} and not held.others and target.index:
                trees.extract(store, target.index, held.path)
                held.take_as(target.listing)
            held.bring(target.listing or {"": held.entries[""]}, lambda path: target.pieces(path, reader))
            held.stands = target.digest
        except (ChunkSpoilt, trees.NotMade):
            held.forget()
            store.mend(target.index)
            raise

    def _take(self, slot: str, wanted: Version) -> Held:
        """A folder that nobody uses: the one that holds most likely what is wanted, or a new one."""
        home = f"{self.home}/{short_name(slot)}"
        with self.lock:
            os.makedirs(home, exist_ok=True)
            numbers = sorted(int(name) for name in os.listdir(home) if name.isdigit())
            free = [f"{home}/{number}" for number in numbers if f"{home}/{number}" not in self.busy]
            path = max(free, key=lambda each: self._nearness(each, wanted), default=f"{home}/{(numbers or [0])[-1] + 1}")
            os.makedirs(path, exist_ok=True)  # before another command looks which ones are there
            self.busy.add(path)
            held = self.helds.pop(path, None)
        try:
            return held or Held(path, f"{path}.marks")
        except BaseException:
            with self.lock:
                self.busy.discard(path)
            raise

    def _nearness(self, path: str, wanted: Version) -> tuple[bool, bool, float]:
        held = self.helds.get(path)
        return held is not None and held.stands == wanted.digest, held is not None, os.lstat(path).st_ctime

    def leave(self, own: Own) -> None:
        """The command doesn't use its folder any more."""
        self.present.pop(own.held.path, None)
        with contextlib.suppress(OSError):
            own.held.save()
        self._free(own.held)
        self.give_up()

    def _free(self, held: Held) -> None:
        with self.lock:
            self.busy.discard(held.path)
            self.helds.pop(held.path, None)
            if held.entries:
                self.helds[held.path] = held
            while len(self.helds) > 1 and sum(len(each.entries) for each in self.helds.values()) > REMEMBERED:
                del self.helds[next(iter(self.helds))]  # its marks are kept beside it

    def give_up(self) -> None:
        """Removes folders that nobody uses: more than are kept warm, old ones, and all where the disk is nearly full."""
        for name in os.listdir(self.home) if os.path.isdir(self.home) else ():
            self._give_up(f"{self.home}/{name}")

    def _give_up(self, home: str) -> None:
        with self.lock:
            paths = [f"{home}/{name}" for name in os.listdir(home) if name.isdigit()]
            free = sorted((path for path in paths if path not in self.busy), key=lambda path: os.lstat(path).st_ctime, reverse=True)
            disk = shutil.disk_usage(home)
            kept = KEPT if disk.free > ROOM * disk.total else 0
            gone = [path for place, path in enumerate(free) if place >= kept or time.time() - os.lstat(path).st_ctime > AGE]
            for path in gone:
                self.helds.pop(path, None)
                with contextlib.suppress(FileNotFoundError):
                    os.unlink(f"{path}.marks")
                self.agent.places.trash.take(path)

    # Commits.

    def commit(self, own: Own, rule: str, patience: Patience) -> Counted:
        """Merges what a command left until it counts: no life of the node, and no lease that is lost, matters to it."""
        own.state, own.since = "merging", time.time()
        own.held.look(Patience(patience.caller, None).check)
        found = self._edits(own)
        if not found:
            return Counted(own.slot, None, f"{own.slot}: the command changed nothing in it")
        own.removed = sum(path not in own.held.entries for path in found)
        own.changed = len(found) - own.removed
        spoilt = 0
        while True:
            try:
                counted = self._turn(own, rule, patience)
            except LifeOver:
                self._check_life()
                counted = None
            except ChunkSpoilt:  # it is got anew, from where it is right
                spoilt += 1
                if spoilt > TURNS:
                    raise
                counted = None
            if counted:
                return counted

    def _edits(self, own: Own) -> list[str]:
        return [path for path in edits(own.base.listing, own.held.entries) if path or own.base.listing]

    def _turn(self, own: Own, rule: str, patience: Patience) -> Counted | None:
        """Merges, leases, and commits once. None where the lease was lost."""
        try:
            return self._turn_held(own, rule, patience)
        finally:
            self._release(own.kept, True)  # no commit names what is held yet

    def _release(self, kept: list[str], is_answered: bool) -> None:
        while kept:
            self.agent.store.release(kept.pop(), is_answered)

    def _turn_held(self, own: Own, rule: str, patience: Patience) -> Counted | None:
        agent = self.agent
        with agent.store.making():
            self._merge(own, self.last(own.slot, patience), rule, patience)
            if own.number and not self._edits(own):
                return Counted(own.slot, own.number, f"{own.slot} has it all in version {own.number}")
            content = self._keep(own, patience)
        epoch = agent.talk.settled_epoch()
        ask = agent.asked(line_of("ask", own.slot), epoch)
        if ask is None:
            raise FarmFault(f"{own.slot} can't be asked for")
        grant = agent.granted(ask, [own.slot], epoch, patience)
        leased, is_late = time.monotonic(), grant.slots[0].base != own.number
        try:
            agent.begin(grant.ticket, epoch, patience)
            agent.tell(begun(agent.node, grant.ticket, patience.waited(), patience.who))
            if is_late:
                with agent.store.making():
                    self._merge(own, grant.slots[0], rule, patience)
                    content = self._keep(own, patience)
            agent.tell_kept(grant.ticket, {own.slot: own.held.stands})
            agent.tell_hits(grant.ticket, own.hits)
            with agent.places.rooms.file(content) as file:
                note = agent.call(line_of("finish", str(grant.ticket), f"{own.slot}={file}"), epoch).note
            check_finished(note, grant.ticket)
        except BaseException as fault:
            if not isinstance(fault, LifeOver):
                agent.give_back(grant.ticket, epoch)
            raise
        kept, own.kept = own.kept, []
        ending = agent.ending(ask, grant.ticket, epoch, patience.caller, patience, lambda is_answered: self._release(kept, is_answered))
        held = time.monotonic() - leased
        agent.log(f"the lease of a merge was held for {held:.2f} s{', and merged again under it' if is_late else ''}", ticket=grant.ticket, folder=own.slot)
        if ending.how != "committed":
            return None
        number = next((number for number, _ in ending.versions.values()), grant.slots[0].base + 1)
        note = f"merged {agent.node} {grant.ticket} {own.changed} {own.removed} {len(own.conflicts)} {rule}"
        agent.setup.transport.send(COORDINATOR, agent.hints.seal(note))
        return Counted(own.slot, number, self._said(own, number, rule))

    def _said(self, own: Own, number: int, rule: str) -> str:
        said = f"merged {own.changed} path{'s' * (own.changed != 1)} into {own.slot} version {number}"
        said += f", removed {own.removed}" if own.removed else ""
        count = len(own.conflicts)
        return said + (f", {count} conflict{'s' * (count != 1)} ({rule})" if count else "")

    def _merge(self, own: Own, slot: Slot, rule: str, patience: Patience) -> None:
        """Makes the folder what the command's edits and a version are together. What differs from that version are still the command's edits."""
        if slot.base == own.number:
            return
        theirs = self._version(slot, patience)
        with self.agent.places.rooms.room() as room:
            asked = "newer" if rule == FAIL else rule
            done = merge(self.agent.setup.program, room, own.base.listing, own.held.entries, theirs.listing, asked)
        if done.conflicts and rule == FAIL:
            raise InConflict(f"{len(done.conflicts)} paths of {own.slot} were changed by others too, {escaped(done.conflicts[0])} among them: nothing is kept")
        reader = theirs.reader()
        try:
            own.held.bring(done.listing, lambda path: theirs.pieces(path, reader))
        except ChunkSpoilt:
            self.agent.store.mend(theirs.index)
            raise
        own.base, own.number = theirs, slot.base
        own.conflicts.update(done.conflicts)

    def _keep(self, own: Own, patience: Patience) -> bytes:
        """The index of the folder, which lasts. Hold `store.making` meanwhile."""
        agent = self.agent

        def away(why: str) -> None:
            patience.say(why)
            patience.check()

        version = index.make(own.held, own.base if own.base.index else none(agent.store.chunks), agent.store.chunks)
        own.kept.append(agent.store.publish(version.index, away, own.base.index))
        own.held.stands = version.digest
        agent.places.versions.add(version)
        return version.index

    def databases(self, own: Own) -> list[str]:
        """The conflicts whose files are databases, which no merge of files can save."""
        return [path for path in sorted(own.conflicts)[:1000] if is_database(f"{own.held.path}/{path}")]

    # Commits that are left to the agent.

    def leave_commit(self, own: Own, rule: str, who: str = "") -> None:
        """Commits what a command left though nobody waits for it."""
        def commit() -> None:
            try:
                self.agent.log(self.commit(own, rule, Patience(None, None, who=who)).said, INFO, folder=own.slot)
            except (FarmFault, OSError) as fault:
                self.agent.log(f"what a command left there doesn't count: {fault}", WARNING, folder=own.slot)
            finally:
                with self.lock:
                    self.waiting.pop(id(own), None)
                self.leave(own)

        with self.lock:
            self.waiting[id(own)] = own
        threading.Thread(target=commit, daemon=True).start()
