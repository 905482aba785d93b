"""The SHARED folders that are open on a node, each under a tenure that several executions use at once.

Owes the filter that a tenure's folder is used by no execution once the tenure is finished, and that what is committed then is what the
executions left. A folder is closed, and so committed, when its last execution has ended: what was written counts from then on.
"""
from __future__ import annotations

import contextlib
import threading
import time
from dataclasses import dataclass
from typing import TYPE_CHECKING, Callable, Iterable, Protocol

from agent.runs.caller import LATE, Caller, Patience
from agent.faults import ClientGone, FarmFault, LifeOver, sentence
from agent.filters.lines import check_finished, line_of
from agent.history.hints import begun
from agent.tools import LOOK
from agent.words import Slot, short_name

if TYPE_CHECKING:
    from agent.build.builder import CacheMount
    from agent.filters.node import NodeAgent

MOST_DELAYED = 64


@dataclass(frozen=True)
class Closed:
    """What came of leaving a folder."""

    said: str
    is_lost: bool = False
    is_left: bool = False  # nobody waits any more for what comes of it


class Home(Protocol):
    """Where a builder has the folders of leases, if that isn't a folder of the node's. `Builder` says what each of these does."""

    def enter(self, room: str, slots: Iterable[str], check: Callable[[], None]) -> list[CacheMount]: ...

    def still(self, held: Iterable[CacheMount], check: Callable[[], None]) -> None: ...

    def leave(self, held: Iterable[CacheMount], ended_well: bool) -> None: ...


@dataclass
class Tenure:
    """An open folder."""

    ask: int
    ticket: int
    slot: Slot
    path: str
    epoch: int
    users: int = 0
    recalled: bool = False
    closing: bool = False
    used: bool = False  # an execution began under it
    end: Closed | None = None  # what came of it, once it is closed
    home: Home | None = None
    mount: CacheMount | None = None  # its own there
    ended_well: bool = True  # each build that had it

    def has_home(self, home: Home | None) -> bool:
        """Whether who wants it there may enter it: any place will do to be bound."""
        return home is None or self.home is home

    def why_not(self, home: Home | None) -> str:
        """Why nobody enters it."""
        if not self.recalled and not self.closing and not self.has_home(home):
            return "commands have it here that aren't builds of this builder"
        return "it is being closed here" if self.closing else "another node wants it, so those who have it here end first"


def left(folder: str) -> Closed:
    return Closed(f"lost {folder}: what was left there isn't known to count", is_lost=True, is_left=True)


class SharedFolders:
    def __init__(self, agent: NodeAgent) -> None:
        self.agent = agent
        self.changed = threading.Condition()
        self.opening: set[str] = set()
        self.recalled: set[int] = set()  # tickets, also of tenures that are not open yet
        self.tenures: dict[str, Tenure] = {}
        self.asked: set[int] = set()  # tickets of tenures under which an execution has asked, or that are closed
        self.delayed: dict[int, str] = {}  # recalls of others

    def may_pass(self, ticket: int, line: str) -> bool:
        """Whether a recall goes to the filter now. That of a folder which is being opened is kept back until the execution for which it
        is opened has asked, or else nodes that want one folder would take it from each other and never use it. Any message may come late."""
        with self.changed:
            if ticket in self.asked or len(self.delayed) >= MOST_DELAYED:
                return True
            self.delayed[ticket] = line
            return False

    def have_asked(self, tenures: Iterable[Tenure]) -> None:
        """An execution has asked under these tenures, or they are closed: recalls of them go on."""
        with self.changed:
            tickets = [tenure.ticket for tenure in tenures]
            self.asked.update(tickets)
            lines = [self.delayed.pop(ticket) for ticket in tickets if ticket in self.delayed]
        for line in lines:
            self.agent.call("m " + line)

    def enter(self, folder: str, epoch: int, patience: Patience, prepare: Callable[[Tenure], None], home: Home | None = None) -> Tenure:
        """Counts an execution in, under a tenure that nobody recalled. Where the folder isn't open it is opened, in this home."""
        while True:
            with self.changed:
                tenure = self.tenures.get(folder)
                if tenure and tenure.epoch != epoch:
                    del self.tenures[folder]  # it ended with its life
                    continue
                if tenure and not tenure.recalled and not tenure.closing and tenure.has_home(home):
                    tenure.users += 1
                    return tenure
                if not tenure and folder not in self.opening:
                    self.opening.add(folder)
                    break
                is_told = not self.changed.wait(1.0)
            if epoch != self.agent.talk.epoch:
                raise LifeOver("the node began a new life")
            patience.check()
            if is_told:
                patience.say(f"waiting for {folder}: {tenure.why_not(home) if tenure else 'another command is opening it here'}")
        return self._enter_first(folder, epoch, patience, prepare, home)

    def _enter_first(self, folder: str, epoch: int, patience: Patience, prepare: Callable[[Tenure], None], home: Home | None) -> Tenure:
        """Opens a folder, and counts in the execution for which it is opened."""
        try:
            opened = self._open(folder, epoch, patience, prepare, home)
            with self.changed:
                opened.recalled = opened.ticket in self.recalled
                opened.users = 1
                self.tenures[folder] = opened
                return opened
        finally:
            with self.changed:
                self.opening.discard(folder)
                self.changed.notify_all()

    def recall(self, ticket: int) -> None:
        """Another node asks for a tenure: nobody enters it any more. It may come before the folder is open here."""
        with self.changed:
            self.recalled.add(ticket)
            for tenure in self.tenures.values():
                tenure.recalled = tenure.recalled or tenure.ticket == ticket

    def _open(self, folder: str, epoch: int, patience: Patience, prepare: Callable[[Tenure], None], home: Home | None) -> Tenure:
        agent = self.agent
        ask: int | None = None
        mount: CacheMount | None = None

        def is_asked() -> bool:
            nonlocal ask
            ask = agent.asked(line_of("tenure", folder), epoch)
            return ask is not None  # else one whose caller left is given back once it is granted

        agent.wait(epoch, patience, is_asked)
        assert ask is not None
        grant = agent.granted(ask, [folder], epoch, patience)
        try:
            agent.begin(grant.ticket, epoch, patience)
            agent.tell(begun(agent.node, grant.ticket, patience.waited(), patience.who))
            slot = grant.slots[0]
            mount = home.enter(agent.home, [slot.name], patience.check)[0] if home else None
            path = mount.path if mount else f"{agent.home}/shared/{short_name(folder)}"
            with agent.places.held(path, patience.check):
                agent.fill(slot, path, epoch, patience)
            tenure = Tenure(ask, grant.ticket, slot, path, epoch, home=home, mount=mount)
            prepare(tenure)
            return tenure
        except BaseException:
            if home and mount:
                home.leave([mount], False)
            agent.give_back(grant.ticket, epoch)
            raise

    def leave(self, folder: str, tenure: Tenure, caller: Caller, *, ended_well: bool = True, waits: bool = False) -> Closed:
        """Counts an execution out, once its own lease has ended. The last one closes the folder. What came of that; one that isn't the last
        waits for it only where it is to. A caller may leave meanwhile, and the folder is closed all the same: what others wrote there
        counts too."""
        with self.changed:
            tenure.users -= 1
            tenure.ended_well = tenure.ended_well and ended_well
            is_last = not tenure.users and not tenure.closing
            tenure.closing = tenure.closing or is_last
        if not is_last:
            return self._closed_by_others(folder, tenure, caller) if waits else Closed(f"{folder} is in use by others here, and is committed after them")
        patience, ends, late = Patience(caller, None), list[Closed](), time.monotonic() + LATE
        closing = threading.Thread(target=lambda: ends.append(self._close(folder, tenure, patience)), daemon=True)
        closing.start()
        while closing.is_alive() and not (caller.gone and (patience.told or time.monotonic() > late)):
            closing.join(LOOK)
        return ends[0] if ends else left(folder)

    def _closed_by_others(self, folder: str, tenure: Tenure, caller: Caller) -> Closed:
        """What came of a folder that others here still use, once they have ended."""
        caller.say(f"waiting for {folder}: others use it here, and it is committed after them")
        with self.changed:
            while tenure.end is None and not caller.gone:
                self.changed.wait(LOOK)
            return tenure.end or left(folder)

    def _close(self, folder: str, tenure: Tenure, patience: Patience) -> Closed:
        """Commits what the executions left, and gives the tenure up by that. What came of it is for those who wait too."""
        end = left(folder)
        try:
            end = self._ended(folder, tenure, patience)
            return end
        finally:
            if tenure.home and tenure.mount:
                tenure.home.leave([tenure.mount], not end.is_lost and tenure.ended_well)
            with self.changed:
                tenure.end = end
                if self.tenures.get(folder) is tenure:
                    del self.tenures[folder]
                self.asked.add(tenure.ticket)
                self.delayed.pop(tenure.ticket, None)
                self.changed.notify_all()

    def _ended(self, folder: str, tenure: Tenure, patience: Patience) -> Closed:
        try:
            return self._commit(folder, tenure, patience)
        except ClientGone:
            return left(folder)
        except Exception as fault:  # the last version stands
            with contextlib.suppress(FarmFault, OSError):
                self._given_up(tenure, f"abort {tenure.ticket}")
            return Closed(f"lost {folder}: {sentence(fault) if isinstance(fault, OSError) else fault}", is_lost=True)

    def _commit(self, folder: str, tenure: Tenure, patience: Patience) -> Closed:
        agent, slot = self.agent, tenure.slot
        if not tenure.used:
            self._given_up(tenure, f"abort {tenure.ticket}")
            return Closed(f"{folder} is given back as it was")
        if tenure.home and tenure.mount:
            tenure.home.still([tenure.mount], lambda: None)
        index, digest = agent.places.keep(agent.store, tenure.path, patience.say)
        try:
            if tenure.home and digest == slot.digest:
                self._given_up(tenure, f"abort {tenure.ticket}")
                agent.store.release(digest)
                return Closed(f"{folder} is given back: nothing was changed in it, so there is no new version")
            agent.tell_kept(tenure.ticket, {slot.name: digest})
            with agent.places.rooms.file(index) as file:
                note = self._given_up(tenure, line_of("finish", str(tenure.ticket), f"{slot.name}={file}"))
            check_finished(note, tenure.ticket)
        except BaseException:
            agent.store.release(digest, is_answered=False)
            raise
        ending = agent.ending(
            tenure.ask, tenure.ticket, tenure.epoch, patience.caller, over=lambda is_answered: agent.store.release(digest, is_answered)
        )
        said = [f"{name} version {number}" for name, (number, _) in ending.versions.items()]
        return Closed(f"{ending.how} {tenure.ticket} {' '.join(said) or folder}", is_lost=ending.how != "committed")

    def _given_up(self, tenure: Tenure, line: str) -> str:
        """What the filter notes of the line that ends a tenure. An execution is over for it only when its own ask is, which for one that its
        caller left may come late."""
        note = ""

        def is_over() -> bool:
            nonlocal note
            note = self.agent.call(line, tenure.epoch).note
            return note not in ("refused TenureInUse", "refused OutOfMemory")

        self.agent.wait(tenure.epoch, Patience(None, None), is_over)
        return note
