"""One command under one lease: its folders are filled, it runs, and what it left is committed.

Owes the filter that the execution is over before `finish` or `abort` says so, that nothing of a folder is touched outside the lease, and
that what is named in `finish` is kept by the store.
"""
from __future__ import annotations

import contextlib
import os
import signal
import time
from dataclasses import dataclass, field
from typing import Callable

from agent.runs.caller import Caller, Patience
from agent.runs.executions import Execution
from agent.runs.hits import counts, since
from agent.runs.merged import TARGETS, Counted, InConflict, Own
from agent.runs.progress import Progress, heard
from agent.faults import LOST, ClientGone, FarmFault, LifeOver, NodeRetired, UsageFault, WaitOver
from agent.filters.lines import check_finished, line_of
from agent.filters.node import Ending, NodeAgent
from agent.folders.listing import escaped
from agent.folders.places import check_apart, path_order, place_of
from agent.folders.shared import Closed, Home, Tenure
from agent.history.events import STEPS
from agent.history.hints import begun
from agent.tools import LOOK, need
from agent.words import MOST_FOLDERS, Grant, Slot, Want

PATIENCE = 10.0  # seconds from the signal that asks a lost execution to stop to the one that ends it


@dataclass(frozen=True)
class Placed:
    """A command that is known only under its lease, and where it finds each folder."""

    command: list[str]
    env: dict[str, str]
    paths: dict[str, str]


@dataclass(frozen=True, kw_only=True)
class Job:
    """A command and what it wants."""

    command: list[str]  # with its environment; where it is placed these are told then
    cwd: str
    env: dict[str, str]
    wants: list[Want]
    place: Callable[[dict[str, str], dict[str, Tenure]], Placed] | None = None  # by the slots of the folders, and the open ones
    home: Home | None = None  # of SHARED folders
    skips_unchanged: bool = False  # whether a lease of which nothing was changed is given back
    wait: float | None = None  # seconds for the lease
    stops_when_lost: bool = False
    keeps_failed: bool = False  # whether what a failed command left is committed too
    fenced_status: int | None = None  # of a command that succeeded, and whose commit was fenced; none: its own
    lost_status: int | None = None
    must_commit: bool = False  # whether it waits for the commit of SHARED folders that others use too
    of_shared: str = ""  # what is said where it waits for a SHARED folder
    filled: Callable[[Want, str, bool], None] = field(default=lambda want, path, is_new: None)
    left: Callable[[dict[str, str]], None] = field(default=lambda paths: None)  # where it left each folder, before that is kept
    umask: int | None = None
    on_conflict: str = "newer"  # whose a path is that a merged folder's others changed too
    tells_conflicts: bool = False  # each by its path
    is_warm: bool = False  # a new PRIVATE folder begins as the last version of any
    who: str = ""  # as the history names it
    progress: Progress | None = None  # hears what the command says on its standard error, where that is no terminal


class Run:
    """A job on a node, for a caller."""

    def __init__(self, agent: NodeAgent, job: Job, caller: Caller) -> None:
        self.agent, self.job, self.caller = agent, job, caller
        self.epoch = 0
        self.begun = False  # whether the command was started
        self.finished = False  # whether what it left was handed to the filter
        self.patience = Patience(caller, job.wait, job.of_shared, who=job.who)
        self.stopped = False  # because its lease had ended
        self.ended: int | None = None  # the command's status
        self.how = "lost"  # what came of it: `failed`, `committed`, `released`, `fenced`
        self.leased = [want for want in job.wants if not want.is_merged]
        self.merged = sorted((want for want in job.wants if want.is_merged), key=lambda want: want.folder)
        self.owns: dict[str, Own] = {}  # the command's copies of merged folders
        self.kept: list[str] = []  # digests that are held until the commit is answered
        self.digests: dict[str, str] = {}  # of what it left in each slot
        self.counts = False  # whether what it left in the folders of its lease counts
        if len(job.wants) > MOST_FOLDERS:
            raise UsageFault(f"{len(job.wants)} folders: one lease has at most {MOST_FOLDERS}")
        self.command, self.env = job.command, job.env
        self.paths = {} if job.place else {want.folder: place_of(want.path, job.cwd) for want in job.wants}
        check_apart(list(self.paths.values()))
        lines = {want.folder.replace("merged:", "locked:", 1) if want.is_merged else want.folder for want in job.wants}
        if len(lines) < len(job.wants):
            raise UsageFault("a folder is named twice")

    def run(self) -> int:
        try:
            return self._run()
        finally:
            self.agent.counts.add("commands_total", how=self.how if self.begun else "not_begun")

    def _run(self) -> int:
        if any(want.is_shared for want in self.job.wants) and not self.job.home and not self.agent.executions.has_namespaces:
            raise FarmFault("SHARED folders are bound in a mount namespace, and the kernel lets this agent have none: run it as root")
        if self.merged and not self.agent.executions.has_namespaces:
            raise FarmFault("merged folders are bound in a mount namespace, and the kernel lets this agent have none: run it as root")
        if self.job.wants:
            need("casync")  # else all that the command does would be lost
        while True:
            self.epoch = self.agent.talk.settled_epoch()
            try:
                status = self._try()
            except LifeOver:
                if self.begun:
                    raise
                status = None  # nothing ran yet: it is asked for in the new life
            except NodeRetired as fault:
                raise LifeOver(str(fault)) if self.begun else fault
            if status is not None:
                return status
            time.sleep(0.05)
            self.patience.check()

    def _try(self) -> int | None:
        """One run. None where a SHARED folder was recalled before the ask: then all is to be done again."""
        try:
            for want in self.merged:
                self.owns[want.folder] = self._enter_merged(want)
            status = self._try_leased() if self.leased or not self.merged else self._run_unleased()
            return self._merge(status) if status is not None and self.counts else status
        finally:
            for own in self.owns.values():
                self.agent.merged.leave(own)
            self.owns = {}

    def _enter_merged(self, want: Want) -> Own:
        def prepare(path: str, is_new: bool) -> None:
            self.job.filled(want, path, is_new)

        return self.agent.merged.enter(want, self.patience, prepare)

    def _run_unleased(self) -> int:
        """Runs a command all of whose folders are merged."""
        with contextlib.ExitStack() as held:
            self._place({}, {})
            self._hold_paths(held, {})
            status = self._counted(None, {}, self._merged_binds())
        self._left({})
        self.counts = not status or self.job.keeps_failed
        self.how = "committed" if self.counts else "failed"
        if not self.counts:
            self.caller.say("the command failed, and nothing of it is kept")
        return status

    def _merge(self, status: int) -> int:
        """Merges what the command left. What isn't committed while somebody waits is left to the agent."""
        lost = 0
        for want in self.merged:
            own = self.owns[want.folder]
            try:
                if want.writable:
                    self._tell_merged(own, self.agent.merged.commit(own, self.job.on_conflict, Patience(self.caller, self.job.wait, who=self.job.who)))
            except (WaitOver, ClientGone) as fault:
                self.agent.merged.leave_commit(self.owns.pop(want.folder), self.job.on_conflict, self.job.who)
                self.caller.say(f"{own.slot}: what the command left isn't committed yet: the agent goes on with that, and farm log shows it")
                lost = LOST if isinstance(fault, ClientGone) else lost or self.job.lost_status or 0
            except InConflict as fault:
                self.caller.say(str(fault))
                lost = LOST
            except LifeOver:
                self.caller.say(f"lost {own.slot}: what the command left isn't known to count")
                raise
        return status or lost

    def _tell_merged(self, own: Own, counted: Counted) -> None:
        self.caller.say(counted.said)
        for path in sorted(own.conflicts) if self.job.tells_conflicts else ():
            self.caller.say(f"conflict {own.slot} {escaped(path)}")
        for path in self.agent.merged.databases(own):
            self.caller.say(
                f"warning: {escaped(path)} of {own.slot} is a database of SQLite that others changed too, and what they wrote there is lost: use "
                f"{own.slot} as a locked folder"
            )

    def _try_leased(self) -> int | None:
        tenures: dict[str, Tenure] = {}
        ends: list[Closed] = []
        try:
            for want in sorted((w for w in self.job.wants if w.is_shared), key=lambda w: w.folder):
                tenures[want.folder] = self._enter(want)  # by rising name: no two nodes wait for each other
            ask = self.agent.asked(line_of("ask", *(want.word for want in self.leased)), self.epoch)
            self.agent.shared.have_asked(tenures.values())
            status = None if ask is None else self._run_asked(ask, tenures)
        finally:
            for folder, tenure in tenures.items():
                ended_well = self.ended == 0 or not self.begun
                ends.append(self.agent.shared.leave(folder, tenure, self.caller, ended_well=ended_well, waits=self.job.must_commit))
                self.caller.say(ends[-1].said)
        if status == 0 and any(closed.is_left for closed in ends):
            raise ClientGone("nobody waits for it any more")
        return self.job.lost_status or 0 if status == 0 and any(closed.is_lost for closed in ends) else status

    def _enter(self, want: Want) -> Tenure:
        def prepare(tenure: Tenure) -> None:
            self.job.filled(want, tenure.path, tenure.slot.base == 0)

        return self.agent.shared.enter(want.folder, self.epoch, self.patience, prepare, self.job.home)

    def _run_asked(self, ask: int, tenures: dict[str, Tenure]) -> int:
        folders = [want.folder for want in self.leased]
        grant = self.agent.granted(ask, folders, self.epoch, self.patience)
        try:
            with contextlib.ExitStack() as held:
                status, index_files, is_changed = self._execute(grant, tenures, held)
                if status and not self.job.keeps_failed:
                    self.agent.give_back(grant.ticket, self.epoch)
                    self.caller.say(f"released {grant.ticket}: the command failed, and nothing of it is kept")
                    self.how = "fenced" if self.stopped else "failed"
                    return self.job.fenced_status or status if self.stopped else status
                if not is_changed and self.job.skips_unchanged:
                    self.agent.give_back(grant.ticket, self.epoch)
                    self.caller.say(f"released {grant.ticket}: nothing was changed in its folders, so there is no new version")
                    self.how, self.counts = "released", True
                    return status
                self.agent.tell_kept(grant.ticket, self.digests)
                words = [f"{slot}={file}" for slot, file in index_files]
                note = self.agent.call(line_of("finish", str(grant.ticket), *words), self.epoch).note
                check_finished(note, grant.ticket)
                self.finished = True
            return self._settle(grant, status, self.agent.ending(ask, grant.ticket, self.epoch, self.caller, over=self._release), bool(words))
        except BaseException as fault:
            if self.finished or self.begun and isinstance(fault, LifeOver):
                self.caller.say(f"lost {grant.ticket}: what the command left isn't known to count")
            elif not isinstance(fault, LifeOver):
                self.agent.give_back(grant.ticket, self.epoch)
            raise
        finally:
            self.agent.runs(grant.ticket, is_over=True)
            if not self.finished:
                self._release(True)  # nothing of it is committed

    def _execute(self, grant: Grant, tenures: dict[str, Tenure], held: contextlib.ExitStack) -> tuple[int, list[tuple[str, str]], bool]:
        """Fills the folders, runs the command, and keeps what it left: its status, each slot with the file of its index, and whether any of
        them isn't the version that it began from."""
        agent = self.agent
        agent.begin(grant.ticket, self.epoch, self.patience)
        slots = {slot.folder: slot for slot in grant.slots}
        self._place({folder: slot.name for folder, slot in slots.items()}, tenures)
        binds = self._merged_binds()
        self._hold_paths(held, tenures)
        for want in self.leased:
            path = self.paths[want.folder]
            if not want.is_shared:
                self._fill(want, slots[want.folder], path)
            elif path != tenures[want.folder].path:
                agent.places.clear(path)
                binds.append((tenures[want.folder].path, path, want.writable))
        try:
            status = self.ended = self._counted(grant, tenures, binds)
        finally:
            for want in self.leased:
                if not want.is_shared:
                    agent.places.left(self.paths[want.folder])
        if status and not self.job.keeps_failed:
            return status, [], False
        self._left(tenures)
        kept = [(slot, *self._kept(slot)) for slot in grant.slots if slot.writable]
        self.digests = {slot.name: digest for slot, _, digest in kept}
        files = [(slot.name, held.enter_context(agent.places.rooms.file(index))) for slot, index, _ in kept]
        return status, files, not kept or any(digest != slot.digest for slot, _, digest in kept)

    def _place(self, slots: dict[str, str], tenures: dict[str, Tenure]) -> None:
        """Learns the command and its paths, where they are told only under the lease."""
        if self.job.place:
            merged = {folder: own.slot for folder, own in self.owns.items()}
            placed = self.job.place(slots | merged, tenures)
            self.command, self.env, self.paths = placed.command, placed.env, placed.paths
            check_apart(list(self.paths.values()))

    def _merged_binds(self) -> list[tuple[str, str, bool]]:
        return [(self.owns[want.folder].held.path, self.paths[want.folder], want.writable) for want in self.merged]

    def _hold_paths(self, held: contextlib.ExitStack, tenures: dict[str, Tenure]) -> None:
        """Takes the command's paths, in an order in which no two runs wait for each other's. That of a tenure all its users have."""
        shared = {tenure.path for tenure in tenures.values()}
        merged = {self.paths[want.folder] for want in self.merged}
        for path in sorted(set(self.paths.values()) - shared, key=path_order):
            check = self._waits_for(path)
            places = self.agent.places
            held.enter_context(TARGETS.held(places, path, check) if path in merged else places.held(path, check))

    def _left(self, tenures: dict[str, Tenure]) -> None:
        merged = {folder: own.held.path for folder, own in self.owns.items()}
        self.job.left(self.paths | merged | {folder: tenure.path for folder, tenure in tenures.items()})

    def _waits_for(self, path: str) -> Callable[[], None]:
        def check() -> None:
            self.patience.say(f"waiting for {path}: another command of this machine has it, or what is within it or around it")
            self.patience.check()

        return check

    def _fill(self, want: Want, slot: Slot, path: str) -> None:
        is_new = slot.base == 0
        if not (is_new and self.job.is_warm and slot.name.startswith("private:") and self._filled_warm(slot, path)):
            self.agent.fill(slot, path, self.epoch, self.patience)
        self.job.filled(want, path, is_new)

    def _filled_warm(self, slot: Slot, path: str) -> bool:
        """Fills a new PRIVATE folder with the last version that any of its name committed. Whether there is one, and it is here."""
        last = self.agent.merged.last(slot.folder, Patience(self.caller, None))
        if not last.base:
            return False
        try:
            self.agent.fill(slot._replace(digest=last.digest), path, self.epoch, self.patience)
        except (LifeOver, ClientGone, WaitOver):
            raise
        except FarmFault:  # it was forgotten meanwhile
            return False
        self.caller.say(f"{slot.name} begins as a version of another one")
        return True

    def _release(self, is_answered: bool) -> None:
        kept, self.kept = self.kept, []
        for digest in kept:
            self.agent.store.release(digest, is_answered)

    def _kept(self, slot: Slot) -> tuple[bytes, str]:
        """Keeps what a slot's path holds: its index, and the digest of that, which is held then."""
        patience = Patience(self.caller, None)

        def away(why: str) -> None:
            patience.say(why)
            patience.check()

        index, digest = self.agent.places.keep(self.agent.store, self.paths[slot.folder], away, patience.check)
        self.kept.append(digest)
        return index, digest

    def _counted(self, grant: Grant | None, tenures: dict[str, Tenure], binds: list[tuple[str, str, bool]]) -> int:
        """Runs the command, and learns what ccache had for it in the folders that it has alone."""
        slots = {slot.name: self.paths[slot.folder] for slot in grant.slots if slot.writable} if grant else {}
        owns = {own.slot: own.held.path for own in self.owns.values() if own.want.writable}
        before = {slot: counts(path) for slot, path in (slots | owns).items()}
        progress, streams = self.job.progress, self.caller.streams
        if progress and not os.isatty(streams[2]):  # a terminal has to stay one for the command
            with heard(streams, progress.hear, lambda: self.caller.gone) as streams:
                status = self._command(grant, tenures, binds, streams)
        else:
            status = self._command(grant, tenures, binds, streams)
        hits = {slot: found for slot, path in (slots | owns).items() if (found := since(before[slot], counts(path)))}
        for own in self.owns.values():
            own.hits = {slot: found for slot, found in hits.items() if slot == own.slot}
        if progress and (steps := progress.counts()):
            hits[STEPS] = steps
        if grant:
            self.agent.tell_hits(grant.ticket, {slot: found for slot, found in hits.items() if slot not in owns})
        return status

    def _command(self, grant: Grant | None, tenures: dict[str, Tenure], binds: list[tuple[str, str, bool]], streams: list[int]) -> int:
        agent, job = self.agent, self.job
        executions = agent.executions if grant else agent.unleased  # no life of the node matters to a command without a lease
        if not agent.executions.has_namespaces:
            self.caller.say("the kernel gives this agent no pid namespace: what leaves the command's session can outlive it")
        with agent.talk.birth:  # no life begins between the look and the start
            if grant and self.epoch != agent.talk.epoch or agent.talk.stopped:
                raise LifeOver("the node began a new life, or ends")
            if self.caller.gone:
                raise ClientGone("nobody waits for it any more")
            self.begun = True
            for tenure in tenures.values():
                tenure.used = True
            execution = executions.start(self.command, job.cwd, self.env, streams, binds, job.umask)
        self.caller.signalled = execution.signal
        if grant:
            agent.runs(grant.ticket)
        try:
            if grant:
                agent.tell(begun(agent.node, grant.ticket, self.patience.waited(), job.who))
            return self._watch(grant, execution)
        finally:
            if grant:
                agent.runs(grant.ticket, is_over=True)
            self.caller.signalled = None
            execution.end()
            executions.over(execution)

    def _watch(self, grant: Grant | None, execution: Execution) -> int:
        """Waits for the command, and ends it where nobody waits for it, or its lease is lost and it is to stop then."""
        stopped: float | None = None
        told = False
        while True:
            status = execution.wait(LOOK)
            if grant and self.epoch != self.agent.talk.epoch or execution.was_ended and stopped is None:
                raise LifeOver("the node began a new life, or ends")
            if status is not None:
                return status
            if self.caller.gone:
                raise ClientGone("nobody waits for it any more")
            if grant and grant.ticket in self.agent.ended and not told:
                told = True
                own = ", ".join(slot.name for slot in grant.slots if slot.writable)  # a SHARED folder's tenure has its own lease
                uncounted = f": what the command leaves in {own} won't count" if own else ""
                self.caller.say(f"the lease {grant.ticket} has ended{uncounted}")
                if self.job.stops_when_lost:
                    execution.signal(signal.SIGTERM)
                    self.stopped, stopped = True, time.monotonic()
            if stopped is not None and time.monotonic() - stopped > PATIENCE:
                execution.end()

    def _settle(self, grant: Grant, status: int, ending: Ending, had_news: bool) -> int:
        for slot, (number, digest) in ending.versions.items():
            self.caller.say(f"committed {grant.ticket} {slot} version {number}{self.agent.places.size_of(digest)}")
        self.how = ending.how
        if ending.how == "fenced":
            self.caller.say(f"fenced {grant.ticket}: the lease had ended, and what the command left doesn't count")
            return status or self.job.fenced_status or 0
        if ending.how != "committed" and had_news:
            self.caller.say(f"{ending.how} {grant.ticket}: what the command left doesn't count")
            return status or self.job.lost_status or 0
        self.counts = True
        return status

