"""What a coordinator's agent sees of its farm, as events: the lines that its filter took and answered, and what nodes tell of their own leases.

Owes the filters nothing: it only looks on. Whatever is wrong here is told once, and nobody waits for it.
"""
from __future__ import annotations

import contextlib
import threading
import time
from collections import OrderedDict
from dataclasses import dataclass, field
from typing import Callable, Iterable, Iterator, TypeVar

from agent.filters.lines import Answer
from agent.history import hints
from agent.history.events import ENDS, GREATEST, STEPS, Event, cut, cut_all, slot_name
from agent.history.kept import History
from agent.service import operators

OVER_MOST, ASKS_MOST, LEASES_MOST = 4_096, 65_536, 65_536  # leases that are over, asks and leases that are remembered
BURST, REFILL = 10_000, 20.0  # events of one node at once, and how many more each second; its commits always count

QUIET = ("started", "status", "line", "needed")  # answers in which nothing new comes to pass, of many lines maybe
NOTES = {"ended": "withdraw", "withdrawn": "withdraw", "released": "release"}  # how a lease ended of which these tell


Key = TypeVar("Key")
Value = TypeVar("Value")


@dataclass
class Asked:
    """An ask that waits."""

    at: float
    folders: tuple[str, ...]
    who: str = ""
    is_left: bool = False  # nobody wants it any more


@dataclass
class Lease:
    """A lease that lives, or is over."""

    node: int
    at: float  # time of day of the grant
    folders: tuple[str, ...] = ()
    life: int = 0
    ask: int = 0
    who: str = ""
    waited: float | None = None
    has_begun: bool = False
    sizes: dict[str, tuple[int, int]] = field(default_factory=dict)
    hits: dict[str, tuple[int, int]] = field(default_factory=dict)
    is_fenced: bool = False
    how: str = ""  # it ended


class Budgets:
    """How many events a node may still add, so that none drives the others' out of the history."""

    def __init__(self) -> None:
        self.left: dict[int, tuple[float, float]] = {}  # of a node: how many, and when that was so

    def spend(self, node: int) -> bool:
        """Takes one. Whether there was one."""
        now = time.monotonic()
        left, at = self.left.get(node, (float(BURST), now))
        left = min(BURST, left + REFILL * (now - at))
        self.left[node] = (max(0.0, left - 1), now)
        return left >= 1


class Seen:
    """One lock has it."""

    def __init__(self, history: History) -> None:
        self.history = history
        self.lock = threading.Lock()
        self.asks: OrderedDict[tuple[int, int, int], Asked] = OrderedDict()  # by node, life and ask
        self.granted: OrderedDict[tuple[int, int, int], None] = OrderedDict()  # asks that were granted last
        self.leases: OrderedDict[int, Lease] = OrderedDict()
        self.over: OrderedDict[int, Lease] = OrderedDict()
        self.holders: dict[str, int] = {}  # of a folder: the ticket under which it was given to one alone last
        self.lives: dict[int, int] = {}  # of a node: the greatest that was heard
        self.budgets = Budgets()

    @contextlib.contextmanager
    def _safely(self) -> Iterator[None]:
        with self.lock:
            try:
                yield
            except Exception as fault:
                self.history.tell_once("see", f"{type(fault).__name__}: {fault}")

    def _add(self, event: Event) -> None:
        event = event._replace(ask=event.ask % GREATEST)  # which a node chooses
        if event.kind == "commit" or not event.node or self.budgets.spend(event.node):
            self.history.add(event)
        else:
            self.history.tell_once(f"node {event.node}", f"node {event.node} asks so often that only its commits are kept")

    # The beginning.

    def begin(self, status: operators.Status) -> None:
        """Takes up what an earlier agent left in the history, and the leases that live."""
        with self._safely():
            asks: dict[tuple[int, int], Asked] = {}
            for event in self.history.loaded:
                self._take_up(event, asks)
            live = {lease.ticket for lease in status.leases}
            self._lose(lambda ticket, lease: ticket not in live)
            for lease in status.leases:
                self._take_live(lease)
            self.lives = {int(node): life for node, life in status.lives.items()}
            for each in status.waiting:
                known, folders = asks.get((each.node, each.ask)), cut_all(each.folders)
                self.asks[each.node, each.life, each.ask] = known if known and known.folders == folders else Asked(time.time(), folders)

    def _take_live(self, lease: operators.Lease) -> None:
        known, slots = self.leases.get(lease.ticket), cut_all(lease.slots)
        if known is None or (known.node, known.folders) != (lease.node, slots):
            known = self.leases[lease.ticket] = Lease(lease.node, 0.0, slots)
        known.life, known.ask = lease.life, lease.ask

    def _take_up(self, event: Event, asks: dict[tuple[int, int], Asked]) -> None:
        if event.kind == "wait":
            asks[event.node, event.ask] = Asked(event.at, event.folders)
        elif event.kind == "leave" and (event.node, event.ask) in asks:
            asks[event.node, event.ask].is_left = True
        elif event.kind == "grant":
            self.leases[event.ticket] = Lease(event.node, event.at, event.folders, ask=event.ask, who=event.who, waited=event.waited)
        elif event.kind == "begin" and event.ticket in self.leases:
            self.leases[event.ticket].who, self.leases[event.ticket].has_begun = event.who, True
        elif event.kind in ENDS:
            if lease := self.leases.pop(event.ticket, None):
                lease.how = event.kind
                self._put(self.over, event.ticket, lease, OVER_MOST)

    @staticmethod
    def _put(where: OrderedDict[Key, Value], key: Key, value: Value, most: int) -> None:
        where[key] = value
        while len(where) > most:
            where.popitem(last=False)

    # What the filter says.

    def hear(self, answer: Answer) -> None:
        """An answer of the filter. What it only says again is known by its ticket."""
        words = answer.note.split(" ")
        if words[0] in QUIET:
            return
        with self._safely():
            for fact in answer.facts:
                self._hear_note(fact.split(" "))
            self._hear_note(words)
            for line in answer.sends:
                self._hear_send(line.split(" "))

    def _hear_note(self, words: list[str]) -> None:
        """A fact or note."""
        if words[0] in NOTES:
            self._end(int(words[1]), NOTES[words[0]])
        elif words[0] == "retired" and words[1].isdecimal():
            self._retire(int(words[1]))

    def _hear_send(self, words: list[str]) -> None:
        if words[0] == "granted" and int(words[4]) not in self.leases and int(words[4]) not in self.over:
            self._grant(int(words[1]), int(words[2]), int(words[3]), int(words[4]), words[6:-1])
        elif words[0] == "committed" and self._is_open(int(words[3])):
            self._commit(int(words[3]), words[4:-1])
        elif words[0] == "fenced":
            self._fence(int(words[1]), int(words[3]))

    def _is_open(self, ticket: int) -> bool:
        """Whether a lease may commit yet: one whose end wasn't seen may have done so before another one had its folders."""
        return ticket in self.leases or ticket in self.over and self.over[ticket].how == "lost"

    def _grant(self, node: int, life: int, ask: int, ticket: int, slots: list[str]) -> None:
        now = time.time()
        asked = self.asks.pop((node, life, ask), None)
        self._put(self.granted, (node, life, ask), None, OVER_MOST)
        folders = cut_all(word.rpartition("=")[0] for word in slots)
        for slot in folders:
            self._end(self.holders.get(slot_name(slot), 0), "lost")
        self.holders.update((slot, ticket) for slot in folders if slot == slot_name(slot))
        if asked is None:
            self._add(Event("ask", at=now, node=node, ask=ask, folders=folders))
        waited = 0.0 if asked is None else None if asked.is_left else max(0.0, now - asked.at)
        lease = Lease(node, now, folders, life, ask, asked.who if asked else "", waited)
        self._put(self.leases, ticket, lease, LEASES_MOST)
        self._add(Event("grant", at=now, node=node, ticket=ticket, ask=ask, folders=folders, who=lease.who, waited=waited))

    def _commit(self, ticket: int, words: list[str]) -> None:
        if ticket in self.over:
            self.leases[ticket] = self.over.pop(ticket)
        sizes = self.leases[ticket].sizes
        versions: dict[str, tuple[int, int | None, int | None]] = {}
        for word in words:
            slot, _, version = word.rpartition("=")
            files, size = sizes.get(slot, (None, None))
            versions[cut(slot)] = (int(version.partition(":")[0]), files, size)
        self._end(ticket, "commit", versions)

    def _end(self, ticket: int, how: str, versions: dict[str, tuple[int, int | None, int | None]] | None = None) -> None:
        """A lease ends."""
        lease = self.leases.pop(ticket, None)
        if lease is None:
            return
        now, lease.how = time.time(), how
        held = max(0.0, now - lease.at) if lease.at else None
        for slot in lease.folders:
            if self.holders.get(slot) == ticket:
                del self.holders[slot]
        self._put(self.over, ticket, lease, OVER_MOST)
        self._add(Event(
            how, at=now, node=lease.node, ticket=ticket, ask=lease.ask, folders=lease.folders, who=lease.who, versions=versions or {},
            waited=lease.waited, held=held, hits=lease.hits,
        ))

    def _lose(self, is_lost: Callable[[int, Lease], bool]) -> None:
        for ticket in [ticket for ticket, lease in self.leases.items() if is_lost(ticket, lease)]:
            self._end(ticket, "lost")

    def _fence(self, node: int, ticket: int) -> None:
        """A commit that didn't count, of a lease that the node had. It comes again until the node hears the answer."""
        lease = self.over.get(ticket)
        if lease and lease.node == node and not lease.is_fenced:
            lease.is_fenced = True
            self._add(Event("fence", node=node, ticket=ticket, ask=lease.ask, folders=lease.folders, who=lease.who))

    def _retire(self, node: int) -> None:
        self._lose(lambda ticket, lease: lease.node == node)
        self._leave(key for key in list(self.asks) if key[0] == node)
        self._add(Event("retire", node=node))

    def pruned(self, slot: str, ticket: int) -> None:
        """The operator made the empty content a slot's next version."""
        with self._safely():
            self._add(Event("prune", ticket=ticket, folders=cut_all([slot])))

    # What nodes say.

    def take(self, line: str, note: str) -> None:
        """A line of a node that the filter opened, and its note."""
        words = line.split(" ")
        if len(words) < 4 or note.startswith(("old life", "retired")):
            return
        with self._safely():
            node, life = int(words[1]), int(words[2])
            if life > self.lives.get(node, 0):
                self._live(node, life)
            if words[0] in ("acquire", "tenure") and note.startswith(("parked", "denied")):
                self._hear_ask(node, life, int(words[3]), words[4:-1], note)

    def _live(self, node: int, life: int) -> None:
        """A new life of a node: what it had before is over."""
        self.lives[node] = life
        self._lose(lambda ticket, lease: lease.node == node and lease.life < life)
        over = [key for key in self.asks if key[0] == node and key[1] < life]
        self._leave(over)
        for key in over:
            del self.asks[key]

    def _leave(self, keys: Iterable[tuple[int, int, int]]) -> None:
        """Nobody wants some asks any more: their commands gave them up, or their nodes began new lives or were retired."""
        for key in keys:
            asked = self.asks.get(key)
            if asked and not asked.is_left:
                asked.is_left = True
                waited = max(0.0, time.time() - asked.at)
                self._add(Event("leave", node=key[0], ask=key[2], folders=asked.folders, who=asked.who, waited=waited))

    def _hear_ask(self, node: int, life: int, ask: int, folders: list[str], note: str) -> None:
        key = (node, life, ask)
        if key in self.granted:  # by a line that was answered together with this one
            return
        is_new = key not in self.asks
        event = Event("ask", node=node, ask=ask, folders=cut_all(folders))
        if is_new:
            self._add(event)
        if note.startswith("denied"):
            self.asks.pop(key, None)
            self._add(event._replace(kind="deny"))
        elif is_new:
            self._add(event._replace(kind="wait"))
            self.asks[key] = Asked(time.time(), event.folders)
            while len(self.asks) > ASKS_MOST:
                self.asks.popitem(last=False)

    def hear_hint(self, words: list[str]) -> None:
        """A node's hint: it says something of that node's own asks and leases, once of each."""
        told = hints.told(words)
        if told is None:
            return
        with self._safely():
            lease, asked = self.leases.get(told.ticket), self.asks.get((told.node, told.life, told.ask))
            if told.name == "waits" and asked and not asked.who:
                asked.who = told.who
            self._leave((told.node, told.life, ask) for ask in told.asks)
            if lease is None or lease.node != told.node:
                return
            if told.name == "keeps" and not lease.sizes:
                lease.sizes = {slot: size for slot, size in told.sizes.items() if cut(slot) in lease.folders}
            if told.name == "hits" and not lease.hits:
                lease.hits = {cut(slot): (had, of) for slot, (had, of) in told.sizes.items() if (slot == STEPS or cut(slot) in lease.folders) and had <= of}
            if told.name == "begun" and not lease.has_begun:
                lease.has_begun, lease.who = True, told.who
                self._add(Event("begin", node=told.node, ticket=told.ticket, ask=lease.ask, folders=lease.folders, who=told.who, waited=told.waited))

    # What people ask.

    def since(self) -> dict[int, float]:
        """When leases that live were granted, as far as that is known."""
        with self.lock:
            return {ticket: lease.at for ticket, lease in self.leases.items() if lease.at}

    def who(self, ticket: int) -> str:
        with self.lock:
            lease = self.leases.get(ticket)
            return lease.who if lease else ""

    def asked(self, node: int, life: int, ask: int) -> tuple[float | None, str]:
        """Since when an ask waits, and whose it is."""
        with self.lock:
            found = self.asks.get((node, life, ask))
            return (found.at, found.who) if found else (None, "")
