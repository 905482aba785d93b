"""What the coordinator's agent counts of what its filter answers: waits, holds, commits, and what was fenced or ended.

Owes the filter nothing: nothing rests on a count. The thread that hears lines has the waits, each answer's thread the rest, under one lock.
"""
from __future__ import annotations

import threading
import time
from typing import Sequence, TypeVar

from agent.counts import Counts
from agent.filters.lines import Answer
from agent.logs import INFO, WARNING, Log

ENDS = ("committed", "released", "fenced", "ended")  # of leases: the last by an operator or a timeout
MOST = 65_536  # asks and leases whose beginning is known
FRESH = 60.0  # seconds for which an ask is remembered that no status shows: its grant may be under way

Key = TypeVar("Key")


class Measured:
    def __init__(self, counts: Counts, log: Log) -> None:
        self.counts, self.log = counts, log
        self.lock = threading.Lock()
        self.waiting: dict[tuple[str, ...], float] = {}  # of a node's ask: when it was first heard that it waits
        self.held: dict[str, float] = {}  # of a ticket: when it was granted
        self.fenced: dict[str, float] = {}  # tickets whose commit was fenced: it comes again until its node hears that
        for how in ENDS:
            counts.add("leases_over_total", 0, how=how)

    def heard(self, line: str, note: str) -> None:
        """A node's line, and what was noted of it."""
        if note.startswith("parked"):
            with self.lock:
                put(self.waiting, tuple(line.split(" ", 4)[1:4]))

    def granted(self, words: Sequence[str]) -> None:
        """`granted NODE LIFE ASK TICKET KIND SLOTS..`, for the first time."""
        now = time.monotonic()
        with self.lock:
            since = self.waiting.pop(tuple(words[1:4]), now)
            put(self.held, words[4])
        self.counts.took("wait_seconds", now - since)

    def oldest(self, asks: set[tuple[str, ...]]) -> float:
        """Seconds for which the oldest of these asks has waited; what else was heard waits no more."""
        now = time.monotonic()
        with self.lock:
            self.waiting = {ask: since for ask, since in self.waiting.items() if ask in asks or now - since < FRESH}
            return now - min((self.waiting[ask] for ask in asks & self.waiting.keys()), default=now)

    def answered(self, answer: Answer) -> None:
        words = answer.note.split(" ")
        if words[0] in ENDS and len(words) == 2:
            self._over(words[0], words[1])
        for line in answer.sends:
            sent = line.split(" ")
            if sent[0] == "committed" and len(words) == 2:
                slots = [word.rpartition(":")[0].rpartition("=")[::2] for word in sent[4:-1]]
                text = ", ".join(f"{slot} version {number}" for slot, number in slots)
                self.log(f"committed {text}", INFO, node=int(sent[1]), ticket=int(sent[3]), folder=",".join(slot for slot, _ in slots))
            elif sent[0] == "fenced":
                self.log("the lease had ended before its commit came, which doesn't count", WARNING, node=int(sent[1]), ticket=int(sent[3]))
        for fact in answer.facts:
            if fact.startswith("ended "):
                self._over("ended", fact.split(" ")[1])

    def _over(self, how: str, ticket: str) -> None:
        with self.lock:
            if how == "fenced":
                if ticket in self.fenced:
                    return
                put(self.fenced, ticket)
            since = self.held.pop(ticket, None)
        self.counts.add("leases_over_total", how=how)
        if since is not None:
            self.counts.took("hold_seconds", time.monotonic() - since)


def put(times: dict[Key, float], key: Key) -> None:
    """Takes the present time for a key that has none, in the place of the oldest where there are too many."""
    times.setdefault(key, time.monotonic())
    if len(times) > MOST:
        del times[next(iter(times))]
