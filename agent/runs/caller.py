"""Who waits for a command.

Owes the filters nothing: what it says ends a wait, and never a lease that counts.
"""
from __future__ import annotations

import re
import time
from typing import Callable, Protocol

from agent.faults import ClientGone, WaitOver

LATE = 5.0  # seconds after which an answer of the coordinator is late
AGAIN, AGAIN_MOST = 5.0, 300.0  # seconds after which is told again what is still waited for, at first and at last
SINCE = re.compile(r" for [0-9]+ s\b")
MOMENT = 1.0  # seconds in which a lease of what is free is granted: who would wait for less gets it too


class Caller(Protocol):
    streams: list[int]  # its standard input, output and error
    gone: bool
    signalled: Callable[[int], None] | None  # who hears its signals

    def say(self, text: str) -> None:
        """Tells it something, in one line."""

    def tell(self, what: object) -> None:
        """Tells its program something."""


class Patience:
    """How long a caller waits for a lease."""

    def __init__(self, caller: Caller | None, seconds: float | None, of_shared: str = "", unheard: str = "", who: str = "") -> None:
        self.caller, self.who = caller, who  # `who` as the history names it
        self.begun = time.monotonic()
        self.unheard = unheard  # what is said of an answer that is late: for so long it is waited for, though the caller is gone
        self.told, self.pause, self.again = "", AGAIN, 0.0  # what was told last, and when it is told again
        self.of_shared = of_shared  # what is said beside where it waits for a SHARED folder
        self.end = None if seconds is None else time.monotonic() + max(seconds, MOMENT)
        self.seconds = seconds

    def waited(self) -> float:
        """Seconds for which is waited."""
        return time.monotonic() - self.begun

    def check(self) -> None:
        is_late = time.monotonic() > self.begun + LATE
        if self.caller and self.caller.gone and (is_late or not self.unheard):
            raise ClientGone("nobody waits for it any more")
        if self.unheard and is_late:
            self.say(self.unheard)
        if self.end is not None and time.monotonic() > self.end:
            raise WaitOver(f"the folders weren't granted within {self.seconds:g} seconds")

    def say(self, text: str) -> None:
        """Tells what is waited for, and ever less often that it still is."""
        what, now = SINCE.sub("", text), time.monotonic()
        if self.caller and (what != self.told or now > self.again):
            self.pause = min(2 * self.pause, AGAIN_MOST) if what == self.told else AGAIN
            self.told, self.again = what, now + self.pause
            self.caller.say(text)
