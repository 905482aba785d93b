"""What must not be forgotten, as a node of another machine asks it of the coordinator's agent.

Owes the filters that an answer was given after its question: each question has a word of its own, and the answer that word, so that no
old answer, said again by whoever carries lines, lets a node forget what is needed now.
"""
from __future__ import annotations

import secrets
import threading
import time
from typing import Callable, Iterable

from agent.faults import FarmFault

AT_ONCE = 8_000  # digests of one line
PATIENCE, EVERY = 30.0, 3.0  # seconds for which is asked, and from one asking to the next


def parts(digests: Iterable[str]) -> list[list[str]]:
    """What an answer is cut into: at least one part."""
    found = sorted(digests)
    return [found[at : at + AT_ONCE] for at in range(0, max(1, len(found)), AT_ONCE)]


class Needs:
    """A question, and what came of its answer so far."""

    def __init__(self) -> None:
        self.changed = threading.Condition()
        self.asking = threading.Lock()
        self.word, self.count = "", 0
        self.found: dict[int, list[str]] = {}

    def ask(self, send: Callable[[str], None]) -> set[str]:
        """Sends a question's word until all of the answer is here."""
        with self.asking:
            with self.changed:
                self.word, self.count, self.found = secrets.token_hex(16), 0, {}
            end = time.monotonic() + PATIENCE
            while time.monotonic() < end:
                send(self.word)
                with self.changed:
                    if self.changed.wait_for(self._is_whole, EVERY):
                        self.word = ""
                        return {digest for part in self.found.values() for digest in part}
        raise FarmFault("the coordinator's agent doesn't say what is needed, so nothing is forgotten")

    def _is_whole(self) -> bool:
        return 0 < self.count == len(self.found)

    def take(self, words: list[str]) -> None:
        """A part of an answer: the question's word, which part of how many, and digests."""
        with self.changed:
            if self.word and words[0] == self.word:
                self.count = int(words[2])
                self.found[int(words[1])] = words[3:]
                self.changed.notify_all()
