"""How much one node may have at once: its live leases, and its asks that wait. What it asks beyond that is lost on the way, and asked again.

Owes the filter nothing: a line that is lost changes nothing.
"""
from __future__ import annotations

import time
from typing import Callable

from agent.faults import tell

MOST = 4_096
LOOK_EVERY = 1.0  # seconds from one look at what a node has to the next
TELL_EVERY = 60.0  # seconds from one telling of a node to the next
ASKS = ("acquire", "tenure")


class Bounds:
    """What each node had when it was looked last, and how often it asked since. The thread that hears lines has it."""

    def __init__(self, most: int, held: Callable[[int], int]) -> None:
        self.most, self.held = most, held
        self.had: dict[int, int] = {}
        self.asked: dict[int, int] = {}
        self.looked: dict[int, float] = {}
        self.told: dict[int, float] = {}

    def may_pass(self, line: str) -> bool:
        words = line.split(" ", 2)
        if words[0] not in ASKS or len(words) < 3 or not words[1].isdecimal() or len(words[1]) > 4:
            return True
        node = int(words[1])
        if not self._has_room(node):
            self._look(node)
        if not self._has_room(node):
            self._tell(node)
            return False
        self.asked[node] = self.asked.get(node, 0) + 1
        return True

    def _has_room(self, node: int) -> bool:
        return self.had.get(node, 0) + self.asked.get(node, 0) < self.most

    def _look(self, node: int) -> None:
        now = time.monotonic()
        if now - self.looked.get(node, -LOOK_EVERY) >= LOOK_EVERY:
            self.looked[node] = now
            self.had[node], self.asked[node] = self.held(node), 0

    def _tell(self, node: int) -> None:
        now = time.monotonic()
        if now - self.told.get(node, -TELL_EVERY) >= TELL_EVERY:
            self.told[node] = now
            tell(f"node {node} is held back: it has {self.had[node]} leases and asks, where --most-asks is {self.most}")
