"""How lines get from one process of the farm to another.

Owes the filters nothing but an effort. A transport may lose a line, repeat it, hand it over late or in another order, damage it, and
hand over lines that nobody sent: filters open a line only where its seal is right, and send again what wasn't answered. A farm over a
bad transport is slow, and nothing else. What does matter is that a line goes to a filter behind `m `, which is the business of those
who receive it.
"""
from __future__ import annotations

import queue
import threading
from typing import Protocol

TO_COORDINATOR = ("hello", "acquire", "tenure", "commit", "release")
COORDINATOR = "coordinator"


def node_address(node: int | str) -> str:
    return f"node.{node}"


def address_of(line: str) -> str:
    """Where a sealed line of a filter goes: its first words say it."""
    words = line.split(" ", 2)
    return COORDINATOR if words[0] in TO_COORDINATOR else node_address(words[1])


class Transport(Protocol):
    def send(self, address: str, line: str) -> None:
        """Sends a line towards a receiver. It never waits for one, and says nothing of what became of it."""

    def receive(self, address: str, timeout: float) -> str | None:
        """The next line for a receiver; none where none came in time. Without time it is one that is here already."""


class LocalTransport:
    """Queues of bounded length within one process. A full one loses the line."""

    def __init__(self, most: int = 10_000) -> None:
        self.most = most
        self.queues: dict[str, queue.Queue[str]] = {}
        self.lock = threading.Lock()

    def _queue(self, address: str) -> queue.Queue[str]:
        with self.lock:
            return self.queues.setdefault(address, queue.Queue(self.most))

    def send(self, address: str, line: str) -> None:
        try:
            self._queue(address).put_nowait(line)
        except queue.Full:
            pass

    def receive(self, address: str, timeout: float) -> str | None:
        try:
            return self._queue(address).get(timeout=timeout)
        except queue.Empty:
            return None
