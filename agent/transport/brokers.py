"""Lines over several brokers: each goes to all of them, and is taken from each.

Owes the filters what any transport does (`transport`): nothing but an effort. A broker that is away, hangs or lies holds up no other one: each
has threads and a queue of its own. The same line from another broker, moments later, isn't handed over again: the filters bear it, but over
two brokers the coordinator's answered four lines a command so, and two without.
"""
from __future__ import annotations

import functools
import queue
import threading
import time
from typing import Callable, Sequence

from agent.faults import Missing
from agent.transport.redis import RedisTransport
from agent.transport.redis_wire import PATIENCE, Redis

START = 3.0  # seconds in which brokers answer at the start, where one of them did
SAME = 2.0  # seconds within which a line of one broker is that of another one
REMEMBERED = 4_096  # lines
WAITING = 64  # lines that came, and nobody took: whoever reads them from a broker waits then


def answering(urls: Sequence[str], patience: float = PATIENCE) -> list[tuple[Redis, str]]:
    """The servers of these addresses, of which one at least answers, and why the others don't: whoever uses them tries them again."""
    servers, changed = [Redis(url, must_answer=False, patience=patience) for url in urls], threading.Condition()
    said: dict[Redis, str] = {}  # under `changed`: of those that were tried

    def greet(server: Redis) -> None:
        why = ""
        try:
            server.greet()
        except Missing as missing:
            why = str(missing)
        with changed:
            said[server] = why
            changed.notify_all()

    for server in servers:
        threading.Thread(target=greet, args=(server,), daemon=True).start()
    with changed:
        changed.wait_for(lambda: len(said) == len(servers), START)
        changed.wait_for(lambda: "" in said.values() or len(said) == len(servers))
        if "" not in said.values():
            raise Missing("; ".join(said.values()))
        return [(server, said.get(server, "it hasn't answered yet")) for server in servers]


class Brokers:
    """One lock has `heard` and `passed`."""

    def __init__(self, urls: Sequence[str], farm: str, reached: Callable[[str, str], None] = lambda where, why: None) -> None:
        """Who listens hears of each broker why it can't be reached, or that it can be."""
        self.links = [RedisTransport(server, farm) for server, _ in answering(urls)]
        for link in self.links:
            link.reached = functools.partial(reached, link.server.where)
        self.lock = threading.Lock()
        self.heard: dict[str, queue.Queue[str]] = {}  # of a receiver: what came
        self.passed: dict[int, tuple[float, set[int]]] = {}  # of a line: when it was handed over, and which brokers have brought it since

    def send(self, address: str, line: str) -> None:
        for link in self.links:
            link.send(address, line)

    def receive(self, address: str, timeout: float) -> str | None:
        try:
            return self._heard(address).get(timeout=timeout)
        except queue.Empty:
            return None

    def _heard(self, address: str) -> queue.Queue[str]:
        with self.lock:
            if address in self.heard:
                return self.heard[address]
            made = self.heard[address] = queue.Queue[str](WAITING)
        for number in range(len(self.links)):
            threading.Thread(target=self._read, args=(number, address, made), daemon=True).start()
        return made

    def _read(self, number: int, address: str, heard: queue.Queue[str]) -> None:
        """Takes what a broker has for a receiver, for ever."""
        link = self.links[number]
        while True:
            line = link.receive(address, 1.0)
            if line is not None and self._is_new(number, address, line):
                heard.put(line)

    def _is_new(self, number: int, address: str, line: str) -> bool:
        """Whether a line isn't what another broker brought moments ago: what isn't handed over was so within `SAME`."""
        now, key = time.monotonic(), hash((address, line))
        with self.lock:
            at, brokers = self.passed.get(key, (-SAME, {number}))
            if number not in brokers and now - at < SAME:
                brokers.add(number)
                return False
            self.passed.pop(key, None)
            self.passed[key] = (now, {number})
            while len(self.passed) > REMEMBERED:
                del self.passed[next(iter(self.passed))]
            return True
