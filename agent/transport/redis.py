"""Lines over Redis: a stream of bounded length for each receiver.

Owes the filters what any transport does (`transport`): nothing but an effort. Each receiver reads from the end that its stream has when
it begins; what came before is sent again by those who want an answer. Nobody who sends waits for the server.
"""
from __future__ import annotations

import contextlib
import queue
import threading
import time
from collections import deque
from typing import Callable

from agent.transport.redis_wire import Redis

LENGTH = 2_000  # lines that a stream keeps
MOST = 1 << 20  # characters of a line: contents go through the store, so a longer one is lost
AT_ONCE = 16  # lines of one request
START = b"0-0"


def _order(place: bytes) -> tuple[int, ...]:
    return tuple(map(int, place.split(b"-")))


class RedisTransport:
    def __init__(self, server: str | Redis, farm: str = "farm") -> None:
        self.server = Redis(server) if isinstance(server, str) else server
        self.farm = farm
        self.places: dict[str, bytes] = {}
        self.here: dict[str, deque[str]] = {}  # lines that came together
        self.reached: Callable[[str], None] = lambda why: None  # hears why the server can't be reached, or that it can be
        self.outbox: queue.Queue[tuple[str, str]] = queue.Queue(LENGTH)
        threading.Thread(target=self._send_all, daemon=True).start()

    def _stream(self, address: str) -> str:
        return f"{self.farm}:to:{address}"

    def send(self, address: str, line: str) -> None:
        while len(line) <= MOST:
            try:
                return self.outbox.put_nowait((address, line))
            except queue.Full:  # the oldest one is lost, and sent again by whoever misses the answer
                with contextlib.suppress(queue.Empty):
                    self.outbox.get_nowait()

    def _send_all(self) -> None:
        """Sends what is there, together, for ever."""
        while True:
            lines = [self.outbox.get()]
            while len(lines) < AT_ONCE and not self.outbox.empty():
                lines.append(self.outbox.get())
            try:
                self.server.calls([("XADD", self._stream(to), "MAXLEN", "~", LENGTH, "*", "line", line) for to, line in lines])
                self.reached("")
            except Exception as fault:
                self.reached(str(fault) or type(fault).__name__)  # they are lost

    def receive(self, address: str, timeout: float) -> str | None:
        here = self.here.setdefault(address, deque())
        if not here and timeout > 0:
            try:
                here.extend(self._read(address, timeout))
            except Exception as fault:  # also where what answers is no server of Redis
                self.reached(str(fault) or type(fault).__name__)
                self.places.pop(address, None)
                time.sleep(min(timeout, 0.5))
        return here.popleft() if here else None

    def _read(self, address: str, timeout: float) -> list[str]:
        stream = self._stream(address)
        if address not in self.places:
            ends = self.server.call("XREVRANGE", stream, "+", "-", "COUNT", 1, most=2 * MOST)
            self.places[address] = ends[0][0] if ends else START
        waited = max(1, int(timeout * 1000))
        got, ends = self.server.calls([
            ("XREAD", "COUNT", AT_ONCE, "BLOCK", waited, "STREAMS", stream, self.places[address]), ("XREVRANGE", stream, "+", "-", "COUNT", 1),
        ], most=(AT_ONCE + 2) * MOST)
        if not got and _order(ends[0][0] if ends else START) < _order(self.places[address]):
            self.places[address] = START  # the server lost the stream, and its clock is behind: what comes would never be read
        lines = []
        for place, fields in got[0][1] if got else []:
            self.places[address] = place
            line = fields[fields.index(b"line") + 1] if b"line" in fields[::2] else b""
            if len(line) <= MOST and b"\n" not in line and b"\r" not in line:
                lines.append(str(line, errors="replace"))
        return lines
