"""What an agent's socket answers: the requests of commands on the same machine.

Owes the filters that only who may enter the farm's home can ask, since operators' words come this way.
"""
from __future__ import annotations

import array
import contextlib
import grp
import json
import os
import signal
import socket
import threading
import time
import traceback
from typing import IO, Any, Callable

from agent.faults import BAD_DOCKERFILE, FAULT, LOST, FarmFault, NodeRetired, UsageFault, sentence
from agent.service.carried import BadRequest, read, written
from agent.service.requests import NodeWasRetired

Handler = Callable[[object, "Connection"], int]  # answers a request; another one it refuses
Failed = Callable[[Exception], None]  # hears why a request failed
ENDING = (signal.SIGINT, signal.SIGTERM, signal.SIGHUP, signal.SIGQUIT)
HELD_MOST = 10.0  # seconds for which a caller that was told to end waits for what holds its request up, as a folder that can't be reached


class Connection:
    """A command that waits for its answer."""

    def __init__(self, link: socket.socket, streams: list[int]) -> None:
        self.link, self.streams = link, streams
        self.gone = False
        self.signalled: Callable[[int], None] | None = None
        self.lock = threading.Lock()
        self.over = threading.Event()

    def _write(self, what: dict[str, Any]) -> None:
        try:
            with self.lock:
                self.link.sendall(json.dumps(what).encode() + b"\n")
        except OSError:
            self.gone = True

    def say(self, text: str) -> None:
        self._write({"say": text})

    def tell(self, what: object) -> None:
        self._write({"told": written(what)})

    def exit(self, status: int) -> None:
        self.over.set()
        self._write({"exit": status})

    def listen(self, reader: IO[bytes]) -> None:
        """Hears the command's signals, and whether it is still there. One that was told to end isn't held up for ever."""
        with contextlib.suppress(OSError):  # it was killed before it had read all
            for raw in reader:
                try:
                    number = json.loads(raw)["signal"]
                except (ValueError, KeyError, TypeError):
                    break
                if self.signalled:
                    self.signalled(number)
                elif number in ENDING:  # no command runs that could hear it: it is as if its caller had gone
                    break
        self.gone = True
        if not self.over.wait(HELD_MOST):
            self.say("something that doesn't answer holds it up, and nobody waits for it any more: what comes of it isn't known")
            self.exit(LOST)


def _trace(fault: Exception) -> None:
    """A fault of the agent itself leaves a traceback."""
    if not isinstance(fault, (FarmFault, OSError)):
        with contextlib.suppress(OSError):
            traceback.print_exception(fault)


def answer(link: socket.socket, handler: Handler, failed: Failed = _trace) -> None:
    """Answers one request: a byte with three descriptors, and a line of JSON."""
    message, control, _, _ = link.recvmsg(1, socket.CMSG_SPACE(12))
    streams: list[int] = []
    for level, kind, data in control:
        if level == socket.SOL_SOCKET and kind == socket.SCM_RIGHTS:
            handles = array.array("i")
            handles.frombytes(data[: len(data) - len(data) % handles.itemsize])
            streams.extend(handles)
    try:
        reader = link.makefile("rb")
        raw = reader.readline()
        if not message or not raw.endswith(b"\n") or len(streams) != 3:
            return
        connection = Connection(link, streams)
        threading.Thread(target=connection.listen, args=(reader,), daemon=True).start()
        connection.say("")  # it was heard
        connection.exit(handled(handler, raw, connection, failed))
    finally:
        for handle in streams:
            os.close(handle)


def handled(handler: Handler, raw: bytes, connection: Connection, failed: Failed = _trace) -> int:
    """The status of a request; each fault is told in one sentence."""
    try:
        return handler(read(raw), connection)
    except Exception as fault:
        failed(fault)
        if isinstance(fault, NodeRetired):
            connection.tell(NodeWasRetired(why=str(fault)))  # who asked knows whether another node will do
        else:
            connection.say(_said(fault))
        return fault.status if isinstance(fault, FarmFault) else FAULT


def _said(fault: Exception) -> str:
    if isinstance(fault, FarmFault):
        return ("refused: " if fault.status == BAD_DOCKERFILE else "") + str(fault)
    if isinstance(fault, BadRequest):
        return f"the agent doesn't understand what it is asked: {fault}. Does another version of it run? Then start it again"
    return sentence(fault) if isinstance(fault, OSError) else f"{type(fault).__name__}: {fault}"


def group_of(name: str) -> int:
    """The number of a group."""
    try:
        return grp.getgrnam(name).gr_gid
    except KeyError:
        raise UsageFault(f"there is no group {name} here") from None


class Service:
    """A socket of the farm's home."""

    def __init__(self, path: str, handler: Handler, group: str | None = None, failed: Failed = _trace) -> None:
        self.path, self.handler, self.failed = path, handler, failed
        self.busy = 0
        self.used = time.monotonic()  # when the last request was answered
        self.closed = False
        self.lock = threading.Lock()
        if os.path.exists(path):
            os.unlink(path)
        self.server = socket.socket(socket.AF_UNIX)
        self.server.bind(path)
        self.own = os.lstat(path)
        os.chmod(path, 0o600)
        if group:
            os.chown(path, -1, group_of(group))
            os.chmod(path, 0o660)
        self.server.listen(64)

    def serve(self) -> None:
        while not self.closed:
            try:
                link, _ = self.server.accept()
            except OSError:  # no descriptor is free just now, or who asked is gone again
                time.sleep(0.1)
                continue
            with self.lock:
                self.busy += 1
            threading.Thread(target=self._one, args=(link,), daemon=True).start()

    def _one(self, link: socket.socket) -> None:
        try:
            with link:
                answer(link, self.handler, self.failed)
        except OSError:
            pass
        finally:
            self.used = time.monotonic()
            with self.lock:
                self.busy -= 1

    def close(self) -> None:
        self.closed = True
        with contextlib.suppress(OSError):
            if os.path.samestat(os.lstat(self.path), self.own):  # else somebody removed the home, and the next farm there has begun
                os.unlink(self.path)
        self.server.close()
