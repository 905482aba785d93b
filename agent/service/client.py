"""The other end of an agent's socket: a command asks, shows what is said, passes its signals on, and ends with the status.

Owes the filters nothing.
"""
from __future__ import annotations

import contextlib
import json
import os
import signal
import socket
from types import FrameType
from typing import Any, TypeVar

from agent.faults import LOST, FarmFault, UsageFault, tell
from agent.runs.launch import PASSED
from agent.service.carried import BadRequest, read, written

Answer = TypeVar("Answer")


class NoFarm(FarmFault):
    """No agent answers there."""


class Asked:
    """What came of a request."""

    def __init__(self) -> None:
        self.told: object = None
        self.said: list[str] = []
        self.status = LOST


def ask(path: str, request: object, *, shows: bool = True, passes_signals: bool = False) -> Asked:
    """Asks an agent. What it says goes to the standard error, line by line, where it is to be shown."""
    asked = Asked()
    with socket.socket(socket.AF_UNIX) as link:
        try:
            link.connect(path)
            socket.send_fds(link, [b"f"], [0, 1, 2])
            link.sendall(written(request).encode() + b"\n")
        except (FileNotFoundError, ConnectionRefusedError):
            raise NoFarm(f"no farm answers at {path}: farm up starts one, or name the --home of its coordinator") from None
        except OSError as fault:
            raise NoFarm(f"no farm answers at {path}: {fault.strerror or fault}") from None

        def passes(number: int, _frame: FrameType | None) -> None:
            try:
                link.sendall(json.dumps({"signal": number}).encode() + b"\n")
            except OSError:
                pass

        heeded = [number for number in PASSED if signal.getsignal(number) != signal.SIG_IGN]  # the others its caller keeps off, as nohup does
        before = {number: signal.signal(number, passes) for number in heeded} if passes_signals else {}
        heard = False
        try:
            with link.makefile("rb") as stream:
                for raw in stream:
                    heard = True
                    if _take(asked, json.loads(raw), shows):
                        return asked
        except (OSError, ValueError):  # it ended, amid a line maybe
            pass
        finally:
            for number, handler in before.items():
                signal.signal(number, handler)
    if not heard:
        raise NoFarm(f"the farm at {path} is ending")
    tell("the agent is gone, and what came of the command isn't known")
    return asked


def _take(asked: Asked, told: dict[str, Any], shows: bool) -> bool:
    """Takes one line of an agent. Whether it was the last."""
    if "exit" in told:
        asked.status = int(told["exit"])
        return True
    if "told" in told:
        with contextlib.suppress(BadRequest):  # a kind, or a word of one, of another version
            asked.told = read(told["told"], is_told=True)
    elif told.get("say"):
        asked.said.append(told["say"])
        if shows:
            tell(told["say"])
    return False


def told_at(path: str, request: object, kind: type[Answer], *, shows: bool = True) -> Answer:
    """What an agent tells, of the kind that answers this request. A refusal ends the command with its status."""
    asked = ask(path, request, shows=shows)
    if asked.status and shows:
        raise SystemExit(asked.status)
    if not isinstance(asked.told, kind):
        raise FarmFault(" ".join(asked.said) or f"the agent at {path} tells no {kind.__name__}: does another version of it run?")
    return asked.told


def check_home(home: str) -> None:
    """Refuses a home whose sockets, or whose files for a filter, can't be named."""
    if len(os.fsencode(home)) > 80 or any(c.isspace() or c == "=" or "\ud800" <= c <= "\udfff" for c in home):
        raise UsageFault(f"{home!r} is too long for a socket's path, or has a space, = or what isn't UTF-8 in it: name another --home")


def is_there(path: str) -> bool:
    """Whether an agent listens."""
    with socket.socket(socket.AF_UNIX) as link:
        try:
            link.connect(path)
        except OSError:
            return False
    return os.path.exists(path)
