#!/usr/bin/env python3
"""The agent over a transport that loses, repeats, delays, damages and forges lines, and that writes down what its nodes hand over and
learn. Its words are those of `farm`; `TRIAL` in its environment says the rest, as JSON: `seed`, the file `history`, and `wrong`, a fault
that the agent is to have.
"""
from __future__ import annotations

import faulthandler
import hashlib
import json
import os
import random
import signal
import sys
import threading
from pathlib import Path
from typing import Any, Callable

sys.dont_write_bytecode = True
sys.path.insert(0, str(Path(__file__).resolve().parents[2]))

from agent.commands.main import main as farm  # noqa: E402
from agent.filters.lines import Answer  # noqa: E402
from agent.filters.node import NodeAgent  # noqa: E402
from agent.folders import held  # noqa: E402
from agent.runs import merged  # noqa: E402
from agent.service import serving  # noqa: E402
from agent.store import folder, shared  # noqa: E402
from agent.transport import brokers  # noqa: E402
from agent.transport.local import LocalTransport, Transport, address_of  # noqa: E402
from agent.transport.redis import RedisTransport  # noqa: E402
from agent.words import EMPTY  # noqa: E402

KEPT = 300  # old lines from which one is repeated
LATE = 0.8  # seconds that a line is late at most
EARLY = 4.0  # seconds from a Commit to the content that it names, where the agent is wrong


class Bad:
    """What becomes of a line on its way."""

    def __init__(self, dice: random.Random, send: Callable[[str, str], None]) -> None:
        self.dice, self.send_well = dice, send
        self.old: list[tuple[str, str]] = []
        self.lock = threading.Lock()

    def send(self, address: str, line: str) -> None:
        with self.lock:
            chances = [self.dice.random() for _ in range(5)]
            self.old = [*self.old[-KEPT:], (address, line)]
            repeated = self.dice.choice(self.old)
            spoilt = self._damaged(line)
            forged = self._forged(line)
        if chances[0] < 0.06:
            return
        if chances[1] < 0.06:
            self.send_well(address, spoilt)
        elif chances[1] > 0.88:
            timer = threading.Timer(LATE * chances[2], self.send_well, [address, line])
            timer.daemon = True
            timer.start()
        else:
            self.send_well(address, line)
        if chances[3] < 0.08:
            self.send_well(*repeated)
        if chances[4] < 0.08 and forged:
            self.send_well(address_of(forged), forged)

    def _damaged(self, line: str) -> str:
        at = self.dice.randrange(len(line))
        return line[:at] + self.dice.choice("0123456789abcdef") + line[at + 1 :]

    def _forged(self, line: str) -> str:
        """A line that nobody sent, of the words of one that somebody did."""
        words = line.split(" ")[:-1]
        other = hashlib.sha256(line.encode()).hexdigest()
        if words[0] == "commit":
            words[4:] = [f"{word.rpartition('=')[0]}={other}" for word in words[4:]]
        elif words[0] == "acquire":
            words[:4] = ["release", words[1], words[2], str(self.dice.randrange(1, 50))]
            del words[4:]
        elif words[0] == "granted":
            words = [*words[:6], *(f"{word.rpartition('=')[0]}=0:{EMPTY}" for word in words[6:])]
        elif words[0] == "committed":
            words[0] = "fenced"
            del words[4:]
        else:
            return ""
        return f"{' '.join(words)} {other}"


def disturbed(dice: random.Random, transport: Any) -> Transport:
    transport.send = Bad(dice, transport.send).send
    made: Transport = transport
    return made


class Told(NodeAgent):
    """Writes down what the node hands over and what it learns."""

    history = ""

    def _tell(self, text: str) -> None:
        handle = os.open(self.history, os.O_WRONLY | os.O_CREAT | os.O_APPEND, 0o600)
        os.write(handle, f"{self.node} {text}\n".encode())
        os.close(handle)

    def call(self, line: str, epoch: int | None = None) -> Answer:
        words = line.split(" ")
        if words[0] == "finish":
            news = [word.rpartition("=") for word in words[2:]]
            self._tell(" ".join(["finish", words[1], *(f"{slot}={digest_of(path)}" for slot, _, path in news)]))
        return super().call(line, epoch)

    def hear(self, answer: Answer) -> None:
        if answer.note.startswith(("learned ", "dropped ", "life ")):
            self._tell(answer.note)
        super().hear(answer)


def digest_of(path: str) -> str:
    with open(path, "rb") as file:
        return hashlib.sha256(file.read()).hexdigest()


def later(seconds: float, does: Callable[..., object], *words: object) -> None:
    timer = threading.Timer(seconds, does, words)
    timer.daemon = True
    timer.start()


def publish_late(real: Callable[..., str]) -> Callable[..., str]:
    """Gives the digest of a content that the store will have only later."""

    def publish(made: Any, index: bytes, *_others: object) -> str:
        later(EARLY, real, made, index)
        return hashlib.sha256(index).hexdigest()

    return publish


def main() -> int:
    said = json.loads(os.environ["TRIAL"])
    faulthandler.register(signal.SIGUSR2)
    dice = random.Random(said["seed"])
    Told.history = said["history"]
    made: Any = serving
    made.NodeAgent = Told
    made.LocalTransport = lambda: disturbed(dice, LocalTransport())
    made.RedisTransport = lambda url, farm: disturbed(dice, RedisTransport(url, farm))
    several: Any = brokers
    several.Brokers = lambda *words, of=brokers.Brokers: disturbed(dice, of(*words))
    if said.get("wrong") == "early":
        wrong: Any = shared.SharedStore if "--broker" in sys.argv else folder.FolderStore
        wrong.publish = publish_late(wrong.publish)
    if said.get("wrong") == "stale":
        folders: Any = held.Held
        folders.look = lambda self, *_check: False
    if said.get("wrong") == "snapshot":
        merges: Any = merged.MergedFolders
        merges._merge = lambda self, own, slot, *_others: setattr(own, "number", slot.base)
    return farm()


if __name__ == "__main__":
    sys.exit(main())
