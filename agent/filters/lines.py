"""The talk with a filter: one line in, one answer out.

Owes the filters that each line it passes on is one line, that what came from outside stands behind `m `, that an answer is taken
whole or not at all, and that no two processes of one talk run at once.
"""
from __future__ import annotations

import contextlib
import fcntl
import os
import subprocess
import threading
import time
from collections import deque
from dataclasses import dataclass, field
from typing import Callable, Sequence

from agent.faults import FarmFault, LifeOver, Missing
from agent.tools import LOOK

LOCKED = 4  # the status of a filter whose files another process has
MOST = 24 << 20  # bytes of a line with its end: a longer one would be dropped


class FilterGone(Exception):
    """The process ended: what it answered last may be lost."""

    def __init__(self, status: int = 0, said: str = "") -> None:
        super().__init__(said)
        self.status, self.said = status, said


@dataclass
class Answer:
    """What a filter says to one line."""

    sends: list[str] = field(default_factory=list)  # sealed lines, to be sent
    facts: list[str] = field(default_factory=list)
    note: str = ""

    @property
    def is_refused(self) -> bool:
        return self.note.startswith(("refused ", "dropped "))


def check_finished(note: str, ticket: int) -> None:
    """Whether the filter took what an execution left."""
    if note == "refused TooLarge":
        raise FarmFault("it can't be finished: the index of a folder has more than 16 MiB, which is some ten gigabytes in small files: use two folders")
    if note != f"finished {ticket}":
        raise FarmFault(f"it can't be finished: {note}")


def line_of(*words: str) -> str:
    """The line of some words, none of which can be read as two or as another line."""
    for word in words:
        if not word or any(c.isspace() for c in word) or "\0" in word:
            raise ValueError(f"{word!r} is no word")
    return " ".join(words)


class Filter:
    """One process."""

    def __init__(self, command: Sequence[str]) -> None:
        self.lock = threading.Lock()
        try:
            self.process = subprocess.Popen(
                command, stdin=subprocess.PIPE, stdout=subprocess.PIPE, stderr=subprocess.PIPE, start_new_session=True
            )
        except OSError as fault:
            raise Missing(f"{command[0]} can't be started: {fault.strerror}") from None
        assert self.process.stdin and self.process.stdout and self.process.stderr
        self.input, self.output, self.errors = self.process.stdin, self.process.stdout, self.process.stderr
        self.room = fcntl.fcntl(self.input, fcntl.F_GETPIPE_SZ) // 2  # what is written so is never waited for
        self.said: deque[str] = deque(maxlen=5)  # its last words on the standard error
        self.listener = threading.Thread(target=self._listen, daemon=True)
        self.listener.start()
        try:
            self.greeting = self._read()
        except FilterGone:
            raise FilterGone(self.close(5.0), self.last_words()) from None  # it is ending by itself, and its status says why

    def _listen(self) -> None:
        for raw in self.errors:
            self.said.append(raw.decode(errors="replace").rstrip())

    def _read(self) -> Answer:
        answer = Answer()
        while True:
            raw = self.output.readline()
            if not raw.endswith(b"\n"):
                raise FilterGone
            text = raw[:-1].decode(errors="replace")
            kind, rest = text[:2], text[2:]
            if kind == "m ":
                answer.sends.append(rest)
            elif kind == ": ":
                answer.facts.append(rest)
            elif kind == "= ":
                answer.note = rest
                return answer
            else:
                raise FilterGone  # no answer of a filter looks like this

    def call(self, line: str) -> Answer:
        answers: list[Answer] = []
        self.calls([line], answers.append)
        return answers[0]

    def calls(self, lines: Sequence[str], hear: Callable[[Answer], None]) -> None:
        """Hears the answer to each line. Lines are written together, as far as a pipe holds them, so that the filter may save together
        what they change."""
        raws = [line.encode() + b"\n" for line in lines]
        if any(b"\n" in raw[:-1] or b"\r" in raw for raw in raws):
            raise ValueError("a line has no line feed within")
        with self.lock:
            try:
                while raws:
                    some = [raws.pop(0)]
                    while raws and sum(map(len, some)) + len(raws[0]) <= self.room:
                        some.append(raws.pop(0))
                    self._write_and_hear(some, hear)
            except (OSError, ValueError):
                raise FilterGone from None

    def _write_and_hear(self, raws: list[bytes], hear: Callable[[Answer], None]) -> None:
        self.input.write(b"".join(raw for raw in raws if len(raw) <= MOST))
        self.input.flush()
        for raw in raws:
            hear(self._read() if len(raw) <= MOST else Answer(note="dropped TooLong"))

    def close(self, patience: float = 0.2) -> int:
        """Ends the process, and gives its status."""
        try:
            self.input.close()
            self.process.wait(patience)  # at the end of its input it ends by itself
        except (OSError, subprocess.TimeoutExpired):
            self.process.kill()
        status = self.process.wait()
        self.listener.join(5.0)
        self.output.close()
        self.errors.close()
        return status

    def last_words(self) -> str:
        return " ".join(" ".join(self.said).split())[-300:]


class Pauses:
    """How long a filter that ends at once again and again, or can't start, waits before it is begun again: each time twice as long."""

    FIRST, LONGEST = 1.0, 60.0  # seconds
    WELL = 1.0  # seconds: one that lived so long is begun again at once

    def __init__(self) -> None:
        self.pause, self.until, self.why, self.has_ended = 0.0, 0.0, "it ended as soon as it had begun", False

    def have_lived(self, seconds: float) -> None:
        """A process ended after so many seconds."""
        if seconds >= self.WELL:
            self.pause, self.has_ended = 0.0, False
        elif self.has_ended:
            self._grow()
        else:
            self.has_ended = True

    def have_failed(self, why: str) -> None:
        """No process could be begun."""
        self.why = why
        self._grow()

    def _grow(self) -> None:
        self.pause = min(max(2 * self.pause, self.FIRST), self.LONGEST)
        self.until = time.monotonic() + self.pause

    def left(self) -> float:
        """Seconds until the next one may begin."""
        return max(0.0, self.until - time.monotonic())

    def check(self, name: str) -> None:
        """Refuses one that may not begin yet."""
        if self.left():
            raise FarmFault(f"{self.why}; the {name} is begun again in {self.left():.0f} s")


class Talk:
    """A filter that is started again when it ends. Each process of it has an epoch, counted from 1."""

    def __init__(
        self, name: str, command: Sequence[str], before: Callable[[], None], hear: Callable[[Answer], None], patience: float = 15.0
    ) -> None:
        self.name, self.command, self.before, self.hear, self.patience = name, list(command), before, hear, patience
        self.birth = threading.RLock()
        self.present: tuple[int, Filter | None] = (0, None)
        self.stopped = False
        self.pauses = Pauses()  # `birth` has it

    @property
    def epoch(self) -> int:
        return self.present[0]

    def settled_epoch(self) -> int:
        """The epoch, once no process is just being started."""
        with self.birth:
            return self.epoch

    def start(self) -> None:
        """Begins a process once those of the last one are over. Its files may be locked until the last one is quite gone."""
        self.before()
        end = time.monotonic() + self.patience
        while True:
            try:
                process = Filter(self.command)
                break
            except FilterGone as gone:
                if gone.status != LOCKED or gone.said and "Locked" not in gone.said:
                    program = os.path.basename(self.command[0])
                    kind = FarmFault if gone.said.startswith(("refused ", "fault ", "out of memory")) else Missing
                    raise kind(f"{program} doesn't start as the {self.name}: {gone.said or f'status {gone.status}'}") from None
                if time.monotonic() > end:
                    raise FarmFault(f"another process is the {self.name} of this farm: its files are locked") from None
                time.sleep(0.1)
        self.present = (self.epoch + 1, process)
        threading.Thread(target=self._watch, args=(self.epoch, process), daemon=True).start()
        self.hear(process.greeting)

    def _watch(self, epoch: int, process: Filter) -> None:
        """Begins the next process as soon as this one ends."""
        begun = time.monotonic()
        process.process.wait()
        self.pauses.have_lived(time.monotonic() - begun)
        while not self.stopped and self.epoch == epoch:
            time.sleep(min(self.pauses.left(), LOOK))
            if not self.pauses.left():
                with contextlib.suppress(FarmFault):  # it is tried again after the next pause
                    self.restart(epoch)

    def call(self, line: str, epoch: int | None = None) -> Answer:
        """An event. With an epoch it is of something of that process alone."""
        return self.calls([line], epoch)[0]

    def calls(self, lines: Sequence[str], epoch: int | None = None) -> list[Answer]:
        """Events whose lines are written together."""
        present, process = self.present
        if process is None or epoch not in (None, present):
            raise LifeOver(f"the {self.name} was started again")
        answers: list[Answer] = []
        gone = False
        try:
            process.calls(lines, answers.append)
        except FilterGone:
            gone = True
        for answer in answers:
            self.hear(answer)
        if gone:
            self.restart(present)
            raise LifeOver(f"the {self.name} was started again")
        return answers

    def restart(self, epoch: int) -> None:
        """Ends the process of this epoch, if it is the present one, and begins the next."""
        with self.birth:
            present, process = self.present
            if epoch == present and process and not self.stopped:
                process.close()
                self.pauses.check(self.name)
                try:
                    self.start()
                except FarmFault as fault:
                    self.pauses.have_failed(str(fault))
                    raise

    def stop(self) -> None:
        with self.birth:
            self.stopped = True
            if self.present[1]:
                self.present[1].close()
