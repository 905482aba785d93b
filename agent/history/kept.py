"""Where the history is kept: the newest events in memory, and files of lines that are bounded in size and number.

Owes the filters nothing, and costs them nothing: a thread of its own writes, so that a disk that is full, slow or gone holds nobody up. What
can't be written is told once, and is tried again with the next event.
"""
from __future__ import annotations

import contextlib
import os
import re
import stat
import threading
import time
from collections import deque
from typing import Callable, Iterator

from agent.history.events import Event, event_of, line_of

FILES, FILE_MOST = 5, 4 << 20  # files, and bytes of one
NEWEST, NEWEST_BYTES = 10_000, 4 << 20  # events in memory, and their bytes
PENDING_MOST = 10_000  # events that wait to be written: where there are more they are kept in memory alone
LINE_MOST = 16 << 10  # characters of a line that is read
LOOKS_BACK = 2_000  # events in which leases that live yet are looked for
NUMBER = re.compile(r'{"kind":"[a-z]+","number":([0-9]{1,15}),.*}', re.ASCII)
LAST_WRITES = 2.0  # seconds for which an agent that ends waits for the writing


def number_of(line: str) -> int:
    """The number of the event that a line spells, by its beginning and end; none where it spells none."""
    found = NUMBER.fullmatch(line)
    return int(found[1]) if found else 0


class History:
    """The lock of `changed` has all but the files, which that of `files` has, and `loaded`, which nobody changes."""

    def __init__(self, path: str, log: Callable[[str], None], files: int = FILES, most: int = FILE_MOST) -> None:
        self.path, self.log, self.count, self.most = path, log, files, most
        self.changed, self.files = threading.Condition(), threading.Lock()
        self.newest: deque[tuple[int, str]] = deque()  # numbers and lines
        self.bytes = 0
        self.number = 0  # of the last event
        self.pending: list[str] = []
        self.is_ending = False
        self.told: set[str] = set()  # what was told in the log, until it is well again
        self.loaded: list[Event] = []  # the newest events of an earlier agent
        self._load()
        self.writer = threading.Thread(target=self._write_on, daemon=True)
        self.writer.start()

    # Adding.

    def add(self, event: Event) -> Event:
        """Takes an event, with the next number. It never waits, and never fails."""
        with self.changed:
            event = event._replace(number=self.number + 1, at=event.at or time.time())
            line = line_of(event)
            self._remember(event.number, line)
            if len(self.pending) < PENDING_MOST:
                self.pending.append(line)
            self.changed.notify()
            return event

    def _remember(self, number: int, line: str) -> None:
        self.number = max(self.number, number)
        self.newest.append((number, line))
        self.bytes += len(line)
        while len(self.newest) > NEWEST or self.bytes > NEWEST_BYTES:
            self.bytes -= len(self.newest.popleft()[1])

    def tell_once(self, what: str, why: str) -> None:
        """Says in the log what isn't well, until it was well again."""
        with self.changed:
            is_new = what not in self.told
            self.told.add(what)
        if is_new:
            self.log(f"history: {why}. The farm goes on without what is missing there")

    def close(self) -> None:
        """Writes what is left, unless that takes long."""
        with self.changed:
            self.is_ending = True
            self.changed.notify()
        self.writer.join(LAST_WRITES)

    # Files.

    def _write_on(self) -> None:
        while True:
            with self.changed:
                self.changed.wait_for(lambda: self.pending or self.is_ending)
                lines, self.pending = self.pending, []
            if not lines:
                return
            try:
                self._write("".join(f"{line}\n" for line in lines).encode())
                with self.changed:
                    self.told.discard("write")
            except OSError as fault:
                self.tell_once("write", f"{fault.filename or self.path} can't be written: {fault.strerror or fault}")

    def _write(self, data: bytes) -> None:
        with self.files:
            handle = self._opened(self.path, os.O_RDWR | os.O_APPEND | os.O_CREAT)
            try:
                size = os.fstat(handle).st_size
                if size and size + len(data) > self.most:
                    os.close(handle)
                    handle = -1
                    self._rotate()
                    handle, size = self._opened(self.path, os.O_RDWR | os.O_APPEND | os.O_CREAT), 0
                if size and os.pread(handle, 1, size - 1) != b"\n":  # half a line, of an agent that was killed, or of a full disk
                    data = b"\n" + data
                while data:
                    data = data[os.write(handle, data) :]
            finally:
                if handle >= 0:
                    os.close(handle)

    def _rotate(self) -> None:
        """Makes room for a new file: the oldest one goes."""
        names = self._names()
        for older, newer in zip(names, names[1:]):
            with contextlib.suppress(FileNotFoundError):
                os.replace(newer, older)

    def _names(self) -> list[str]:
        """The files, the oldest first."""
        return [*(f"{self.path}.{number}" for number in range(self.count - 1, 0, -1)), self.path]

    def _opened(self, path: str, how: int) -> int:
        """A plain file, which is its owner's alone. Nothing else that stands there is followed or waited for."""
        handle = os.open(path, how | os.O_NOFOLLOW | os.O_NONBLOCK | os.O_CLOEXEC, 0o600)
        try:
            mode = os.fstat(handle).st_mode
            if not stat.S_ISREG(mode):
                raise OSError(None, "it is no file", path)
            if how & os.O_CREAT and mode & 0o777 != 0o600:
                os.fchmod(handle, 0o600)
            return handle
        except BaseException:
            os.close(handle)
            raise

    # Reading.

    def _load(self) -> None:
        """Takes the newest events of an earlier agent into memory."""
        lines = self._lines(self._names()[-2:])[-NEWEST:]
        for line in lines:
            if number := number_of(line):
                self._remember(number, line)
            else:
                self.tell_once("read", f"{self.path} has a line that is no event, which is skipped")
        self.loaded = [event for line in lines[-LOOKS_BACK:] if (event := event_of(line))]

    def _lines(self, names: list[str]) -> list[str]:
        """The lines of some files. Of a file that is too long the last ones are."""
        handles: list[int] = []
        with self.files:  # so that none is moved meanwhile
            for name in names:
                try:
                    handles.append(self._opened(name, os.O_RDONLY))
                except FileNotFoundError:
                    continue
                except OSError as fault:
                    self.tell_once("read", f"{name} can't be read: {fault.strerror or fault}")
        found: list[str] = []
        for handle in handles:
            found += self._lines_of(handle)
        return found

    def _lines_of(self, handle: int) -> list[str]:
        with os.fdopen(handle, "rb") as file:
            size = os.fstat(handle).st_size
            file.seek(max(0, size - 2 * self.most))
            try:
                data = file.read(2 * self.most)
            except OSError as fault:
                self.tell_once("read", f"{self.path} can't be read: {fault.strerror or fault}")
                return []
        return [line for line in data.decode("ascii", errors="replace").split("\n") if 0 < len(line) <= LINE_MOST]

    def after(self, number: int) -> tuple[int, list[str]]:
        """The last number, and the lines in memory of the events after one."""
        with self.changed:
            return self.number, [line for each, line in self.newest if each > number]

    def lines(self, *parts: str) -> Iterator[str]:
        """All lines that have each of these parts, the newest first. A file may hold what is no event."""
        with self.changed:
            newest = list(self.newest)
        for _, line in reversed(newest):
            if all(part in line for part in parts):
                yield line
        for line in reversed(self._lines(self._names())):
            if all(part in line for part in parts) and not (newest and number_of(line) >= newest[0][0]):
                yield line

    def events(self, *parts: str) -> Iterator[Event]:
        """The events of such lines."""
        return (event for line in self.lines(*parts) if (event := event_of(line)))
