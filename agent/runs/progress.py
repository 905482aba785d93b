"""What BuildKit says of a build's steps in its plain progress, which goes on to the caller as it is.

Owes the filters nothing: nothing rests on what is heard.
"""
from __future__ import annotations

import contextlib
import os
import re
import threading
from typing import Callable, Iterator

from agent.runs.hits import Counts

STEP = re.compile(rb"#([0-9]{1,6}) \[(?:[^\]\[]* )?[0-9]+/[0-9]+\] (?!FROM )")
CACHED = re.compile(rb"#([0-9]{1,6}) CACHED\r?")
LONGEST = 1 << 16  # bytes of a line that is looked at
LINGERS = 5.0  # seconds for which is heard what a command's processes say that outlive it


class Progress:
    """The steps that were told of. The thread that passes it on has it until that is over."""

    def __init__(self) -> None:
        self.rest = b""
        self.steps, self.cached = set[bytes](), set[bytes]()

    def hear(self, data: bytes) -> None:
        *lines, self.rest = (self.rest + data).split(b"\n")
        self.rest = self.rest[:LONGEST]
        for line in lines:
            if found := STEP.match(line):
                self.steps.add(found[1])
            elif found := CACHED.fullmatch(line):
                self.cached.add(found[1])

    def counts(self) -> Counts | None:
        return Counts(len(self.steps & self.cached), len(self.steps)) if self.steps else None


@contextlib.contextmanager
def heard(streams: list[int], hear: Callable[[bytes], None], is_gone: Callable[[], bool]) -> Iterator[list[int]]:
    """The streams for a command, of which what it says on its standard error is heard, and passed on at once."""
    source, end = os.pipe()
    thread = threading.Thread(target=_pass_on, args=(source, os.dup(streams[2]), hear), daemon=True)
    thread.start()
    try:
        yield [*streams[:2], end]
    finally:
        os.close(end)
        thread.join(LINGERS)
        while thread.is_alive() and not is_gone():  # the caller reads slowly
            thread.join(LINGERS)


def _pass_on(source: int, to: int, hear: Callable[[bytes], None]) -> None:
    try:
        while data := os.read(source, 1 << 16):
            hear(data)
            while data:
                data = data[os.write(to, data) :]
    except OSError:
        pass  # nobody reads it any more, and the command is told so
    finally:
        os.close(source)
        os.close(to)
