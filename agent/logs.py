"""An agent's log: one line an event on the standard error, with its level, and what it is about where that is known.

Owes the filters nothing: what they say counts, whether anybody hears of it or not.
"""
from __future__ import annotations

import contextlib
import json
import os
import sys
import threading
import time
import traceback
from dataclasses import dataclass, field
from types import TracebackType
from typing import Iterator

from agent import faults

ERROR, WARNING, NOTICE, INFO, DEBUG = 3, 4, 5, 6, 7  # as syslog counts them
LEVELS = {ERROR: "error", WARNING: "warning", NOTICE: "notice", INFO: "info", DEBUG: "debug"}
LONGEST = 4_000  # characters of an event's text


@dataclass(frozen=True)
class Log:
    """Events of a level up to `most`, each with what `about` has. Nobody hears of others."""

    most: int = 0
    as_json: bool = False
    for_journal: bool = False  # which has the time, and takes a level in front of the line
    about: dict[str, str | int] = field(default_factory=dict)

    def of(self, **about: str | int) -> Log:
        """The same log, whose events are about this too."""
        return Log(self.most, self.as_json, self.for_journal, self.about | about)

    def __call__(self, text: str, level: int = DEBUG, **about: str | int) -> None:
        if level <= self.most:
            try:
                print(self._spelled(" ".join(text.split())[:LONGEST], level, self.about | about), file=sys.stderr, flush=True)
            except OSError:
                pass  # nobody can hear it any more

    def _spelled(self, text: str, level: int, about: dict[str, str | int]) -> str:
        front, now = f"<{level}>" if self.for_journal else "", time.time()
        if self.as_json:
            at = time.strftime("%Y-%m-%dT%H:%M:%S", time.gmtime(now))
            return front + json.dumps({"time": f"{at}.{now % 1 * 1000:03.0f}Z", "level": LEVELS[level], **about, "text": text})
        words = [f"{name} {value}" if name in ("node", "ticket") else str(value) for name, value in about.items()]
        when = "" if self.for_journal else f"{time.strftime('%Y-%m-%d %H:%M:%S', time.localtime(now))} {LEVELS[level]}: "
        return f"{front}{when}{', '.join(words)}{words and ': ' or ''}{text}"

    @contextlib.contextmanager
    def hearing_all(self) -> Iterator[None]:
        """Has what this process tells people meanwhile, and why its threads end. Why the process itself fails people read as they always do,
        where a program doesn't read the log."""
        before = threading.excepthook
        faults.tell_by(lambda text: self(text, WARNING))
        threading.excepthook = lambda ended: self.fault(ended.exc_value, ended.exc_traceback) if ended.exc_type is not SystemExit else None
        is_over = True
        try:
            yield
        except BaseException:
            is_over = not self.as_json and not self.for_journal
            raise
        finally:
            if is_over:
                faults.tell_by(None)
                threading.excepthook = before

    def fault(self, fault: BaseException | None, where: TracebackType | None = None) -> None:
        """What went wrong in the agent itself, and where: innermost last."""
        frames = traceback.extract_tb(where or (fault.__traceback__ if fault else None))
        at = " > ".join(f"{os.path.basename(frame.filename)}:{frame.lineno} {frame.name}" for frame in frames)
        self(f"{type(fault).__name__}: {fault} (at {at})", ERROR)


SILENT = Log()


def is_journal() -> bool:
    """Whether the standard error is the journal's."""
    try:
        here = os.fstat(2)
    except OSError:
        return False
    return os.environ.get("JOURNAL_STREAM") == f"{here.st_dev}:{here.st_ino}"


def opened(is_verbose: bool, as_json: bool) -> Log:
    """The log of this process. At the default level it has what failed, and what was ended, cleared away or lost."""
    return Log(DEBUG if is_verbose else NOTICE, as_json, is_journal())
