"""A call of `farm`: its streams, its signals, its status."""
from __future__ import annotations

import contextlib
import os
import signal
import sys
from typing import Iterator, Sequence

from agent.commands.parser import parsed
from agent.commands.serve import do_coordinator, do_node, do_up
from agent.faults import FAULT, LOST, FarmFault, sentence, tell
from agent.words import is_bucket


def open_streams() -> None:
    """Opens each standard stream that is closed, to nothing: what is opened next would be taken for it."""
    while (handle := os.open(os.devnull, os.O_RDWR)) < 3:
        os.set_inheritable(handle, True)
    os.close(handle)
    sys.stdout, sys.stderr = sys.stdout or open(1, "w", closefd=False), sys.stderr or open(2, "w", closefd=False)


def main(words: Sequence[str] | None = None) -> int:
    open_streams()
    status = status_of(words)
    try:
        sys.stdout.flush()
    except OSError as fault:
        if not status:
            tell(f"the standard output: {fault.strerror}")
        os.dup2(os.open(os.devnull, os.O_WRONLY), 1)  # the rest is dropped
        return status or FAULT
    return status


@contextlib.contextmanager
def interrupted() -> Iterator[None]:
    """Signals that would end this process are heard as Ctrl-C is: what it had begun is put away, and the status is 75."""
    def interrupt(_number: int, _frame: object) -> None:
        raise KeyboardInterrupt

    heard = [number for number in (signal.SIGTERM, signal.SIGHUP) if signal.getsignal(number) == signal.SIG_DFL]
    for number in heard:
        signal.signal(number, interrupt)
    try:
        yield
    finally:
        for number in heard:
            signal.signal(number, signal.SIG_DFL)


def status_of(words: Sequence[str] | None) -> int:
    try:
        args = parsed(words)
    except SystemExit as ended:
        return 64 if ended.code else 0
    try:
        args.home = os.path.abspath(args.home)
        if getattr(args, "contents", None) and not is_bucket(args.contents):
            args.contents = os.path.abspath(args.contents)
        with contextlib.nullcontext() if args.does in (do_up, do_coordinator, do_node) else interrupted():
            return int(args.does(args))
    except FarmFault as fault:
        tell(str(fault))
        return fault.status
    except OSError as fault:
        tell(sentence(fault))
        return FAULT
    except SystemExit as ended:
        return int(ended.code or 0)
    except KeyboardInterrupt:
        return LOST
