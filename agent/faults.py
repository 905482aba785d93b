"""What can go wrong, each with the status that a command ends with.

Owes the filters nothing: these are for people and scripts.
"""
from __future__ import annotations

import contextlib
import os
import sys
from typing import Callable, Iterator

USAGE = 64  # the words of the command
BAD_DOCKERFILE = 65
MISSING = 69  # a program that the agent needs isn't there, or doesn't do what the agent needs
FAULT = 70
LOST = 75  # try again: the lease wasn't granted in time, or what was left doesn't count
FENCED_BUILD = 76  # the image was built, and what it left in its cache folders doesn't count


class FarmFault(Exception):
    """Why a command could not be done, in one sentence."""

    status = FAULT


def sentence(fault: OSError) -> str:
    """What the system refused."""
    return f"{fault.filename}: {fault.strerror}" if fault.filename else str(fault.strerror or fault)


@contextlib.contextmanager
def named(path: str) -> Iterator[None]:
    """Gives a file's name to what the system refuses of it without one, as it does where a disk is full."""
    try:
        yield
    except OSError as fault:
        fault.filename = fault.filename or path
        raise


def show(text: str, at_once: bool = False) -> None:
    """Says something on the standard output."""
    with named("the standard output"):
        print(text, flush=at_once)


class UsageFault(FarmFault):
    """What was asked makes no sense."""

    status = USAGE


class Missing(FarmFault):
    """A program that the agent calls isn't there."""

    status = MISSING


class LifeOver(FarmFault):
    """The node's filter ended, or the node was retired, while something of that life was under way."""

    status = LOST


class NodeRetired(FarmFault):
    """Nothing is granted to the node any more, and nothing of the command was begun there."""


class WaitOver(FarmFault):
    """The lease wasn't granted within the time that the caller would wait."""

    status = LOST


class ClientGone(FarmFault):
    """Nobody waits for the command any more."""

    status = LOST


def tell(text: str) -> None:
    """Says something on the standard error, or in the log of an agent."""
    _tellers[-1](text)


def tell_by(how: Callable[[str], None] | None) -> None:
    """What is told goes there from now on; with none it goes to the standard error again."""
    _tellers[1:] = [how] if how else []


def _say(text: str) -> None:
    """Where nobody can hear it any more, that changes nothing else."""
    try:
        print(f"farm: {text}", file=sys.stderr, flush=True)
    except OSError:
        sys.stderr = open(os.devnull, "w")  # what the old one still holds would become the status


_tellers: list[Callable[[str], None]] = [_say]  # set where a process begins to serve
