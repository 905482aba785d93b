"""What ccache tells of itself: of how many compilations it had the result.

Owes the filters nothing: it only reads, and what can't be known isn't told. The folder is what a command left, so nothing in it is followed,
waited for, or taken as settings.
"""
from __future__ import annotations

import os
import re
import shutil
import subprocess
from typing import Iterator, NamedTuple

DIGITS = "0123456789abcdef"
FOUND = ("direct_cache_hit", "preprocessed_cache_hit")
MISSED = "cache_miss"
LONGEST = 5.0  # seconds
NUMBERS = re.compile(rb"[0-9\n]+")  # what ccache writes into its counters


class Counts(NamedTuple):
    """Since ccache counts, or over a command."""

    hits: int
    of: int


def _counters(path: str) -> Iterator[bool]:
    """Each place where ccache counts and something stands: whether that are counters of it."""
    for first in DIGITS:
        if os.path.isdir(f"{path}/{first}"):
            for place in (f"{path}/{first}", *(f"{path}/{first}/{second}" for second in DIGITS)):
                if os.path.lexists(f"{place}/stats"):
                    yield _are_numbers(f"{place}/stats")


def _are_numbers(path: str) -> bool:
    try:
        with open(os.open(path, os.O_RDONLY | os.O_NOFOLLOW | os.O_NONBLOCK | os.O_CLOEXEC), "rb") as file:
            return NUMBERS.fullmatch(file.read(1 << 12)) is not None
    except OSError:
        return False


def counts(path: str) -> Counts | None:
    """What ccache has counted in a folder: nothing where it isn't ccache's; none where that can't be known."""
    found = list(_counters(path))
    if not found:
        return Counts(0, 0)
    tool = shutil.which("ccache")
    if not tool or not all(found):
        return None
    env = {"CCACHE_DIR": path, "CCACHE_CONFIGPATH": os.devnull, "HOME": "/", "PATH": os.environ.get("PATH", os.defpath)}
    try:
        done = subprocess.run([tool, "--print-stats"], stdin=subprocess.DEVNULL, capture_output=True, env=env, cwd="/", timeout=LONGEST, text=True, check=True)
        told = dict(line.split("\t") for line in done.stdout.splitlines())
        hits = sum(int(told[name]) for name in FOUND)
        return Counts(hits, hits + int(told[MISSED]))
    except (OSError, ValueError, KeyError, subprocess.SubprocessError):
        return None


def since(before: Counts | None, after: Counts | None) -> Counts | None:
    """What was counted over a command; none where nothing was, or where the counters began anew meanwhile."""
    if before is None or after is None or after.of <= before.of or not 0 <= after.hits - before.hits <= after.of - before.of:
        return None
    return Counts(after.hits - before.hits, after.of - before.of)
