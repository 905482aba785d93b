"""A folder of a casync index; and what removes folders.

Owes the filters that a content gives back the folder that it was made of: names, bytes, modes, owners, times, links and pipes.
"""
from __future__ import annotations

import contextlib
import os
import shutil
import subprocess
import tempfile
from typing import Callable, Sequence

from agent.faults import FarmFault
from agent.folders.layout import EXCLUDE, is_exclude
from agent.store.folder import Store
from agent.tools import need, whole, why

# What an index keeps of a file. A `--without=all` beside these would undo them, wherever it stood.
FEATURES = ("--with=permissions", "--with=symlinks", "--with=nsec-time", "--with=32bit-uids", "--with=fifos")


class NotMade(FarmFault):
    """casync couldn't make a folder of what the store has."""


def _casync(*words: str, keeps: Sequence[int] = (), check: Callable[[], None] = lambda: None) -> None:
    process = subprocess.Popen(
        [need("casync"), *words], pass_fds=keeps, stdin=subprocess.DEVNULL, stdout=subprocess.PIPE, stderr=subprocess.PIPE, text=True, errors="replace"
    )
    done = whole(process, check)
    if done.returncode:
        kind = NotMade if words[0] == "extract" else FarmFault
        raise kind(f"casync {words[0]} {words[-1]}: {why(done)}")


def _show_excludes(path: str) -> None:
    """Takes a `%` off each name that has one more in an archive."""
    for folder, folders, files in os.walk(path, topdown=False):
        found = [name for name in (*folders, *files) if is_exclude(name) and name != EXCLUDE]
        if found:
            times = os.stat(folder)
            for name in sorted(found, key=len):
                os.rename(f"{folder}/{name}", f"{folder}/{name[:-1]}")
            os.utime(folder, ns=(times.st_atime_ns, times.st_mtime_ns))


def extract(
    store: Store, index: bytes, path: str, locks: Sequence[int] = (), check: Callable[[], None] = lambda: None, beside: str | None = None
) -> None:
    """Makes a folder, which isn't there yet or is empty, what an index says. What fills it has the locks too, and may outlive the agent."""
    os.makedirs(path, exist_ok=True)
    if not index:
        return
    store.fetch(index)
    with tempfile.NamedTemporaryFile(suffix=".caidx", dir=beside) as file:
        file.write(index)
        file.flush()
        _casync("extract", f"--store={store.chunks}", *FEATURES, file.name, path, keeps=locks, check=check)
    _show_excludes(path)


def extract_whole(store: Store, index: bytes, path: str) -> None:
    """Makes a path, which has to be free or an empty folder, what an index says, or leaves it as it was."""
    if os.path.lexists(path) and (not os.path.isdir(path) or os.listdir(path)):
        raise FarmFault(f"{path} is there: name a path that is free, or an empty folder")
    try:
        _extract_whole(store, index, path)
    except NotMade:
        if not store.mend(index):
            raise
        _extract_whole(store, index, path)


def _extract_whole(store: Store, index: bytes, path: str) -> None:
    was_there = os.path.isdir(path)
    try:
        extract(store, index, path)
    except BaseException:
        if os.path.isdir(path):
            for name in os.listdir(path):
                remove(f"{path}/{name}")
            if not was_there:
                os.rmdir(path)
        raise


def is_folder(path: str) -> bool:
    return os.path.isdir(path) and not os.path.islink(path)


def open_up(path: str) -> None:
    """Lets the owner of a folder remove what it holds: one that nobody may write, as Go makes them, stops all but root."""
    if os.geteuid() == 0:
        return
    with contextlib.suppress(OSError, RecursionError):
        os.chmod(path, 0o700)
        for folder, folders, _ in os.walk(path):
            for name in folders:
                if not os.path.islink(f"{folder}/{name}"):
                    os.chmod(f"{folder}/{name}", 0o700)


def remove(path: str) -> None:
    """Removes a folder with all that it holds."""
    if not is_folder(path):
        if os.path.lexists(path):
            os.unlink(path)
        return
    open_up(path)
    shutil.rmtree(path)
