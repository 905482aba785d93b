"""Files and folders that last: what is named is on the device."""
from __future__ import annotations

import ctypes
import os
import tempfile

from agent.faults import FarmFault, named

NEW = ".new-"  # what the name of a file begins with that isn't whole yet
_libc = ctypes.CDLL(None, use_errno=True)


def sync_all(folder: str) -> None:
    """Everything in the folder's file system is on the device."""
    handle = os.open(folder, os.O_RDONLY | os.O_DIRECTORY)
    try:
        if _libc.syncfs(handle):
            raise FarmFault(f"{folder} can't be synced: {os.strerror(ctypes.get_errno())}")
    finally:
        os.close(handle)


def sync_folder(folder: str) -> None:
    """The names of a folder are on the device."""
    handle = os.open(folder, os.O_RDONLY | os.O_DIRECTORY)
    try:
        os.fsync(handle)
    finally:
        os.close(handle)


def put_file(path: str, data: bytes) -> None:
    """A file that lasts, whole or not at all: written beside, synced, renamed, and its folder synced."""
    folder = os.path.dirname(path)
    os.makedirs(folder, exist_ok=True)
    handle, beside = tempfile.mkstemp(prefix=NEW, dir=folder)
    try:
        with named(path), os.fdopen(handle, "wb") as file:
            file.write(data)
            file.flush()
            os.fsync(file.fileno())
        os.rename(beside, path)
    except BaseException:
        os.unlink(beside)
        raise
    sync_folder(folder)


def clock_of(path: str) -> float:
    """The time of day by the clock of a file's file system, which may be another machine's. It takes no room, so that a full disk can be cleared."""
    os.utime(path)
    return os.stat(path).st_mtime
