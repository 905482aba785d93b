"""What is being made is held until its commit is answered: nothing of it is forgotten, whatever any clock says.

Owes the filters that a hold is on the device's folder before its content is named in a commit. A hold is a file that its process has locked.
What a process left that ended amid a commit is held for the grace, by a clock that nobody sets where the machine wasn't started anew.
"""
from __future__ import annotations

import contextlib
import fcntl
import os
import secrets
import threading
import time

from agent.folders.standing import boot
from agent.store.lasting import clock_of


class Holds:
    """The holds in a folder that agents share. One lock has those of this process."""

    def __init__(self, folder: str) -> None:
        self.folder = folder
        self.lock = threading.Lock()
        self.own: dict[str, list[tuple[str, int]]] = {}  # of a digest: its files, and their descriptors

    def hold(self, digest: str) -> None:
        os.makedirs(self.folder, exist_ok=True)
        path = f"{self.folder}/{digest}.{secrets.token_hex(4)}"
        handle = os.open(path, os.O_RDWR | os.O_CREAT | os.O_EXCL, 0o600)
        fcntl.flock(handle, fcntl.LOCK_EX)
        os.write(handle, f"{boot()} {time.clock_gettime(time.CLOCK_BOOTTIME)}".encode())
        with self.lock:
            self.own.setdefault(digest, []).append((path, handle))

    def release(self, digest: str, is_answered: bool = True) -> None:
        """The commit was answered; or nobody knows what comes of it, and then it is held as that of a process that ended."""
        with self.lock:
            held = self.own.get(digest)
            if not held:
                return
            path, handle = held.pop()
            if not held:
                del self.own[digest]
        if is_answered:
            with contextlib.suppress(FileNotFoundError):
                os.unlink(path)
        os.close(handle)

    def held(self, grace: float) -> set[str]:
        """The digests that are held. Holds of processes that ended, and are older than the grace, are removed."""
        found = set[str]()
        for name in os.listdir(self.folder) if os.path.isdir(self.folder) else ():
            path = f"{self.folder}/{name}"
            with contextlib.suppress(FileNotFoundError), open(path, "rb") as file:
                try:
                    fcntl.flock(file, fcntl.LOCK_EX | fcntl.LOCK_NB)
                    is_over = self._age(file.read().decode(errors="replace"), path) > grace
                except BlockingIOError:
                    is_over = False
                if is_over:
                    os.unlink(path)
                else:
                    found.add(name.partition(".")[0])
        return found

    def _age(self, begun: str, path: str) -> float:
        """Seconds since a hold began, by the clock that both ends of the time have."""
        where, _, at = begun.partition(" ")
        if where == boot():
            with contextlib.suppress(ValueError):
                return time.clock_gettime(time.CLOCK_BOOTTIME) - float(at)
        return clock_of(self.folder) - os.lstat(path).st_mtime
