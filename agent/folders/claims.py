"""The paths that commands of this machine have, whichever home their farm has, and whichever process gave them out.

Owes the filters that no two commands of a user have one path at once, nor one of them what is within the other's or around it. A path is
claimed by locks on files in one place that only its user can write: its own alone, and those of the folders around it together with others.
They last until all who have them close them: also what fills the path when its agent is killed. What another user made is refused elsewhere.
"""
from __future__ import annotations

import contextlib
import fcntl
import os
import stat
from typing import Iterator

from agent.faults import FarmFault
from agent.words import short_name

ROOTS, NAME = "/run", "farm-paths"


def place() -> str:
    """The folder of this user's claims. In a network namespace of its own a process has the same one."""
    uid = os.geteuid()
    run = ROOTS if uid == 0 else f"{ROOTS}/user/{uid}"
    folder = f"{run}/{NAME}" if os.access(run, os.W_OK) else f"/tmp/{NAME}-{uid}"
    with contextlib.suppress(FileExistsError):
        os.mkdir(folder, 0o700)
    here = os.lstat(folder)
    if not stat.S_ISDIR(here.st_mode) or here.st_uid != uid or here.st_mode & 0o077:
        raise FarmFault(f"{folder} tells which paths are in use, and others may write it: remove it")
    return folder


class Claim:
    """A lock, and the file that it is on."""

    def __init__(self, path: str, handle: int) -> None:
        self.path, self.handle = path, handle

    def fileno(self) -> int:
        return self.handle

    def __enter__(self) -> Claim:
        return self

    def __exit__(self, *_fault: object) -> None:
        with contextlib.suppress(OSError):  # who else has it removes it
            fcntl.flock(self.handle, fcntl.LOCK_EX | fcntl.LOCK_NB)
            os.unlink(self.path)
        os.close(self.handle)


def _mark(path: str) -> str:
    """A path's name on this machine: the folder that it lies in, however that is reached, and its own name."""
    folder, name = os.path.split(path)
    here = os.stat(folder)
    return f"{here.st_dev}-{here.st_ino}-{short_name(name, 'name')}"


def _locked(path: str, how: int) -> Claim | None:
    """The lock on a file, which is made; none where another one has it."""
    while True:
        handle = os.open(path, os.O_RDWR | os.O_CREAT | os.O_CLOEXEC | os.O_NOFOLLOW, 0o600)
        try:
            fcntl.flock(handle, how | fcntl.LOCK_NB)
            with contextlib.suppress(FileNotFoundError):
                if os.path.samestat(os.fstat(handle), os.lstat(path)):
                    return Claim(path, handle)
        except BlockingIOError:
            os.close(handle)
            return None
        except BaseException:
            os.close(handle)
            raise
        os.close(handle)  # who had it removed it meanwhile


def _folders_around(path: str) -> Iterator[str]:
    while (path := os.path.dirname(path)) != os.path.dirname(path):
        yield path


def claim(path: str) -> list[Claim] | None:
    """The locks by which a path is claimed; none where it can't be had now. Nothing is made within what others have."""
    here, claims = place(), list[Claim]()
    folders = list(reversed(list(_folders_around(path))))
    with contextlib.ExitStack() as held:
        for each in (*folders, path):
            made = _locked(f"{here}/{_mark(each)}", fcntl.LOCK_EX if each == path else fcntl.LOCK_SH)
            if made is None:
                break
            claims.append(held.enter_context(made))
            if each != path:
                os.makedirs(each, exist_ok=True)
        else:
            held.pop_all()
            return claims
    return None
