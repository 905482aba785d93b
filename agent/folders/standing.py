"""Whether the kernel's times tell that a folder was changed, and whether it is the same one.

Owes the filters that a path of which anything was changed isn't taken for what it was: its bytes, mode, owner or time. The kernel sets a
file's time of change with each of these, and nobody else can; so it is asked only of file systems whose times are the kernel's own, and
of one boot of the machine.
"""
from __future__ import annotations

import ctypes
import os
import struct

# File systems. Not tmpfs, nor an overlay, which may lie on one: there a write through a mapping can leave the times as they were.
KINDS = ("ext2", "ext3", "ext4", "xfs", "f2fs")
TICK = 0.05  # seconds: two changes in one tick of the kernel's clock may have one time
AT_FDCWD, AT_SYMLINK_NOFOLLOW, STATX_BTIME = -100, 0x100, 0x800
_libc = ctypes.CDLL(None, use_errno=True)


def identity(path: str) -> list[int | None]:
    """The number of a file, and when it was made, in nanoseconds, where its file system tells: the number of one that was removed is given
    again."""
    told = ctypes.create_string_buffer(256)
    if _libc.statx(AT_FDCWD, os.fsencode(path), AT_SYMLINK_NOFOLLOW, STATX_BTIME, told):
        raise OSError(ctypes.get_errno(), os.strerror(ctypes.get_errno()), path)
    (has,), (number,), (seconds, rest) = (struct.unpack_from(form, told, at) for form, at in (("=I", 0), ("=Q", 32), ("=qI", 80)))
    return [number, seconds * 10**9 + rest if has & STATX_BTIME else None]


def boot() -> str:
    """A name for this boot of the machine."""
    with open("/proc/sys/kernel/random/boot_id") as file:
        return file.read().strip()


def is_trusted(path: str) -> bool:
    device = os.lstat(path).st_dev
    mark = f"{os.major(device)}:{os.minor(device)}"
    with open("/proc/self/mountinfo", errors="replace") as file:
        rows = (line.split(" ") for line in file)
        return any(row[2] == mark and row[row.index("-") + 1] in KINDS for row in rows)
