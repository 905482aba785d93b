"""A chunk's bytes, packed as casync reads them, and back.

Owes the filters that a chunk is what its name says: the digest of what is packed in it.
"""
from __future__ import annotations

import contextlib
import ctypes
import hashlib
import os
import tempfile
import threading
from concurrent.futures import ThreadPoolExecutor
from typing import Any

from agent.faults import FarmFault, Missing, named
from agent.store.chunks import LARGEST, ZSTD, chunk_path
from agent.store.lasting import sync_all, sync_folder

LEVEL, THREADS = 3, 4
COMPRESSION_LEVEL, CONTENT_SIZE_FLAG = 100, 200  # the library's parameters
_Size = ctypes.c_size_t


class ChunkSpoilt(FarmFault):
    """A chunk isn't here, or isn't what its name says."""


def _library() -> Any:
    try:
        library = ctypes.CDLL("libzstd.so.1")
    except OSError:
        raise Missing("the library libzstd isn't installed: apt-get install libzstd1") from None
    library.ZSTD_createCCtx.restype = ctypes.c_void_p
    for name in ("ZSTD_compressBound", "ZSTD_compress2", "ZSTD_CCtx_setParameter", "ZSTD_decompress", "ZSTD_freeCCtx"):
        getattr(library, name).restype = _Size
    return library


_libraries: list[Any] = []


def _zstd() -> Any:
    if not _libraries:
        _libraries.append(_library())
    return _libraries[0]


def name_of(data: bytes) -> str:
    return hashlib.new("sha512_256", data).hexdigest()


def packed(data: bytes) -> bytes:
    """casync reads no frame that tells its size."""
    library = _zstd()
    room = library.ZSTD_compressBound(_Size(len(data)))
    into = ctypes.create_string_buffer(room)
    context = ctypes.c_void_p(library.ZSTD_createCCtx())
    try:
        for name, value in ((CONTENT_SIZE_FLAG, 0), (COMPRESSION_LEVEL, LEVEL)):
            library.ZSTD_CCtx_setParameter(context, ctypes.c_int(name), ctypes.c_int(value))
        size = library.ZSTD_compress2(context, into, _Size(room), data, _Size(len(data)))
    finally:
        library.ZSTD_freeCCtx(context)
    if size > room:
        raise FarmFault("a chunk can't be packed")
    return ctypes.string_at(into, size)


def unpacked_of(name: str, data: bytes, size: int) -> bytes | None:
    """The bytes of a chunk of this name, of which there are so many; none where its file doesn't hold them, and nothing behind them."""
    if not 0 <= size <= LARGEST or data[:4] != ZSTD:
        return None
    into = ctypes.create_string_buffer(size)
    if _zstd().ZSTD_decompress(into, _Size(size), data, _Size(len(data))) != size:
        return None
    whole = into.raw
    return whole if name in (name_of(whole), hashlib.sha256(whole).hexdigest()) else None


def unpacked(folder: str, name: str, size: int) -> bytes:
    """A chunk's bytes, of which there are so many."""
    try:
        with open(chunk_path(folder, name), "rb") as file:
            data = file.read()
    except OSError as fault:
        raise ChunkSpoilt(f"the chunk {name} isn't in {folder}: {fault.strerror}") from None
    whole = unpacked_of(name, data, size)
    if whole is None:
        raise ChunkSpoilt(f"the chunk {name} of {folder} isn't what its name says")
    return whole


Mark = tuple[int, int, int]  # of a file: its number, size, and when it was written, in nanoseconds


class Checked:
    """The chunks that were what their names say when they were read, and which files they were then: a chunk is read once in an agent's life,
    and again if its file changed. One lock has it."""

    MOST = 1 << 18

    def __init__(self) -> None:
        self.lock = threading.Lock()
        self.marks: dict[str, Mark] = {}

    def is_right(self, folder: str, name: str, size: int) -> bool:
        """Whether a chunk is there, and is what its name says."""
        path = chunk_path(folder, name)
        return self.is_known(path) or self._is_read_right(folder, name, size)

    def is_known(self, path: str) -> bool:
        """Whether a chunk's file is one that was right."""
        mark = _mark(path)
        with self.lock:
            return mark is not None and self.marks.get(path) == mark

    def _is_read_right(self, folder: str, name: str, size: int) -> bool:
        mark = _mark(path := chunk_path(folder, name))
        try:
            unpacked(folder, name, size)
        except ChunkSpoilt:
            return False
        self.take(path, mark)
        return True

    def take(self, path: str, mark: Mark | None) -> None:
        if mark is None:
            return
        with self.lock:
            self.marks.pop(path, None)
            self.marks[path] = mark
            while len(self.marks) > self.MOST:
                del self.marks[next(iter(self.marks))]

    def forget(self, path: str) -> None:
        with self.lock:
            self.marks.pop(path, None)


def _mark(path: str) -> Mark | None:
    try:
        here = os.lstat(path)
    except OSError:
        return None
    return here.st_ino, here.st_size, here.st_mtime_ns


CHECKED = Checked()  # of all stores of this process


def wrong_names(folder: str, sizes: dict[str, int]) -> list[str]:
    """Those of some chunks that aren't there, or aren't what their names say."""
    unknown = [name for name in sizes if not CHECKED.is_known(chunk_path(folder, name))]
    with ThreadPoolExecutor(THREADS) as pool:
        rights = pool.map(lambda name: CHECKED.is_right(folder, name, sizes[name]), unknown)
        return [name for name, is_right in zip(unknown, rights) if not is_right]


class Fresh:
    """Chunks that are made: written beside their places, and named once they are on the device, so that a power failure leaves none that is
    named and empty. One lock has the list, since several threads make them."""

    SINGLE = 64  # chunks that are synced each by itself: of more the whole file system is

    def __init__(self, folder: str) -> None:
        self.folder = folder
        self.lock = threading.Lock()
        self.made: list[tuple[str, str]] = []  # where each is, and where it will be

    def __enter__(self) -> Fresh:
        return self

    def __exit__(self, *_fault: object) -> None:
        for beside, _ in self.made:
            with contextlib.suppress(FileNotFoundError):
                os.unlink(beside)

    def add(self, name: str, data: bytes) -> None:
        """Takes a chunk as it is packed."""
        path = chunk_path(self.folder, name)
        os.makedirs(os.path.dirname(path), exist_ok=True)
        handle, beside = tempfile.mkstemp(prefix=f"{name}.tmp", dir=os.path.dirname(path))
        with self.lock:
            self.made.append((beside, path))
            is_single = len(self.made) <= self.SINGLE
        with named(path), os.fdopen(handle, "wb") as file:
            file.write(data)
            file.flush()
            os.fchmod(file.fileno(), 0o444)
            if is_single:
                os.fsync(file.fileno())

    def settle(self) -> None:
        """All of them last, and are in their places."""
        if len(self.made) > self.SINGLE:
            sync_all(self.folder)
        for beside, path in self.made:
            os.rename(beside, path)
            CHECKED.take(path, _mark(path))
        folders = {os.path.dirname(path) for _, path in self.made}
        if len(folders) > self.SINGLE:
            sync_all(self.folder)
        else:
            for folder in {*folders, *([self.folder] if folders else [])}:
                sync_folder(folder)
        self.made = []
