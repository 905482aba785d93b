"""The paths at which commands find their folders.

Owes the filters that what is at a path is what the version holds and what the command left, and that no two commands have one path at
once. Nothing is replaced that isn't a folder which the farm itself put there.
"""
from __future__ import annotations

import contextlib
import errno
import fcntl
import hashlib
import itertools
import json
import os
import pathlib
import random
import re
import shutil
import subprocess
import tempfile
import threading
import time
from typing import Any, Callable, Iterator

from agent.folders import index, trees
from agent.folders.claims import claim
from agent.faults import FarmFault, UsageFault, named
from agent.folders.held import Held
from agent.folders.standing import identity
from agent.folders.versions import REMEMBERED, Version, Versions, none
from agent.store.folder import Store
from agent.store.lasting import NEW, put_file
from agent.store.packing import ChunkSpoilt
from agent.folders.trees import is_folder
from agent.words import short_name

LONGEST = 4095  # bytes of a path


class Trash:
    """Folders that are being removed, which can take long."""

    def __init__(self, home: str) -> None:
        self.home = f"{home}/trash"
        os.makedirs(self.home, exist_ok=True)
        self._sweep(*(f"{self.home}/{name}" for name in os.listdir(self.home)))

    def _sweep(self, *paths: str) -> None:
        def sweep() -> None:
            for path in paths:
                try:
                    trees.open_up(path)
                    shutil.rmtree(path, ignore_errors=True)
                except RecursionError:  # folders within folders
                    subprocess.run(["rm", "-rf", path], stdin=subprocess.DEVNULL, stderr=subprocess.DEVNULL)

        threading.Thread(target=sweep, daemon=True).start()

    def take(self, path: str) -> None:
        """Takes a folder away from its path. What is mounted within it isn't its own, and would be removed with it."""
        refuse_mounts(path)
        room = tempfile.mkdtemp(dir=self.home)
        try:
            os.rename(path, f"{room}/old")
        except OSError:  # of another file system, a mount, or a folder that nobody may write
            trees.open_up(path)
            for name in os.listdir(path):
                trees.remove(f"{path}/{name}")
        self._sweep(room)


class Rooms:
    """Folders for what isn't kept. Each agent has them in a folder of its own, which it holds: what isn't held a killed one left, and the
    next one removes it."""

    def __init__(self, home: str, trash: Trash) -> None:
        self.home, self.trash = f"{home}/rooms", trash
        self.lock = threading.Lock()
        self.own: str | None = None

    @contextlib.contextmanager
    def room(self) -> Iterator[str]:
        with self.lock:
            own = self.own = self.own or self._begin()
        with tempfile.TemporaryDirectory(dir=own) as room:
            yield room

    @contextlib.contextmanager
    def file(self, data: bytes) -> Iterator[str]:
        """The path of a file with these bytes."""
        with self.room() as room:
            path = f"{room}/content"
            with named(path), open(path, "wb") as file:
                file.write(data)
            yield path

    def _begin(self) -> str:
        os.makedirs(self.home, exist_ok=True)
        whole = _held(self.home, fcntl.LOCK_EX)
        try:
            for name in os.listdir(self.home):
                self._sweep(f"{self.home}/{name}")
            own = tempfile.mkdtemp(dir=self.home)
            _held(own, fcntl.LOCK_EX)  # as long as this process is there
            return own
        finally:
            os.close(whole)

    def _sweep(self, path: str) -> None:
        try:
            handle = _held(path, fcntl.LOCK_EX | fcntl.LOCK_NB)
        except BlockingIOError:
            return
        try:
            self.trash.take(path)
        finally:
            os.close(handle)


def _held(folder: str, how: int) -> int:
    """The descriptor of a folder, which holds its lock."""
    handle = os.open(folder, os.O_RDONLY | os.O_DIRECTORY)
    try:
        fcntl.flock(handle, how)
    except BaseException:
        os.close(handle)
        raise
    return handle


class Taken:
    """The paths that commands have, of which none is another one, or within it."""

    def __init__(self) -> None:
        self.lock = threading.Lock()
        self.paths: set[str] = set()

    def take(self, path: str) -> bool:
        with self.lock:
            if any(is_within(path, other) or is_within(other, path) for other in self.paths):
                return False
            self.paths.add(path)
            return True

    def free(self, path: str) -> None:
        with self.lock:
            self.paths.discard(path)


TAKEN = Taken()  # by commands of all nodes of this process


class Places:
    def __init__(self, home: str) -> None:
        self.home = f"{home}/places"
        os.makedirs(self.home, exist_ok=True)
        self.trash = Trash(home)
        self.rooms = Rooms(home, self.trash)
        self.locks: dict[str, list[int]] = {}  # of a path that is held: the descriptors that hold it
        self.versions = Versions()
        self.known: dict[str, Held] = {}  # of paths: what they held when they were looked at last; who holds a path has it

    def sweep(self) -> None:
        """Removes what an agent of this node left that was killed. None is there any more."""
        with self.rooms.room():  # it begins with that
            for name in os.listdir(self.home):
                if name.startswith(NEW):
                    os.unlink(f"{self.home}/{name}")

    @contextlib.contextmanager
    def held(self, path: str, check: Callable[[], None] = lambda: None) -> Iterator[None]:
        """Holds a path, waiting until no other command of this machine has it, or what is within it or around it, and nothing that a killed
        agent began fills it. Who holds several takes them in the order of `path_order`, or two would wait for each other."""
        while not TAKEN.take(path):
            check()
            time.sleep(0.05)
        try:
            while (claimed := claim(path)) is None:
                check()
                time.sleep(random.uniform(0.03, 0.08))  # two who see each other don't look again at once
            with contextlib.ExitStack() as held:
                self.locks[path] = [held.enter_context(each).fileno() for each in claimed]
                yield
        finally:
            self.locks.pop(path, None)
            TAKEN.free(path)

    def _place(self, path: str) -> str:
        return f"{self.home}/{short_name(path, 'path')}"

    def _read(self, path: str) -> list[Any]:
        """What is known of a path: itself, the folder's device and identity, and the version that it held when it was looked at."""
        return _list_of(f"{self._place(path)}.json")

    def _note(self, path: str, digest: str | None) -> None:
        put_file(f"{self._place(path)}.json", json.dumps([path, os.lstat(path).st_dev, identity(path), digest]).encode())

    def _is_ours(self, path: str) -> bool:
        return self._read(path)[:3] == [path, os.lstat(path).st_dev, identity(path)]

    def retire(self) -> None:
        """The node was retired: another one of this machine may have its paths."""
        put_file(f"{self.home}/retired", b"")

    def _is_left(self, path: str) -> bool:
        """Whether a node of this home that was retired made the folder at a path."""
        farm = os.path.dirname(os.path.dirname(self.home))
        homes = [f"{farm}/{name}/places" for name in os.listdir(farm) if name.startswith("node")]
        rows = [_list_of(f"{home}/{short_name(path, 'path')}.json") for home in homes if os.path.exists(f"{home}/retired")]
        return [path, os.lstat(path).st_dev, identity(path)] in [row[:3] for row in rows]

    def size_of(self, digest: str) -> str:
        """How much a version holds, in words, where it is in memory."""
        files, size = self.measure(digest) or (None, None)
        return "" if files is None else f" ({files} file{'s' * (files != 1)}, {size} bytes)"

    def measure(self, digest: str) -> tuple[int, int] | None:
        """How many files a version holds, and their bytes, where it is in memory."""
        version = self.versions.find(digest)
        sizes = [entry.size for entry in version.listing.values() if entry.kind == "f"] if version else []
        return (len(sizes), sum(sizes)) if version else None

    def _held(self, path: str) -> Held:
        """What is known of what a path holds."""
        found = self.known.pop(path, None) or Held(path, f"{self._place(path)}.marks")
        self.known[path] = found
        while len(self.known) > 1 and sum(len(held.entries) for held in list(self.known.values())) > REMEMBERED:
            self.known.pop(next(iter(self.known)), None)
        return found

    def clear(self, path: str) -> None:
        """Makes an empty folder at a path that is held."""
        if os.path.lexists(path):
            if not is_folder(path):
                raise FarmFault(f"{path} is there, and is no folder")
            if os.listdir(path):
                if not self._is_ours(path) and not self._is_left(path):
                    raise FarmFault(f"{path} is there, and wasn't made by this node: name a path that is free")
                self.trash.take(path)
        own_anew(path)
        self.known.pop(path, None)
        self._note(path, None)

    def forget(self, path: str) -> None:
        """Nobody uses the path any more, or will."""
        self.known.pop(path, None)
        for kind in ("json", "marks"):
            with contextlib.suppress(FileNotFoundError):
                os.unlink(f"{self._place(path)}.{kind}")

    def _paths(self) -> Iterator[tuple[str, int]]:
        """The paths of which something is known, with the devices on which they lie."""
        for name in os.listdir(self.home):
            known = _list_of(f"{self.home}/{name}") if name.endswith(".json") else []
            if known:
                yield str(known[0]), int(known[1])

    def forget_gone(self) -> None:
        """Forgets the paths at which nothing is any more, though their file systems are there: jobs may each have a path of their own."""
        for path, device in self._paths():
            if TAKEN.take(path):  # no command has it
                try:
                    if not os.path.lexists(path) and _device_of(path) == device:
                        self.forget(path)
                finally:
                    TAKEN.free(path)

    def forget_within(self, folder: str) -> None:
        """Nobody uses any path within a folder any more, or will."""
        for path, _ in self._paths():
            if is_within(path, os.path.realpath(folder)):
                self.forget(path)

    def stands(self, path: str, digest: str, check: Callable[[], None] = lambda: None) -> bool:
        """Whether a path that is held is a folder of ours which holds that version still, so that no store is needed."""
        if not is_folder(path) or not self._is_ours(path) or self._read(path)[3:] != [digest]:
            return False
        held = self._held(path)
        if not held.entries:
            return False
        refuse_mounts(path)
        if held.look(check) or held.odd:
            self._note(path, None)  # from here on it is known as it is
            return False
        return True

    def fill(self, store: Store, content: bytes, path: str, check: Callable[[], None] = lambda: None) -> None:
        """Makes a path that is held what an index says, as long as `check` finds that somebody waits: of a folder of ours only what differs
        is written."""
        if content and self._brought(store, content, path, check):
            return
        self.clear(path)
        try:
            with self.rooms.room() as room:
                trees.extract(store, content, path, self.locks.get(path, ()), check, room)
        except BaseException:
            with contextlib.suppress(FarmFault, OSError):
                self.clear(path)  # half a folder is of no use, and may take the room that was missing
            raise
        if content:
            held = self._held(path)
            held.take_as(self._version(store, content, check).listing)
            self._keep_known(held, path, hashlib.sha256(content).hexdigest())

    def _version(self, store: Store, content: bytes, check: Callable[[], None]) -> Version:
        try:
            return self.versions.of(store.chunks, content, check)
        except ChunkSpoilt as fault:
            raise trees.NotMade(str(fault)) from None

    def _brought(self, store: Store, content: bytes, path: str, check: Callable[[], None]) -> bool:
        """Makes a folder of ours that stands what an index says by writing only what differs. Whether it could."""
        if not is_folder(path) or not self._is_ours(path):
            return False
        held = self._held(path)
        if not held.entries:
            return False
        refuse_mounts(path)
        store.fetch(content)
        stood = self._stood(store, path, held)
        version = self._version(store, content, check)
        try:
            is_changed = held.look(check)
            if not is_changed and stood is not None and stood.digest == version.digest and not held.odd:
                return True
            self._note(path, None)
            reader = version.reader()
            held.bring(version.listing, lambda name: version.pieces(name, reader), check)
        except (OSError, RecursionError) as fault:  # as where a user who isn't root may not write: it is made anew
            if isinstance(fault, OSError) and fault.errno == errno.ENOSPC:
                raise
            return False
        except ChunkSpoilt as fault:
            raise trees.NotMade(str(fault)) from None
        self._keep_known(held, path, version.digest)
        return True

    def _stood(self, store: Store, path: str, held: Held) -> Version | None:
        """The version that a path held when it was looked at last."""
        digest = (self._read(path) + [None])[3] if self._is_ours(path) else None
        found = self.versions.find(str(digest))
        content = store.index(str(digest)) if digest and not found and held.entries else None
        if content:
            found = Version(store.chunks, content, held.entries)
            self.versions.add(found)
        return found

    def _keep_known(self, held: Held, path: str, digest: str) -> None:
        held.settle()
        held.save()
        self._note(path, digest)

    def left(self, path: str) -> None:
        """The command that had the path is over: a folder that it put there in place of the old one is the farm's too."""
        with contextlib.suppress(OSError):
            if is_folder(path) and not self._is_ours(path):
                self.known.pop(path, None)
                self._note(path, None)

    def keep(
        self, store: Store, path: str, away: Callable[[str], None] = lambda why: None, check: Callable[[], None] = lambda: None
    ) -> tuple[bytes, str]:
        """Keeps what a path holds, as long as `check` finds that somebody waits: its index, and the digest under which it lasts. Where it
        still is the version that it was, its files aren't read."""
        if not is_folder(path):
            raise FarmFault(f"{path} is no folder any more, and nothing of it is kept")
        with store.making():
            held = self._held(path)
            stood = self._stood(store, path, held)
            is_changed = held.look(check)
            if stood and not is_changed:
                with contextlib.suppress(FarmFault):  # a chunk is gone: it is made anew
                    return stood.index, store.publish(stood.index, away)
                stood = None
            self._note(path, None)
            version = index.make(held, stood or none(store.chunks), store.chunks, check)
            try:
                digest = store.publish(version.index, away)
            except FarmFault:
                if not stood or not store.mend(version.index):
                    raise
                version = index.make(held, none(store.chunks), store.chunks, check)
                digest = store.publish(version.index, away)
            self.versions.add(version)
            self._keep_known(held, path, digest)
            return version.index, digest


def own_anew(path: str) -> None:
    """Makes an empty folder at a path, or takes the one that is there: one that another user made would stay that user's to write."""
    if os.path.lexists(path) and os.lstat(path).st_uid != os.geteuid():
        try:
            os.rmdir(path)
        except OSError:
            raise FarmFault(f"{path} is another user's folder: name a path that is free, or remove it") from None
    os.makedirs(path, exist_ok=True)


def _device_of(path: str) -> int:
    """The file system in which a path would be made."""
    while not os.path.exists(path):
        path = os.path.dirname(path)
    return os.stat(path).st_dev


def _list_of(path: str) -> list[Any]:
    """The list that a file holds; an empty one where it holds none."""
    try:
        with open(path) as file:
            known = json.load(file)
        return known if isinstance(known, list) else []
    except (OSError, ValueError):
        return []


def mounts() -> list[str]:
    """Where something is mounted."""
    with open("/proc/self/mountinfo", "rb") as file:
        words = [line.split(b" ")[4] for line in file]
    return [os.fsdecode(re.sub(rb"\\([0-7]{3})", lambda found: bytes([int(found[1], 8)]), word)) for word in words]


def refuse_mounts(path: str) -> None:
    """Refuses a folder within which something is mounted: it isn't the folder's own, and would be changed with it."""
    whole = os.path.realpath(path)
    for mounted in mounts():
        if mounted != whole and is_within(mounted, whole):
            raise FarmFault(f"{mounted} is mounted within {path}: unmount it first")


def is_within(path: str, other: str) -> bool:
    """Whether a path is another one, or within it."""
    return f"{path}/".startswith(f"{other}/")


def path_order(path: str) -> list[str]:
    """What paths are sorted by, so that those within one stand right behind it."""
    return path.split("/")


def place_of(path: str, cwd: str) -> str:
    """The one name of a path."""
    whole = os.path.normpath(os.path.join(cwd, path))
    if len(os.fsencode(whole)) > LONGEST:
        raise UsageFault(f"{whole[:80]}.. is too long: a path has at most {LONGEST} bytes")
    if os.path.islink(whole):
        raise FarmFault(f"{whole} is a link: name the folder itself")
    return os.path.join(os.path.realpath(os.path.dirname(whole)), os.path.basename(whole))


def check_outside(path: str, own: str) -> None:
    """Refuses a path within a folder of the farm's own, or around it, by whichever names both are reached."""
    if _is_reached_within(path, own):
        raise UsageFault(f"{path} lies within {own}, which is the farm's own: name a path outside it")
    if _is_reached_within(own, path):
        raise UsageFault(f"{path} holds {own}, which is the farm's own: name a path beside it")


def _is_reached_within(path: str, folder: str) -> bool:
    around = [path, *map(str, pathlib.PurePath(path).parents)]
    return os.path.exists(folder) and any(os.path.samefile(each, folder) for each in around if os.path.exists(each))


def check_apart(paths: list[str]) -> None:
    """No path is another one, or within it."""
    for other, one in itertools.pairwise(sorted(paths, key=path_order)):  # what is within a path comes right behind it
        if is_within(one, other):
            raise UsageFault(f"{one} lies within {other}: folders of one command lie apart")
