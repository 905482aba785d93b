"""The ids of a node's cache mounts in one Docker daemon.

Owes the filters that an id which a lease had that didn't end well is never used again: whatever still runs there, or is cached of it, no
later lease has its directory or its key. Of each slot a small file has the id; `dirty` is written before a build, and taken back only when
all that its steps left counts. One lock has the files; a node has one agent.
"""
from __future__ import annotations

import contextlib
import json
import os
import secrets
import threading
import time
from dataclasses import asdict, dataclass, field, replace

from agent.build.builder import CacheMount
from agent.store.lasting import put_file
from agent.words import short_name

ENDING = 2.0  # seconds for a build of this agent that has just committed


@dataclass(frozen=True)
class Known:
    """What is known of a slot's mount. What leases left behind that didn't end well are pairs of id and path."""

    slot: str
    id: str | None = None
    dirty: bool = False
    path: str = ""
    daemon: str = ""  # whose path it is
    old: list[list[str]] = field(default_factory=list)


class CacheIds:
    def __init__(self, home: str) -> None:
        self.home = home
        self.changed = threading.Condition()
        self.live: dict[str, str] = {}  # of an id that a build of this agent has: its slot

    def _file(self, slot: str) -> str:
        return f"{self.home}/{short_name(slot, 'mount')}.json"

    def _read(self, slot: str) -> Known:
        try:
            with open(self._file(slot)) as file:
                return Known(**json.load(file))
        except (OSError, ValueError, TypeError):
            return Known(slot)

    def _write(self, known: Known) -> None:
        os.makedirs(self.home, exist_ok=True)
        put_file(self._file(known.slot), json.dumps(asdict(known)).encode())

    def take(self, slots: list[str], daemon: str = "") -> list[CacheMount]:
        """The mounts of leased slots, each dirty from now on. One whose last lease didn't end well has a new id. The path is where this daemon
        had it when the last lease ended well, else empty."""
        taken = []
        with self.changed:
            late = time.monotonic() + ENDING
            while set(self.live.values()) & set(slots) and time.monotonic() < late:
                self.changed.wait(0.1)  # one that has just committed is about to say so; one whose lease was withdrawn keeps its own
            for slot in slots:
                known = self._read(slot)
                if known.dirty or known.id is None:
                    known = _renewed(known)
                self._write(replace(known, dirty=True))
                taken.append(CacheMount(slot, str(known.id), known.path if known.daemon == daemon else ""))
                self.live[str(known.id)] = slot
        return taken

    def found(self, mount: CacheMount, daemon: str = "") -> None:
        """Where a daemon has a mount's directory."""
        with self.changed:
            known = self._read(mount.slot)
            if known.id == mount.id:  # else a later lease has another one
                self._write(replace(known, path=mount.path, daemon=daemon))

    def leave(self, slot: str, identifier: str, ended_well: bool) -> None:
        with self.changed:
            known = self._read(slot)
            if ended_well and known.id == identifier:
                self._write(replace(known, dirty=False))
            self.live.pop(identifier, None)
            self.changed.notify_all()

    def slots(self) -> list[str]:
        """The slots of which anything is known."""
        found = []
        for name in os.listdir(self.home) if os.path.isdir(self.home) else []:
            with contextlib.suppress(OSError, ValueError, KeyError, TypeError), open(f"{self.home}/{name}") as file:
                found.append(str(json.load(file)["slot"]))
        return found

    def old(self, slots: list[str]) -> list[tuple[str, str, str]]:
        """The slots, ids and paths that are left behind, and that no build of this agent has. Those of killed agents are among them."""
        with self.changed:
            for known in map(self._read, slots):
                if known.dirty and known.id not in self.live:
                    self._write(_renewed(known))
            return [(slot, each[0], each[1]) for slot in slots for each in self._read(slot).old if each[0] not in self.live]

    def dropped(self, slot: str, identifier: str) -> None:
        """Nothing is left of an old id."""
        with self.changed:
            known = self._read(slot)
            self._write(replace(known, old=[each for each in known.old if each[0] != identifier]))


def _renewed(known: Known) -> Known:
    """A new id, random, so that none comes twice, whatever became of this file."""
    left = [[known.id, known.path]] if known.id else []
    return Known(known.slot, f"farm-{secrets.token_hex(16)}", old=[*known.old, *left])
