"""What nodes tell the coordinator's agent of commands without a lease: those that run on snapshots, those whose merge waits, and what each
merge changed.

Owes the filters nothing: it is shown, and nothing rests on it.
"""
from __future__ import annotations

import contextlib
import os
import time

from agent.service.operators import Snapshot

MOST = 64  # of one node that are told
NOTES = 100_000  # merges that are remembered


def told_of(node: int, snapshots: list[Snapshot]) -> str:
    """A node's hint."""
    now = time.time()
    words = (f"{each.state} {max(0, now - each.since):.0f} {each.version} {each.slot}" for each in snapshots[:MOST])
    return " ".join(["snapshots", str(node), *words])


class Snapshots:
    """What the nodes told last."""

    def __init__(self, silent: float) -> None:
        self.silent = silent  # seconds after which what a node told says nothing any more
        self.heard: dict[int, tuple[float, tuple[Snapshot, ...]]] = {}

    def hear(self, words: list[str]) -> None:
        """The words behind the hint's name."""
        node, now, rest = int(words[0]), time.time(), words[1:]
        rows = [rest[at : at + 4] for at in range(0, len(rest) - 3, 4)]
        found = tuple(Snapshot(node=node, slot=slot, version=int(version), since=now - int(seconds), state=state) for state, seconds, version, slot in rows)
        self.heard[node] = (time.monotonic(), found)

    def present(self) -> tuple[Snapshot, ...]:
        oldest = time.monotonic() - self.silent
        return tuple(each for _, (at, found) in sorted(self.heard.items()) if at > oldest for each in found)


class Merges:
    """What each merge changed, by the ticket of its commit. It outlives the agent."""

    def __init__(self, path: str) -> None:
        self.path = path
        self.said: dict[int, str] = {}
        with contextlib.suppress(OSError, ValueError), open(path, encoding="ascii") as file:
            for line in file.readlines()[-NOTES:]:
                self._take(line.split())

    def _take(self, words: list[str]) -> bool:
        ticket, changed, removed, conflicts = (int(word) for word in words[:4])
        said = f"merged {changed} path{'s' * (changed != 1)}"
        said += f", removed {removed}" if removed else ""
        said += f", {conflicts} conflict{'s' * (conflicts != 1)} ({words[4]})" if conflicts else ""
        is_new = self.said.get(ticket) != said
        self.said[ticket] = said
        return is_new

    def hear(self, words: list[str]) -> None:
        """The words behind the hint's name: a ticket, how many paths were merged, removed and in conflict, and the rule."""
        if len(words) == 5 and words[4].isalpha() and self._take(words):
            handle = os.open(self.path, os.O_WRONLY | os.O_CREAT | os.O_APPEND, 0o600)
            try:
                os.write(handle, f"{' '.join(words)}\n".encode())
            finally:
                os.close(handle)
