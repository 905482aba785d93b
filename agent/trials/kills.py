#!/usr/bin/env python3
"""Kills each filter at each of its writes, syncs and renames in turn, over short conversations, starts it again, and looks at what it
kept; so too where half of a write was done, where the power fails and takes what wasn't synced, where the disk is full, where one call
fails, or all do for a while, and then the power, and where the power fails some calls after the start that follows a kill.

Prints a line for each conversation and way, and as the last one `N right, M wrong`. The status is 1 where something was wrong.
"""
from __future__ import annotations

import argparse
import concurrent.futures
import os
import shutil
import subprocess
import sys
import tempfile
from pathlib import Path
from typing import Callable

sys.dont_write_bytecode = True
sys.path.insert(0, str(Path(__file__).resolve().parents[2]))

from agent.filters.lines import Answer, Filter, FilterGone  # noqa: E402
from agent.tools import TOP, farm_program  # noqa: E402
from agent.trials.talks import KEY, KINDS, Conversation, Filling, Step, WithFullLog, Wrong, expect, node_key  # noqa: E402

WAYS = ("before", "half", "cut", "names", "full", "fuller", "later1", "later2", "later3", "later4", "dying8", "again1", "again2", "again3", "again4")  # as killed.c has them
TRIES = 4  # of a line that was refused for want of room


class Trial:
    """One conversation, disturbed at one call."""

    def __init__(self, kind: type[Conversation], way: str, number: int, library: str) -> None:
        self.room = os.path.realpath(tempfile.mkdtemp(prefix="farm-kills-"))
        self.way = way
        for name, data in (("key", KEY.encode()), ("node.key", node_key(1).encode()), ("count", bytes(8)), ("count2", bytes(8))):
            with open(f"{self.room}/{name}", "wb") as file:
                file.write(data)
        front = [f"LD_PRELOAD={library}", f"KILL_LEFT={self.room}/left"]
        how, power = (way[:-1], way[-1]) if way.startswith("again") else (way, "")
        self.to_come = [[*front, f"KILL_COUNT={self.room}/count", f"KILL_HOW={how}", f"KILL_AT={number}"]]  # for each start that is disturbed
        if power and number:
            self.to_come.append([*front, f"KILL_COUNT={self.room}/count2", "KILL_HOW=names", f"KILL_AT={power}"])
        self.is_disturbed = False
        self.talk = kind(self.room)
        self.filter: Filter | None = None

    def start(self) -> None:
        """A start that nothing disturbs is never refused."""
        self.close()
        self.is_disturbed = bool(self.to_come)
        try:
            self.filter = Filter(["env", *(self.to_come.pop(0) if self.to_come else []), farm_program(), *self.talk.words])
        except FilterGone as gone:
            expect(self.is_disturbed, f"it doesn't start again: {gone.said}")
            expect(gone.status in (-9, 4), f"it doesn't start, with status {gone.status}: {gone.said}")
            return self.start()
        self.talk.greeted(self.filter.greeting)

    def carry_out(self, step: Step) -> None:
        """Carries out a step, and starts the filter again where it ends amid it."""
        try:
            step(self)
        except FilterGone:
            if not self.is_disturbed:
                raise
            self.start()
            self.carry_out(self.talk.judge)
            self.carry_out(step)

    def close(self) -> None:
        if self.filter:
            self.filter.close()
            self.filter = None

    def __call__(self, line: str) -> Answer:
        """A line that was refused for want of room is said again; a node that couldn't keep a content is started again."""
        for _ in range(TRIES):
            assert self.filter
            answer = self.filter.call(line)
            if answer.note == "refused StoreFault":
                raise FilterGone
            if answer.note != "refused SaveFault" or self.way == "fuller":
                break
            expect(not answer.sends, f"a save failed, and it sends {answer.sends}")
        if answer.note in ("refused SaveFault", "refused Down"):
            raise FilterGone
        return answer

    def together(self, lines: list[str], hear: Callable[[Answer], None]) -> None:
        """Where a save failed each line is said again."""
        notes: list[str] = []

        def heard(answer: Answer) -> None:
            notes.append(answer.note)
            hear(answer)

        assert self.filter
        self.filter.calls(lines, heard)
        if "refused SaveFault" in notes:
            for line in lines:
                hear(self(line))

    def run(self, left: str = "") -> int:
        """Carries the conversation out, and gives how many calls there were. What it leaves may be copied to a folder."""
        try:
            self.start()
            for step in self.talk.steps:
                self.carry_out(step)
            self.to_come = []
            self.start()
            self.talk.judge(self)
        finally:
            self.close()
            with open(f"{self.room}/count", "rb") as file:
                count = int.from_bytes(file.read(), sys.byteorder)
            if left:
                shutil.copytree(self.room, left, dirs_exist_ok=True)
            shutil.rmtree(self.room, ignore_errors=True)
        return count


def build_library(room: str) -> str:
    library = f"{room}/killed.so"
    compiler = os.environ.get("CC") or "cc"
    subprocess.run([compiler, "-O2", "-shared", "-fPIC", "-o", library, f"{TOP}/agent/trials/killed.c", "-ldl"], check=True)
    return library


def attempt(kind: str, way: str, number: int, library: str, left: str = "") -> tuple[int, str]:
    """How many calls a trial had, and what was wrong. At call 0 nothing is disturbed."""
    trial = Trial((KINDS | {"filling": Filling})[kind], way, number, library)
    try:
        return trial.run(left), ""
    except (Wrong, FilterGone, LookupError, StopIteration) as wrong:
        return 1, f"{kind}, {way}, call {number}: {wrong or 'it ends by itself'}"


def all_of(kind: str, way: str, library: str, pool: concurrent.futures.Executor) -> tuple[int, list[str]]:
    """Disturbs each call of a conversation in turn: how many there were, and what was wrong."""
    count, said = attempt(kind, way, 0, library)
    found = [said, *(said for _, said in pool.map(lambda number: attempt(kind, way, number, library), range(1, count + 1)))]
    wrong = [each for each in found if each]
    print(f"{kind}, {way}: {count} calls, {len(wrong)} wrong", *wrong[:4], sep="\nwrong: ", flush=True)
    return count, wrong


def main() -> int:
    made = argparse.ArgumentParser(description=__doc__, formatter_class=argparse.RawDescriptionHelpFormatter)
    made.add_argument("--way", choices=WAYS, action="append", help="(all)")
    made.add_argument("--kind", choices=list(KINDS), action="append", help="(both)")
    args = made.parse_args()
    calls = 0
    with tempfile.TemporaryDirectory(prefix="farm-kills-") as room, concurrent.futures.ThreadPoolExecutor(os.cpu_count()) as pool:
        library = build_library(room)
        WithFullLog.filled = room
        wrong = [said for _, said in [attempt("filling", "before", 0, library, room)] if said]
        for kind in args.kind or KINDS:
            for way in args.way or WAYS:
                count, bad = all_of(kind, way, library, pool)
                calls, wrong = calls + count, wrong + bad
    print(f"kills: {max(0, calls - len(wrong))} right, {len(wrong)} wrong")
    return 1 if wrong or not calls else 0


if __name__ == "__main__":
    sys.exit(main())
