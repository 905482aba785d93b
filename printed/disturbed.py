#!/usr/bin/env python3
"""Disturbs the schedules of `worked.cases` at each place, and looks at what farmctl prints of them.

usage: [FARMCTL=PROGRAM] [CALL_SECONDS=N] printed/disturbed.py

At a place the save of the event fails, with the old record kept or the new one, and the coordinator restarts behind it; or a node restarts
before the event, and its greeting arrives. Whatever that makes of the rest of the schedule, no ticket is given to two asks or to an ask and
a prune; no line loses or changes a version, and the tickets on it rise; saves that are made to fail do, and no others. The status is 1 where
something is wrong, or none is tried.
"""
from __future__ import annotations

import concurrent.futures
import functools
import os
import re
import sys
from collections.abc import Iterator
from typing import NamedTuple

sys.dont_write_bytecode = True

from run import HERE, cases_of, ran  # noqa: E402

FAILS = ("fail old", "fail new")
OUTCOME = re.compile(r"\d+ (.*?)(?: -> (\d+)(?:\.\.(\d+))?)?")


class Wrong(Exception):
    """What is wrong of a schedule."""


def expect(is_so: bool, said: str) -> None:
    if not is_so:
        raise Wrong(said)


class Outcome(NamedTuple):
    """What came of an event, and the messages that it sent."""
    event: list[str]
    note: list[str]
    sent: range


def outcome_of(event: str, line: str) -> Outcome:
    found = OUTCOME.fullmatch(line)
    if not found:
        raise Wrong(f"it prints {line!r}")
    note, first, last = found.groups()
    return Outcome(event.split(), note.replace("granted before", "regranted").split(), range(int(first or 0), int(last or first or -1) + 1))


@functools.cache
def replayed(*lines: str) -> tuple[list[Outcome], dict[str, list[str]]]:
    """What comes of each event of a schedule, and the versions on each line behind the last."""
    status, out, err = ran(["replay", "-"], "/", "\n".join(lines).encode("ascii"))
    expect((status, err) == (0, b""), f"status {status}, {err!r}")
    printed = out.decode("ascii").splitlines()
    outcomes = list(map(outcome_of, lines[1:], printed))
    return outcomes, {slot: versions for slot, *versions in map(str.split, printed[len(outcomes):])}


class Tickets:
    """Whose each ticket is, as far as it is told."""

    def __init__(self) -> None:
        self.lives: dict[str, str] = {}
        self.asks: dict[int, str] = {}  # that a message makes or grants; none where it may be any
        self.owners: dict[int, str] = {}
        self.given: set[int] = set()
        self.taken: set[int] = set()
        self.last = 0

    def tell(self, ticket: int, owner: str) -> None:
        expect(not owner or self.owners.setdefault(ticket, owner) == owner, f"ticket {ticket} is given twice")
        self.last = max(self.last, ticket)

    def give(self, ticket: int, owner: str) -> None:
        expect(ticket > self.last, f"ticket {ticket} is given again")
        self.given.add(ticket)
        self.tell(ticket, owner)

    def take(self, ticket: int, message: int) -> None:
        """A grant that no arrival of its ask sent is of one that waited, or is sent again."""
        expect(message in self.asks or ticket not in self.given, f"ticket {ticket} is given to an ask that waited")
        expect(ticket not in self.taken, f"ticket {ticket} is taken twice")
        self.taken.add(ticket)
        self.tell(ticket, self.asks.get(message, ""))

    def see(self, outcome: Outcome) -> None:
        match outcome.event, outcome.note:
            case ["restart", node], ["life", life]:
                self.lives[node] = life
            case [_, node, *_], ["asked", number]:
                self.asks |= dict.fromkeys(outcome.sent, f"ask {number} of node {node} in life {self.lives.get(node)}")
            case ["nudge"], _:
                self.asks |= dict.fromkeys(outcome.sent, "")
            case ["prune", slot], ["pruned", ticket]:
                self.give(int(ticket), slot)
            case ["deliver", message], ["granted" | "regranted" as how, ticket, *_]:
                ask = self.asks.get(int(message), "")
                (self.give if how == "granted" else self.tell)(int(ticket), ask)
                self.asks |= dict.fromkeys(outcome.sent, ask)
            case ["deliver", message], ["took", ticket, *_]:
                self.take(int(ticket), int(message))


def look_at_tickets(outcomes: list[Outcome]) -> None:
    tickets = Tickets()
    for outcome in outcomes:
        tickets.see(outcome)


def look_at_saves(outcomes: list[Outcome]) -> int:
    """Gives how many saves failed."""
    failed, is_armed = 0, False
    for event, note, _ in outcomes:
        is_saved = note[0] in ("committed", "pruned", "retired") and note[1] not in ("before", "node")
        expect(not (is_armed and is_saved), f"the save of {' '.join(event)!r} doesn't fail")
        if note == ["refused", "SaveFault"]:
            expect(is_armed, f"the save of {' '.join(event)!r} fails")
            failed, is_armed = failed + 1, False
        is_armed = is_armed or note == ["armed"]
    return failed


def look_at_lines(schedule: list[str], outcomes: list[Outcome]) -> None:
    """Looks at them behind each commit, prune and restart, and at the end."""
    ends = [place for place, outcome in enumerate(outcomes, 2) if outcome.note[0] in ("committed", "pruned", "restarted")]
    old: dict[str, list[str]] = {}
    for end in (*ends, len(schedule)):
        new = replayed(*schedule[:end])[1]
        expect(all(new.get(slot, [])[:len(versions)] == versions for slot, versions in old.items()), f"{new} isn't more than {old}")
        tickets = [[int(version.split(":")[1]) for version in versions] for versions in new.values()]
        expect(all(line == sorted(set(line)) for line in tickets), f"the tickets don't rise in {new}")
        old = new


def disturbed(schedule: list[str], place: int, way: str) -> list[str]:
    if way in FAILS:
        return [*schedule[:place], way, schedule[place], "restart coordinator", *schedule[place + 1:]]
    front = [*schedule[:place], way]
    return [*front, *(f"deliver {greeting}" for greeting in replayed(*front)[0][-1].sent), *schedule[place:]]


def failures(schedule: list[str]) -> int:
    """How many saves fail in a schedule. Raises where something is wrong."""
    outcomes, _ = replayed(*schedule)
    look_at_tickets(outcomes)
    look_at_lines(schedule, outcomes)
    return look_at_saves(outcomes)


def wrong_of(schedule: list[str], way: str) -> Iterator[str]:
    """What is wrong where a schedule is disturbed at each place: no text where nothing is."""
    failed = 0
    for place in range(1, len(schedule)):
        try:
            failed += failures(disturbed(schedule, place, way))
            yield ""
        except Wrong as wrong:
            yield f"{way}, event {place}: {wrong}"
    yield "" if failed or way not in FAILS else f"{way}: no save fails"


def main() -> int:
    tries = []
    with concurrent.futures.ThreadPoolExecutor(os.cpu_count()) as pool:
        for case in cases_of(HERE / "worked.cases"):
            schedule = case.files["F"].decode("ascii").split("\n")
            nodes = range(1, int(schedule[0].split()[1]) + 1)
            for way in (*FAILS, *(f"restart {node}" for node in nodes)):
                tries.append((case.place, pool.submit(lambda schedule, way: list(wrong_of(schedule, way)), schedule, way)))
    found = [f"printed/{place}, {said}" if said else "" for place, done in tries for said in done.result()]
    wrong = list(filter(None, found))
    print(*wrong, f"disturbed: {len(found) - len(wrong)} right, {len(wrong)} wrong", sep="\n")
    return 0 if found and not wrong else 1


if __name__ == "__main__":
    sys.exit(main())
