#!/usr/bin/env python3
"""Runs commands on one merged folder from three nodes at once, some with its line locked, while agents, filters and Redis are killed, leases
withdrawn, nodes paused, contents forgotten and the folder pruned; then reads all versions.

Each file that a confirmed command left has to be in its version and all later ones, until a later command removed it or the folder was
pruned; what was removed doesn't come back; of a failed command nothing is there; and from one version to the next only what one command
removed goes. The last line is `N right, M wrong`, and the status is 1 where something was wrong.
"""
from __future__ import annotations

import argparse
import contextlib
import os
import random
import re
import shutil
import subprocess
import sys
import tempfile
import threading
import time
from collections import Counter
from dataclasses import dataclass
from pathlib import Path
from typing import Iterator

sys.dont_write_bytecode = True
sys.path.insert(0, str(Path(__file__).resolve().parents[2]))

from agent.faults import FarmFault  # noqa: E402
from agent.folders.versions import Versions  # noqa: E402
from agent.store.folder import FolderStore, Store  # noqa: E402
from agent.store.redis import RedisStore  # noqa: E402
from agent.trials.farms import PYTHON_FARM, Farm, OverRedis, Pipes, kill  # noqa: E402
from agent.words import EMPTY  # noqa: E402

NODES, EACH = 3, 2  # commands at once on each node
KINDS: dict[str, type[Farm]] = {"pipes": Pipes, "redis": OverRedis}
CALM = 240.0  # seconds in which a farm that nobody disturbs has to end its last commands
KEPT = 3  # of a worker's files, before it removes the oldest
GC_EVERY, KEEP, GRACE = 6.0, 30, 40  # seconds; versions; seconds
DECK = ("agent", "agent", "filter", "filter", "coordinator", "redis", "withdraw", "withdraw", "withdraw", "pause", "client")

WORK = """set -e
mkdir -p {path}/u {path}/d{dish}; echo {token} > {path}/u/{token}; echo {token} > {path}/d{dish}/{token}; echo {token} > {path}/common
{removal}
{flip}
sleep {nap}
{end}
"""
FLIPS = {0: "rm -rf {path}/flip; echo f > {path}/flip", 2: "rm -rf {path}/flip; mkdir {path}/flip; echo {token} > {path}/flip/{token}"}


# Not a version that a command waits for.
TOLD = re.compile(r"(?m)^farm: (?:merged .* into |committed \d+ )?locked:c (?:has it all in )?version (\d+)")


@dataclass(frozen=True, kw_only=True)
class Done:
    """A command that is over."""

    token: str
    dish: int
    removed: str | None
    fails: bool
    status: int
    version: int | None  # that has what it left, where it was told
    is_exact: bool  # whether it made that version
    said: str


class Trial:
    def __init__(self, room: str, over: str, seconds: float, seed: int, wrong: str | None) -> None:
        self.room, self.seconds, self.wrong = room, seconds, wrong
        self.dice = random.Random(seed)
        self.farm: Farm = KINDS[over](f"{room}/farm", NODES, seed, wrong)
        self.stopping = threading.Event()
        self.lock = threading.Lock()
        self.counts: Counter[str] = Counter()
        self.done: list[Done] = []
        self.clients: dict[str, subprocess.Popen[str]] = {}
        self.seen: dict[int, set[str]] = {}  # of a version: its paths
        self.digests: dict[int, str] = {}
        self.faults: list[str] = []
        self.versions = Versions()

    def count(self, what: str) -> None:
        with self.lock:
            self.counts[what] += 1

    # Work.

    def work(self, node: int, number: int) -> None:
        dice, mine, turn = random.Random(f"{node}.{number}"), list[str](), 0
        while not self.stopping.is_set():
            turn += 1
            done = self.command(node, f"{node}.{number}.{turn}", mine[0] if len(mine) > KEPT else None, dice)
            if done.removed and done.status not in (2, 3):  # else it may be gone
                mine.remove(done.removed)
            if done.status == 0:
                mine.append(done.token)
            else:
                self.stopping.wait(0.3)

    def command(self, node: int, token: str, removed: str | None, dice: random.Random) -> Done:
        turn = int(token.rpartition(".")[2])
        use = "locked" if turn % 7 == 0 else "merged"
        path = f"{self.room}/work/{use}{node}"
        fails = dice.random() < 0.1
        text = WORK.format(
            path=path, token=token, dish=turn % 5, removal=f"rm -f {path}/u/{removed}" if removed else "", nap=round(dice.random() * 0.6, 2),
            flip=FLIPS.get(turn % 5, "").format(path=path, token=token), end="exit 3" if fails else "",
        )
        words = [*PYTHON_FARM, "run", "--home", self.farm.home(node), "--node", str(node), "--must-commit", "--wait", "90"]
        words += ["--folder", f"locked:k{node}={self.room}/work/k{node}"] if turn % 6 == 0 and use == "merged" else []
        process = subprocess.Popen(
            [*words, "--folder", f"{use}:c={path}", "--", "sh", "-c", text], stdin=subprocess.DEVNULL, stdout=subprocess.DEVNULL,
            stderr=subprocess.PIPE, text=True, cwd=self.room,
        )
        with self.lock:
            self.clients[token] = process
        said = process.communicate()[1]
        found = TOLD.search(said)
        done = Done(
            token=token, dish=turn % 5, removed=removed, fails=fails, status=process.returncode, said=said[-400:],
            version=int(found[1]) if found else None, is_exact="has it all" not in said,
        )
        with self.lock:
            self.clients.pop(token, None)
            self.done.append(done)
            self.counts[f"commands with status {done.status}"] += 1
            self.counts["conflicts"] += sum(int(count) for count in re.findall(r"(\d+) conflict", said))
            self.counts["told that a version had it all"] += not done.is_exact
        return done

    # Disturbance.

    def ask(self, *words: str, home: str | None = None) -> str:
        done = subprocess.run(
            [*PYTHON_FARM, *words, "--home", home or self.farm.home(None)], stdin=subprocess.DEVNULL, capture_output=True, text=True, timeout=90
        )
        return done.stdout if done.returncode == 0 else ""

    def disturb(self) -> None:
        deck: list[str] = []
        while not self.stopping.wait(self.dice.uniform(0.4, 2.0)):
            if not deck:
                deck = self.dice.sample(DECK, len(DECK))
            try:
                self.disturb_by(deck.pop())
            except (OSError, subprocess.TimeoutExpired):
                pass
            except FarmFault as fault:
                self.faults.append(str(fault))
                self.stopping.set()

    def disturb_by(self, what: str) -> None:
        dice, farm = self.dice, self.farm
        if what == "agent":
            farm.kill(dice.choice(farm.names()), dice.random())
        elif what in ("filter", "coordinator"):
            pid = farm.filters().get("coordinator" if what == "coordinator" else f"node{dice.randrange(1, NODES + 1)}")
            if pid is None or not kill(pid):
                return
        elif what == "redis":
            if not isinstance(farm, OverRedis):
                return
            farm.kill_redis(dice.random())
        elif what == "withdraw":
            for _ in range(6):  # leases of merges are short
                found = re.findall(r"has .*locked:c.* ticket (\d+)", self.ask("status"))
                if found and self.ask("withdraw", found[0]):
                    break
        elif what == "pause":
            self.pause(dice.randrange(1, NODES + 1))
        elif what == "client":
            with self.lock:
                processes = list(self.clients.values())
            if processes:
                kill(dice.choice(processes).pid, 15)
        self.count(f"{what}: disturbed")

    def pause(self, node: int) -> None:
        pid = self.farm.pausable(node)
        if pid is None or not kill(pid, 19):
            return
        try:
            for ticket in re.findall(rf"node {node} has .*locked:c.* ticket (\d+)", self.ask("status")):
                self.ask("withdraw", ticket)
            time.sleep(self.dice.uniform(0.5, 2.0))
        finally:
            kill(pid, 18)

    def clear(self) -> None:
        """Forgets contents now and then, and empties the folder once."""
        turn = 0
        while not self.stopping.wait(GC_EVERY):
            turn += 1
            with contextlib.suppress(subprocess.TimeoutExpired):
                for home in {self.farm.home(node) for node in (None, *range(1, NODES + 1))}:
                    if self.ask("gc", "--keep", str(KEEP), "--grace", str(GRACE), home=home):
                        self.count("gc")
                if turn % 4 == 2 and self.ask("prune", "locked:c"):
                    self.count("prune")

    # What is read.

    def store(self) -> Store:
        if not isinstance(self.farm, OverRedis):
            return FolderStore(f"{self.farm.home(None)}/contents")
        return RedisStore(self.farm.url, f"{self.room}/fresh", self.farm.farm)

    def read_versions(self) -> None:
        try:
            store = self.store()
        except FarmFault:  # Redis is away just now
            return
        for line in self.ask("log", "locked:c").splitlines():
            words = line.split(" ")
            number, digest = int(words[2]), words[5]
            self.digests[number] = digest
            if number in self.seen:
                continue
            with contextlib.suppress(FarmFault):
                index = store.index(digest)
                if index is not None:
                    store.fetch(index)
                    self.seen[number] = set(self.versions.of(store.chunks, index).listing)

    def read(self) -> None:
        while not self.stopping.wait(1.0):
            with contextlib.suppress(subprocess.TimeoutExpired):
                self.read_versions()

    # The verdict.

    def wrongs(self) -> Iterator[str]:
        removers: dict[str, list[Done]] = {}
        for done in self.done:
            if done.removed:
                removers.setdefault(done.removed, []).append(done)
        prunes = [number for number, digest in self.digests.items() if digest == EMPTY]
        for done in self.done:
            yield from self._wrongs_of(done, removers.get(done.token, []), prunes)
        numbers = sorted(self.seen)
        for one, other in zip(numbers, numbers[1:]):
            if other == one + 1 and other not in prunes:
                gone = self.seen[one] - self.seen[other]
                files = {path.partition("/")[2] for path in gone if path.startswith("u/")}
                if len(files) > 1 or any(path[0] == "d" and "/" in path for path in gone) or files - removers.keys():
                    yield f"from version {one} to {other} went {sorted(gone)[:6]}"

    def _wrongs_of(self, done: Done, removers: list[Done], prunes: list[int]) -> Iterator[str]:
        paths = (f"u/{done.token}", f"d{done.dish}/{done.token}")
        if done.fails and any(set(paths) & self.seen[number] for number in self.seen):
            yield f"{done.token} failed, and what it left is there"
        if done.status != 0 or done.fails:
            return
        if done.version is None:
            yield f"{done.token} ended with 0, and was told no version: {done.said}"
            return
        end = min((number for number in prunes if number > done.version), default=1 << 60)
        gone_at = min((each.version for each in removers if each.status == 0 and each.version), default=None)
        for number in sorted(self.seen):
            if not done.version <= number < end:
                continue
            if paths[1] not in self.seen[number]:
                yield f"{done.token} of version {done.version} isn't in version {number}"
            if paths[0] not in self.seen[number] and not removers:
                yield f"{done.token} of version {done.version} has lost u/ in version {number}"
            if gone_at and number >= gone_at and paths[0] in self.seen[number]:
                yield f"{done.token}, removed in version {gone_at}, is back in version {number}"

    def calm(self) -> Iterator[str]:
        for node in range(1, NODES + 1):
            words = [*PYTHON_FARM, "run", "--home", self.farm.home(node), "--node", str(node), "--must-commit"]
            path = f"{self.room}/work/calm{node}"
            words += ["--folder", f"merged:c={path}", "--", "sh", "-c", f"echo x > {path}/calm{node}"]
            try:
                done = subprocess.run(words, stdin=subprocess.DEVNULL, capture_output=True, text=True, timeout=CALM, cwd=self.room)
                if done.returncode:
                    yield f"node {node} doesn't merge any more: {done.stderr[-300:]}"
            except subprocess.TimeoutExpired:
                yield f"node {node} doesn't end a command any more"

    def run(self) -> list[str]:
        os.makedirs(f"{self.room}/work")
        self.farm.begin()
        threads = [threading.Thread(target=self.work, args=(node, number)) for node in range(1, NODES + 1) for number in range(EACH)]
        threads += [threading.Thread(target=does) for does in (self.disturb, self.clear, self.read)]
        for thread in threads:
            thread.start()
        self.stopping.wait(self.seconds)
        self.stopping.set()
        end = time.monotonic() + (10.0 if self.wrong else CALM)
        for thread in threads:
            thread.join(max(0.0, end - time.monotonic()))
        with self.lock:
            waiting = dict(self.clients)
        late = [] if self.wrong or not waiting else [f"commands {sorted(waiting)} don't end: {self.farm.standing()[-6000:]}"]
        for process in waiting.values():
            process.kill()
        late += [] if self.wrong or self.faults else self.calm()
        for _ in range(3):
            self.read_versions()
        return [*late, *self.faults, *self.wrongs()]


def main() -> int:
    made = argparse.ArgumentParser(description=__doc__, formatter_class=argparse.RawDescriptionHelpFormatter)
    made.add_argument("--seconds", type=float, default=60)
    made.add_argument("--seed", type=int, default=1)
    made.add_argument("--over", choices=list(KINDS), default="pipes")
    made.add_argument("--wrong", choices=["snapshot"], help="an agent that merges into the version that it began from: the trial has to fail")
    made.add_argument("--verbose", action="store_true", help="keeps the folder, and says where it is")
    args = made.parse_args()
    room = os.path.realpath(tempfile.mkdtemp(prefix="farm-merged-"))
    trial = Trial(room, args.over, args.seconds, args.seed, args.wrong)
    try:
        wrong = trial.run()
    except FarmFault as fault:
        print(f"the trial can't go on: {fault}")
        return 1
    finally:
        trial.stopping.set()
        trial.farm.end()
        if not args.verbose:
            shutil.rmtree(room, ignore_errors=True)
    print(", ".join(f"{count} {what}" for what, count in sorted(trial.counts.items())))
    for each in wrong[:20]:
        print(f"wrong: {each}")
    if args.verbose:
        for done in trial.done:
            if done.status not in (0, 3):
                print(f"{done.token} {done.status}: {done.said!r}")
        print(f"kept in {room}")
    print(f"{args.over}, seed {args.seed}, {args.seconds:g} seconds, {len(trial.digests)} versions: {len(trial.seen)} right, {len(wrong)} wrong")
    return 1 if wrong or not trial.seen else 0


if __name__ == "__main__":
    sys.exit(main())
