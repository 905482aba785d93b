#!/usr/bin/env python3
"""Runs commands and builds on a farm of three nodes while its processes are killed, its messages lost, repeated, delayed, damaged and
forged, what a broker or bucket keeps overwritten, chunks in homes zeroed, flipped and swapped, gc killed, old records put back, clocks set, and leases withdrawn;
then looks at every line, every version, and all that was told.

The last line is `N right, M wrong`, and the status is 1 where something was wrong, or where a farm that nobody disturbs any more didn't
end its commands in time: a line `late: ..` tells that. Everything is on loopback and ends with the trial.
"""
from __future__ import annotations

import argparse
import glob
import json
import os
import random
import shutil
import signal
import subprocess
import sys
import tempfile
import threading
import time
from collections import Counter
from dataclasses import dataclass
from pathlib import Path
from typing import Callable

sys.dont_write_bytecode = True
sys.path.insert(0, str(Path(__file__).resolve().parents[2]))

from agent.store.chunks import chunk_names  # noqa: E402
from agent.runs.executions import can_have_namespaces  # noqa: E402
from agent.faults import FarmFault  # noqa: E402
from agent.store.brokers import BrokersStore  # noqa: E402
from agent.store.bucket import BucketAway  # noqa: E402
from agent.store.redis import RedisStore  # noqa: E402
from agent.store.folder import FolderStore, Store  # noqa: E402
from agent.trials.farms import PYTHON_FARM, Attacker, Farm, Machines, OverRedis, OverS3, Pipes, kill  # noqa: E402
from agent.trials.verdict import HALF, Lines, Source, Told, Verdict, told_of  # noqa: E402

NODES, EACH = 3, 2  # commands at once on each node
KINDS: dict[str, type[Farm]] = {"pipes": Pipes, "redis": OverRedis, "machines": Machines, "s3": OverS3}
COMMON, SPELL = 0.3, 2.0  # the share of commands at one path for all nodes, each in its node's network, and the seconds for which it is that path
CALM = 240.0  # seconds in which an undisturbed farm has to do its last commands, on a machine that others may have
CHOICES = [["locked:a"], ["locked:a"], ["locked:b"], ["locked:a", "locked:b"], ["locked:a", "ro=locked:b"], ["private:p"], ["shared:s"]]
TROUBLES = ("503", "slow 0.5", "slow 5", "slow 12", "lost", "unanswered", "repeated")  # what a bucket does to requests
SPOILT = 99  # the status of a command that found a folder in a state that no command leaves

# What is done to the farm, in an order that each round draws anew.
DECK = ("coordinator", "node", "node", "withdraw", "withdraw", "withdraw", "client", "agent", "redis", "pause", "cut", "cut", "chunk", "chunk", "gc", "gc", "record", "clock", "store", "object", "object")

DAY = 86_400
JUMPS = (0, 600, -600, 3 * DAY, -3 * DAY, 400 * DAY, -400 * DAY)  # seconds that clocks are off the machine's

# What a command does in each folder that it may write.
WORK = """
[ ! -e {path}/half ] || exit 99
[ ! -e {path}/blob ] || [ "$(sha256sum < {path}/blob)" = "$(cat {path}/sum)" ] || exit 99
touch {path}/half; echo {token} >> {path}/lineage; chmod 751 {path}/lineage; ln -sf lineage {path}/link
head -c {size} /dev/urandom > {path}/blob; sleep {nap}; sha256sum < {path}/blob > {path}/sum; rm {path}/half
"""
DOCKERFILE = """FROM scratch
COPY busybox /bin/busybox
COPY work /work
RUN --mount=type=cache,id=a,sharing=locked,target=/a ["/bin/busybox", "sh", "/work"]
"""


@dataclass
class Given:
    seconds: float
    seed: int
    over: str
    wrong: str | None
    builds: float
    verbose: bool
    brokers: int = 1


class Chaos:
    def __init__(self, given: Given, room: str) -> None:
        self.given, self.room = given, room
        self.dice = random.Random(given.seed)
        self.deck: tuple[str, ...] = DECK + ("redis",) * (len(DECK) // 2 if given.brokers > 1 else 0)
        self.counts: Counter[str] = Counter()
        self.told: list[Told] = []
        self.clients: dict[str, subprocess.Popen[str]] = {}
        self.lock = threading.Lock()
        self.stopping = threading.Event()
        kind, words = KINDS[given.over], (f"{room}/farm", NODES, given.seed, given.wrong)
        self.farm: Farm = kind(*words, given.brokers) if issubclass(kind, OverRedis) else kind(*words)
        self.breaking = threading.Thread()  # one of several brokers is away meanwhile
        self.turn = 0  # of brokers
        self.attacker: Attacker | None = None
        self.spoilt: dict[int, set[str]] = {node: set() for node in range(1, NODES + 1)}  # chunks that were spoilt in each node's home
        self.spoilt_objects: set[str] = set()  # of the bucket
        self.copied = 0  # commits that were told when the record was copied last
        self.faults: list[str] = []  # of agents that don't start again
        self.late: list[str] = []  # what a farm that nobody disturbs didn't do in time

    def count(self, what: str) -> None:
        with self.lock:
            self.counts[what] += 1

    # Work.

    def run(self, name: str, node: int, folders: list[str], token: str, nap: float, fails: bool, patience: float | None = None) -> Told:
        paths = {folder: f"{self.room}/work/{name}/{folder.removeprefix('ro=').replace(':', '-')}" for folder in folders}
        if patience is None and len(folders) == 1 and not folders[0].startswith("shared:") and self.dice.random() < COMMON:
            paths[folders[0]] = f"{self.room}/work/common{int(time.monotonic() / SPELL)}"
        writable = [folder for folder in folders if not folder.startswith("ro=")]
        parts = []
        for folder in writable:
            size = self.dice.randrange(1, 200_000)
            path = paths[folder]
            work = f"echo {token} >> {path}/lineage; sleep {nap}" if folder.startswith("shared:") else WORK
            parts.append(work.format(path=path, token=token, nap=nap, size=size, half=HALF))
        words = [word for folder in folders for word in ("--folder", f"{folder}={paths[folder]}")]
        words += ["--on-lost", "stop"] if self.dice.random() < 0.3 else []
        command = "set -e\n" + "\n".join(parts) + ("\nexit 3" if fails else "")
        return self._client(name, node, "run", [*words, "--", "sh", "-c", command], token, writable, patience)

    def env(self, node: int) -> dict[str, str]:
        """The environment of a node's commands."""
        return dict(os.environ)

    def build(self, name: str, node: int, token: str, nap: float, fails: bool) -> Told:
        context = f"{self.room}/work/{name}/context"
        os.makedirs(context, exist_ok=True)
        if not os.path.exists(f"{context}/busybox"):
            shutil.copy(shutil.which("busybox") or "", f"{context}/busybox")
        work = WORK.format(path="/a", token=token, nap=nap, size=self.dice.randrange(1, 200_000)) + ("\nexit 3" if fails else "")
        applets = ("cat", "chmod", "head", "ln", "rm", "sha256sum", "sleep", "touch")
        for file, text in (("Dockerfile", DOCKERFILE), ("work", "set -e\n" + "".join(f'{a}() {{ busybox {a} "$@"; }}\n' for a in applets) + work)):
            with open(f"{context}/{file}", "w") as stream:
                stream.write(text)
        return self._client(name, node, "build", [context], token, ["locked:a"], None)

    def _client(
        self, name: str, node: int, verb: str, words: list[str], token: str, writable: list[str], patience: float | None
    ) -> Told:
        process = subprocess.Popen(
            [*PYTHON_FARM, verb, "--home", self.farm.home(node), "--node", str(node), *words], stdin=subprocess.DEVNULL,
            stdout=subprocess.DEVNULL if verb == "run" else subprocess.PIPE, stderr=subprocess.STDOUT if verb == "build" else subprocess.PIPE,
            text=True, cwd=self.room, env=self.env(node),
        )
        with self.lock:
            self.clients[name] = process
        try:
            out, err = process.communicate(timeout=patience)
        except subprocess.TimeoutExpired:
            process.kill()
            out, err = process.communicate()
        with self.lock:
            self.clients.pop(name, None)
        told = told_of(token, writable, process.returncode, (out or "") + (err or ""))
        with self.lock:
            self.told.append(told)
            self.counts[f"{verb}s"] += 1
        return told

    def work(self, node: int, number: int) -> None:
        """Commands and builds on a node, one after the other."""
        name, done = f"n{node}w{number}", 0
        dice = random.Random(self.given.seed * 100 + node * 10 + number)
        while not self.stopping.is_set():
            done += 1
            token, nap, fails = f"{name}-{done}", round(dice.random() * 0.6, 2), dice.random() < 0.1
            if dice.random() < self.given.builds:
                told = self.build(name, node, token, nap, fails)
            else:
                told = self.run(name, node, dice.choice(CHOICES), token, nap, fails)
            if told.how == "unknown":
                self.stopping.wait(0.3)

    # Disturbance.

    def ask(self, *words: str) -> str:
        done = subprocess.run([*PYTHON_FARM, *words, "--home", self.farm.home(None)], stdin=subprocess.DEVNULL, capture_output=True, text=True, timeout=60)
        return done.stdout if done.returncode == 0 else ""

    def disturb(self) -> None:
        deck: list[str] = []
        while not self.stopping.wait(self.dice.uniform(0.2, 1.4)):
            if not deck:
                deck = list(self.deck)
                self.dice.shuffle(deck)
            what = deck.pop()
            try:
                self.disturb_by(what)
            except (OSError, subprocess.TimeoutExpired):
                pass
            except FarmFault as fault:
                self.faults.append(str(fault))
                self.stopping.set()

    def disturb_by(self, what: str) -> None:
        dice, farm = self.dice, self.farm
        if what in ("coordinator", "node"):
            names = farm.filters()
            chosen = "coordinator" if what == "coordinator" else f"node{dice.randrange(1, NODES + 1)}"
            if chosen in names and kill(names[chosen]):
                self.count(f"{what} filters killed")
        elif what == "withdraw":
            live = self.leases()
            if live:
                self.withdraw(dice.choice(live)[1])
        elif what == "pause":
            self.pause(dice.randrange(1, NODES + 1))
        elif what == "client":
            with self.lock:
                processes = list(self.clients.values())
            if processes and kill(dice.choice(processes).pid):
                self.count("clients killed")
        elif what == "agent":
            farm.kill(dice.choice(farm.names()), dice.random())
            self.count("agents killed")
        elif what == "gc":
            self.gc(dice.choice([None, *range(1, NODES + 1)]), dice.choice([None, dice.random()]))
        elif what == "record":
            self.put_back()
        else:
            self.disturb_world(what)

    def disturb_world(self, what: str) -> None:
        """What the farm stands on: clocks, stores, cables."""
        dice, farm = self.dice, self.farm
        if what == "chunk" and isinstance(farm, OverRedis):
            self.spoil_chunk(dice.randrange(1, NODES + 1))
        elif what == "clock" and farm.clocks:
            farm.set_clocks(dice.choice(JUMPS[:3] if isinstance(farm, OverS3) else JUMPS))  # S3 refuses what was signed at another quarter of an hour
            self.count("clocks set")
        elif what == "redis" and isinstance(farm, OverRedis):
            self.break_broker(farm)
        elif what == "store" and isinstance(farm, OverS3):
            farm.trouble(how := dice.choice(TROUBLES), dice.uniform(1, 6))
            self.count(f"times that the bucket answered {how}")
        elif what == "object" and isinstance(farm, OverS3):
            self.spoil_object(farm)
        elif what == "cut" and isinstance(farm, Machines):
            before = self.commits()
            farm.cut(dice.randrange(2, NODES + 1), dice.uniform(1, 9))
            self.count("cables cut")
            self.counts["commits told while a cable was cut"] += self.commits() - before

    def break_broker(self, farm: OverRedis) -> None:
        """Kills the broker, or of several the next one, or has that hang, while all else goes on."""
        if len(farm.ports) == 1:
            farm.kill_redis(self.dice.random() * 2)
            return self.count("Redis killed")
        if self.breaking.is_alive():
            return None
        self.turn = (self.turn + 1) % len(farm.ports)
        how = self.dice.choice(["killed", "stopped"])
        does = farm.kill_redis if how == "killed" else farm.hang_redis
        self.breaking = threading.Thread(target=does, args=(self.dice.uniform(1, 8), self.turn))
        self.breaking.start()
        return self.count(f"times that broker {self.turn + 1} was {how}")

    def spoil_chunk(self, node: int) -> None:
        """Zeroes a chunk of a node's home, flips a bit, or puts another one in its place: one that another node has as well."""
        homes = [f"{self.farm.home(number)}/contents/chunks" for number in range(1, NODES + 1)]
        names = {home: set(glob.glob("*/*.cacnk", root_dir=home)) for home in homes}
        own = names.pop(homes[node - 1])
        shared = sorted(own & set().union(*names.values()))
        if len(shared) < 2:
            return
        name, other = self.dice.sample(shared, 2)
        path = f"{homes[node - 1]}/{name}"
        with open(path, "rb") as file:
            data = file.read()
        with open(f"{homes[node - 1]}/{other}", "rb") as file:
            others = file.read()
        at = self.dice.randrange(max(1, len(data)))
        how, bad = self.dice.choice([
            ("zeroed", bytes(len(data))), ("flipped", data[:at] + bytes([(data or b"\0")[at] ^ 1]) + data[at + 1 :]), ("swapped", others), ("emptied", b""),
        ])
        self.spoilt[node].add(f":chunk:{name.partition('/')[2].removesuffix('.cacnk')}")
        with open(f"{path}.bad", "wb") as file:
            file.write(bad)
        os.rename(f"{path}.bad", path)
        self.count(f"chunks {how}")

    def spoil_object(self, farm: OverS3) -> None:
        try:
            self.spoilt_objects.add(farm.spoil(self.dice) or "")
            self.count("objects spoilt or lost")
        except BucketAway:
            self.count("times that the bucket was too slow to be spoilt")

    def gc(self, node: int | None, patience: float | None) -> None:
        """Forgets what no version has, however young it is, and is killed amid that, or not."""
        words = [*PYTHON_FARM, "gc", "--keep", "1000000", "--grace", "0", "--home", self.farm.home(node)]
        process = subprocess.Popen(words, stdin=subprocess.DEVNULL, stdout=subprocess.DEVNULL, stderr=subprocess.DEVNULL)
        try:
            process.wait(60 if patience is None else patience)
            self.count("gc ended")
        except subprocess.TimeoutExpired:
            process.kill()
            process.wait()
            self.count("gc killed")

    def put_back(self) -> None:
        """An old record is put back in place of the right one: it has to be noticed, where commits were told since."""
        commits = self.commits()
        said = self.farm.put_back(f"{self.room}/old-record", self.dice.random())
        if commits - self.copied > 3 and said != "there was none":
            if "--restored" not in said:
                self.faults.append(f"an old record was taken: {said}")
                self.stopping.set()
            self.count("old records noticed")
        elif not said:
            self.farm.kill(self.farm.names()[0], 0.0)  # it took a record that nothing had followed
        self.copied = commits

    def commits(self) -> int:
        with self.lock:
            return sum(len(told.committed) for told in self.told)

    def leases(self) -> list[tuple[int, str]]:
        """Node and ticket of each lease that can be withdrawn."""
        told = json.loads(self.ask("status", "--json") or "{}").get("leases", [])
        return [(lease["node"], str(lease["ticket"])) for lease in told if lease["kind"] != "tenure"]

    def withdraw(self, ticket: str) -> None:
        self.ask("withdraw", ticket)
        self.count("leases withdrawn")

    def pause(self, node: int) -> None:
        """A node falls silent, its leases are withdrawn, and it goes on as if nothing had been."""
        pid = self.farm.pausable(node)
        if pid is None or not kill(pid, signal.SIGSTOP):
            return
        try:
            for holder, ticket in self.leases():
                if holder == node:
                    self.withdraw(ticket)
            time.sleep(self.dice.uniform(0.5, 2.5))
        finally:
            kill(pid, signal.SIGCONT)
        self.count("nodes paused")

    # The whole.

    def calm(self) -> list[str]:
        """Undisturbed, each node has to get each folder within some time. Which it was refused."""
        refused: list[str] = []
        for node in range(1, NODES + 1):
            for folders in (["locked:a", "locked:b"], ["private:p"], ["shared:s"]):
                if folders[0].startswith("shared:") and not can_have_namespaces():
                    continue
                told = self.run(f"calm{node}", node, folders, f"calm{node}-{folders[0]}", 0.0, False, CALM)
                if told.status or not told.committed:
                    found = self.late if told.status < 0 else refused
                    found.append(f"node {node} doesn't get {folders} any more: status {told.status}, {told.said[-300:]}")
        return refused

    def lines(self) -> Lines:
        lines: Lines = {}
        for folder in ("locked:a", "locked:b", "private:p", "shared:s"):
            for line in self.ask("log", folder).splitlines():
                words = line.split(" ")
                lines.setdefault(words[0], []).append((int(words[2]), int(words[4]), words[5]))
        return lines

    def trial(self) -> Verdict:
        self.farm.begin()
        if isinstance(self.farm, OverRedis):
            self.attacker = Attacker(self.farm, self.given.seed, self.count)
        workers = [threading.Thread(target=self.work, args=(node, k)) for node in range(1, NODES + 1) for k in range(EACH)]
        saboteur = threading.Thread(target=self.disturb)
        for thread in (*workers, saboteur):
            thread.start()
        self.stopping.wait(self.given.seconds)
        self.stopping.set()
        saboteur.join()
        if self.breaking.ident:
            self.breaking.join()
        if self.attacker:
            self.attacker.stop()
        self.join(workers)
        refused = [] if self.late or self.faults or self.given.wrong else self.calm()
        if self.faults:
            return Verdict({}, [], "")  # no farm stands that could be judged
        lines = self.lines()
        verdict = Verdict(lines, self.told, self.farm.history)
        verdict.judge_lines()
        verdict.judge_told()
        self.farm.end_agents()
        verdict.judge_contents(self.sources(), self.room)
        for each in [*refused, *(f"{told.token} found a folder as no command leaves it" for told in self.told if told.status == SPOILT)]:
            verdict.blame(each)
        return verdict

    def join(self, workers: list[threading.Thread]) -> None:
        """Waits for the last commands: a farm that nobody disturbs has to end them. Of one with a wrong agent nothing is expected."""
        end = time.monotonic() + (5.0 if self.given.wrong else CALM)
        for thread in workers:
            thread.join(max(0.0, end - time.monotonic()))
        with self.lock:
            waiting = dict(self.clients)
        standing = self.farm.standing() if waiting and not self.given.wrong else ""
        for process in waiting.values():
            kill(process.pid)
        for thread in workers:
            thread.join(10)
        if standing:
            said = [f"{told.token} said {told.said[-500:]!r}" for told in self.told[-len(waiting) :]]
            self.late.append(f"commands of {', '.join(waiting)} didn't end: {'; '.join(said)}\n{standing}")

    def sources(self) -> list[Source]:
        spoilt = self.attacker.spoilt if self.attacker else set()
        if not isinstance(self.farm, OverRedis):
            return [Copy("the farm's store", FolderStore(f"{self.farm.home(None)}/contents"), True, "", spoilt)]
        made: list[Source]
        if isinstance(self.farm, OverS3):
            made = [Copy("the bucket", self.farm.contents, True, "", self.spoilt_objects)]
        else:
            urls = self.farm.urls("127.0.0.1")
            made = [
                Copy(f"broker {number + 1}" if urls[1:] else "Redis", RedisStore(url, f"{self.room}/fresh{number}", self.farm.farm), not urls[1:], self.farm.farm, spoilt)
                for number, url in enumerate(urls)
            ]
            made += [Copy("all brokers", BrokersStore(urls, f"{self.room}/fresh", self.farm.farm), True, self.farm.farm, spoilt)] if urls[1:] else []
        for node in range(1, NODES + 1):
            made.append(Copy(f"node {node}", FolderStore(f"{self.farm.home(node)}/contents"), False, "", self.spoilt[node]))
        return made


@dataclass
class Copy:
    name: str
    store: Store
    must_have: bool
    farm: str
    spoilt: set[str]

    def is_spoilt(self, digest: str, index: bytes | None) -> bool:
        names = chunk_names(index) if index else []
        return any(key in self.spoilt for key in [f"{self.farm}:index:{digest}", *(f"{self.farm}:chunk:{name}" for name in names)])


def words() -> Given:
    made = argparse.ArgumentParser(description=__doc__, formatter_class=argparse.RawDescriptionHelpFormatter)
    made.add_argument("--seconds", type=float, default=60, help="how long the farm is disturbed (%(default)s)")
    made.add_argument("--seed", type=int, default=1)
    made.add_argument("--over", choices=list(KINDS), default="pipes")
    made.add_argument("--wrong", choices=["early", "stale", "unsealed"], help="an agent that commits before contents are kept, or "
                      "that takes what stands at a path for what it was, or, of the stand-in alone, filters that check no seals: the trial has to fail")
    made.add_argument("--builds", type=float, default=0.1, help="the share of builds (%(default)s)")
    made.add_argument("--brokers", type=int, default=1, metavar="N", help="over so many brokers, each of which is killed or stopped in turn (%(default)s)")
    made.add_argument("--verbose", action="store_true", help="keeps the folder, and says where it is")
    args = made.parse_args()
    can_build = os.geteuid() == 0 and can_have_namespaces() and shutil.which("buildah") and shutil.which("busybox")
    return Given(args.seconds, args.seed, args.over, args.wrong, args.builds if can_build else 0.0, args.verbose, args.brokers)


def main() -> int:
    given = words()
    if given.wrong == "unsealed":
        os.environ["PRACTICE_UNSEALED"] = "1"
    return judged(given, Chaos)


def judged(given: Given, make: Callable[[Given, str], Chaos]) -> int:
    """Makes the trial, and says what came of it. Its status."""
    room = os.path.realpath(tempfile.mkdtemp(prefix="farm-chaos-"))
    chaos = make(given, room)
    try:
        verdict = chaos.trial()
    except FarmFault as fault:
        print(f"the trial can't go on: {fault}")
        return 1
    finally:
        chaos.stopping.set()
        chaos.farm.end()
        left = chaos.farm.left()
        if not given.verbose:
            shutil.rmtree(room, ignore_errors=True)
    wrong = verdict.wrong + chaos.faults + [f"a process is left: {each}" for each in left]
    for counts in (chaos.counts, verdict.counts):
        print(", ".join(f"{count} {what}" for what, count in sorted(counts.items())))
    for each in chaos.late[:20]:
        print(f"late: {each}")
    for each in wrong[:20]:
        print(f"wrong: {each}")
    if given.verbose:
        print(f"kept in {room}")
    right = verdict.counts["versions taken out"]
    print(f"{given.over}, seed {given.seed}, {given.seconds:g} seconds: {right} right, {len(wrong)} wrong")
    return 1 if wrong or chaos.late or not right else 0


if __name__ == "__main__":
    sys.exit(main())
