#!/usr/bin/env python3
"""A node was taken over: who took it has its key and its user of the broker, and tries everything beside two honest nodes that commit.

Each honest command has to count, no lease of an honest node may end before its time, and once the node is put out nothing of it counts.
`--wrong one-key` gives whoever took it the farm's own key, as all nodes had it before each had its own: then the trial has to fail.
"""
from __future__ import annotations

import argparse
import base64
import contextlib
import hashlib
import hmac
import json
import os
import random
import shutil
import subprocess
import sys
import tempfile
import threading
import time
from pathlib import Path
from typing import Callable, Iterator

sys.dont_write_bytecode = True
sys.path.insert(0, str(Path(__file__).resolve().parents[2]))

from agent.faults import FarmFault  # noqa: E402
from agent.store.opened import farm_name  # noqa: E402
from agent.tests.support import free_port, redis_server  # noqa: E402
from agent.trials.farms import PYTHON_FARM  # noqa: E402
from agent.transport.hints import Hints, to_nodes  # noqa: E402
from agent.transport.keys import FarmKey, digits_of, make_key  # noqa: E402
from agent.transport.redis_wire import Redis, RedisFault, signed_in  # noqa: E402

HONEST, TAKEN, NODES = (1, 2), 3, 3
GREATEST = 2**64 - 2  # of the lives that a line may carry
DIGEST = "7" * 64


class Farm:
    """A coordinator and two honest nodes over Redis, each by its own user."""

    def __init__(self, room: str, url: str) -> None:
        self.room, self.url = room, url
        self.key = FarmKey(make_key(f"{room}/c/key"))
        self.agents: list[subprocess.Popen[bytes]] = []

    def begin(self) -> None:
        self._start("coordinator", "--home", f"{self.room}/c", "--broker", self.user("coordinator"))
        for node in HONEST:
            self.said("key", str(node), f"{self.room}/n{node}/node.key", "--home", f"{self.room}/c")
            self._start("node", str(node), "--home", f"{self.room}/n{node}", "--broker", self.user(f"node{node}"))

    def _start(self, *words: str) -> None:
        with open(f"{self.room}/said", "ab") as log:
            agent = subprocess.Popen([*PYTHON_FARM, *words, "--nodes", str(NODES)], stdin=subprocess.DEVNULL, stdout=subprocess.PIPE, stderr=log)
        self.agents.append(agent)
        assert agent.stdout
        if agent.stdout.readline() != b"up\n":
            raise FarmFault(f"{words[0]} doesn't start")

    def user(self, name: str) -> str:
        return self.url.replace("//", f"//farm-{name}@")

    def said(self, *words: str) -> str:
        done = subprocess.run([*PYTHON_FARM, *words], stdin=subprocess.DEVNULL, capture_output=True, text=True, timeout=120)
        if done.returncode:
            raise FarmFault(f"{words}: status {done.returncode}: {done.stderr}")
        return done.stdout + done.stderr

    def end(self) -> None:
        for agent in self.agents:
            agent.terminate()
            agent.communicate()


class Attacker:
    """Who took a node over. It asks for no folder of others: those it may hold as any node may."""

    def __init__(self, farm: Farm, seed: int, wrong: str | None) -> None:
        self.dice, self.wrong = random.Random(seed), wrong
        self.own = farm.key.of_node(TAKEN)
        self.master = farm.key.key if wrong == "one-key" else None
        self.server = Redis(signed_in(farm.user(f"node{TAKEN}"), self.own.password()))
        self.insider = Redis(signed_in(farm.user("coordinator"), farm.key.password()))  # it tells which chunks there are
        self.lines, self.contents = f"farm-{farm.key.names.lines()}", farm_name(farm.key.names)
        self.counts: dict[str, int] = {}
        self.asks = 0

    def go_on(self, over: threading.Event) -> None:
        ways: list[Callable[[], None]] = [self.speak, self.speak_for_others, self.hint, self.spoil, self.flood]
        while not over.wait(0.01):
            way = self.dice.choice(ways)
            with contextlib.suppress(RedisFault):
                way()
                self.counts[way.__name__] = self.counts.get(way.__name__, 0) + 1

    def _send(self, to: str, line: str) -> None:
        self.server.call("XADD", f"{self.lines}:to:{to}", "MAXLEN", "~", 2000, "*", "line", line)

    def _sealed(self, text: str, node: int = TAKEN) -> str:
        key = digits_of(self.master, node) if self.master else self.own.digits
        return f"{text} {hmac.new(key.encode(), text.encode(), hashlib.sha256).hexdigest()}"

    def _word(self, node: int) -> str:
        """Something that a node may say, of any life and ticket."""
        life = self.dice.choice([1, int(time.time()), GREATEST, self.dice.randrange(1, 2**40)])
        ticket = self.dice.randrange(1, 400)
        self.asks += 1
        folder = self.dice.choice(["locked:evil", "private:evil", "shared:evil"])
        return self.dice.choice([
            f"hello {node} {life}", f"acquire {node} {life} {self.asks} {folder}", f"tenure {node} {life} {self.asks} shared:evil",
            f"commit {node} {life} {ticket} locked:c={DIGEST}", f"commit {node} {life} {ticket} locked:evil={DIGEST}", f"release {node} {life} {ticket}",
        ])

    def speak(self) -> None:
        self._send("coordinator", self._sealed(self._word(TAKEN)))

    def speak_for_others(self) -> None:
        """As an honest node, or as the coordinator."""
        node = self.dice.choice(HONEST)
        self._send("coordinator", self._sealed(self._word(node), node))
        told = [f"denied {node} 1 1", f"fenced {node} 1 {self.dice.randrange(1, 400)}", f"recall {node} 1 1 shared:s"]
        self._send(f"node.{node}", self._sealed(self.dice.choice(told), node))

    def hint(self) -> None:
        hints, node = Hints((digits_of(self.master, self.dice.choice(HONEST)) if self.master else self.own.digits).encode()), self.dice.choice(HONEST)
        known = f"ticket=999999:granted locked:c=500:{DIGEST}"
        to_coordinator = [f"here {node}", f"left {node} 1 1 2 3", f"knows {TAKEN} x 0 1 {known}", f"knows {node} x 0 1 {known}", "coordinator x stands", f"lost {TAKEN} locked:c=9:{DIGEST}"]
        to_node = [f"outdated {node} {GREATEST}", f"gone {node}", f"ended {self.dice.randrange(1, 400)} {node}", f"known {node} {known}"]
        self._send("coordinator", hints.seal(self.dice.choice(to_coordinator)))
        self._send(f"node.{node}", hints.seal(self.dice.choice(to_node)))

    def spoil(self) -> None:
        """Other nodes' chunks and indexes, and contents of its own."""
        kind = self.dice.choice(["chunk", "index"])
        names = self.insider.call("SCAN", self.dice.randrange(1000), "MATCH", f"{self.contents}:{kind}:*", "COUNT", 300)[1]
        name = self.dice.choice(names) if names else f"{self.contents}:{kind}:{DIGEST}"
        self.server.call("SET", name, self.dice.choice([b"another content", b"", os.urandom(300)]))

    def flood(self) -> None:
        node = self.dice.choice(HONEST)
        digest = f"{self.dice.randrange(2**256):064x}"
        blob = base64.b64encode(os.urandom(2000)).decode()
        for line in (to_nodes(f"lacks {TAKEN} {digest}"), f"fetch {node} {TAKEN} {digest} -", f"blob {node} {blob} -", "m withdraw 1", "withdraw 1"):
            self._send(f"node.{node}", line)


class Honest:
    """Commands on one node, each of which adds a line to a folder that both have."""

    def __init__(self, farm: Farm, node: int) -> None:
        self.farm, self.node = farm, node
        self.lines: list[str] = []
        self.faults: list[str] = []

    def go_on(self, over: threading.Event) -> None:
        path = f"{self.farm.room}/w{self.node}"
        while not over.is_set():
            line = f"{self.node}.{len(self.lines)}"
            try:
                said = self.farm.said("run", "--must-commit", "--wait", "100", "--home", f"{self.farm.room}/n{self.node}", "--folder", f"locked:c={path}", "--", "sh", "-c", f"echo {line} >> {path}/f")
            except (FarmFault, subprocess.TimeoutExpired) as fault:
                return self.faults.append(str(fault))
            self.lines.append(line)
            if "later life" in said or "committed" not in said:
                self.faults.append(said)


def attacked(farm: Farm, seconds: float, seed: int, wrong: str | None) -> Iterator[str]:
    """What was wrong; at the end what was tried is printed."""
    over, attacker = threading.Event(), Attacker(farm, seed, wrong)
    honest = [Honest(farm, node) for node in HONEST]
    threads = [threading.Thread(target=go_on, args=(over,)) for go_on in (attacker.go_on, *(each.go_on for each in honest))]
    for thread in threads:
        thread.start()
    time.sleep(seconds)
    over.set()
    for thread in threads:
        thread.join()
    for each in honest:
        yield from (f"node {each.node}: {fault}" for fault in each.faults)
    try:
        farm.said("get", "--home", f"{farm.room}/c", "locked:c", f"{farm.room}/got")
    except FarmFault as fault:
        yield str(fault)
        return
    with open(f"{farm.room}/got/f") as file:
        found = file.read().split()
    if sorted(found) != sorted(line for each in honest for line in each.lines):
        yield f"the last version has {len(found)} lines, and {sum(len(each.lines) for each in honest)} commands counted"
    with open(f"{farm.room}/said") as file:
        yield from (line.strip() for line in file if "does another agent run" in line or "takes part in nothing" in line or "older than the farm" in line)
    yield from put_out(farm, attacker)
    print(f"{len(found)} commands of honest nodes counted; tried: {', '.join(f'{count} {name}' for name, count in sorted(attacker.counts.items()))}")


def put_out(farm: Farm, attacker: Attacker) -> Iterator[str]:
    """After the operator's call the node has nothing, and nothing that it says counts."""
    home = f"{farm.room}/c"
    farm.said("expel", "--home", home, str(TAKEN))
    before = json.loads(farm.said("status", "--json", "--home", home))
    over = threading.Event()
    thread = threading.Thread(target=attacker.go_on, args=(over,))
    thread.start()
    time.sleep(2.0)
    over.set()
    thread.join()
    after = json.loads(farm.said("status", "--json", "--home", home))
    if any(lease["node"] == TAKEN for lease in after["leases"]) or TAKEN not in after["gone"]:
        yield f"node {TAKEN} was put out, and has {after['leases']}"
    if after["folders"] != before["folders"]:
        yield f"versions were added after the node was put out: {after['folders']}"


def main() -> int:
    made = argparse.ArgumentParser(description=__doc__)
    made.add_argument("--seconds", type=float, default=20.0)
    made.add_argument("--seed", type=int, default=0)
    made.add_argument("--wrong", choices=["one-key"])
    given = made.parse_args()
    room = os.path.realpath(tempfile.mkdtemp(prefix="farm-takenover-"))
    try:
        key = FarmKey(make_key(f"{room}/c/key"))
        users = subprocess.run([*PYTHON_FARM, "broker-users", "--home", f"{room}/c", "--nodes", str(NODES)], check=True, capture_output=True, text=True).stdout
        with open(f"{room}/users.acl", "w") as file:
            file.write(users)
        with redis_server(room, "--aclfile", f"{room}/users.acl", "--appendonly", "yes", "--appendfsync", "always", port=free_port()) as url:
            farm = Farm(room, url)
            assert farm.key.names == key.names
            try:
                farm.begin()
                wrong = list(attacked(farm, given.seconds, given.seed, given.wrong))
            finally:
                farm.end()
    finally:
        shutil.rmtree(room, ignore_errors=True)
    for each in wrong:
        print(f"wrong: {each}")
    return 1 if wrong else 0


if __name__ == "__main__":
    sys.exit(main())
