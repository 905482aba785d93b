"""Farms for trials: agents as processes of this machine, over pipes or over a Redis of their own, which are killed and started again."""
from __future__ import annotations

import contextlib
import json
import os
import random
import shutil
import signal
import socket
import struct
import subprocess
import sys
import threading
import time
from typing import Any, Callable

from agent.runs import launch
from agent.faults import FarmFault
from agent.transport.keys import NODE_NAME, FarmKey, make_key
from agent.transport.redis_wire import Redis, RedisFault
from agent.store.lasting import put_file
from agent.store.opened import farm_name
from agent.store.s3 import S3Store
from agent.tests.support import free_port
from agent.tools import TOP, need
from agent.trials import s3

DISTURBED = f"{TOP}/agent/trials/disturbed.py"
PYTHON_FARM = [sys.executable, "-IS", f"{TOP}/farm"]
LAST = 150  # lines of an agent's log
UP_MOST = 180.0  # seconds: other work may have the machine
CLONE_NEWNET = 0x40000000


class Farm:
    """The agents of a farm, each a process: their names and words."""

    def __init__(self, room: str, nodes: int, seed: int, wrong: str | None) -> None:
        self.room, self.nodes, self.seed, self.wrong = room, nodes, seed, wrong
        self.history = f"{room}/history"
        self.agents: dict[str, subprocess.Popen[str]] = {}
        self.starts = 0
        self.lock = threading.RLock()
        os.makedirs(room, mode=0o700, exist_ok=True)
        self.clocks = self._made_clocks()
        self.set_clocks(0)

    # What a kind of farm says.

    def words(self, name: str) -> list[str]:
        """The words of `farm` that start an agent."""
        raise NotImplementedError

    def home(self, node: int | None) -> str:
        """The home of a node, or of the coordinator."""
        raise NotImplementedError

    def names(self) -> list[str]:
        raise NotImplementedError

    def pausable(self, node: int) -> int | None:
        """The process without which a node neither speaks nor hears."""
        raise NotImplementedError

    # What is the same for all.

    def _made_clocks(self) -> dict[str, str]:
        """What has a process see a time of day that is set; nothing where there is no C compiler."""
        compiler = shutil.which(os.environ.get("CC") or "cc")
        if not compiler:
            return {}
        library = f"{self.room}/clocks.so"
        subprocess.run([compiler, "-O2", "-shared", "-fPIC", "-o", library, f"{TOP}/agent/trials/clocks.c"], check=True)
        return {"LD_PRELOAD": library, "CLOCKS_BY": f"{self.room}/clock"}

    def set_clocks(self, seconds: int) -> None:
        """The time of day of all agents and filters jumps to this much from the machine's."""
        with open(f"{self.room}/clock", "r+b" if os.path.exists(f"{self.room}/clock") else "wb") as file:
            file.write(struct.pack("=q", seconds))

    def begin(self) -> None:
        for name in self.names():
            self.start(name)

    def command(self, name: str) -> list[str]:
        return [sys.executable, DISTURBED, *self.words(name), "--verbose"]

    def start(self, name: str) -> None:
        with self.lock:
            self.starts += 1
            trial = {"seed": self.seed * 1000 + self.starts, "history": self.history, "wrong": self.wrong}
            log = open(f"{self.room}/{name}.log", "a")
            process = subprocess.Popen(
                self.command(name), env=os.environ | self.clocks | {"TRIAL": json.dumps(trial)}, stdin=subprocess.DEVNULL, stdout=subprocess.PIPE,
                stderr=log, text=True, start_new_session=True,
            )
            log.close()
            self.agents[name] = process
        assert process.stdout
        late = threading.Timer(UP_MOST, process.kill)
        late.start()
        said = process.stdout.readline()
        late.cancel()
        if said != "up\n":
            with open(f"{self.room}/{name}.log") as file:
                raise FarmFault(f"the agent of {name} doesn't start: {file.read()[-500:]}")

    def kill(self, name: str, pause: float) -> None:
        """Kills an agent, and starts it again after a while."""
        with self.lock:
            process = self.agents[name]
            process.kill()
            process.wait()
            assert process.stdout
            process.stdout.close()
        time.sleep(pause)
        self.start(name)

    def put_back(self, old: str, pause: float) -> str:
        """Kills the agent that has the coordinator, and starts it with an older record in place of its own, then with the right one. What it
        said to the older one; empty where it took that. The old one is taken where there is none, and each time anew."""
        name, home, kept = self.names()[0], self.home(None), f"{self.room}/right"
        with self.lock:
            process = self.agents[name]
            process.kill()
            process.wait()
            assert process.stdout
            process.stdout.close()
        time.sleep(pause)
        said = "there was none"
        shutil.rmtree(kept, ignore_errors=True)
        copy_record(home, kept)
        if os.path.isdir(old):
            copy_record(old, home)
            try:
                self.start(name)
                said = ""
            except FarmFault as fault:
                said = str(fault)
            copy_record(kept, home)
        shutil.rmtree(old, ignore_errors=True)
        copy_record(kept, old)
        if said:
            self.start(name)
        return said

    def filters(self) -> dict[str, int]:
        """The filters of these agents, by name."""
        found = {}
        with self.lock:
            agents = [process.pid for process in self.agents.values()]
        for agent in agents:
            for pid in children(agent):
                words = words_of(pid)
                if "--record" in words:
                    found["coordinator"] = pid
                elif "--store" in words:
                    found[f"node{words[words.index('--node') + 1]}"] = pid
        return found

    def standing(self) -> str:
        """Where the threads of each agent stand, and what it said last."""
        with self.lock:
            agents = dict(self.agents)
        for process in agents.values():
            kill(process.pid, signal.SIGUSR2)
        time.sleep(1.0)
        told = []
        for name in agents:
            with open(f"{self.room}/{name}.log", errors="replace") as file:
                told.append(f"{name}:\n{''.join(file.readlines()[-LAST:])}")
        return "\n".join(told)

    def end_agents(self) -> None:
        with self.lock:
            agents, self.agents = self.agents, {}
        for process in agents.values():
            process.terminate()
        for process in agents.values():
            try:
                process.wait(20)
            except subprocess.TimeoutExpired:
                process.kill()
                process.wait()
            if process.stdout:
                process.stdout.close()

    def end(self) -> None:
        self.end_agents()

    def left(self) -> list[str]:
        """Processes that still work in the farm's folders."""
        found = []
        for entry in os.listdir("/proc"):
            if entry.isdigit() and int(entry) not in (os.getpid(), os.getppid()):
                line = " ".join(words_of(int(entry)))
                if f"{self.room}/" in line and "chaos.py" not in line:
                    found.append(line[:200])
        return found


class Pipes(Farm):
    """All of a farm in one agent, over pipes."""

    def pausable(self, node: int) -> int | None:
        return self.filters().get(f"node{node}")

    def names(self) -> list[str]:
        return ["up"]

    def words(self, name: str) -> list[str]:
        return ["up", "--home", self.home(None), "--nodes", str(self.nodes)]

    def home(self, node: int | None) -> str:
        return f"{self.room}/h"


class OverRedis(Farm):
    """An agent for the coordinator and one for each node, each with a home of its own; one broker, or several."""

    def __init__(self, room: str, nodes: int, seed: int, wrong: str | None, brokers: int = 1) -> None:
        super().__init__(room, nodes, seed, wrong)
        self.ports = [free_port() for _ in range(brokers)]
        self.brokers: dict[int, subprocess.Popen[bytes]] = {}

    def pausable(self, node: int) -> int | None:
        with self.lock:
            return self.agents[f"node{node}"].pid if f"node{node}" in self.agents else None

    @property
    def url(self) -> str:
        return self.urls("127.0.0.1")[0]

    def urls(self, host: str) -> list[str]:
        return [f"redis://{host}:{port}" for port in self.ports]

    def host(self, node: int | None) -> str:
        """The address at which an agent finds the brokers."""
        return "127.0.0.1"

    def names(self) -> list[str]:
        return ["coordinator", *(f"node{number}" for number in range(1, self.nodes + 1))]

    def home(self, node: int | None) -> str:
        return f"{self.room}/{'c' if node is None else f'n{node}'}"

    def words(self, name: str) -> list[str]:
        node = None if name == "coordinator" else int(name[4:])
        role = ["coordinator"] if node is None else ["node", str(node)]
        return [*role, "--home", self.home(node), "--nodes", str(self.nodes), *(word for url in self.urls(self.host(node)) for word in ("--broker", url))]

    def begin(self) -> None:
        key = FarmKey(make_key(f"{self.home(None)}/key"))
        for node in range(1, self.nodes + 1):
            os.makedirs(self.home(node), mode=0o700, exist_ok=True)
            put_file(f"{self.home(node)}/{NODE_NAME}", key.of_node(node).text().encode())
        self.farm = farm_name(key.names)
        for number in range(len(self.ports)):
            self.start_redis(number)
        super().begin()

    def start_redis(self, number: int) -> None:
        os.makedirs(folder := f"{self.room}/redis{number}", exist_ok=True)
        words = ["--protected-mode", "no", "--bind", *self.addresses(), "--port", str(self.ports[number]), "--dir", folder, "--save", "", "--appendonly", "yes",
                 "--appendfsync", "always", "--logfile", f"{folder}/log"]
        self.brokers[number] = subprocess.Popen([need("redis-server"), *words])
        for _ in range(500):
            with socket.socket() as link:
                if link.connect_ex(("127.0.0.1", self.ports[number])) == 0:
                    return
            time.sleep(0.02)
        raise FarmFault("Redis doesn't start")

    def addresses(self) -> list[str]:
        return ["127.0.0.1"]

    def kill_redis(self, pause: float, number: int = 0) -> None:
        self.brokers[number].kill()
        self.brokers[number].wait()
        time.sleep(pause)
        self.start_redis(number)

    def hang_redis(self, pause: float, number: int = 0) -> None:
        self.brokers[number].send_signal(signal.SIGSTOP)
        time.sleep(pause)
        self.brokers[number].send_signal(signal.SIGCONT)

    def client(self, number: int = 0) -> Redis:
        return Redis(self.urls("127.0.0.1")[number])

    def end(self) -> None:
        super().end()
        for broker in self.brokers.values():
            broker.send_signal(signal.SIGCONT)
            broker.terminate()
            broker.wait()


def copy_record(source: str, to: str) -> None:
    os.makedirs(to, exist_ok=True)
    for name in ("record", "record.log"):
        if os.path.exists(f"{to}/{name}"):
            os.unlink(f"{to}/{name}")
        if os.path.exists(f"{source}/{name}"):
            shutil.copy2(f"{source}/{name}", to)


def words_of(pid: int) -> list[str]:
    try:
        with open(f"/proc/{pid}/cmdline", "rb") as file:
            return file.read().decode(errors="replace").split("\0")
    except OSError:
        return []


def children(pid: int) -> list[int]:
    found: list[int] = []
    try:
        for task in os.listdir(f"/proc/{pid}/task"):
            with open(f"/proc/{pid}/task/{task}/children") as file:
                found += [int(word) for word in file.read().split()]
    except OSError:
        pass  # it has ended
    return found


def kill(pid: int, number: int = signal.SIGKILL) -> bool:
    try:
        os.kill(pid, number)
        return True
    except ProcessLookupError:
        return False


class Machines(OverRedis):
    """As over Redis, with each node in a network of its own. Redis, the coordinator and the first node share one, and a cable goes from
    there to each other node."""

    def __init__(self, room: str, nodes: int, seed: int, wrong: str | None, brokers: int = 1) -> None:
        super().__init__(room, nodes, seed, wrong)
        self.ports = [6379 + number for number in range(brokers)]
        self.mark = f"f{os.getpid()}"

    def space(self, node: int) -> str:
        return f"{self.mark}n{node}"

    def begin(self) -> None:
        """Every process that this thread and those after it start is in the first node's network from now on."""
        for node in range(1, self.nodes + 1):
            ip("netns", "add", self.space(node))
            ip("-n", self.space(node), "link", "set", "lo", "up")
        for node in range(2, self.nodes + 1):
            near, far, net = f"c{node}", self.space(node), f"10.77.{node}"
            ip("-n", self.space(1), "link", "add", near, "type", "veth", "peer", "name", "c1", "netns", far)
            ip("-n", self.space(1), "addr", "add", f"{net}.1/30", "dev", near)
            ip("-n", far, "addr", "add", f"{net}.2/30", "dev", "c1")
            ip("-n", self.space(1), "link", "set", near, "up")
            ip("-n", far, "link", "set", "c1", "up")
        with open(f"/run/netns/{self.space(1)}") as space:
            launch.checked(launch.libc.setns(space.fileno(), CLONE_NEWNET), "setns")
        super().begin()

    def addresses(self) -> list[str]:
        return ["127.0.0.1", *(f"10.77.{node}.1" for node in range(2, self.nodes + 1))]

    def words(self, name: str) -> list[str]:
        words = super().words(name)
        return [*words, "--lease-timeout", "6"] if name == "coordinator" else words

    def host(self, node: int | None) -> str:
        return "127.0.0.1" if node in (None, 1) else f"10.77.{node}.1"

    def command(self, name: str) -> list[str]:
        words = super().command(name)
        return words if name in ("coordinator", "node1") else ["ip", "netns", "exec", self.space(int(name[4:])), *words]

    def cut(self, node: int, seconds: float) -> None:
        """Takes a cable away for a while."""
        ip("-n", self.space(1), "link", "set", f"c{node}", "down")
        try:
            time.sleep(seconds)
        finally:
            ip("-n", self.space(1), "link", "set", f"c{node}", "up")

    def end(self) -> None:
        super().end()
        for node in range(1, self.nodes + 1):
            ip("netns", "delete", self.space(node), must=False)


class OverS3(OverRedis):
    """As over Redis, with contents in an object store of this machine's own."""

    def begin(self) -> None:
        self.ending = contextlib.ExitStack()
        self.place = self.ending.enter_context(s3.server(f"{self.room}/swift"))
        os.environ.update(self.place.env)
        super().begin()
        self.contents = S3Store(self.place.url, f"{self.room}/fresh", self.farm)

    def words(self, name: str) -> list[str]:
        return [*super().words(name), "--contents", self.place.url]

    def trouble(self, what: str, seconds: float) -> None:
        """For a while the store does that to each request."""
        with self.place.faulty(what):
            time.sleep(seconds)

    def spoil(self, dice: random.Random) -> str | None:
        """Overwrites an object with another's bytes, or deletes it. What of a content it is; none where there is nothing."""
        bucket = self.contents.bucket
        keys = [entry.key for front in ("chunk/", "index/") for entry in bucket.listed(front)[1]]
        if len(keys) < 2:
            return None
        key, other = dice.sample(keys, 2)
        bad = dice.choice([b"", b"x" * 40, bucket.get(other, 1 << 24) or b"", None])
        if bad is None:
            bucket.delete([key])
        else:
            bucket.put(key, bad)
        return f":{key.replace('/', ':', 1)}"

    def end(self) -> None:
        super().end()
        self.ending.close()


def ip(*words: str, must: bool = True) -> None:
    done = subprocess.run([need("ip"), *words], stdin=subprocess.DEVNULL, capture_output=True, text=True)
    if done.returncode and must:
        raise FarmFault(f"ip {' '.join(words)}: {done.stderr.strip()}")


class Attacker:
    """A client of the broker that has no key: it sends what was never sent, what was sent to others, and spoils what is kept."""

    def __init__(self, farm: OverRedis, seed: int, count: Callable[[str], None]) -> None:
        self.farm, self.dice, self.count = farm, random.Random(seed), count
        self.spoilt: set[str] = set()  # the keys that it wrote
        self.stopping = threading.Event()
        self.thread = threading.Thread(target=self._run, daemon=True)
        self.thread.start()

    def stop(self) -> None:
        self.stopping.set()
        self.thread.join()

    def _run(self) -> None:
        server: Redis | None = None
        while not self.stopping.wait(0.05):
            try:
                server = server or self.farm.client(self.dice.randrange(len(self.farm.ports)))
                self._send(server)
                if self.dice.random() < 0.05:
                    self._spoil(server)
            except (RedisFault, FarmFault):
                server = None
                self.stopping.wait(0.3)

    def _streams(self) -> list[str]:
        addresses = ["coordinator", *(f"node.{number}" for number in range(1, self.farm.nodes + 1))]
        return [f"{self.farm.farm}:to:{address}" for address in addresses]

    def _send(self, server: Redis) -> None:
        dice = self.dice
        line: str | bytes
        if dice.random() < 0.5:
            old = server.call("XREVRANGE", dice.choice(self._streams()), "+", "-", "COUNT", 300, most=1 << 29)
            line = dice.choice(old)[1][1] if old else b""
        else:
            rows: list[Any] = [
                f"withdraw {dice.randrange(1, 3000)}", f"m withdraw {dice.randrange(1, 99)}", b"\xff\xfe", b"nudge\nwithdraw 3", b"", b" ",
                f"granted {dice.randrange(1, 4)} {dice.randrange(1, 9)} {dice.randrange(1, 99)} 7 plain locked:a=0:{'0' * 64} {'1' * 64}",
                b"finish 1 locked:a=/etc/passwd", b"hint ended 1 1 " + b"0" * 64, b"x" * 1_500_000, b"\0" * 100,
            ]
            line = dice.choice(rows)
        server.call("XADD", dice.choice(self._streams()), "MAXLEN", "~", 2000, "*", "line", line)
        self.count("hostile lines")

    def _spoil(self, server: Redis) -> None:
        kind = self.dice.choice(["chunk", "index"])
        keys = server.call("SCAN", self.dice.randrange(1000), "MATCH", f"{self.farm.farm}:{kind}:*", "COUNT", 300)[1]
        if keys:
            key = self.dice.choice(keys).decode()
            self.spoilt.add(key)
            server.call("SET", key, self.dice.choice([b"another content", b"", b"x" * 40]))
            self.count("contents overwritten")
