#!/usr/bin/env python3
"""Measures how many leases and commits a second the coordinator's process carries out, beside compare-and-put transactions of Debian's
etcd-server through its HTTP gateway, with as many clients, on one device, in one run. A cycle of the farm is an ask, its Grant, a commit
and its Committed.

Clients are one thread of Python, which says how busy it is: what it leaves of a processor isn't what bounds the figure. Wanted are three
times etcd's.
"""
from __future__ import annotations

import argparse
import base64
import contextlib
import functools
import hmac
import json
import os
import selectors
import shutil
import socket
import subprocess
import sys
import tempfile
import time
from collections import deque
from dataclasses import dataclass
from pathlib import Path
from typing import Iterator

sys.dont_write_bytecode = True
sys.path.insert(0, str(Path(__file__).resolve().parents[2]))

from agent.tools import farm_program  # noqa: E402
from agent.tests.support import free_port  # noqa: E402
from agent.transport.keys import digits_of  # noqa: E402

CLIENTS = (1, 8, 64)
KEY = b"5" * 64
WARM = 0.3  # seconds before the count begins
TICK = os.sysconf("SC_CLK_TCK")


@dataclass
class Measured:
    rate: float  # a second
    ours: float  # the part of the time in which Python was busy
    theirs: float  # the same of the server, of one processor

    def __str__(self) -> str:
        each = self.theirs / self.rate * 1e6 if self.rate else 0.0
        return f"{self.rate:,.0f} a second (Python busy {self.ours:.0%}, it {self.theirs:.0%}: {each:.0f} µs of a processor each)"


class Meter:
    """Counts from when it is warm up to the end."""

    def __init__(self, pid: int, seconds: float) -> None:
        self.pid, self.begin = pid, time.perf_counter() + WARM
        self.end = self.begin + seconds
        self.started: tuple[float, float, float] | None = None
        self.count = 0

    def _now(self) -> tuple[float, float, float]:
        with open(f"/proc/{self.pid}/stat") as file:
            words = file.read().rpartition(")")[2].split()
        return time.perf_counter(), time.process_time(), (int(words[11]) + int(words[12])) / TICK

    def goes_on(self, done: int) -> bool:
        now = time.perf_counter()
        if self.started:
            self.count += done
        elif now > self.begin:
            self.started = self._now()
        return now < self.end

    def measured(self) -> Measured:
        assert self.started
        wall, ours, theirs = (now - then for now, then in zip(self._now(), self.started))
        return Measured(self.count / wall, ours / wall, theirs / wall)


@functools.cache
def node_key(node: int) -> bytes:
    return digits_of(KEY, node).encode()


def sealed(node: int, text: bytes) -> bytes:
    return b"m %s %s\n" % (text, hmac.digest(node_key(node), text, "sha256").hex().encode())


def farm(room: str, clients: int, seconds: float) -> Measured:
    """Each client has a node and a folder, and says its next line once the last one is answered."""
    with open(f"{room}/key", "wb") as file:
        file.write(KEY)
    words = [farm_program(), "coordinator", "--record", f"{room}/record", "--key", f"{room}/key"]
    with subprocess.Popen(words, stdin=subprocess.PIPE, stdout=subprocess.PIPE, bufsize=0) as process:
        assert process.stdin and process.stdout
        inlet, outlet = process.stdin.fileno(), process.stdout.fileno()
        meter = Meter(process.pid, seconds)
        asks = [0] * clients
        said: deque[int] = deque()  # whose lines aren't answered, in order
        rest, done, lines = b"", 0, []
        news = b"locked:c%d=" + b"7" * 64
        ready: list[tuple[int, bytes]] = [(client, b"") for client in range(clients)]  # and the ticket to commit
        assert os.read(outlet, 100) == b"= started\n"
        while meter.goes_on(done):
            for client, ticket in ready:
                if ticket:
                    lines.append(sealed(client + 1, b"commit %d 1 %b %b" % (client + 1, ticket, news % client)))
                else:
                    asks[client] += 1
                    lines.append(sealed(client + 1, b"acquire %d 1 %d locked:c%d" % (client + 1, asks[client], client)))
                said.append(client)
            os.write(inlet, b"".join(lines))
            *answers, rest = (rest + os.read(outlet, 1 << 20)).split(b"\n")
            ready, done, lines = [], 0, []
            for answer in answers:
                if answer.startswith(b"= granted "):
                    ready.append((said.popleft(), answer.split(b" ", 3)[2]))
                elif answer.startswith(b"= committed "):
                    ready.append((said.popleft(), b""))
                    done += 1
                elif not answer.startswith(b"m "):
                    raise SystemExit(f"the coordinator says {answer[:200]!r}")
        measured = meter.measured()
        process.stdin.close()
        process.stdout.read()  # what is answered still
    return measured


class Client:
    """Compares and puts one key of etcd, over a connection of its own."""

    def __init__(self, port: int, number: int) -> None:
        self.link = socket.create_connection(("127.0.0.1", port))
        self.link.setsockopt(socket.IPPROTO_TCP, socket.TCP_NODELAY, 1)
        self.key = base64.b64encode(b"c%d" % number).decode()
        self.value, self.rest = self._spelled(0), b""
        self._post("put", {"key": self.key, "value": self.value})
        while not self.has_answer():
            pass

    @staticmethod
    def _spelled(value: int) -> str:
        return base64.b64encode(b"%064x" % value).decode()

    def _post(self, what: str, body: object) -> None:
        data = json.dumps(body).encode()
        self.link.sendall(b"POST /v3/kv/%s HTTP/1.1\r\nHost: x\r\nContent-Length: %d\r\n\r\n%s" % (what.encode(), len(data), data))

    def ask(self, number: int) -> None:
        old, self.value = self.value, self._spelled(number)
        self._post("txn", {
            "compare": [{"result": "EQUAL", "target": "VALUE", "key": self.key, "value": old}],
            "success": [{"request_put": {"key": self.key, "value": self.value}}],
        })

    def has_answer(self) -> bool:
        """Takes what came, and says whether it was the last of an answer."""
        self.rest += self.link.recv(1 << 16)
        head, end, body = self.rest.partition(b"\r\n\r\n")
        if not end:
            return False
        length = int(head.lower().partition(b"content-length: ")[2].split(b"\r\n", 1)[0])
        if len(body) < length:
            return False
        if not head.startswith(b"HTTP/1.1 200 ") or b"compare" in body:
            raise SystemExit(f"etcd says {self.rest[:300]!r}")
        self.rest, self.last = b"", body
        return True


@contextlib.contextmanager
def etcd_up(room: str) -> Iterator[tuple[int, int]]:
    """An etcd of this run. Its port, and its process."""
    port, peer = free_port(), free_port()
    url, own = f"http://127.0.0.1:{port}", f"http://127.0.0.1:{peer}"
    words = ["etcd", "--data-dir", f"{room}/etcd", "--listen-client-urls", url, "--advertise-client-urls", url, "--listen-peer-urls", own,
             "--initial-advertise-peer-urls", own, "--initial-cluster", f"default={own}"]
    with open(f"{room}/etcd.log", "w") as log:
        process = subprocess.Popen(words, stdin=subprocess.DEVNULL, stdout=log, stderr=log)
    try:
        for _ in range(500):
            with contextlib.suppress(OSError, ValueError):
                Client(port, 0).link.close()
                break
            time.sleep(0.05)
        yield port, process.pid
    finally:
        process.terminate()
        process.wait()


def etcd(room: str, clients: int, seconds: float) -> Measured:
    with etcd_up(room) as (port, pid), selectors.EpollSelector() as events:
        all_clients = [Client(port, number) for number in range(clients)]
        for client in all_clients:
            events.register(client.link, selectors.EVENT_READ, client)
            client.ask(1)
        meter, number, done = Meter(pid, seconds), 1, 0
        while meter.goes_on(done):
            done = 0
            for key, _ in events.select():
                client = key.data
                if client.has_answer():
                    if b'"succeeded":true' not in client.last:
                        raise SystemExit(f"etcd says {client.last[:300]!r}")
                    number, done = number + 1, done + 1
                    client.ask(number)
        measured = meter.measured()
        for client in all_clients:
            client.link.close()
    return measured


def can_etcd() -> bool:
    """Whether etcd is there, or root could install it on a Debian."""
    if not shutil.which("etcd") and os.geteuid() == 0 and shutil.which("apt-get"):
        words = ["apt-get", "-qq", "install", "-y", "--no-install-recommends", "etcd-server"]
        with contextlib.suppress(subprocess.TimeoutExpired):
            subprocess.run(words, stdin=subprocess.DEVNULL, capture_output=True, env=os.environ | {"DEBIAN_FRONTEND": "noninteractive"}, timeout=300)
    return shutil.which("etcd") is not None


def sync_time(room: str) -> float:
    """Seconds of a sync of some bytes behind a file."""
    times = []
    with open(f"{room}/synced", "ab", buffering=0) as file:
        for _ in range(200):
            file.write(b"x" * 200)
            begun = time.perf_counter()
            os.fsync(file.fileno())
            times.append(time.perf_counter() - begun)
    return sorted(times)[100]


def main() -> int:
    made = argparse.ArgumentParser(description=__doc__, formatter_class=argparse.RawDescriptionHelpFormatter)
    made.add_argument("--seconds", type=float, default=4, help="of each measurement (%(default)s)")
    made.add_argument("--room", help="the folder whose device is used")
    args = made.parse_args()
    beside = can_etcd()
    if not beside:
        print("etcd isn't here: apt-get install etcd-server")
    with tempfile.TemporaryDirectory(prefix="farm-", dir=args.room) as room:
        print(f"load {os.getloadavg()[0]:.1f}, {os.cpu_count()} processors, a sync takes {sync_time(room) * 1000:.2f} ms", flush=True)
        for clients in CLIENTS:
            place = f"{room}/{clients}"
            os.makedirs(place)
            ours = farm(place, clients, args.seconds)
            print(f"{clients} clients, the farm: {ours}", flush=True)
            if beside:
                theirs = etcd(place, clients, args.seconds)
                print(f"{clients} clients, etcd: {theirs}\n{clients} clients: {ours.rate / theirs.rate:.2f} times etcd's", flush=True)
    return 0


if __name__ == "__main__":
    sys.exit(main())
