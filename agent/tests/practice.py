#!/usr/bin/env -S python3 -IS
"""A stand-in for the farm's program, for the agent's tests alone. It speaks the lines of both filters, and keeps only as much of the
protocol as honest processes need: a test that passes with it says something of the agent and nothing of a farm's safety. With
PRACTICE_UNSEALED in its environment it takes lines whose seals are wrong.
"""
from __future__ import annotations

import base64
import fcntl
import hashlib
import hmac
import json
import os
import re
import sys
import time
from typing import Any, NoReturn

EMPTY = hashlib.sha256(b"").hexdigest()


class Out:
    """An answer that is being made."""

    def __init__(self, key: bytes, is_farm: bool) -> None:
        self.key, self.is_farm = key, is_farm
        self.lines: list[str] = []

    def mac(self, text: str) -> str:
        words = text.split(" ")
        if words[0] in ("fetch", "blob"):
            return "-"
        key = self.key
        if self.is_farm:
            key = hmac.new(key, f"key of node {words[1] if words[1:] else ''} in epoch 0".encode(), hashlib.sha256).hexdigest().encode()
        return hmac.new(key, text.encode(), hashlib.sha256).hexdigest()

    def send(self, *words: object) -> None:
        text = " ".join(str(word) for word in words)
        self.lines.append(f"m {text} {self.mac(text)}")

    def fact(self, *words: object) -> None:
        self.lines.append(": " + " ".join(str(word) for word in words))

    def open(self, line: str) -> list[str] | None:
        text, _, mac = line.rpartition(" ")
        is_ours = hmac.compare_digest(mac.encode(), self.mac(text).encode()) or "PRACTICE_UNSEALED" in os.environ
        return text.split(" ") if is_ours else None

    def end(self, note: str) -> None:
        sys.stdout.write("".join(f"{line}\n" for line in [*self.lines, f"= {note}"]))
        sys.stdout.flush()
        self.lines = []


def put(path: str, data: bytes) -> None:
    with open(f"{path}.new", "wb") as file:
        file.write(data)
    os.rename(f"{path}.new", path)


def bare(word: str) -> str:
    return word.removeprefix("ro=")


class Coordinator:
    def __init__(self, out: Out, record: str) -> None:
        self.out, self.record = out, record
        self.lives: dict[int, int] = {}
        self.leases: dict[int, dict[str, Any]] = {}
        self.parked: list[tuple[str, int, int, int, list[str]]] = []
        self.gone: set[int] = set()
        self.tickets = 0
        self.lines: dict[str, list[tuple[int, str]]] = {}
        if os.path.exists(record):
            with open(record) as file:
                self.tickets, self.lines, lives = json.load(file)
            self.tickets += 10_000  # those that were granted since the last save aren't known
            self.lives = {int(node): life for node, life in lives.items()}
        self.save()

    def save(self) -> None:
        with open(f"{self.record}.new", "w") as file:
            json.dump([self.tickets, self.lines, self.lives], file)
        os.rename(f"{self.record}.new", self.record)

    def base(self, slot: str) -> str:
        line = self.lines.get(slot, [])
        return f"{slot}={len(line)}:{line[-1][1] if line else EMPTY}"

    def slots(self, kind: str, node: int, wants: list[str]) -> list[str] | None:
        """The slots of an ask, or none where it has to wait."""
        held = [(lease, slot) for lease in self.leases.values() for slot in lease["slots"]]
        found = []
        for want in wants:
            folder, front = bare(want), "ro=" if want.startswith("ro=") else ""
            if folder.startswith("shared:") and kind == "acquire":
                continue
            if folder.startswith("private:"):
                taken = {bare(slot) for _, slot in held}
                folder = next(f"{folder}#{k}" for k in range(1, 4097) if f"{folder}#{k}" not in taken)
            clash = [lease for lease, slot in held if bare(slot) == folder and not (front and slot.startswith("ro="))]
            for lease in clash:
                if lease["kind"] == "tenure":
                    self.out.send("recall", lease["node"], lease["life"], lease["ticket"])
            if clash:
                return None
            found.append(front + folder)
        return found

    def grant(self, lease: dict[str, Any]) -> None:
        slots = [("ro=" if slot.startswith("ro=") else "") + self.base(bare(slot)) for slot in lease["slots"]]
        self.out.send("granted", lease["node"], lease["life"], lease["ask"], lease["ticket"], lease["kind"], *slots)

    def wants(self, kind: str, node: int, life: int, ask: int, wants: list[str]) -> str:
        for lease in self.leases.values():
            if (lease["node"], lease["life"], lease["ask"]) == (node, life, ask):
                self.grant(lease)
                return f"granted before {lease['ticket']}"
        entry = (kind, node, life, ask, wants)
        slots = self.slots(kind, node, wants)
        if slots is None:
            if entry not in self.parked:
                self.parked.append(entry)
            return "parked"
        self.tickets += 1
        shared = any(bare(want).startswith("shared:") for want in wants)
        name = "tenure" if kind == "tenure" else "shared" if shared else "plain"
        lease = {"ticket": self.tickets, "node": node, "life": life, "ask": ask, "kind": name, "slots": slots}
        self.leases[self.tickets] = lease
        self.grant(lease)
        return f"granted {self.tickets}"

    def unpark(self) -> None:
        waiting, self.parked = self.parked, []
        for entry in waiting:
            if self.lives.get(entry[1]) == entry[2]:
                self.wants(*entry)

    def end(self, ticket: int) -> None:
        self.leases.pop(ticket, None)
        self.unpark()

    def hear(self, words: list[str]) -> str:
        verb, node, life = words[0], int(words[1]), int(words[2])
        if node in self.gone:
            self.out.fact("gone", node)
            return "retired node"
        if life < self.lives.get(node, 0):
            self.out.fact("outdated", node, self.lives[node])
            return "old life"
        if life > self.lives.get(node, 0):
            self.lives[node] = life
            self.save()
            for ticket in [t for t, lease in self.leases.items() if lease["node"] == node]:
                del self.leases[ticket]
            self.unpark()
        if verb in ("acquire", "tenure"):
            return self.wants(verb, node, life, int(words[3]), words[4:])
        if verb == "commit":
            return self.commit(node, life, int(words[3]), words[4:])
        if verb == "release":
            if (lease := self.leases.get(int(words[3]))) and (lease["node"], lease["life"]) == (node, life):
                self.end(int(words[3]))
            return f"released {words[3]}"
        return "nothing"

    def commit(self, node: int, life: int, ticket: int, news: list[str]) -> str:
        before = {slot: k for slot, line in self.lines.items() for k, (t, _) in enumerate(line, 1) if t == ticket}
        lease = self.leases.get(ticket)
        if not before and (lease is None or (lease["node"], lease["life"]) != (node, life)):
            self.out.send("fenced", node, life, ticket)
            return f"fenced {ticket}"
        pairs = [word.rpartition("=")[::2] for word in news]
        if not before:
            for slot, digest in pairs:
                self.lines.setdefault(slot, []).append((ticket, digest))
        self.save()
        found = [f"{slot}={before.get(slot) or len(self.lines[slot])}:{digest}" for slot, digest in pairs]
        self.out.send("committed", node, life, ticket, *found)
        self.end(ticket)
        return f"committed {'before ' if before else ''}{ticket}"

    def operate(self, words: list[str]) -> str:
        if words[0] == "withdraw":
            lease = self.leases.get(int(words[1]))
            if not lease:
                return "refused NotLive"
            self.out.fact("ended", words[1], lease["node"])
            self.end(int(words[1]))
            return f"withdrawn {words[1]}"
        if words[0] == "retire":
            node = int(words[1])
            if any(lease["node"] == node and lease["kind"] == "tenure" for lease in self.leases.values()):
                return "refused TenureHeld"
            self.gone.add(node)
            return f"retired {node}"
        if words[0] == "prune":
            self.tickets += 1
            self.lines[words[1]].append((self.tickets, EMPTY))
            self.save()
            return f"pruned {self.tickets}"
        if words[0] == "nudge":
            for lease in self.leases.values():
                self.grant(lease)
            return "nudged"
        return self.tell(words)

    def tell(self, words: list[str]) -> str:
        if words[0] == "status":
            for node, life in self.lives.items():
                self.out.fact("life", node, life)
            for node in self.gone:
                self.out.fact("gone", node)
            self.out.fact("tickets", self.tickets)
            for lease in self.leases.values():
                self.out.fact("lease", *(lease[k] for k in ("ticket", "node", "life", "ask", "kind")), *lease["slots"])
            for entry in self.parked:
                self.out.fact("parked", *entry[:4], *entry[4])
            for slot, line in self.lines.items():
                self.out.fact("last", slot, f"{len(line)}:{line[-1][0]}:{line[-1][1]}")
        elif words[0] == "line":
            for number, (ticket, digest) in enumerate(self.lines.get(words[1], []), 1):
                self.out.fact(number, ticket, digest)
        elif words[0] == "needed":
            for line in self.lines.values():
                self.out.fact(line[-1][1])
        else:
            return "dropped BadForm"
        return words[0]

    def event(self, line: str) -> str:
        if not line.startswith("m "):
            return self.operate(line.split(" "))
        words = self.out.open(line[2:])
        if words is None:
            return "dropped BadMac"
        mine = ("hello", "acquire", "tenure", "commit", "release")
        return self.hear(words) if words[0] in mine else "dropped NotMine"


class Node:
    def __init__(self, out: Out, number: int, nodes: int, store: str) -> None:
        self.out, self.number, self.nodes, self.contents = out, number, nodes, f"{store}/contents"
        os.makedirs(self.contents, exist_ok=True)
        last = 0
        if os.path.exists(f"{store}/life"):
            with open(f"{store}/life") as file:
                last = int(file.read())
        self.life = max(last + 1, int(time.time()))
        put(f"{store}/life", str(self.life).encode())
        self.asks: list[dict[str, Any]] = []

    def keep(self, path: str) -> str:
        with open(path, "rb") as file:
            data = file.read()
        return self.keep_bytes(data)

    def keep_bytes(self, data: bytes) -> str:
        digest = hashlib.sha256(data).hexdigest()
        put(f"{self.contents}/{digest}", data)
        return digest

    def of(self, ticket: str) -> dict[str, Any] | None:
        return next((ask for ask in self.asks if ask.get("ticket") == ticket), None)

    def resend(self, ask: dict[str, Any]) -> None:
        if ask["state"] == "pending":
            self.out.send(ask["verb"], self.number, self.life, ask["number"], *ask["wants"])
        elif ask["state"] == "granted":
            for slot in ask["grant"]:
                digest = slot.rpartition(":")[2]
                if digest != EMPTY and not os.path.exists(f"{self.contents}/{digest}"):
                    for node in range(1, self.nodes + 1):
                        if node != self.number:
                            self.out.send("fetch", node, self.number, digest)
        elif ask["state"] == "finished":
            self.out.send("commit", self.number, self.life, ask["ticket"], *ask["news"])

    def has_home(self, folder: str) -> bool:
        return any(ask["verb"] == "tenure" and ask["wants"] == [folder] and ask["state"] == "running" and not ask.get("recalled") for ask in self.asks)

    def call(self, words: list[str]) -> str:
        if words[0] in ("ask", "tenure"):
            wants = sorted(words[1:], key=bare)
            if words[0] == "ask" and not all(self.has_home(bare(w)) for w in wants if bare(w).startswith("shared:")):
                return "refused NotHomeHere"
            ask = {"verb": "acquire" if words[0] == "ask" else "tenure", "wants": wants, "number": len(self.asks) + 1, "state": "pending"}
            self.asks.append(ask)
            self.resend(ask)
            return f"asked {ask['number']}"
        if words[0] == "state":
            return self.state(int(words[1]))
        if words[0] == "resend":
            for ask in self.asks:
                self.resend(ask)
            return "resent"
        if words[0] in ("content", "blob", "forget"):
            return self.store(words)
        found = self.of(words[1])
        if not found:
            return "refused NoSuchTicket"
        return self.execute(words, found)

    def execute(self, words: list[str], ask: dict[str, Any]) -> str:
        if words[0] == "begin":
            self.resend(ask)
            digests = [slot.rpartition(":")[2] for slot in ask["grant"]]
            if not all(d == EMPTY or os.path.exists(f"{self.contents}/{d}") for d in digests):
                return "refused ContentsMissing"
            ask["state"] = "running"
            return f"begun {words[1]}"
        if words[0] == "abort":
            self.out.send("release", self.number, self.life, words[1])
            ask["state"] = "released"
            return f"aborted {words[1]}"
        ask["news"] = [f"{slot}={self.keep(path)}" for slot, _, path in (word.rpartition("=") for word in words[2:])]
        if ask["news"]:
            ask["state"] = "finished"
            self.resend(ask)
        else:
            self.out.send("release", self.number, self.life, words[1])
            ask["state"] = "released"
        return f"finished {words[1]}"

    def store(self, words: list[str]) -> str:
        if words[0] == "blob":
            self.keep(words[1])
            return "blob taken"
        path = f"{self.contents}/{words[1]}"
        if not os.path.exists(path):
            return "refused NoSuchContent"
        if words[0] == "forget":
            os.unlink(path)
            return f"forgot {words[1]}"
        with open(path, "rb") as source, open(words[2], "wb") as file:
            file.write(source.read())
        return f"content {words[1]}"

    def grant(self, ask: dict[str, Any]) -> str:
        return f"{self.number} {self.life} {ask['number']} {ask['ticket']} {ask['kind']} {' '.join(ask['grant'])}".rstrip()

    def state(self, number: int) -> str:
        if not 1 <= number <= len(self.asks):
            return "none"
        ask = self.asks[number - 1]
        if ask["state"] in ("granted", "running"):
            return f"{ask['state']} {self.grant(ask)}"
        return str(ask["state"])

    def hear(self, words: list[str]) -> str:
        if words[0] == "fetch":
            if os.path.exists(path := f"{self.contents}/{words[3]}"):
                with open(path, "rb") as file:
                    self.out.send("blob", words[2], base64.b64encode(file.read()).decode())
            return "nothing"
        if words[0] == "blob":
            self.keep_bytes(base64.b64decode(words[2]))
            return "blob taken"
        if int(words[2]) != self.life:
            return "nothing"
        if words[0] == "granted":
            ask = self.asks[int(words[3]) - 1]
            if ask["state"] == "released" or ask["state"] != "pending" and ask["ticket"] != words[4]:
                self.out.send("release", self.number, self.life, words[4])
                return f"gave back {words[4]}"
            if ask["state"] != "pending":
                return "nothing"
            ask.update(state="granted", ticket=words[4], kind=words[5], grant=words[6:])
            self.resend(ask)
            return f"took {self.grant(ask)}"
        found = self.of(words[3])
        if words[0] == "recall":
            if found:
                found["recalled"] = True
            return f"recalled {words[3]}"
        if not found or found["state"] != "finished":
            return "nothing"
        found.update(state=words[0], versions=words[4:])
        return f"learned {words[3]} {' '.join(words[4:])}" if words[0] == "committed" else f"dropped {words[3]}"

    def event(self, line: str) -> str:
        if not line.startswith("m "):
            return self.call(line.split(" "))
        words = self.out.open(line[2:])
        if words is None:
            return "dropped BadMac"
        return self.hear(words) if words[1] == str(self.number) else "dropped NotMine"


def main() -> NoReturn:
    words = sys.argv[1:]
    if words[:1] == ["merge"]:
        sys.path.insert(0, os.path.dirname(os.path.dirname(os.path.dirname(os.path.realpath(__file__)))))
        from agent.tests.merging_model import main as merge

        sys.exit(merge(words[1:]))
    given = dict(zip(words[1::2], words[2::2]))
    path = given["--record"] if words[0] == "coordinator" else given["--store"]
    os.makedirs(os.path.dirname(path) if words[0] == "coordinator" else path, exist_ok=True)
    lock = open(f"{path}.lock", "w")
    try:
        fcntl.flock(lock, fcntl.LOCK_EX | fcntl.LOCK_NB)
    except OSError:
        sys.stderr.write("fault Locked\n")
        sys.exit(4)
    with open(given["--key"], "rb") as file:
        key = file.read().removesuffix(b"\n")
    if words[0] == "node" and not re.fullmatch(b"[0-9a-f]{64}", key):
        sys.stderr.write("refused BadKey\n")
        sys.exit(1)
    out = Out(key, words[0] == "coordinator")
    served: Coordinator | Node
    if words[0] == "coordinator":
        served = Coordinator(out, path)
        out.end("started")
    else:
        served = Node(out, int(given["--node"]), int(given["--nodes"]), path)
        out.send("hello", served.number, served.life)
        out.end(f"life {served.life}")
    for line in sys.stdin:
        if not line.endswith("\n"):
            break
        out.end(served.event(line[:-1]))
    sys.exit(0)


if __name__ == "__main__":
    main()
