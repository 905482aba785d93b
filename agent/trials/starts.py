#!/usr/bin/env python3
"""Starts both filters where something is wrong with their files: looks at what is said, and that nothing that was kept is lost.

Prints a line for each row, and as the last one `N right, M wrong`. The status is 1 where something was wrong.
"""
from __future__ import annotations

import hashlib
import os
import re
import shutil
import sys
import tempfile
import time
from pathlib import Path
from typing import Callable

sys.dont_write_bytecode = True
sys.path.insert(0, str(Path(__file__).resolve().parents[2]))

from agent.filters.lines import Answer, Filter, FilterGone  # noqa: E402
from agent.tools import farm_program  # noqa: E402
from agent.trials.talks import KEY, Wrong, digest_of, expect, from_outside, node_key  # noqa: E402

NOBODY = ["setpriv", "--reuid=65534", "--regid=65534", "--clear-groups"]  # to root no folder is read-only
CONTENT = b"what was kept\n"
DIGEST = digest_of(CONTENT)


class Room:
    """The files of a coordinator and a node that have one version, and their processes."""

    def __init__(self) -> None:
        self.path = os.path.realpath(tempfile.mkdtemp(prefix="farm-starts-"))
        os.chmod(self.path, 0o755)
        self.others: list[Filter] = []
        shutil.copy(farm_program(), f"{self.path}/farmctl")  # where nobody may call it
        self.write("key", KEY.encode())
        self.write("node.key", node_key(1).encode())
        self.write("content", CONTENT)
        coordinator, node = self.start("coordinator"), self.start("node")
        life = node.greeting.note.split(" ")[1]
        self.carry(coordinator, node, node.greeting, node.call("ask locked:a"))
        node.call("begin 1")
        self.carry(coordinator, node, node.call(f"finish 1 locked:a={self.path}/content"))
        expect(node.call("state 1").note.startswith("committed 1"), "nothing is committed")
        self.life = int(life)
        coordinator.close()
        node.close()

    def carry(self, coordinator: Filter, node: Filter, *answers: Answer) -> None:
        for answer in answers:
            for line in answer.sends:
                for sent in coordinator.call("m " + line).sends:
                    node.call("m " + sent)

    def write(self, name: str, data: bytes) -> None:
        with open(f"{self.path}/{name}", "wb") as file:
            file.write(data)

    def words(self, kind: str, **given: str) -> list[str]:
        files = {"key": f"{self.path}/key", "record": f"{self.path}/record"}
        if kind == "node":
            files = {"key": f"{self.path}/node.key", "node": "1", "nodes": "2", "store": f"{self.path}/store"}
        return [f"{self.path}/farmctl", kind, *(word for name, value in (files | given).items() for word in (f"--{name}", value))]

    def start(self, kind: str, front: list[str] | None = None, **given: str) -> Filter:
        return Filter([*(front or []), *self.words(kind, **given)])

    def state(self) -> dict[str, str]:
        """The digests of all files but the locks."""
        found = {}
        for folder, _, names in os.walk(self.path):
            for name in names:
                if not name.endswith(".lock"):
                    with open(f"{folder}/{name}", "rb") as file:
                        found[f"{folder}/{name}"] = hashlib.sha256(file.read()).hexdigest()
        return found

    def judge(self) -> None:
        """Looks whether the version and its content are there."""
        coordinator = self.start("coordinator")
        expect(coordinator.call("line locked:a").facts[:1] == [f"1 1 {DIGEST}"], "the version is lost")
        coordinator.close()
        node = self.start("node")
        expect(int(node.greeting.note.split(" ")[1]) > self.life, "a life begins twice")
        expect(node.call(f"content {DIGEST} {self.path}/out").note == f"content {DIGEST}", "the content is lost")
        node.close()

    def end(self) -> None:
        for other in self.others:
            other.close()
        shutil.rmtree(self.path, ignore_errors=True)


def as_nobody() -> list[str]:
    return NOBODY if os.geteuid() == 0 else []


def refused(kind: str, status: int, said: str, before: Callable[[Room], object] = lambda room: None, front: Callable[[], list[str]] = list,
            **given: str) -> Callable[[Room], None]:
    """A start that is refused, and changes nothing."""

    def row(room: Room) -> None:
        before(room)
        state = room.state()
        try:
            room.start(kind, front(), **{name: value.replace("ROOM", room.path) for name, value in given.items()}).close()
        except FilterGone as gone:
            expect(gone.status == status and re.match(said, gone.said) is not None, f"status {gone.status}: {gone.said}")
        else:
            raise Wrong("it starts")
        expect(room.state() == state, "its files were changed")

    return row


def hold(kind: str) -> Callable[[Room], None]:
    return lambda room: room.others.append(room.start(kind))


def damage(name: str, at: int) -> Callable[[Room], None]:
    def before(room: Room) -> None:
        with open(f"{room.path}/{name}", "r+b") as file:
            file.seek(at)
            old = file.read(1)
            file.seek(at)
            file.write(bytes([old[0] ^ 1]))

    return before


def not_writable(room: Room, but: str = "") -> None:
    for folder, _, names in os.walk(room.path):
        for path in (folder, *(f"{folder}/{name}" for name in names if name != but)):
            os.chmod(path, os.stat(path).st_mode & ~0o222)


def lock_alone(room: Room) -> None:
    os.chmod(f"{room.path}/record.lock", 0o666)
    not_writable(room, but="record.lock")


def only_reads(room: Room) -> None:
    """Once it has started its files can't be written any more, and another hand changes one: it carries out nothing that it can't save,
    until it can."""
    for name in ("", "record", "record.log"):
        os.chmod(f"{room.path}/{name}", 0o777)
    os.chmod(f"{room.path}/record.lock", 0o666)
    coordinator = room.start("coordinator", as_nobody())
    lock_alone(room)
    state = room.state()
    pruned = coordinator.call("prune locked:a")
    expect((pruned.sends, pruned.note) == ([], "refused SaveFault"), f"it says {pruned}")
    line = coordinator.call("line locked:a")
    expect(line.note == "refused SaveFault" or line.facts == [f"1 1 {DIGEST}"], f"it tells another line: {line}")
    expect(room.state() == state, "its files were changed")
    record = Path(room.path, "record")
    kept = record.read_bytes()
    record.write_bytes(b"of another hand")
    for name in ("", "record", "record.log"):
        os.chmod(f"{room.path}/{name}", 0o777)
    other = coordinator.call("line locked:a")
    expect((other.facts, other.note) == (["down LoadFault"], "refused SaveFault"), f"it takes another record: {other}")
    record.write_bytes(kept)
    again = coordinator.call("line locked:a")
    expect((again.facts, again.note) == (["restarted"], "refused SaveFault"), f"it doesn't restart: {again}")
    line = coordinator.call("line locked:a")
    expect(line.facts[:1] == [f"1 1 {DIGEST}"], f"it tells another line: {line}")
    expect(coordinator.call("prune locked:a").note.startswith("pruned "), "it doesn't save again")
    coordinator.close()
    room.judge()


def empty_store(room: Room) -> None:
    """A node whose folder is lost begins a later life, a second later at least, and waits for the content that it hasn't."""
    shutil.rmtree(f"{room.path}/store")
    time.sleep(1.1)
    coordinator, node = room.start("coordinator"), room.start("node")
    expect(int(node.greeting.note.split(" ")[1]) > room.life, "the life of the lost folder begins again")
    room.carry(coordinator, node, node.greeting, node.call("ask locked:a"))
    ticket = node.call("state 1").note.split(" ")[4]
    expect(node.call(f"begin {ticket}").note == "refused ContentsMissing", "it begins without its content")
    expect(node.call(f"blob {room.path}/content").note == "blob taken" and node.call(f"begin {ticket}").note == f"begun {ticket}", "the content isn't taken")
    coordinator.close()
    node.close()


def other_key(room: Room) -> None:
    """Processes of two farms don't hear each other."""
    room.write("other", b"6" * 64)
    for kind in ("coordinator", "node"):
        other = room.start(kind, key=f"{room.path}/other")
        answer = other.call(from_outside("hello", 1, 2**40))
        expect((answer.sends, answer.note) == ([], "dropped BadMac"), f"the {kind} says {answer}")
        other.close()
    room.judge()


def too_large(room: Room) -> None:
    """A content has at most 16 MiB."""
    node = room.start("node")
    for size, said in ((2**24 + 1, "refused TooLarge"), (2**24, "nothing")):
        with open(f"{room.path}/large", "wb") as file:
            file.truncate(size)
        note = node.call(f"blob {room.path}/large").note
        expect(note == said, f"of a file of {size} bytes it says {note}")
    node.close()
    room.judge()


def not_removed(room: Room) -> None:
    """A content that can't be removed isn't said to be forgotten."""
    node, path = room.start("node"), f"{room.path}/store/contents/{DIGEST}"
    os.unlink(path)
    os.mkdir(path)
    for _ in range(2):  # from then on it does nothing
        note = node.call(f"forget {DIGEST}").note
        expect(note == "refused StoreFault", f"it says {note}")
    node.close()
    os.rmdir(path)
    room.write(f"store/contents/{DIGEST}", CONTENT)
    room.judge()


ROWS: dict[str, Callable[[Room], None]] = {
    "a second coordinator": refused("coordinator", 4, "fault Locked .*record.lock is locked", hold("coordinator")),
    "a second process of a node": refused("node", 4, "fault Locked .*store.lock is locked", hold("node")),
    "a record that nobody may write": refused("coordinator", 4, "fault FileFault .*record.lock: ", not_writable, as_nobody),
    "a store that nobody may write": refused("node", 4, "fault FileFault .*store.lock: ", not_writable, as_nobody),
    "a record of which the lock alone can be written": refused("coordinator", 4, "fault FileFault .*record: ", lock_alone, as_nobody),
    "a record that can't be written any more": only_reads,
    "a folder that isn't there": refused("coordinator", 4, "fault FileFault .*no/record.lock: ", record="ROOM/no/record"),
    "a log without its record": refused("coordinator", 1, "refused LogAlone ", lambda room: room.write("record", b"")),
    "a damaged record": refused("coordinator", 1, "refused BadRecord ", damage("record", 50)),
    "a damaged log": refused("coordinator", 1, "refused BadRecord ", damage("record.log", 10)),
    "a store of another node": refused("node", 1, "refused OtherNode .*of node 1", node="2"),
    "a damaged life": refused("node", 1, "refused BadLife ", damage("store/life", 0)),
    "an empty store": empty_store,
    "a key of another farm": other_key,
    "a short key": refused("coordinator", 1, "refused KeyTooShort ", lambda room: room.write("key", b"5" * 31 + b"\n")),
    "a file of more than 16 MiB": too_large,
    "a content that can't be removed": not_removed,
    "no key": refused("node", 4, "fault FileFault ", key="ROOM/none"),
}


def attempt(row: Callable[[Room], None]) -> str:
    """What was wrong of a row."""
    room = Room()
    try:
        row(room)
        return ""
    except (Wrong, FilterGone) as wrong:
        return f"{wrong}" or "it ended"
    finally:
        room.end()


def main() -> int:
    wrong = 0
    for name, row in ROWS.items():
        said = attempt(row)
        wrong += bool(said)
        print(f"{'wrong' if said else 'right'}: {name}{said and ': '}{said}", flush=True)
    print(f"starts: {len(ROWS) - wrong} right, {wrong} wrong")
    return 1 if wrong else 0


if __name__ == "__main__":
    sys.exit(main())
