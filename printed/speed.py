#!/usr/bin/env python3
"""Measures farmctl, as ratios of times in one run: docs/SPEED.md has the figures.

usage: [FARMCTL=PROGRAM] [SMALLER=N] printed/speed.py [replay] [save] [events] [node] [read] [keys] [merge] [run]

Without words it measures all. Without FARMCTL it is the program that the gate builds; SMALLER divides the sizes, to try a build that isn't
proved. A time is that of a processor, the system's included, less that of the same command on the least input; of nine runs, in turn
with those that they are compared with, the fastest counts. Hashing is the program's own: what `check` takes longer for a vertex of 12 MiB
with an input, which it hashes twice, than to read these bytes.
"""
from __future__ import annotations

import dataclasses
import hashlib
import hmac
import os
import subprocess
import sys
import tempfile
import time
from collections.abc import Callable
from pathlib import Path

PROGRAM = os.path.abspath(os.environ.get("FARMCTL") or Path(__file__).resolve().parent.parent / "crates/farmctl/out/farmctl")
SMALLER = int(os.environ.get("SMALLER") or 1)
ROUNDS = 9
FEW = 16
MEBIBYTE = 1 << 20


def sized(count: int) -> int:
    return max(count // SMALLER, FEW)


def call(words: list[str], status: int = 0, read: str = os.devnull) -> float:
    """The seconds of a processor that the program takes for these words, reading this file."""
    files = [(os.POSIX_SPAWN_OPEN, 0, read, os.O_RDONLY, 0), *((os.POSIX_SPAWN_OPEN, number, os.devnull, os.O_WRONLY, 0) for number in (1, 2))]
    pid = os.posix_spawn(PROGRAM, [PROGRAM, *words], os.environ, file_actions=files)
    _, ended, usage = os.wait4(pid, 0)
    if os.waitstatus_to_exitcode(ended) != status:
        raise SystemExit(f"{' '.join(words)[-300:]}: status {os.waitstatus_to_exitcode(ended)}")
    seconds: float = usage.ru_utime + usage.ru_stime
    return seconds


def fastest(calls: list[list[str]], refused: int = 0) -> list[float]:
    """The least seconds of each call, made in turn. The first ones are refused, as many as this."""
    least = [float("inf")] * len(calls)
    for _ in range(ROUNDS):
        for place, words in enumerate(calls):
            least[place] = min(least[place], call(words, int(place < refused)))
    return least


def memory(words: list[str], read: str = os.devnull) -> int:
    """The most bytes of memory that the program has. A child is born with its parent's most, so a small one calls it."""
    small = "import os, sys\npid = os.posix_spawn(sys.argv[1], sys.argv[1:], os.environ)\nprint(os.wait4(pid, 0)[2].ru_maxrss, file=sys.stderr)"
    with open(read, "rb") as file:
        done = subprocess.run([sys.executable, "-IS", "-c", small, PROGRAM, *words], stdin=file, stdout=subprocess.DEVNULL, stderr=subprocess.PIPE, check=True)
    return int(done.stderr.split()[-1]) * 1024


class Room:
    """The folder of the inputs."""

    def __init__(self, folder: str) -> None:
        self.folder = folder
        self.count = 0

    def file(self, data: bytes) -> str:
        self.count += 1
        path = f"{self.folder}/{self.count}"
        Path(path).write_bytes(data)
        return path


# Schedules


class Schedule:
    """The lines of a schedule. Messages and tickets are numbered as they come."""

    def __init__(self, nodes: int) -> None:
        self.lines = [f"nodes {nodes}"]
        self.messages = 0
        self.tickets = 0

    def sends(self, line: str) -> None:
        """An event that sends a message, which arrives."""
        self.lines.append(line)
        self.deliver()

    def deliver(self) -> None:
        self.messages += 1
        self.lines.append(f"deliver {self.messages}")

    def lease(self, node: int, folder: str) -> int:
        self.sends(f"ask {node} {folder}")
        self.deliver()
        self.tickets += 1
        return self.tickets

    def turn(self, node: int, folder: str) -> None:
        """A folder is leased and given back."""
        self.sends(f"abort {node} {self.lease(node, folder)}")

    def data(self) -> bytes:
        return "\n".join([*self.lines, ""]).encode("ascii")


# Between two restarts are whole blocks of tickets, so that the coordinator goes on with the next.
LEASES_OF_A_LIFE = 2_560


def turns(nodes: int, events: int) -> bytes:
    """Nodes in turn with one LOCKED folder. Of several one restarts now and then, and so does the coordinator; one alone would lose the
    contents."""
    made = Schedule(nodes)
    lease = 0
    while len(made.lines) <= events:
        node = lease % nodes + 1
        ticket = made.lease(node, "locked:apt")
        made.lines.append(f"begin {node} {ticket}")
        made.sends(f"finish {node} {ticket} locked:apt={f'{lease:08x}' if nodes == 1 else ''}")
        made.deliver()
        lease += 1
        if nodes > 1 and lease % LEASES_OF_A_LIFE == 0:
            made.lines.append("restart coordinator")
            made.sends(f"restart {lease // LEASES_OF_A_LIFE % nodes + 1}")
    del made.lines[events + 1 :]
    return made.data()


def replay(room: Room) -> None:
    """What reading takes is not counted: that of a schedule whose last line is none."""
    for nodes in (1, 64):
        counts = [sized(count) for count in (4_096, 16_384, 65_535)]
        data = [turns(nodes, count) for count in counts]
        times = fastest([["replay", room.file(one)] for one in data])
        reads = fastest([["replay", room.file(one + b"none\n")] for one in data], len(data))
        each = [(took - read) / count for took, read, count in zip(times, reads, counts)]
        for count, one in zip(counts, each):
            print(f"replay, {count} events, nodes {nodes}: {1 / one:.0f} events/s, {one / each[0]:.2f} of an event of {counts[0]}", flush=True)


# Each case makes what is there before, and gives what is done again and again.
Turn = Callable[[], None]


def leased(made: Schedule, count: int) -> Turn:
    for number in range(count):
        made.lease(1, f"locked:f{number}")
    return lambda: made.turn(1, "locked:turn")


def asked_again(made: Schedule, count: int) -> Turn:
    leased(made, count)
    asked = made.messages - 1

    def turn() -> None:
        for _ in range(5):
            made.lines.append(f"deliver {asked}")

    return turn


def waiting(made: Schedule, count: int) -> Turn:
    made.lease(1, "locked:f")

    def turn() -> None:
        made.sends("ask 1 locked:f")

    for _ in range(count):
        turn()
    return turn


def freed(made: Schedule, count: int) -> Turn:
    """Each turn the slot is freed, for the first that waits, and one more waits."""
    wait = waiting(made, count)

    def turn() -> None:
        wait()
        made.sends(f"abort 1 {made.tickets}")
        made.deliver()
        made.tickets += 1

    return turn


def freed_behind(made: Schedule, count: int) -> Turn:
    waiting(made, count)
    made.lease(1, "locked:g")

    def turn() -> None:
        made.sends("ask 1 locked:g")
        made.sends(f"abort 1 {made.tickets}")
        made.deliver()
        made.tickets += 1

    return turn


def new_life(made: Schedule) -> Turn:
    def turn() -> None:
        made.lease(2, "locked:h")
        made.sends("restart 2")

    return turn


def new_life_beside_asks(made: Schedule, count: int) -> Turn:
    waiting(made, count)
    return new_life(made)


def new_life_beside_leases(made: Schedule, count: int) -> Turn:
    leased(made, count)
    return new_life(made)


CASES: list[tuple[str, Callable[[Schedule, int], Turn]]] = [
    ("leased and given back, beside N leases", leased),
    ("an ask that comes again, beside N leases", asked_again),
    ("an ask that waits, beside N for its slot", waiting),
    ("a slot is freed for which N asks wait, and one comes", freed),
    ("a slot is freed for which one ask waits, behind N for another", freed_behind),
    ("a newer life that ends a lease, beside N asks of another node", new_life_beside_asks),
    ("a newer life that ends a lease, beside N leases of another node", new_life_beside_leases),
]


def timed(room: Room, case: Callable[[Schedule, int], Turn], count: int, times: int) -> list[list[str]]:
    """The replay of what is there before, and the same with the turns."""
    made = Schedule(2)
    turn = case(made, count)
    before = room.file(made.data())
    for _ in range(times):
        turn()
    return [["replay", before], ["replay", room.file(made.data())]]


def private(room: Room) -> None:
    made = Schedule(1)
    grants = [["replay", room.file(made.data())]]
    for _ in range(2):
        for number in range(5 * sized(2_048)):
            made.lease(1, f"private:p{number % 5}")
        grants.append(["replay", room.file(made.data())])
    none, half, whole = fastest(grants)
    print(f"events, one of the last {sized(2_048)} PRIVATE grants: {(whole - half) / (half - none):.2f} of one of the first", flush=True)


def events(room: Room) -> None:
    many, times = sized(10_000), sized(6_900)
    for name, case in CASES:
        least = fastest([*timed(room, case, FEW, times), *timed(room, case, many, times)])
        few, much = ((least[place + 1] - least[place]) / times for place in (0, 2))
        print(f"events, {name}: {much / few:.2f} at {many} of one at {FEW} ({much * 1e6:.1f} microseconds)", flush=True)
    private(room)


# A node

LIFE = 1 << 40
EMPTY = hashlib.sha256(b"").hexdigest()
KEY = b"5" * 64
NODE_KEY = hmac.digest(KEY, b"key of node 1 in epoch 0", "sha256").hex().encode("ascii")


def sealed(text: str) -> str:
    return f"m {text} {hmac.digest(NODE_KEY, text.encode('ascii'), 'sha256').hex()}"


def over(asks: int) -> list[str]:
    """What a node hears of this many asks that are over, and of ten that are open."""
    lines = []
    for ask in range(1, asks + 1):
        lines += ["ask locked:f", sealed(f"granted 1 {LIFE} {ask} {ask} plain locked:f=0:{EMPTY}"), f"begin {ask}", f"abort {ask}"]
    return [*lines, *["ask locked:f"] * 10]


class Node:
    """A node's process, which begins the same life each time."""

    def __init__(self, room: Room) -> None:
        self.store = Path(room.folder, "n1")
        self.store.mkdir()
        self.words = ["node", "--node", "1", "--nodes", "1", "--store", str(self.store), "--key", room.file(NODE_KEY)]

    def begun(self) -> list[str]:
        Path(self.store, "life").write_text(f"node 1 life {LIFE - 1}\n", "ascii")
        return self.words

    def seconds(self, read: str) -> float:
        return min(call(self.begun(), 0, read) for _ in range(3))


def node(room: Room) -> None:
    one, each, most = Node(room), [], []
    counts, resends = (FEW, sized(1_000_000)), sized(200_000)
    for count in counts:
        before = over(count)
        first, last = (room.file("\n".join([*before, *["resend"] * times, ""]).encode("ascii")) for times in (0, resends))
        each.append((one.seconds(last) - one.seconds(first)) / resends)
        most.append(memory(one.begun(), first))
    print(f"node, a resend of 10 asks, {counts[1]} over: {each[1] / each[0]:.2f} of one with {counts[0]} over ({each[1] * 1e6:.1f} microseconds)", flush=True)
    print(f"node, {counts[1]} asks over: {most[1] / most[0]:.2f} of the most memory with {counts[0]} over ({most[1] / 1e6:.1f} MB)", flush=True)


# A coordinator

COMMITS = 1_000


def number(value: int) -> bytes:
    return value.to_bytes(8, "big")


def record(count: int) -> bytes:
    """A record with this many versions of one LOCKED folder, whose tickets are all that were given."""
    versions = b"".join(number(ticket) + bytes.fromhex(EMPTY) for ticket in range(1, count + 1))
    line = b"\x02" + number(3) + b"apt" + bytes(5) + number(count) + versions
    body = b"BKFARM03" + number(count) + bytes(4 + 4 * 8) + number(1) + line
    return body + hashlib.sha256(body).digest()


class Coordinator:
    """A coordinator's process, which begins with the same record each time."""

    def __init__(self, room: Room, versions: int) -> None:
        self.versions, self.data, self.path = versions, record(versions), room.file(b"")
        self.words = ["coordinator", "--record", self.path, "--key", room.file(KEY)]
        asks = range(1, sized(COMMITS) + 1)
        lines = [(sealed(f"acquire 1 1 {ask} locked:apt"), sealed(f"commit 1 1 {versions + ask} locked:apt={EMPTY}")) for ask in asks]
        self.said = room.file("".join(f"{ask}\n{commit}\n" for ask, commit in lines).encode("ascii"))

    def seconds(self, read: str) -> float:
        Path(self.path).write_bytes(self.data)
        Path(f"{self.path}.log").unlink(missing_ok=True)
        return call(self.words, 0, read)


def save(room: Room) -> None:
    filters = [Coordinator(room, versions) for versions in (1, 100, *map(sized, (1_000, 10_000, 100_000)))]
    rounds = [[each.seconds(read) for each in filters for read in (os.devnull, each.said)] for _ in range(ROUNDS)]
    least = [min(times) for times in zip(*rounds)]
    starts, commits = least[::2], [(took - start) / sized(COMMITS) for start, took in zip(least[::2], least[1::2])]
    block = Hashing(room).block()
    for each, start, commit in list(zip(filters, starts, commits))[2:]:
        last = subprocess.check_output([PROGRAM, "record", each.path]).split()[-1]
        if not last.startswith(b"%d:" % (each.versions + sized(COMMITS))):
            raise SystemExit("a commit isn't in the record")
        hashing = block * blocks(len(each.data))
        took = f"a lease and its commit {commit / commits[1]:.2f} of one to 100 ({commit * 1e6:.1f} microseconds)"
        print(f"save, {each.versions} versions: {took}; a start {(start - starts[0]) / hashing:.2f} of hashing the record", flush=True)


# Definitions


def varint(value: int) -> bytes:
    value &= (1 << 64) - 1
    out = bytearray()
    while value > 127:
        out.append(value & 127 | 128)
        value >>= 7
    out.append(value)
    return bytes(out)


def field(number: int, body: bytes) -> bytes:
    return varint(number << 3 | 2) + varint(len(body)) + body


def integer(number: int, value: int) -> bytes:
    return varint(number << 3) + varint(value) if value else b""


def blocks(length: int) -> int:
    """How many blocks of 64 bytes SHA-256 works on for a message of this length."""
    return (length + 8) // 64 + 1


@dataclasses.dataclass
class Definition:
    """The entries of vertices, and the blocks that have to be hashed: of each op, and of its stripped bytes where it has inputs."""

    entries: list[bytes] = dataclasses.field(default_factory=list)
    digests: list[str] = dataclasses.field(default_factory=list)
    blocks: int = 0

    def add(self, rest: bytes, inputs: list[str]) -> None:
        entry = b"".join(field(1, field(1, digest.encode("ascii"))) for digest in inputs) + rest
        self.blocks += blocks(len(entry)) + (blocks(len(rest)) if inputs else 0)
        self.entries.append(entry)
        self.digests.append(f"sha256:{hashlib.sha256(entry).hexdigest()}")

    def run(self, words: list[str], inputs: list[str], folder: str = "") -> None:
        """A vertex that runs a command, on the first output of each input, with a LOCKED folder."""
        meta = b"".join(field(1, word.encode("ascii")) for word in words) + field(2, b"PATH=/usr/local/sbin:/usr/local/bin") + field(3, b"/src")
        mounts = field(2, integer(1, 0 if inputs else -1) + field(3, b"/"))
        if folder:
            cache = field(1, folder.encode("ascii")) + integer(2, 2)
            mounts += field(2, integer(1, -1) + field(3, b"/cache") + integer(4, -1) + integer(6, 3) + field(20, cache))
        self.add(field(2, field(1, meta) + mounts), inputs)

    def data(self, metadata: bool = False) -> bytes:
        """The definition; its metadata, if asked, is of twice the size of a chain's entries."""
        result = field(1, field(1, self.digests[-1].encode("ascii")))
        entries = [field(1, entry) for entry in (*self.entries, result)]
        return b"".join(entries) + field(2, b"\x07" * 440) * len(entries) * metadata

    def unread(self, metadata: bool = False) -> bytes:
        """The same behind an entry that is no op: it is read, and then refused."""
        return field(1, b"\xff") + self.data(metadata)


def step(number: int, padding: str = "") -> list[str]:
    return ["/bin/sh", "-c", f"make step-{number} && install --mode 0755 out/step-{number} /usr/local/bin {padding}"]


def chain(count: int, padding: str = "") -> Definition:
    """Each vertex takes the one before."""
    made = Definition()
    for number in range(count):
        made.run(step(number, padding), made.digests[-1:])
    return made


def wide(count: int) -> Definition:
    """The last vertex takes all others."""
    made = Definition()
    for number in range(count - 1):
        made.run(step(number), [])
    made.run(step(count), list(made.digests))
    return made


def diamonds(count: int) -> Definition:
    """Each vertex takes the two before."""
    made = Definition()
    for number in range(count):
        made.run(step(number), made.digests[-2:])
    return made


class Hashing:
    """What shows in how many seconds the program hashes a block: two calls, of which the first is refused, and the second hashes."""

    def __init__(self, room: Room) -> None:
        made = chain(1)
        made.add(field(3, bytes(12 * MEBIBYTE // SMALLER)), made.digests)
        self.blocks = made.blocks
        self.refused, self.whole = ["check", room.file(made.unread())], ["check", room.file(made.data())]

    def block(self) -> float:
        refused, whole = fastest([self.refused, self.whole], 1)
        return (whole - refused) / self.blocks


def read(room: Room) -> None:
    hashing, first = Hashing(room), ["check", room.file(chain(1).unread())]
    for count, metadata in ((16_000, False), (6_000, True)):
        sizes = [sized(count), 4 * sized(count)]
        data = [chain(size).unread(metadata) for size in sizes]
        reads = [["check", room.file(each)] for each in data]
        least, small, large, refused, whole = fastest([first, *reads, hashing.refused, hashing.whole], 4)
        times, block = [small - least, large - least], (whole - refused) / hashing.blocks
        growth = times[1] / len(data[1]) / (times[0] / len(data[0]))
        for each, took in zip(data, times):
            ratio = took / (block * blocks(len(each)))
            print(f"read {len(each) / MEBIBYTE:.1f} MiB, metadata {metadata}: {len(each) / took / 1e6:.0f} MB/s, {ratio:.2f} of hashing", flush=True)
        print(f"growth for a byte, metadata {metadata}: {growth:.2f}", flush=True)
    entries = chain(sized(64_000)).unread()
    print(f"read {sized(64_000)} entries: {memory(['check', room.file(entries)]) / len(entries):.2f} of their bytes at most in memory", flush=True)


def keys(room: Room) -> None:
    hashing = Hashing(room)
    sizes = [sized(count) for count in (4_000, 16_000, 64_000)]
    graphs = [(f"a chain of {size}", chain(size)) for size in sizes]
    graphs += [(f"a wide graph of {sizes[1]}", wide(sizes[1])), (f"diamonds of {sizes[1]}", diamonds(sizes[1]))]
    graphs.append(("15 vertices of a mebibyte", chain(15, "0123456789abcdef" * (65_536 // SMALLER))))
    times = []
    for name, made in graphs:
        file, unread = room.file(made.data()), ["check", room.file(made.unread())]
        read, refused, whole, *took = fastest([unread, hashing.refused, hashing.whole, ["check", file], ["keys", file]], 2)
        checked, keyed = (each - read for each in took)
        block = (whole - refused) / hashing.blocks
        print(f"check, {name}: {checked / (block * made.blocks):.2f} of the hashing; keys {keyed / checked:.2f} of check, {keyed * 1e3:.1f} ms", flush=True)
        times.append(keyed)
    growth = times[2] / sizes[2] / (times[0] / sizes[0])
    print(f"growth for a vertex from {sizes[0]} to {sizes[2]}: {growth:.2f}", flush=True)
    for count, metadata in ((64_000, False), (24_000, True)):
        data = chain(sized(count)).data(metadata)
        print(f"keys, a chain of {sized(count)}, metadata {metadata}: {memory(['keys', room.file(data)]) / len(data):.2f} of its bytes at most in memory", flush=True)


# Runs

JOBS = 64
VERTICES = 16
CONTENT = 256 * 1024


def filled(job: int, content: int, vertices: int) -> bytes:
    """A job with a LOCKED folder of its own: its first vertex fills that, and each further one changes a little, so all is hashed again."""
    made = Definition()
    made.run(["put", "/cache", "large", f"{job:8d}" * (content // 8)], [], f"folder-{job}")
    for number in range(1, vertices):
        made.run(["put", "/cache", "small", f"{job} {number}"], made.digests[-1:], f"folder-{job}")
    return made.data()


def wall(calls: list[list[str]]) -> float:
    """The seconds until programs that run side by side have all ended."""
    begun = time.perf_counter()
    running = [subprocess.Popen([PROGRAM, *words], stdin=subprocess.DEVNULL, stdout=subprocess.DEVNULL) for words in calls]
    if any([each.wait() for each in running]):
        raise SystemExit("a run failed")
    return time.perf_counter() - begun


def growth_of_keys(room: Room, name: str, shape: Callable[[int], Definition]) -> None:
    sizes = [sized(1_000), sized(8_000)]
    least, *times = fastest([["run", "--nodes", "1", room.file(shape(size).data())] for size in (1, *sizes)])
    few, many = ((took - least) / size for took, size in zip(times, sizes))
    print(f"run, {sizes[1]} keys {name}: {1 / many:.0f} keys/s, a key takes {many / few:.2f} of one of {sizes[0]}", flush=True)


def side_by_side(room: Room) -> None:
    """How much faster jobs are on several nodes of one farm; beside it, in as many farms of one node, which share nothing."""
    files = [room.file(filled(job, CONTENT // SMALLER, VERTICES)) for job in range(JOBS)]
    ways = [[["run", "--nodes", str(nodes), *files]] for nodes in (1, 2, 4)]
    ways += [[["run", "--nodes", "1", *files[place::count]] for place in range(count)] for count in (2, 4)]
    took = [float("inf")] * len(ways)
    for _ in range(3):
        took = [min(before, wall(way)) for before, way in zip(took, ways)]
    names = ["nodes 2", "nodes 4", "2 farms of 1 node", "4 farms of 1 node"]
    for name, one in zip(names, took[1:]):
        print(f"run, {JOBS} jobs of {VERTICES}, a folder each, {name}: {took[0] / one:.2f} times 1 node", flush=True)


def run(room: Room) -> None:
    growth_of_keys(room, "in a chain", chain)
    growth_of_keys(room, "side by side", wide)
    side_by_side(room)
    large = ["run", "--nodes", "2", *(room.file(filled(job, 16_000_000 // SMALLER, 1)) for job in range(2))]
    print(f"run, two files of 16 MB put: {min(wall([large]) for _ in range(3)):.2f} s, {memory(large) / 1e6:.0f} MB at most in memory", flush=True)


# Merges


def listing(lines: int, side: int) -> bytes:
    """A folder of files, a hundred lines for each folder in it. The sides have each another twentieth of the lines changed."""
    made = list[str]()
    for number in range(lines):
        folder, file = divmod(number, 100)
        changed = side if number % 20 == side else 0
        name, time = f"d{folder:05}/some-file-name-{file:03}.o", 1_700_000_000_000_000_000 + number + changed
        made.append(f"{name} f {time:020} {number + changed:064x} 644 0 0 {number}\n" if file else f"d{folder:05} d 755 0 0\n")
    return "".join(made).encode("ascii")


def merge(room: Room) -> None:
    counts = [sized(count) for count in (25_000, 50_000, 200_000)]
    sides = [[listing(count, side) for side in (0, 1, 2)] for count in (FEW, *counts)]
    calls = [["merge", *(room.file(side) for side in three)] for three in sides]
    least, *times = fastest(calls)
    each = [(took - least) / count for took, count in zip(times, counts)]
    for count, one, three, words in zip(counts, each, sides[1:], calls[1:]):
        held = memory(words) / sum(map(len, three))
        print(f"merge, 3 times {count} lines: {one * count:.2f} s, {one / each[0]:.2f} of one of {counts[0]}, memory {held:.2f} of the bytes", flush=True)


SUBJECTS: dict[str, Callable[[Room], None]] = {"replay": replay, "save": save, "events": events, "node": node, "read": read, "keys": keys}
SUBJECTS |= {"merge": merge, "run": run}


def main(words: list[str]) -> int:
    if not set(words) <= set(SUBJECTS):
        print((__doc__ or "").split("\n\n")[1], file=sys.stderr)
        return 2
    print(f"load {os.getloadavg()[0]:.1f}, {os.cpu_count()} processors", flush=True)
    for name, measure in SUBJECTS.items():
        if not words or name in words:
            with tempfile.TemporaryDirectory(prefix="speed-") as folder:
                measure(Room(folder))
    return 0


if __name__ == "__main__":
    sys.exit(main(sys.argv[1:]))
