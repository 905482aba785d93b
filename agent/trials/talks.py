"""Short conversations with one filter, in which somebody else plays its farm: what is said to it, what it has confirmed so far, and what
has to be there after it was started again."""
from __future__ import annotations

import base64
import hashlib
import hmac
import shutil
from typing import Callable, Protocol

from agent.filters.lines import Answer
from agent.transport.keys import digits_of
from agent.words import EMPTY

KEY = "5" * 64
BIG = [f"locked:{number:02}{'x' * 4000}" for number in range(16)]


class Wrong(Exception):
    """What a filter kept or said isn't right."""


def expect(holds: bool, what: str) -> None:
    if not holds:
        raise Wrong(what)


def node_key(node: int) -> str:
    return digits_of(KEY.encode(), node)


def sealed(text: str) -> str:
    """A line under the key of the node that it names; contents go under none."""
    words = text.split(" ", 2)
    if words[0] in ("fetch", "blob"):
        return f"{text} -"
    return f"{text} {hmac.new(node_key(int(words[1])).encode(), text.encode(), hashlib.sha256).hexdigest()}"


def from_outside(*words: object) -> str:
    return "m " + sealed(" ".join(str(word) for word in words))


def opened(line: str) -> list[str]:
    text = line.rpartition(" ")[0]
    expect(sealed(text) == line, f"a line is sealed wrongly: {line[:80]}")
    return text.split(" ")


def digest_of(data: bytes) -> str:
    return hashlib.sha256(data).hexdigest()


class Say(Protocol):
    """Says a line to the filter. `FilterGone` is raised where it ends."""

    def __call__(self, line: str) -> Answer: ...

    def together(self, lines: list[str], hear: Callable[[Answer], None]) -> None:
        """Says lines that the filter finds there at once."""


Step = Callable[[Say], None]


class Conversation(Protocol):
    """What is said to a filter, and what it has confirmed so far."""

    def __init__(self, room: str) -> None: ...

    words: list[str]
    steps: list[Step]

    def greeted(self, greeting: Answer) -> None: ...

    def judge(self, say: Say) -> None:
        """Looks whether all that was confirmed is kept."""


class WithCoordinator:
    """Two nodes ask, commit, commit too late; a lease is withdrawn, a folder pruned, a node retired."""

    def __init__(self, room: str) -> None:
        self.words = ["coordinator", "--record", f"{room}/record", "--key", f"{room}/key"]
        self.tickets: list[int] = []  # as they were given
        self.of: dict[tuple[int, int], int] = {}  # the ticket of a node's ask
        self.versions: dict[tuple[str, int], tuple[int, str]] = {}  # of a slot and number: ticket and digest that were confirmed
        self.fenced: set[int] = set()
        self.asks: dict[tuple[int, int], list[str]] = {}
        a, b, c = "locked:a", "locked:b", "locked:c"
        self.steps: list[Step] = [
            self.outside("hello", 1, 7), self.outside("hello", 2, 8),
            self.ask(1, 1, a, b), self.commit(1, 1, a, b),
            self.ask(1, 2, a), self.ask(2, 1, a), self.withdraw(1, 2), self.commit(1, 2, a), self.commit(2, 1, a),
            self.at_once(1, range(7, 11)), self.operate(f"prune {b}"), self.ask(1, 3, c), self.operate("retire 2"), self.ask(1, 4, a, b), self.commit(1, 4, a, b), self.commit(1, 3, c),
        ]

    def greeted(self, greeting: Answer) -> None:
        expect(greeting.note == "started", f"it says {greeting.note}")

    # Steps.

    def outside(self, *words: object) -> Step:
        return lambda say: self.hear(say(from_outside(*words)))

    def operate(self, line: str) -> Step:
        return lambda say: self.hear(say(line))

    def ask(self, node: int, number: int, *folders: str) -> Step:
        self.asks[node, number] = list(folders)
        return self.outside("acquire", node, node + 6, number, *folders)

    def withdraw(self, node: int, number: int) -> Step:
        return lambda say: self.hear(say(f"withdraw {self.ticket(say, node, number)}"))

    def commit(self, node: int, number: int, *slots: str) -> Step:
        def step(say: Say) -> None:
            ticket = self.ticket(say, node, number)
            self.hear(say(self.committing(node, ticket, *slots)))
            expect(ticket in self.fenced or ticket in self.committed(), f"what came of ticket {ticket} isn't said")

        return step

    def at_once(self, node: int, numbers: range) -> Step:
        """Asks, each of a folder of its own, whose commits are said together, with what comes too late among them."""
        for number in numbers:
            self.asks[node, number] = [f"locked:d{number}"]

        def step(say: Say) -> None:
            tickets = [self.ticket(say, node, number) for number in numbers]
            lines = [self.committing(node, ticket, f"locked:d{number}") for number, ticket in zip(numbers, tickets)]
            say.together([*lines[:2], f"withdraw {tickets[2]}", *lines[2:], *lines[:1]], self.hear)
            expect({*tickets} <= self.fenced | self.committed(), f"what came of {tickets} isn't said")

        return step

    def committing(self, node: int, ticket: int, *slots: str) -> str:
        return from_outside("commit", node, node + 6, ticket, *(f"{slot}={digest_of(f'{ticket} {slot}'.encode())}" for slot in slots))

    def ticket(self, say: Say, node: int, number: int) -> int:
        """A node that wasn't answered asks again."""
        if (node, number) not in self.of:
            self.hear(say(from_outside("acquire", node, node + 6, number, *self.asks[node, number])))
        return self.of[node, number]

    # What it says.

    def committed(self) -> set[int]:
        return {ticket for ticket, _ in self.versions.values()}

    def given(self, ticket: int) -> None:
        if ticket not in self.tickets:
            expect(ticket > max(self.tickets, default=0), f"ticket {ticket} is given after {self.tickets}")
            self.tickets.append(ticket)

    def hear(self, answer: Answer) -> None:
        for line in answer.sends:
            words = opened(line)
            if words[0] == "granted":
                self.given(int(words[4]))
                self.of[int(words[1]), int(words[3])] = int(words[4])
            elif words[0] == "committed":
                for word in words[4:]:
                    slot, _, version = word.rpartition("=")
                    number, _, digest = version.partition(":")
                    self.confirm(slot, int(number), int(words[3]), digest)
            elif words[0] == "fenced":
                self.fenced.add(int(words[3]))
        words = answer.note.split(" ")
        if words[0] == "pruned":
            self.given(int(words[1]))
            self.confirm("locked:b", 0, int(words[1]), EMPTY)

    def confirm(self, slot: str, number: int, ticket: int, digest: str) -> None:
        """A version that counts. Of a pruned folder the number isn't said."""
        expect(digest in (EMPTY, digest_of(f"{ticket} {slot}".encode())), f"ticket {ticket} has another content of {slot[:20]}")
        expect(self.versions.setdefault((slot, number or -ticket), (ticket, digest)) == (ticket, digest), f"{slot[:20]} {number} was confirmed otherwise")

    def judge(self, say: Say) -> None:
        lines: dict[str, list[tuple[int, str]]] = {}
        status = [fact.split(" ") for fact in say("status").facts]
        for slot in [words[1] for words in status if words[0] == "last" and words[1] not in BIG]:
            rows = [fact.split(" ") for fact in say(f"line {slot}").facts]
            expect([int(row[0]) for row in rows] == list(range(1, len(rows) + 1)), f"the numbers of {slot[:20]} aren't 1, 2, ..")
            lines[slot] = [(int(row[1]), row[2]) for row in rows]
            tickets = [ticket for ticket, _ in lines[slot]]
            expect(tickets == sorted(set(tickets)), f"the tickets of {slot[:20]} don't rise: {tickets}")
            expect(not self.fenced & set(tickets), f"a fenced ticket is on the line of {slot[:20]}: {tickets}")
        for slot in BIG:
            lines[slot] = [(int(words[2].split(":")[1]), words[2].split(":")[2]) for words in status if words[:2] == ["last", slot]]
        for (slot, number), version in self.versions.items():
            line = lines.get(slot, [])
            expect(version in line if number < 0 else line[number - 1 : number] == [version], f"{slot[:20]} {number}, {version[0]}, was confirmed, and isn't on its line")
        last = next(int(words[1]) for words in status if words[0] == "tickets")
        expect(last >= max(self.tickets, default=0), f"the last ticket is {last}, and {self.tickets} were given")


class Filling(WithCoordinator):
    """What fills a log, all but some entries."""

    def __init__(self, room: str) -> None:
        super().__init__(room)
        self.steps = [self.outside("hello", 1, 7), self.ask(1, 1, *BIG), self.commit(1, 1, *BIG)]


class WithFullLog(WithCoordinator):
    """The log becomes too long amid lines that come together, and a record takes its place."""

    filled = ""  # the folder that `Filling` left

    def __init__(self, room: str) -> None:
        super().__init__(room)
        for name in ("record", "record.log"):
            shutil.copy(f"{self.filled}/{name}", room)
        self.tickets = [1]
        self.versions = {(slot, 1): (1, digest_of(f"1 {slot}".encode())) for slot in BIG}
        self.steps = [self.ask(1, 2, "locked:a"), self.commit(1, 2, "locked:a"), self.at_once(1, range(3, 7)), self.ask(1, 7, "locked:a")]


class WithNode:
    """A life, a content that is missed and comes, executions, commits that count and don't, contents that are handed out and forgotten."""

    def __init__(self, room: str) -> None:
        self.room = room
        self.words = ["node", "--node", "1", "--nodes", "2", "--store", f"{room}/store", "--key", f"{room}/node.key"]
        self.life = self.ticket = 0
        self.kept: dict[str, bytes] = {}  # contents that were confirmed
        self.base, self.blob = b"base " * 3000, b"blob " * 20
        for name, data in (("base", self.base), ("new", b"new " * 3000), ("newer", b"newer " * 100)):
            with open(f"{room}/{name}", "wb") as file:
                file.write(data)
        self.steps: list[Step] = [
            lambda say: self.execute(say, self.base, "new", "committed"), self.take_blob, lambda say: self.execute(say, EMPTY.encode(), "newer", "fenced"),
            self.hand_out, self.forget, self.take_blob,
        ]

    def greeted(self, greeting: Answer) -> None:
        words = greeting.note.split(" ")
        expect(words[0] == "life" and [opened(line) for line in greeting.sends] == [["hello", "1", words[1]]], f"it says {greeting.note}")
        expect(int(words[1]) > self.life, f"life {words[1]} begins after {self.life}")
        expect(not greeting.facts, f"it found {greeting.facts}")
        self.life = int(words[1])

    def execute(self, say: Say, base: bytes, name: str, ending: str) -> None:
        """An ask up to its end, of a folder whose last version is here or has to come first."""
        ask = say("ask locked:a").note.split(" ")[1]
        self.ticket += 1
        digest = digest_of(base) if base is self.base else EMPTY
        say(from_outside("granted", 1, self.life, ask, self.ticket, "plain", f"locked:a={int(base is self.base)}:{digest}"))
        if say(f"begin {self.ticket}").note == "refused ContentsMissing":
            expect(digest not in self.kept, "a content that was confirmed is missing")
            if say(f"blob {self.room}/base").note == "blob taken":
                self.kept[digest] = base
            say(f"begin {self.ticket}")
        done = say(f"finish {self.ticket} locked:a={self.room}/{name}")
        with open(f"{self.room}/{name}", "rb") as file:
            data = file.read()
        expect(done.note == f"finished {self.ticket}", f"it says {done.note}")
        new = f"locked:a={digest_of(data)}"
        expect([opened(line) for line in done.sends] == [["commit", "1", str(self.life), str(self.ticket), new]], f"it sends {done.sends}")
        self.kept[digest_of(data)] = data
        news = [f"locked:a=1:{digest_of(data)}"] if ending == "committed" else []
        said = say(from_outside(ending, 1, self.life, self.ticket, *news)).note
        expect(said.startswith("learned " if news else "dropped "), f"it says {said}")

    def take_blob(self, say: Say) -> None:
        """A content that nobody wants isn't kept, so one is wanted first."""
        ask = say("ask locked:b").note.split(" ")[1]
        self.ticket += 1
        digest = digest_of(self.blob)
        say(from_outside("granted", 1, self.life, ask, self.ticket, "plain", f"locked:b=1:{digest}"))
        if say(from_outside("blob", 1, base64.b64encode(self.blob).decode())).note == "blob taken":
            self.kept[digest] = self.blob
        expect(say(f"begin {self.ticket}").note == f"begun {self.ticket}", "a content that came isn't there")
        say(f"abort {self.ticket}")

    def hand_out(self, say: Say) -> None:
        said = say(f"content {digest_of(self.blob)} {self.room}/out").note
        expect(said in (f"content {digest_of(self.blob)}", "refused FileFault"), f"it says {said}")

    def forget(self, say: Say) -> None:
        digest = digest_of(self.blob)
        kept = self.kept.pop(digest, None)
        said = say(f"forget {digest}").note
        expect(kept is None or said.startswith(("forgot", "refused OutOfMemory")), f"a content that was confirmed isn't forgotten: {said}")

    def judge(self, say: Say) -> None:
        for digest, data in self.kept.items():
            expect(say(f"content {digest} {self.room}/out").note == f"content {digest}", f"the content {digest} was confirmed, and isn't there")
            with open(f"{self.room}/out", "rb") as file:
                expect(file.read() == data, f"the content {digest} is another one")


KINDS: dict[str, type[Conversation]] = {"coordinator": WithCoordinator, "full log": WithFullLog, "node": WithNode}
