"""The talk with a filter, and with who asks an agent."""
from __future__ import annotations

import contextlib
import json
import os
import socket
import sys
import tempfile
import threading
import time
import unittest
from typing import Any
from unittest import mock

from agent import tools
from agent.faults import FarmFault, LifeOver, Missing
from agent.filters.lines import Answer, Filter, FilterGone, Pauses, Talk, line_of
from agent.service import client, sockets
from agent.service.carried import BadRequest, read, written
from agent.service.operators import Status, StatusRequest, Version
from agent.service.requests import StoreRequest
from agent.service.sockets import Connection, Service

from agent.tests import support

ECHO = """
import sys, os
print("m hello 1 1 seal"); print("= life 1"); sys.stdout.flush()
for line in sys.stdin:
    line = line[:-1]
    if line == "die": os._exit(3)
    if line == "half": sys.stdout.write("m one\\n: two"); sys.stdout.flush(); os._exit(3)
    if line == "odd": print("what"); sys.stdout.flush(); continue
    print(f"m to {line}\\n: fact {len(line)}\\n= did {line}"); sys.stdout.flush()
"""
COMMAND = [sys.executable, "-c", ECHO]


def is_answered(talk: Talk) -> bool:
    try:
        return talk.call("x").note == "did x"
    except FarmFault:
        return False


def program(text: str) -> list[str]:
    return [sys.executable, "-c", text]


class Lines(unittest.TestCase):
    def filter(self) -> Filter:
        made = Filter(COMMAND)
        self.addCleanup(made.close)
        return made

    def test_answers(self) -> None:
        talk = self.filter()
        self.assertEqual(talk.greeting, Answer(["hello 1 1 seal"], [], "life 1"))
        self.assertEqual(talk.call("ask x"), Answer(["to ask x"], ["fact 5"], "did ask x"))

    def test_line_feeds(self) -> None:
        talk = self.filter()
        for line in ("m x\nwithdraw 5", "a\rb", "\n"):
            with self.assertRaises(ValueError):
                talk.call(line)
        self.assertEqual(talk.call("next").note, "did next")
        self.assertEqual(talk.call("m " + "x" * (25 << 20)).note, "dropped TooLong")

    def test_together(self) -> None:
        """However many lines there are, and however long their answers, each is heard."""
        lines, heard = [f"{number} {'x' * number * 40}" for number in range(300)], list[Answer]()
        lines[7] = "x" * (25 << 20)
        self.filter().calls(lines, heard.append)
        self.assertEqual([answer.note for answer in heard], ["dropped TooLong" if number == 7 else f"did {line}" for number, line in enumerate(lines)])
        heard.clear()
        with self.assertRaises(FilterGone):
            self.filter().calls(["a", "b", "die", "c"], heard.append)
        self.assertEqual([answer.note for answer in heard], ["did a", "did b"])

    def test_words(self) -> None:
        self.assertEqual(line_of("ask", "locked:a", "ro=locked:b"), "ask locked:a ro=locked:b")
        for word in ("", "a b", "a\nb", "a\tb", "a\0b", "a\u2028b"):
            with self.assertRaises(ValueError):
                line_of("ask", word)

    def test_ends(self) -> None:
        for line in ("die", "half", "odd"):
            with self.assertRaises(FilterGone, msg=line):
                self.filter().call(line)

    def test_at_once(self) -> None:
        talk, wrong = self.filter(), []

        def calls(name: str) -> None:
            for number in range(50):
                if talk.call(f"{name} {number}").note != f"did {name} {number}":
                    wrong.append(name)

        threads = [threading.Thread(target=calls, args=(name,)) for name in "abcd"]
        for thread in threads:
            thread.start()
        for thread in threads:
            thread.join()
        self.assertEqual(wrong, [])

    def test_started_again(self) -> None:
        heard: list[str] = []
        order: list[str] = []
        talk = Talk("node 1", COMMAND, lambda: order.append("before"), lambda answer: heard.append(answer.note))
        talk.start()
        self.addCleanup(talk.stop)
        epoch = talk.epoch
        self.assertEqual(talk.call("x", epoch).note, "did x")
        with self.assertRaises(LifeOver):
            talk.call("die", epoch)
        self.assertEqual(talk.epoch, epoch + 1)
        with self.assertRaises(LifeOver):
            talk.call("y", epoch)
        self.assertEqual(talk.call("z", talk.epoch).note, "did z")
        self.assertEqual((heard, order), (["life 1", "did x", "life 1", "did z"], ["before", "before"]))

    def test_killed(self) -> None:
        talk = Talk("node 1", COMMAND, lambda: None, lambda answer: None)
        talk.start()
        self.addCleanup(talk.stop)
        assert talk.present[1]
        talk.present[1].process.kill()
        with self.assertRaises(LifeOver):
            talk.call("x")
        self.assertEqual(talk.call("x").note, "did x")

    def test_pauses(self) -> None:
        """A filter that can't start any more isn't begun all the time, whoever calls it, and it is told why and when it will be."""
        with tempfile.TemporaryDirectory() as room:
            text = (
                "import os, sys\n"
                f"open({room!r} + '/starts', 'a').write('x')\n"
                f"if os.path.exists({room!r} + '/ill'): sys.stderr.write('fault File\\n'); sys.exit(5)\n{ECHO}"
            )
            talk = Talk("node 1", program(text), lambda: None, lambda answer: None)
            talk.start()
            self.addCleanup(talk.stop)
            time.sleep(Pauses.WELL)
            open(f"{room}/ill", "w").close()
            said, end = set[str](), time.monotonic() + 2.5
            with contextlib.suppress(LifeOver, FarmFault):
                talk.call("die")
            while time.monotonic() < end:
                with contextlib.suppress(LifeOver):
                    try:
                        talk.call("x")
                    except FarmFault as fault:
                        said.add(str(fault))
                time.sleep(0.01)
            with open(f"{room}/starts") as file:
                self.assertLessEqual(len(file.read()), 5)
            self.assertTrue(any("fault File; the node 1 is begun again in" in text for text in said), said)
            os.unlink(f"{room}/ill")
            support.until(lambda: not talk.pauses.left() and is_answered(talk))

    def start_of(self, command: list[str]) -> str:
        with self.assertRaises(FarmFault) as raised:
            Talk("coordinator", command, lambda: None, lambda answer: None, patience=0.2).start()
        return str(raised.exception)

    def test_no_start(self) -> None:
        self.assertIn("can't be started", self.start_of(["/nowhere/farmctl"]))
        said = self.start_of(program("import sys; sys.stderr.write('no such verb\\n'); sys.exit(2)"))
        self.assertIn("doesn't start as the coordinator: no such verb", said)
        self.assertIn("files are locked", self.start_of(program("import sys; sys.stderr.write('fault Locked\\n'); sys.exit(4)")))
        self.assertIn("fault File", self.start_of(program("import sys; sys.stderr.write('fault File\\n'); sys.exit(4)")))

    def test_missing_tools(self) -> None:
        with mock.patch.dict("os.environ", {"PATH": "/nowhere", "FARMCTL": "/nowhere/farmctl"}):
            with self.assertRaisesRegex(Missing, "apt-get install casync"):
                tools.need("casync")
            with self.assertRaisesRegex(Missing, "/nowhere/farmctl"):
                tools.farm_program()


class Sockets(support.RoomTest):
    def test_killed(self) -> None:
        """A caller that was killed before it had read what it was told is gone all the same."""
        gone = threading.Event()

        def waits(_asked: object, link: Connection) -> int:
            while not link.gone:
                time.sleep(0.01)
            gone.set()
            return 0

        service = Service(self.path("s"), waits)
        self.addCleanup(service.close)
        threading.Thread(target=service.serve, daemon=True).start()
        begun = service.used
        with socket.socket(socket.AF_UNIX) as link:
            link.connect(self.path("s"))
            socket.send_fds(link, [b"f"], [0, 1, 2])
            link.sendall(written(StoreRequest()).encode() + b"\n")
            link.recv(1, socket.MSG_PEEK)
        self.assertTrue(gone.wait(support.PATIENCE))
        support.until(lambda: service.used > begun)

    def test_versions(self) -> None:
        """An agent of another version is understood as far as both know the words; of a request each word has to be known."""
        known: dict[str, Any] = {
            "leases": [], "waiting": [{"kind": "acquire", "node": 1, "life": 1, "ask": 1, "folders": ["locked:c"], "left": False}], "folders": [],
            "lives": {}, "gone": [], "retired": [], "tickets": 4, "heard": {}, "now": 5,
        }
        newer = [{**known["waiting"][0], "colour": {"of": ["it"]}}]

        def tells(asked: object, link: Connection) -> int:
            link.tell(asked)
            return 0

        rows: list[tuple[dict[str, Any], str]] = [
            (known, ""), (known | {"shape": [1, 2], "waiting": newer}, ""), (known | {"tickets": "4"}, "tells no Status: does another version of it run"),
            ({name: value for name, value in known.items() if name != "tickets"}, "tells no Status"), (known | {"kind": "Colours"}, "tells no Status"),
        ]
        for told, said in rows:
            with self.subTest(told), mock.patch.object(sockets, "written", lambda what: json.dumps({"kind": "Status"} | told)):
                service = Service(self.path("s"), tells)
                threading.Thread(target=service.serve, daemon=True).start()
                try:
                    status = client.told_at(self.path("s"), StatusRequest(), Status, shows=False)
                    self.assertEqual((said, status.tickets, status.versions, status.waiting[0].who), ("", 4, 0, ""))
                except FarmFault as fault:
                    self.assertIn(said or "none", str(fault))
                service.close()
        version = Version(version=1, ticket=2, digest="d", files=3)
        self.assertEqual(json.loads(written(version)), {"kind": "Version", "version": 1, "ticket": 2, "digest": "d", "files": 3})
        self.assertEqual(read(written(version), is_told=True), version)
        with self.assertRaisesRegex(BadRequest, "StatusRequest has no colour"):
            read(json.dumps({"kind": "StatusRequest", "last": 1, "colour": 1}))


if __name__ == "__main__":
    unittest.main()
