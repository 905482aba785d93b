"""What was confirmed can be read again: by a farm whose stores were spoilt, and while what isn't needed is forgotten."""
from __future__ import annotations

import contextlib
import grp
import io
import os
import shutil
import subprocess
import sys
import tarfile
import threading
import time
import unittest
from typing import Callable
from unittest import mock

from agent.faults import FarmFault, LifeOver
from agent.filters.bounds import Bounds
from agent.filters.node import NodeAgent
from agent.service.serving import close_to_others
from agent.transport.local import LocalTransport

from agent.tests import support


@unittest.skipUnless(support.has("casync"), support.needs("casync"))
class Spoilt(support.FarmTest):
    """A farm of this machine whose contents are spoilt while it runs."""

    def setUp(self) -> None:
        super().setUp()
        self.up("up", "--nodes", "1")

    def run_on(self, command: str, path: str = "w", status: int = 0) -> str:
        done = self.farm("run", "--folder", f"locked:c={path}", "--", "sh", "-c", command, status=status)
        return done.stdout + done.stderr

    def test_stands(self) -> None:
        """A run whose folder stands there unchanged needs no store, and what it keeps is readable from there again."""
        self.run_on("head -c 300000 /dev/urandom > w/big; echo one > w/f")
        shutil.rmtree(f"{self.home}/contents/chunks")
        self.assertIn("one", self.run_on("cat w/f"))
        self.assertIn("version 3", self.run_on("echo two >> w/f; cp w/big big"))
        shutil.rmtree(self.path("w"))
        self.assertIn("one\ntwo\n", self.run_on("cat v/f; cmp v/big big", path="v"))

    def test_zeroed(self) -> None:
        """Chunks that were zeroed are made anew of the folder at hand, before a commit relies on them."""
        self.run_on("head -c 300000 /dev/urandom > w/big; cp w/big big; echo one > w/f")
        for folder, _, names in os.walk(f"{self.home}/contents/chunks"):
            for name in names:
                size = os.path.getsize(f"{folder}/{name}")
                os.unlink(f"{folder}/{name}")
                with open(f"{folder}/{name}", "wb") as file:
                    file.write(bytes(size))
        self.assertIn("version 2", self.run_on("echo two >> w/f"))
        shutil.rmtree(self.path("w"))
        self.assertIn("one\ntwo\n", self.run_on("cat v/f; cmp v/big big", path="v"))


class Closed(support.RoomTest):
    def test_modes(self) -> None:
        """Homes and contents are closed to others, also those that were made before."""
        for name, group, mode in (("new", None, 0o700), ("open", None, 0o700), ("shared", grp.getgrgid(os.getegid()).gr_name, 0o750)):
            if name != "new":
                os.mkdir(self.path(name))
                os.chmod(self.path(name), 0o777)
            close_to_others(self.path(name), group)
            self.assertEqual(os.stat(self.path(name)).st_mode & 0o777, mode, name)


@unittest.skipUnless(support.has("casync"), support.needs("casync"))
class OldRecords(support.FarmTest):
    """A coordinator's record that is old, lost or a copy."""

    def run_on(self, command: str) -> str:
        return self.farm("run", "--node", "1", "--folder", "locked:c=w", "--", "sh", "-c", command).stderr

    def put_back(self, home: str, old: str) -> None:
        for name in ("record", "record.log"):
            with contextlib.suppress(FileNotFoundError):
                os.unlink(f"{home}/{name}")
            if os.path.exists(f"{old}/{name}"):
                shutil.copy(f"{old}/{name}", home)

    def refused(self, *words: str) -> str:
        done = self.farm(*words, status=70)
        self.assertEqual(done.stdout, "")
        self.assertIn("--restored", done.stderr)
        return done.stderr

    def test_put_back(self) -> None:
        """An old record is noticed before it answers, also an empty one. The operator's word makes a new generation of the farm."""
        words = ("up", "--nodes", "1")
        up = self.up(*words)
        self.run_on("echo one > w/f")
        shutil.copytree(self.home, self.path("old"), ignore=lambda folder, names: [name for name in names if not name.startswith("record")])
        self.run_on("echo two > w/f")
        self.run_on("echo three > w/f")
        up.terminate()
        up.wait()
        os.unlink(f"{self.home}/known")  # the node's home still knows
        self.put_back(self.home, self.path("old"))
        key = self.read("home/key")
        self.assertRegex(self.refused(*words), r"older than the farm.*node 1 tells that locked:c had version 3, and the record has 1")
        self.put_back(self.home, self.path("none"))
        self.assertRegex(self.refused(*words), "tells that ticket [0-9]+ was granted, and the record's last is 0; locked:c had version")
        self.put_back(self.home, self.path("old"))
        up = self.up(*words, "--restored")
        self.assertNotEqual(self.read("home/key"), key)
        self.assertRegex(self.asked("log", "--lost"), r"\Alocked:c version 2 lost [0-9a-f]{64}\nlocked:c version 3 lost [0-9a-f]{64}\n\Z")
        self.assertIn("version 2", self.run_on("cat w/f; echo other > w/f"))
        self.asked("get", "--lost", "locked:c@3", self.path("lost"))
        self.asked("get", "locked:c", self.path("last"))
        self.assertEqual((self.read("lost/f"), self.read("last/f")), ("three\n", "other\n"))
        up.terminate()
        up.wait()
        self.up(*words)
        self.assertIn("version 3", self.run_on("true"))

    def test_backup(self) -> None:
        """A backup that is made while commands commit is a record, closed to others; put back in place of a later one it is noticed."""
        up = self.up("up", "--nodes", "1")
        self.run_on("echo one > w/f")
        working = [self.begin("run", "--folder", f"locked:{name}={name}", "--", "true") for name in "xyz"]
        self.asked("backup", self.path("farm.tar"))
        for each in working:
            each.communicate()
        self.assertEqual(os.stat(self.path("farm.tar")).st_mode & 0o777, 0o600)
        self.run_on("echo two > w/f")
        up.terminate()
        up.wait()
        self.assertIn("has no record", self.asked("backup", self.path("none.tar"), "--home", self.path("nowhere"), status=64))
        os.mkdir(self.path("moved"))
        for home in (self.home, self.path("moved")):
            with contextlib.suppress(FileNotFoundError):
                os.unlink(f"{home}/record.log")
            with tarfile.open(self.path("farm.tar")) as archive:
                archive.extractall(home)
        self.assertIn("older than the farm", self.refused("up", "--nodes", "1"))
        self.env["FARM_HOME"] = self.path("moved")
        self.up("up", "--nodes", "1")
        self.assertRegex(self.asked("log", "locked:c"), r"\Alocked:c version 1 ")

    @unittest.skipUnless(support.has("redis-server"), support.needs("redis-server"))
    def test_machines(self) -> None:
        """A node tells a coordinator whose record is older, copied or empty; a second coordinator hears the first one, and so does that."""
        with support.redis_server(self.room) as url:
            self.env["FARM_BROKER"] = url
            self.env["FARM_HOME"] = self.path("n1")
            words = ("coordinator", "--nodes", "1", "--home")
            first = self.up(*words, self.path("c"))
            os.makedirs(self.path("n1"))
            self.asked("key", "1", "--home", self.path("c"), self.path("n1/node.key"))
            self.up("node", "1", "--nodes", "1")
            self.run_on("echo one > w/f")
            shutil.copytree(self.path("c"), self.path("old"), ignore=lambda folder, names: [name for name in names if name.endswith(".sock")])
            os.makedirs(self.path("new"))
            shutil.copy(self.path("c/key"), self.path("new/key"))
            self.assertIn("another coordinator of this farm runs", self.refused(*words, self.path("old")))
            self.run_on("echo two > w/f")
            self.assertIsNone(first.poll())
            first.terminate()
            first.wait()
            for home in ("old", "new"):
                self.assertIn("older than the farm", self.refused(*words, self.path(home)))
            self.up(*words, self.path("c"))
            self.assertIn("version 3", self.run_on("echo three > w/f"))


@unittest.skipUnless(support.has("casync"), support.needs("casync"))
class Operated(support.FarmTest):
    def test_retired(self) -> None:
        """Behind a retired node another one has its paths. The last one is retired only by --yes. A commit says how much it has."""
        self.up("up", "--nodes", "2")
        words = ("--folder", "locked:c=w", "--", "sh", "-c", "echo one >> w/f; cat w/f")
        self.assertIn("version 1 (1 file, 4 bytes)\n", self.farm("run", "--node", "1", *words).stderr)
        self.assertIn("wasn't made by this node", self.farm("run", "--node", "2", *words, status=70).stderr)
        self.asked("retire", "1")
        support.until(lambda: os.path.exists(f"{self.home}/node1/places/retired"))
        self.assertEqual(self.farm("run", "--node", "2", *words).stdout, "one\none\n")
        self.assertIn("the last one", self.asked("retire", "2", status=64))
        self.assertIn("retired", self.asked("retire", "2", "--yes"))

    def test_taken_over(self) -> None:
        """A farm that people start ends the idle one of a command, and waits for one that is in use."""
        self.farm("run", "--folder", "locked:c=w", "--", "sh", "-c", "echo one > w/f")
        begun = time.monotonic()
        up = self.up("up", "--nodes", "1")
        self.assertLess(time.monotonic() - begun, 8)
        self.assertIn("version 2", self.farm("run", "--folder", "locked:c=w", "--", "true").stderr)
        up.terminate()
        up.wait()
        using = self.begin("run", "--", "sh", "-c", "touch begun; until [ -e go ]; do sleep 0.1; done")
        self.wait_for(self.path("begun"))
        up = subprocess.Popen([*support.FARM, "up", "--nodes", "1"], env=self.env, stdout=subprocess.PIPE, stderr=subprocess.PIPE, text=True)
        self.ups.append(up)
        self.hear(up, "waiting for the farm that a command started")
        self.write("go", "")
        assert up.stdout
        self.assertEqual(up.stdout.readline(), "up\n")
        self.assertEqual(using.wait(), 0)

    def test_broker_named(self) -> None:
        """Where a broker is named no farm of its own is begun in a home that isn't there."""
        self.env["FARM_BROKER"] = "redis://127.0.0.1:1"
        self.assertIn("unset FARM_BROKER", self.asked("run", "--", "true", status=64))
        self.assertFalse(os.path.exists(self.home))


class Raced(support.RoomTest):
    """Values that several threads change."""

    def setUp(self) -> None:
        super().setUp()
        self.setup_of = support.setup_of(self.room, support.PRACTICE, LocalTransport())

    def race(self, *works: Callable[[], None]) -> None:
        faults = list[BaseException]()

        def run(work: Callable[[], None]) -> None:
            try:
                for _ in range(300):
                    work()
            except BaseException as fault:
                faults.append(fault)

        threads = [threading.Thread(target=run, args=(work,)) for work in works]
        before = sys.getswitchinterval()
        sys.setswitchinterval(1e-6)
        try:
            for thread in threads:
                thread.start()
            for thread in threads:
                thread.join()
        finally:
            sys.setswitchinterval(before)
        self.assertEqual(faults, [])

    def test_unwanted(self) -> None:
        """An ask that nobody waits for any more isn't forgotten where a life begins just then."""
        agent, asks = NodeAgent(1, 1, self.setup_of), iter(range(1000))

        def leave() -> None:
            ask = next(asks)
            agent._leave(ask, 0)
            self.assertTrue(agent._forgets_unwanted(0, ask), ask)

        with mock.patch.object(agent, "call", side_effect=LifeOver):
            for ask in range(2000, 4000):
                agent._leave(ask, 0)
            self.race(leave, lambda: agent._hear_note("life 5"))

    def test_since(self) -> None:
        agent, tickets = support.coordinator_of(self.setup_of), iter(range(10**6))
        with mock.patch("agent.filters.coordinator.SINCE_MOST", 5):
            work = lambda: agent._hear_grants([f"granted 1 1 1 {next(tickets)} plain locked:a=0:00 aa" for _ in range(20)])  # noqa: E731
            self.race(work, work, work)
        self.assertEqual(len(agent.since), 5)


class Lied(support.RoomTest):
    def test_unproven(self) -> None:
        """What a node tells beyond the record keeps that node out where it doesn't prove it, and stops the coordinator where it does."""
        setup = support.setup_of(self.room, os.environ.get("FARMCTL", support.PRACTICE), LocalTransport())
        agent = support.coordinator_of(setup)
        agent.talk.start()
        self.addCleanup(agent.stop)

        def tells(node: int, ticket: str, *words: str) -> None:
            agent.receive([agent.key.of_node(node).hints().seal(" ".join(["knows", str(node), agent.watch.own, "0", "1", ticket, *words]))])

        with contextlib.redirect_stderr(io.StringIO()) as heard:
            for ticket, word in (("ticket=999:granted", "locked:a=0:00"), ("ticket=0:granted", f"locked:a=7:{'a' * 64}"), ("ticket=9:granted:" + "0" * 32, "locked:a=0:00")):
                tells(1, ticket, word)
                tells(2, "ticket=0:granted")
                self.assertEqual((agent.watch.told, agent.watch.fault), ({2}, None), ticket)
        self.assertRegex(heard.getvalue(), "node 1 isn't answered: it tells that ticket 999 was granted, .*without a proof")
        tells(1, "ticket=0:granted")
        self.assertEqual(agent.watch.told, {1, 2})
        word = "ticket=9:granted"
        with self.assertRaisesRegex(FarmFault, "older than the farm.*node 1 tells that ticket 9 was granted"):
            tells(1, f"{word}:{agent.key.proof(word)}")


class Bounded(support.RoomTest):
    def test_most(self) -> None:
        """What a node asks beyond its bound is lost, until it has less; others aren't held back."""
        held, passed = {1: 0, 2: 0}, []
        bounds = Bounds(3, lambda node: held[node])
        with mock.patch("agent.filters.bounds.LOOK_EVERY", 0.0), contextlib.redirect_stderr(io.StringIO()) as heard:
            for ask in range(5):
                passed.append(bounds.may_pass(f"acquire 1 7 {ask} locked:a x"))
                held[1] += passed[-1]
            self.assertEqual(passed, [True, True, True, False, False])
            self.assertEqual([bounds.may_pass(line) for line in ("commit 1 7 1 x", "tenure 2 7 1 shared:a x", "acquire", "acquire 99999 1 1 x")], [True] * 4)
            held[1] = 2
            self.assertEqual(bounds.may_pass("tenure 1 7 9 shared:a x"), True)
            held[1] = 3
            self.assertEqual(bounds.may_pass("tenure 1 7 10 shared:a x"), False)
        self.assertEqual(heard.getvalue(), "farm: node 1 is held back: it has 3 leases and asks, where --most-asks is 3\n")


class Divided(support.RoomTest):
    def test_another_digest(self) -> None:
        """A node that is told another digest for a version that it knows says so, and takes part in nothing more."""
        transport = LocalTransport()
        agent = NodeAgent(1, 1, support.setup_of(self.room, os.environ.get("FARMCTL", support.PRACTICE), transport))
        agent.talk.start()
        self.addCleanup(agent.stop)
        seal = agent.hints.seal
        agent.receive(seal(f"known 1 ticket=5:granted locked:a=3:{'a' * 64}"))
        agent.receive(seal(f"known 1 ticket=5:granted locked:a=2:{'b' * 64}"))
        agent.check_retired()
        with contextlib.redirect_stderr(io.StringIO()) as heard:
            agent.receive(seal(f"known 1 ticket=6:granted locked:a=3:{'c' * 64}"))
        self.assertRegex(heard.getvalue(), f"node 1 takes part in nothing more: locked:a version 3 is known as {'a' * 64}, and is told as {'c' * 64}")
        with self.assertRaisesRegex(FarmFault, "takes part in nothing more"):
            agent.check_retired()
        agent.stop()
        with contextlib.redirect_stderr(io.StringIO()):
            again = NodeAgent(1, 1, agent.setup)
        self.assertEqual(again.knowledge.whole(), (6, {"locked:a": {2: "b" * 64, 3: "a" * 64}}))


if __name__ == "__main__":
    unittest.main()
