"""Whole farms: commands as people call them, over the stand-in for the filters or the program that FARMCTL names."""
from __future__ import annotations

import contextlib
import io
import json
import os
import random
import shutil
import signal
import socket
import subprocess
import sys
import threading
import unittest
from typing import Any
from unittest import mock

from agent.runs.caller import Patience
from agent.filters.coordinator import CoordinatorAgent
from agent.runs.executions import can_have_namespaces
from agent.faults import ClientGone, FarmFault, LifeOver, Missing, WaitOver
from agent.filters.lines import Answer, Pauses
from agent.filters.node import NodeAgent
from agent.transport.redis_wire import Redis, RedisFault, signed_in
from agent.runs.run import Job, Run
from agent.service.carried import written
from agent.service.requests import RunRequest, StoreRequest
from agent.service.sockets import Connection, Service, handled
from agent.folders.shared import Closed, SharedFolders, Tenure
from agent.transport.keys import FarmKey, make_key, node_key
from agent.transport.local import COORDINATOR, LocalTransport
from agent.words import EMPTY, Slot, Want

from agent.tests import support
from agent.tests.support import FARM


@unittest.skipUnless(support.has("casync"), support.needs("casync"))
class Alone(support.FarmTest):
    """A farm that a command starts for itself."""

    def test_one_command(self) -> None:
        done = self.farm("run", "--folder", "locked:c=w", "--", "sh", "-c", "echo one >> w/f; cat w/f; echo err >&2")
        self.assertEqual(done.stdout, "one\n")
        self.assertIn("err\n", done.stderr)
        self.assertIn("one of one node is started", done.stderr)
        self.assertIn("farm: committed 1 locked:c version 1", done.stderr)
        failed = self.farm("run", "--folder", "locked:c=w", "--", "sh", "-c", "echo bad >> w/f; exit 3", status=3)
        self.assertIn("nothing of it is kept", failed.stderr)
        self.assertNotIn("started", failed.stderr)
        self.farm("run", "--folder", "locked:c=w", "--", "sh", "-c", "mv w old; mkdir w; touch w/bad; exit 3", status=3)
        self.farm("run", "--folder", "ro=locked:c=w", "--", "sh", "-c", "cp w/f seen; echo no >> w/f")
        own = os.umask(0o027)
        try:
            self.assertEqual(self.farm("run", "--", "sh", "-c", "umask").stdout, "0027\n")
        finally:
            os.umask(own)
        self.assertEqual(self.read("seen"), "one\n")
        self.farm("run", "--folder", "locked:c=w", "--", "sh", "-c", "echo two >> w/f")
        self.assertRegex(self.asked("log", "locked:c"), r"\Alocked:c version 1 ticket 1 [0-9a-f]{64} 20[^\n]* held [0-9.]+ s\nlocked:c version 2 ticket 6 ")
        many = [word for number in range(17) for word in ("--folder", f"locked:{number}=w{number}")]
        self.assertIn("at most 16", self.asked("run", *many, "--", "true", status=64))
        self.assertIn("named twice", self.asked("run", "--folder", "locked:c=w", "--folder", "locked:c=v", "--", "true", status=64))
        self.assertIn("farm: /proc/w: No such file or directory\n", self.asked("run", "--folder", "locked:c=/proc/w", "--", "true", status=70))
        self.asked("get", "locked:c@1", self.path("first"))
        self.asked("get", "locked:c", self.path("last"))
        self.assertEqual((self.read("first/f"), self.read("last/f")), ("one\n", "one\ntwo\n"))
        self.assertIn("is there", self.asked("get", "locked:c", self.path("last"), status=70))
        self.assertIn("versions 1 to 2", self.asked("get", "locked:c@3", self.path("third"), status=70))
        self.lost()
        self.farm("run", "--folder", "locked:d=jobs/1/w", "--", "true")
        shutil.rmtree(self.path("jobs"))
        known = sorted(os.listdir(f"{self.home}/node1/places"))
        self.asked("prune", "locked:c")
        self.assertIn("indexes", self.asked("gc", "--grace", "0"))
        self.assertEqual(len(os.listdir(f"{self.home}/node1/places")), len(known) - 2)
        self.assertIn("isn't in the store any more", self.asked("get", "locked:c@1", self.path("gone"), status=70))
        self.farm("run", "--folder", "locked:c=w", "--", "sh", "-c", "ls w > seen")
        self.assertEqual(self.read("seen"), "")

    def test_own_home(self) -> None:
        """No command gets what is the farm's own, by whichever name."""
        self.up("up", "--nodes", "1", "--home", "sub/home", "--contents", "kept")
        os.symlink(self.path("sub"), self.path("link"))
        room = os.path.realpath(self.room)
        rows = [("sub/home/x", "sub/home/x lies within", "sub/home"), ("link/home/node1/filter", "sub/home/node1/filter lies within", "sub/home"),
                ("sub/home", "sub/home lies within", "sub/home"), ("link/../sub", "sub holds", "sub/home"), ("kept/chunks/new/x", "kept/chunks/new/x lies within", "kept"),
                (".", " holds", "sub/home"), ("/", " holds", "sub/home")]
        for path, said, own in rows:
            done = self.farm("run", "--home", "link/home", "--folder", f"locked:c={path}", "--", "touch", self.path("ran"), status=64)
            self.assertRegex(done.stderr, rf"\Afarm: {room if said[0] != ' ' else '/'}[^\n]*{said} {room}/{own}, which is the farm's own: [^\n]*\n\Z", path)
        for path in ("sub/w", "sub/homes", "keptx"):
            self.farm("run", "--home", "sub/home", "--folder", f"locked:c={path}", "--", "true")
        self.assertIn("version 3 ticket 3 ", self.asked("log", "--home", self.path("sub/home"), "locked:c"))  # no lease was asked for before
        self.assertFalse(os.path.exists(self.path("ran")))
        self.assertIn("the contents of another farm", self.asked("up", "--home", self.path("other"), "--contents", self.path("kept"), status=64))

    def test_starting(self) -> None:
        """A farm whose nodes are about to stand is waited for. A log that has become long is put aside."""
        os.makedirs(self.home)
        asked = list[Any]()

        def answers(request: object, _link: Connection) -> int:
            assert isinstance(request, RunRequest)
            asked.append(list(request.command))
            return 7

        def serve(name: str) -> None:
            service = Service(f"{self.home}/{name}.sock", answers)
            self.addCleanup(service.close)
            threading.Thread(target=service.serve, daemon=True).start()

        serve("coordinator")
        later = threading.Timer(0.2, serve, ["node2"])
        later.start()
        self.asked("run", "--", "true", status=7)
        self.assertEqual(asked, [["true"]])
        self.assertIn("no node 1 runs", self.asked("run", "--node", "1", "--", "true", status=70))
        later.join()

    def test_long_log(self) -> None:
        self.write("home/farm.log", "x" * (8 << 20) + "x")
        self.farm("run", "--", "true")
        self.assertEqual(os.path.getsize(f"{self.home}/farm.log.old"), (8 << 20) + 1)
        self.assertLess(os.path.getsize(f"{self.home}/farm.log"), 8 << 20)

    def lost(self) -> None:
        """What can't be shown whole isn't shown."""
        os.rename(f"{self.home}/contents/chunks", self.path("chunks"))
        os.makedirs(f"{self.home}/contents/chunks")
        self.assertIn("aren't in", self.asked("get", "locked:c", self.path("gone"), status=70))
        self.assertFalse(os.path.exists(self.path("gone")))
        os.rmdir(f"{self.home}/contents/chunks")
        os.rename(self.path("chunks"), f"{self.home}/contents/chunks")

    def test_left_early(self) -> None:
        """A command whose caller goes while its folder is filled doesn't begin, and isn't waited for. One that waits for a path is told."""
        self.write("bin/casync", f'#!/bin/sh\ntouch {self.path("casync")}\nexec sleep 300\n')
        os.chmod(self.path("bin/casync"), 0o755)
        self.env["PATH"] = f"{self.path('bin')}:{self.env['PATH']}"
        self.farm("run", "--folder", "locked:c=w", "--", "touch", "w/f")
        run = self.begin("run", "--folder", "locked:c=v", "--", "touch", "ran")
        self.wait_for(self.path("casync"))
        other = self.begin("run", "--folder", "locked:d=v/sub", "--", "true")
        self.hear(other, f"waiting for {os.path.realpath(self.room)}/v/sub: another command")
        run.send_signal(signal.SIGINT)
        self.assertIn("nobody waits", run.communicate(timeout=support.PATIENCE)[1])
        self.assertEqual((run.returncode, os.path.exists(self.path("ran"))), (75, False))
        other.communicate(timeout=support.PATIENCE)
        self.assertEqual(other.returncode, 0)

    def test_wrong_words(self) -> None:
        rows = [(["run", "--folder", "ccache=w", "--", "true"], 64, "is no folder"), (["run"], 64, "wants a command"), (["run", "--"], 64, "wants a command"), (["what"], 64, "invalid choice"),
                (["status"], 70, "farm up starts one"), (["withdraw", "x"], 64, "invalid ticket"), (["withdraw", "0"], 64, "invalid ticket"),
                (["retire", "0"], 64, "the nodes 1 to 1,024"), (["up", "--nodes", "1025"], 64, "not 1025"), (["run", "--node", "0", "true"], 64, "not 0"),
                (["coordinator", "--broker", "10.0.0.1"], 64, "redis://HOST"),
                (["run", "--home", self.path("my home"), "--", "true"], 64, "has a space"),
                (["node", "9", "--broker", "redis://127.0.0.1:1"], 64, "no node 9 of 3"), (["gc", "--keep", "0"], 64, "at least 1"),
                (["run", "--wait", "nan", "--", "true"], 64, "invalid seconds value: 'nan'"), (["run", "--wait", "-1", "--", "true"], 64, "'-1'"),
                (["gc", "--grace", "-1"], 64, "invalid seconds"), (["gc", "--grace", "inf"], 64, "invalid seconds"),
                *[(["coordinator", "--broker", f"redis://{host}"], 64, "URL can't be read") for host in ("[::1", "h:x", "h:99999", ":se#ret@h")],
                (["run", "--home", self.path("x" * 90), "--", "true"], 64, "too long"), (["up", "--home", self.path("\udcff")], 64, "isn't UTF-8"),
                (["status", "--home", self.path("x" * 90)], 70, "path too long"), (["get", "locked:c", ""], 64, "DIR: invalid path value: ''"),
                (["up", "--home", ""], 64, "--home: invalid path"), (["up", "--contents", ""], 64, "--contents: invalid path"),
                (["build", ""], 64, "context: invalid path")]
        for words, status, said in rows:
            heard = self.asked(*words, status=status)
            self.assertIn(said, heard)
            self.assertNotIn("'se", heard)  # of a password
        self.assertFalse(os.path.exists(self.path("my home")))
        gone = 'mkdir gone && cd gone && rmdir ../gone && exec "$@"'
        for call in (["run", "--", "true"], ["build", self.room]):
            done = subprocess.run(["sh", "-c", gone, "sh", *FARM, *call], cwd=self.room, env=self.env, capture_output=True, text=True)
            self.assertEqual((done.returncode, done.stderr), (70, "farm: the folder that this was called in is there no more\n"))
        for verb in ("", "run", "build", "up", "coordinator", "node", "status", "log", "get", "withdraw", "retire", "prune", "gc", "web"):
            said = self.asked("--help") if not verb else self.asked(verb, "--help")
            self.assertIn("example: farm" if verb else "statuses:", " ".join(said.split()))

    def test_missing_tools(self) -> None:
        old = "import sys; sys.version_info = (3, 9, 2); exec(open(sys.argv[1]).read())"
        done = subprocess.run([sys.executable, "-c", old, f"{support.TOP}/farm"], capture_output=True, text=True)
        self.assertEqual((done.returncode, done.stderr[:29]), (69, "farm: Python 3.11 or newer is"))
        os.makedirs(self.path("bin"))
        os.symlink(sys.executable, self.path("bin/python3"))
        self.env["PATH"] = self.path("bin")
        said = self.asked("run", "--folder", "locked:c=w", "--", "/bin/touch", self.path("ran"), status=69)
        self.assertIn("apt-get install casync", said)
        self.assertFalse(os.path.exists(self.path("ran")))

    def test_early_signal(self) -> None:
        """Ctrl-C while the program is only being read is a signal that came before the lease, and nothing else."""
        text = (
            "import os, runpy, signal, sys\n"
            "signal.signal(signal.SIGINT, signal.default_int_handler)\n"
            "class Finder:\n"
            "    def find_spec(self, name, *_):\n"
            "        if name == 'agent.commands.parser': os.kill(os.getpid(), signal.SIGINT)\n"
            "sys.meta_path.insert(0, Finder())\n"
            f"runpy.run_path({FARM[-1]!r}, run_name='__main__')\n"
        )
        done = subprocess.run([sys.executable, "-c", text, "run", "--", "true"], capture_output=True, text=True, timeout=support.PATIENCE)
        self.assertEqual((done.returncode, done.stderr), (75, ""))

    def test_ended_while_starting(self) -> None:
        """A signal that ends a command while its farm is being started came before the lease."""
        program = self.write("program", f"#!/bin/sh\necho $PPID > {self.path('up.new')}\nmv {self.path('up.new')} {self.path('up')}\nread end\n")
        os.chmod(program, 0o755)
        self.env["FARMCTL"] = program
        for number in (signal.SIGTERM, signal.SIGHUP, signal.SIGINT):
            run = self.begin("run", "--", "touch", "ran")
            self.wait_for(self.path("up"))
            run.send_signal(number)
            run.communicate(timeout=support.PATIENCE)
            self.assertEqual((run.returncode, os.path.exists(self.path("ran"))), (75, False), number)
            up = int(self.read("up"))
            os.kill(up, signal.SIGKILL)
            support.until(lambda: support.is_over(up))
            os.unlink(self.path("up"))

    def test_get_ended(self) -> None:
        """What is shown of a version is whole, or nothing of it."""
        self.farm("run", "--folder", "locked:c=w", "--", "touch", "w/f")
        self.write("bin/casync", f'#!/bin/sh\nfor path; do :; done\ntouch $path/half\necho $$ > {self.path("pid")}.new\nmv {self.path("pid")}.new {self.path("pid")}\nexec sleep 300\n')
        os.chmod(self.path("bin/casync"), 0o755)
        self.env["PATH"] = f"{self.path('bin')}:{self.env['PATH']}"
        get = self.begin("get", "locked:c", self.path("got"))
        self.wait_for(self.path("pid"))
        get.terminate()
        self.assertEqual((get.communicate(timeout=support.PATIENCE), get.returncode), (("", ""), 75))
        self.assertTrue(support.is_over(int(self.read("pid"))))
        self.assertFalse(os.path.exists(self.path("got")))

    def test_environment(self) -> None:
        """A command has its caller's environment without the broker's password, and no locale that its caller hasn't."""
        env = {key: self.env[key] for key in ("PATH", "FARM_HOME", "FARMCTL")}
        os.makedirs(self.home)
        rows: list[dict[str, str]] = [{}, {"LC_CTYPE": "POSIX"}, {"LANG": "C", "A": "x\ny=z"}]
        for given in rows:
            kept = {"FARM_BROKER": "redis://:secret@127.0.0.1"}
            done = subprocess.run([*FARM, "run", "--", "env", "-0"], env=env | given | kept, cwd=self.room, capture_output=True, text=True, timeout=support.PATIENCE)
            self.assertEqual(sorted(done.stdout.split("\0")[:-1]), sorted(f"{key}={value}" for key, value in (env | given).items()))

    def test_care(self) -> None:
        """A folder is seeded from one of this machine, and a version leaves as a tar; the doctor says what is wrong, and its status does."""
        for name in ("seed/a", "seed/sub/b", "other/c"):
            self.write(name, name)
        self.farm("put", "locked:p", "seed")
        self.farm("put", "locked:p", "other")
        self.farm("restore", "locked:p@1")
        self.assertIn("names no version", self.asked("restore", "locked:p", status=64))
        for version, names in ((1, ["./", "./a", "./sub/", "./sub/b"]), (2, ["./", "./c"]), (3, ["./", "./a", "./sub/", "./sub/b"])):
            done = subprocess.run([*FARM, "get", f"locked:p@{version}", "-"], env=self.env, cwd=self.room, capture_output=True, timeout=support.PATIENCE)
            self.assertEqual(done.returncode, 0, done.stderr)
            listed = subprocess.run(["tar", "-t"], input=done.stdout, capture_output=True, check=True).stdout.decode()
            self.assertEqual(sorted(listed.split()), names)
        self.assertIn("no folder", self.asked("put", "locked:p", self.path("nowhere"), status=64))
        self.assertIn("name a locked or private one", self.asked("put", "shared:p", self.path("seed"), status=64))
        self.assertIn(f"well: the key {self.home}/key", self.asked("doctor"))
        os.chmod(f"{self.home}/key", 0o644)
        self.assertIn(f"WRONG: the key {self.home}/key: others may read it: chmod 600 {self.home}/key", self.asked("doctor", status=70))
        os.chmod(f"{self.home}/key", 0o600)

    def test_program_from_here(self) -> None:
        """The farm's program may be named from the folder in which a command is called. What follows a command's name is its own."""
        os.symlink(self.env["FARMCTL"], self.path("program"))
        self.env["FARMCTL"] = "./program"
        for words, said in ((["--", "echo", "--", "ran"], "-- ran\n"), (["--wait", "9", "echo", "--wait", "0", "-x"], "--wait 0 -x\n")):
            self.assertEqual(self.farm("run", *words).stdout, said)

    def test_missing_program(self) -> None:
        for program, said in (("/nowhere/farmctl", "isn't there"), ("/bin/false", "doesn't start as the coordinator")):
            self.env["FARMCTL"] = program
            for words in (["run", "--", "true"], ["build", "."]):
                self.assertRegex(self.asked(*words, status=69), rf"(?s)\A(farm: no farm runs[^\n]*\n)?farm: [^\n]*{said}[^\n]*\n\Z")


@unittest.skipUnless(support.has("casync"), support.needs("casync"))
class Nodes(support.FarmTest):
    """A farm of two nodes."""

    def setUp(self) -> None:
        super().setUp()
        self.agent = self.up("up", "--nodes", "2")

    def run_on(self, node: int, command: str, *words: str, folder: str = "locked:c") -> subprocess.Popen[str]:
        return self.begin("run", "--node", str(node), *words, "--folder", f"{folder}=w{node}", "--", "sh", "-c", command)

    def ended(self, process: subprocess.Popen[str], status: int) -> str:
        said = process.communicate(timeout=support.PATIENCE)
        self.assertEqual(process.returncode, status, said)
        return "".join(said)

    def ticket(self) -> str:
        return str(json.loads(self.asked("status", "--json"))["leases"][0]["ticket"])

    def test_leases(self) -> None:
        """One farm for all of these: each takes a second to start."""
        parts = [self.withdrawn, self.stopped, self.turns, self.retired]
        for part in [self.shared, self.shared_at_once, *parts] if can_have_namespaces() else parts:
            with self.subTest(part.__name__):
                part()
            for name in ("in", "go"):
                if os.path.exists(self.path(name)):
                    os.unlink(self.path(name))

    def turns(self) -> None:
        one = self.run_on(1, "touch in; until [ -e go ]; do sleep 0.05; done; echo one >> w1/f")
        self.wait_for(self.path("in"))
        self.assertIn("weren't granted within 0 ", self.ended(self.run_on(2, "true", "--wait", "0"), 75))
        self.assertEqual(self.farm("run", "--node", "2", "--wait", "0", "--folder", "locked:free=w3", "--", "echo", "free").stdout, "free\n")
        two = self.run_on(2, "cat w2/f")
        self.assertIn("node 1 has locked:c for", self.asked("status"))
        self.hear(two, "waiting for locked:c: node 1 has locked:c for .* s, ticket [0-9]+")
        three = self.run_on(2, "true")
        self.hear(three, "waiting for locked:c")
        three.send_signal(signal.SIGTERM)
        self.ended(three, 75)
        support.until(lambda: sorted(each["left"] for each in json.loads(self.asked("status", "--json"))["waiting"]) == [False, True, True])
        self.assertIn("node 2 waits for locked:c, and nobody there wants it any more\n", self.asked("status"))
        self.write("go", "")
        self.ended(one, 0)
        self.assertIn("one\n", self.ended(two, 0))

    def retired(self) -> None:
        """What names no node goes to one that isn't retired. A command that ran meanwhile isn't made again elsewhere."""
        held = self.run_on(1, "echo ran >> runs; touch in; until [ -e go ]; do sleep 0.05; done", folder="locked:d")
        self.wait_for(self.path("in"))
        self.asked("retire", "1")
        plain = self.farm("run", "--folder", "locked:e=w", "--", "echo", "plain")
        self.assertEqual(plain.stdout, "plain\n")
        self.assertNotIn("retired", plain.stderr)
        self.assertIn("node 1 was retired for good, and runs nothing any more: name another one", self.ended(self.run_on(1, "true"), 70))
        self.write("go", "")
        self.assertIn("isn't known to count", self.ended(held, 75))
        self.assertEqual(self.read("runs"), "ran\n")
        self.asked("retire", "2", "--yes")
        for _ in range(2):
            self.assertIn("every node that runs in", self.farm("run", "--", "true", status=70).stderr)

    def withdrawn(self) -> None:
        self.assertIn("withdraw 999: refused NotLive: no live lease has this ticket", self.asked("withdraw", "999", status=70))
        rows: list[tuple[list[str], int]] = [([], 0), (["--must-commit"], 75)]
        for words, status in rows:
            held = self.run_on(1, "touch in; until [ -e go ]; do sleep 0.05; done; echo late >> w1/f", *words)
            self.wait_for(self.path("in"))
            self.asked("withdraw", self.ticket())
            self.hear(held, "has ended: what the command leaves in locked:c won't count$")
            self.ended(self.run_on(2, "echo y >> w2/f"), 0)
            self.write("go", "")
            self.assertIn("fenced", self.ended(held, status))
            os.unlink(self.path("in"))
            os.unlink(self.path("go"))
        plain = self.begin("run", "--must-commit", "--", "sh", "-c", "touch in; until [ -e go ]; do sleep 0.05; done")
        self.wait_for(self.path("in"))
        ticket = self.ticket()
        self.asked("withdraw", ticket)
        self.hear(plain, f"lease {ticket} has ended$")
        self.write("go", "")
        self.ended(plain, 0)

    def stopped(self) -> None:
        run = self.run_on(1, "trap 'echo heard; exit 9' TERM; touch in; while :; do sleep 0.05; done")
        self.wait_for(self.path("in"))
        run.send_signal(signal.SIGTERM)
        self.assertIn("heard", self.ended(run, 9))
        os.unlink(self.path("in"))
        stopped = self.run_on(1, "touch in; sleep 730", "--on-lost", "stop")
        self.wait_for(self.path("in"))
        self.asked("withdraw", self.ticket())
        self.assertIn("has ended", self.ended(stopped, 143))
        self.asked("get", "locked:c", self.path("last"))
        self.assertEqual(self.read("last/f"), "y\ny\n")

    def test_killed(self) -> None:
        run = self.run_on(1, "touch in; sleep 743.1")
        self.wait_for(self.path("in"))
        self.kill_filter("node")
        self.assertIn("isn't known to count", self.ended(run, 75))
        os.unlink(self.path("in"))
        run = self.run_on(1, "touch in; sleep 743.1")
        self.wait_for(self.path("in"))
        run.kill()
        run.communicate()
        self.kill_filter("coordinator")
        self.ended(self.run_on(2, "rm -f in"), 0)
        run = self.run_on(1, "touch in; sleep 743.1", "--on-lost", "stop")
        self.wait_for(self.path("in"))
        self.kill_filter("coordinator")
        self.assertIn("has ended", self.ended(run, 143))
        os.unlink(self.path("in"))
        run = self.run_on(1, "touch in; sleep 743.2")
        self.wait_for(self.path("in"))
        self.agent.kill()
        self.agent.wait()
        self.assertIn("isn't known", self.ended(run, 75))
        self.assertIn("was killed: farm up starts it again", self.asked("run", "--", "true", status=70))
        self.up("up", "--nodes", "2")
        self.ended(self.run_on(1, "echo x > w1/f"), 0)

    def kill_filter(self, role: str) -> None:
        gone = contextlib.suppress(FileNotFoundError, ProcessLookupError)  # threads and processes end meanwhile
        children = set[str]()
        for task in os.listdir(f"/proc/{self.agent.pid}/task"):
            with gone, open(f"/proc/{self.agent.pid}/task/{task}/children") as file:
                children.update(file.read().split())
        for pid in children:
            with gone, open(f"/proc/{pid}/cmdline", "rb") as shown:
                words = shown.read().split(b"\0")
                if role.encode() in words and (role != "node" or b"1" in words):
                    os.kill(int(pid), signal.SIGKILL)

    def shared(self) -> None:
        first = self.run_on(1, "echo a >> w1/f; touch in; until [ -e go ]; do sleep 0.05; done", folder="shared:s")
        self.wait_for(self.path("in"))
        second = self.farm("run", "--node", "1", "--folder", "shared:s=w3", "--", "sh", "-c", "echo b >> w3/f")
        self.assertIn("in use by others here", second.stderr)
        other = self.run_on(2, "cat w2/f", folder="shared:s")  # it waits until node 1 has closed the folder
        self.hear(other, "waiting for shared:s: node 1 has shared:s")
        late = self.begin("run", "--node", "1", "--folder", "shared:s=w4", "--", "true")
        self.hear(late, "waiting for shared:s: another node wants it, so those who have it here end first")
        self.write("go", "")
        self.assertIn("committed", self.ended(first, 0))
        self.assertIn("a\nb\n", self.ended(other, 0))
        self.ended(late, 0)

    def shared_at_once(self) -> None:
        """Nodes that want one SHARED folder at once all get it, each in its turn."""
        runs = [
            self.begin("run", "--node", str(1 + k % 2), "--folder", f"shared:t=w{k}", "--", "sh", "-c", f"echo {k} >> w{k}/f") for k in range(4)
        ]
        for run in runs:
            self.ended(run, 0)
        self.asked("get", "shared:t", self.path("got"))
        self.assertEqual(sorted(self.read("got/f").split()), ["0", "1", "2", "3"])
        self.assertLessEqual(len(self.asked("log", "shared:t").splitlines()), 4)


@unittest.skipUnless(support.has("casync"), support.needs("casync"))
@unittest.skipUnless(support.has("redis-server"), support.needs("redis-server"))
class Apart(support.FarmTest):
    """A coordinator and two nodes, each with a home of its own, over Redis."""

    def run_on(self, node: int, command: str, status: int = 0) -> str:
        done = self.farm("run", "--home", self.path(f"n{node}"), "--folder", f"locked:c=w{node}", "--", "sh", "-c", command, status=status)
        return done.stdout + done.stderr

    def test_apart(self) -> None:
        with support.redis_server(self.room, "--appendonly", "yes", "--appendfsync", "always") as url:
            self.addCleanup(self.end)
            self.up("coordinator", "--broker", url)
            self.assertIn("node.key is missing", self.asked("node", "1", "--home", self.path("n1"), "--broker", url, status=64))
            for node in ("1", "2"):
                self.asked("key", node, self.path(f"n{node}/node.key"))
                self.assertIn("of a farm over a broker", self.run_on(int(node), "true", 70))  # with the key of a node no farm of its own begins
                self.assertIn("of a farm over a broker", self.asked("up", "--home", self.path(f"n{node}"), status=64))
                self.up("node", node, "--home", self.path(f"n{node}"), "--broker", url)
            self.assertIn("well: the coordinator: it runs on another machine", self.asked("doctor", "--home", self.path("n1")))
            for number in range(3):
                self.run_on(1 + number % 2, f"head -c 200000 /dev/urandom > w{1 + number % 2}/f{number}")
            self.assertRegex(self.asked("gc", "--keep", "1", "--grace", "0"), "Redis forgot 2 indexes and [0-9]+ chunks")
            self.assertRegex(self.asked("gc", "--home", self.path("n1"), "--grace", "0"), "^forgot 2 contents of nodes, 2 indexes and [1-9][0-9]* chunks")
            self.spoilt()
            server = Redis(url)
            for key in server.call("KEYS", "*:chunk:*"):
                server.call("SET", key, "spoilt")
            said = self.run_on(2, "echo $(ls w2)")
            self.assertIn("f0 f1 f2", said)
            self.assertIn("the other nodes are asked for them", said)
            self.alone(url)
            self.asked("expel", "2")
            self.assertIn("warning: node 2: it was retired, and its agent still runs", self.asked("doctor"))
            self.end()

    def test_broker_users(self) -> None:
        """By its user a node's agent reads its own lines alone, and deletes nothing. The farm works so, and only the coordinator's machine forgets."""
        make_key(f"{self.home}/key")
        self.write("users.acl", self.farm("broker-users", "--nodes", "2").stdout)
        for node in (1, 2):
            self.asked("key", str(node), self.path(f"n{node}/node.key"))
        with support.redis_server(self.room, "--aclfile", self.path("users.acl"), "--appendonly", "yes", "--appendfsync", "always", port=support.free_port()) as server_url:
            self.addCleanup(self.end)
            url = server_url.replace("//", "//farm-coordinator@")
            self.up("coordinator", "--broker", url, "--nodes", "2")
            for node in (1, 2):
                self.up("node", str(node), "--nodes", "2", "--home", self.path(f"n{node}"), "--broker", url.replace("coordinator", f"node{node}"))
                self.assertIn(f"version {node}", self.run_on(node, f"echo {node} >> w{node}/f"))
            self.assertEqual(self.read("w2/f"), "1\n2\n")
            self.assertRegex(self.asked("du"), "^locked:c: .*; 2 of 2 versions are kept\n")
            self.assertIn("--by names", self.asked("restore", "locked:c@1", status=70))
            self.assertIn("version 3", self.farm("restore", "locked:c@1", "--by", self.path("n1")).stderr)
            self.assertRegex(self.asked("gc", "--keep", "1", "--grace", "0"), "Redis forgot 1 index")
            key = node_key(self.path("n1/node.key"))
            server, lines = Redis(signed_in(url.replace("coordinator", "node1"), key.password())), f"farm-{key.names.lines()}:to"
            refused: tuple[tuple[str | int, ...], ...] = (
                ("XREVRANGE", f"{lines}:node.2", "+", "-"), ("XREVRANGE", f"{lines}:coordinator", "+", "-"), ("KEYS", "*"), ("DEL", f"{lines}:node.1"),
                ("FLUSHALL",), ("EVAL", "redis.call('DEL', KEYS[1])", 1, f"farm-{key.names.farm}:holds"), ("SET", "other", "x"),
            )
            for words in refused:
                with self.assertRaisesRegex(RedisFault, "(?i)no permissions|can't run this command|not allowed|permission", msg=words):
                    server.call(*words)
            self.end()
        with support.redis_server(self.room, "--aclfile", self.path("users.acl"), "--appendonly", "yes", port=int(server_url.rpartition(":")[2])):
            server = Redis(signed_in(url, FarmKey(f"{self.home}/key").password()))  # Redis reads what it kept as its default user
            self.assertTrue(server.call("SCAN", 0, "MATCH", "*:chunk:*", "COUNT", 1000)[1])
            with self.assertRaisesRegex(Missing, "NOAUTH"):
                Redis(server_url)

    def test_store_away(self) -> None:
        """Who waits for a store that is away is told, and may leave. What was left in a SHARED folder, maybe by others too, is committed
        once the store is there again."""
        keeps = ("--appendonly", "yes", "--appendfsync", "always")
        rows = [("locked:c", signal.SIGINT), ("shared:c", signal.SIGINT), ("shared:d", signal.SIGHUP)][: 3 if can_have_namespaces() else 1]
        with support.redis_server(self.room, *keeps) as url:
            self.up("coordinator", "--broker", url)
            self.asked("key", "1", self.path("n1/node.key"))
            self.up("node", "1", "--home", self.path("n1"), "--broker", url)
            script = "echo x > $0/f; touch $0.in; until [ -e go ]; do sleep 0.05; done"
            runs = [self.begin("run", "--home", self.path("n1"), "--folder", f"{folder}={folder}", "--", "sh", "-c", script, folder) for folder, _ in rows]
            for folder, _ in rows:
                self.wait_for(self.path(f"{folder}.in"))
        self.write("go", "")
        for (folder, number), run in zip(rows, runs):
            self.hear(run, "waiting for the store over Redis, which takes no contents: .*refused")
            run.send_signal(number)
            self.assertIn("nobody waits", run.communicate(timeout=60)[1], folder)
            self.assertEqual(run.returncode, 75, folder)
        with support.redis_server(self.room, *keeps, port=int(url.rpartition(":")[2])):
            for folder, _ in rows[1:]:
                support.until(lambda: f"{folder} is at version 1" in self.asked("status"))
            self.assertIn("locked:c has no version", self.asked("log", "locked:c", status=70))

    def spoilt(self) -> None:
        """What is spoilt in a node's own folder comes from the store."""
        chunks = [f"{at}/{name}" for at, _, names in os.walk(self.path("n1/contents/chunks")) for name in names]
        for chunk in chunks:
            with open(chunk, "rb+") as file:
                file.truncate(100)
        shutil.rmtree(self.path("w1"))
        self.assertIn("f0 f1 f2", self.run_on(1, "echo $(ls w1)"))

    def alone(self, url: str) -> None:
        """The home of a node whose agent is gone serves no farm of its own."""
        self.ups[1].kill()
        self.ups[1].wait()
        self.assertIn("of a farm over a broker", self.run_on(1, "true", 70))
        self.assertIn("of a farm over a broker", self.asked("up", "--home", self.path("n1"), status=64))
        self.assertIn("has another home", self.asked("coordinator", "--home", self.path("n1"), "--broker", url, status=64))
        self.assertFalse(os.path.exists(self.path("n1/record")))
        make_key(self.path("other/key"))
        self.asked("key", "1", self.path("n1/node.key"), "--home", self.path("other"))
        self.assertIn("served another farm", self.asked("node", "1", "--home", self.path("n1"), "--broker", url, status=64))


@unittest.skipUnless(support.has("casync"), support.needs("casync"))
class Streams(support.FarmTest):
    """Agents and callers whose standard streams are closed, or gone, and who are kept from signals."""

    def shell(self, text: str, *words: str) -> subprocess.CompletedProcess[str]:
        """A shell's command, in which `"$@"` is the farm with these words."""
        return subprocess.run(["sh", "-c", text, "sh", *FARM, *words], env=self.env, cwd=self.room, input="exit 8", capture_output=True, text=True, timeout=support.PATIENCE)

    def start(self, text: str) -> None:
        self.ups.append(subprocess.Popen(["sh", "-c", f'exec "$@" {text}', "sh", *FARM, "up", "--nodes", "1", "--verbose"], env=self.env, text=True))
        self.wait_for(f"{self.home}/pid")

    def test_closed(self) -> None:
        self.start("<&- >&- 2>&-")
        command = ("run", "--folder", "locked:c=w", "--", "sh", "-c", "echo one; sleep 0.5; read x; echo $x; exit 4")
        done = self.shell('exec "$@" <&-', *command)
        self.assertEqual((done.returncode, done.stdout), (4, "one\n\n"))
        for closed in (">&-", "2>&-", "<&- >&- 2>&-"):
            self.assertEqual(self.shell(f'exec "$@" {closed}', *command).returncode, 4, closed)
        self.assertEqual(self.shell('exec "$@"', "run", "--", "sh").returncode, 8)
        for verb in ("status", "--help"):
            full = self.shell('exec "$@" >/dev/full', verb)
            self.assertEqual((full.returncode, full.stderr), (70, "farm: the standard output: No space left on device\n"))

    def test_unheard(self) -> None:
        """A farm that can't say that it is up ends well. More than a pipe holds is told to nobody in the same words as less."""
        full = self.shell('exec "$@" >/dev/full', "up", "--nodes", "1")
        self.assertEqual((full.returncode, full.stderr), (70, "farm: the standard output: No space left on device\n"))
        left = [name for name in os.listdir(self.home) if name.endswith(".sock") or name in ("pid", "served")]
        self.assertEqual(left, [])
        self.farm("run", *(word for number in range(16) for word in ("--folder", f"locked:{number}{'x' * 4080}=w{number}")), "--", "true")
        gone = self.shell('{ "$@"; echo $? >&2; } | true', "status", "--json")
        self.assertEqual(gone.stderr, "farm: the standard output: Broken pipe\n70\n")

    def test_gone(self) -> None:
        self.start("2>/dev/full >/dev/null")
        self.write("w/mine", "")
        self.assertIn("wasn't made by this node", self.farm("run", "--folder", "locked:c=w", "--", "true", status=70).stderr)
        self.assertIn("File exists", self.farm("run", "--folder", "locked:c=w/mine/x", "--", "true", status=70).stderr)
        for status in (0, 9):
            self.assertEqual(self.shell('exec "$@" 2>/dev/full', "run", "--folder", "locked:c=v", "--", "sh", "-c", f"exit {status}").returncode, status)

    def test_many(self) -> None:
        """More commands at once than there are descriptors, as long as an agent is given no more than usual."""
        words = ["sh", "-c", 'ulimit -Sn 60; exec "$@"', "sh", *FARM, "up", "--nodes", "1"]
        self.ups.append(subprocess.Popen(words, env=self.env, text=True, stdout=subprocess.PIPE))
        self.wait_for(f"{self.home}/pid")
        held = self.begin("run", "--folder", "locked:c=w", "--", "sh", "-c", "ulimit -Sn; touch in; until [ -e go ]; do sleep 0.05; done")
        self.wait_for(self.path("in"))
        runs = [self.begin("run", "--folder", f"locked:c=w{number}", "--", "true") for number in range(20)]
        for run in runs:
            self.hear(run, "waiting for locked:c")
        self.write("go", "")
        self.assertEqual(held.communicate(timeout=support.PATIENCE)[0], "60\n")
        for run in [held, *runs]:
            run.communicate(timeout=support.PATIENCE)
            self.assertEqual(run.returncode, 0)

    def test_kept_off(self) -> None:
        """What keeps a signal from a command, as nohup does, keeps it from its caller and from an agent."""
        before = signal.signal(signal.SIGHUP, signal.SIG_IGN)
        try:
            agent = self.up("up", "--nodes", "1")
            run = self.begin("run", "--", "sh", "-c", "touch in; until [ -e go ]; do sleep 0.05; done; echo ended")
        finally:
            signal.signal(signal.SIGHUP, before)
        self.wait_for(self.path("in"))
        for process in (run, agent):
            process.send_signal(signal.SIGHUP)
        self.write("go", "")
        self.assertEqual(run.communicate(timeout=support.PATIENCE)[0], "ended\n")
        self.assertEqual((run.returncode, agent.poll()), (0, None))


FAULTY = """#!/usr/bin/env python3
import os, sys
print("= life 1", flush=True)
for line in sys.stdin:
    is_new = not os.path.exists(__file__ + ".failed")
    open(__file__ + ".failed", "w").close()
    print("= refused StoreFault" if is_new else "= resent", flush=True)
"""


class StoreFault(support.RoomTest):
    def test_next_life(self) -> None:
        """A node whose disk failed it begins a new life, and so does one of which a later life was heard, which is told."""
        program = self.write("program", FAULTY)
        os.chmod(program, 0o755)
        agent = NodeAgent(1, 1, support.setup_of(self.room, program, LocalTransport()))
        agent.talk.start()
        self.addCleanup(agent.stop)
        with self.assertRaises(LifeOver):
            agent.call("resend", 1)
        self.assertEqual((agent.talk.epoch, agent.call("resend", 2).note), (2, "resent"))
        later = agent.hints.seal(f"outdated 1 {agent.life + 1}")
        agent.talk.pauses = Pauses()  # its filter ended as soon as it had begun
        with contextlib.redirect_stderr(io.StringIO()) as heard:
            agent.receive(later)
        self.assertEqual((agent.talk.epoch, "does another agent run as node 1?" in heard.getvalue()), (3, True))
        with self.assertRaises(WaitOver), mock.patch.object(agent, "call", wraps=agent.call) as call:
            agent.wait(3, Patience(None, 2.3), lambda: False)
        self.assertLessEqual(call.call_count, 3)  # after 0.3, 0.9 and 2.1 seconds, and not after 4.5


class Handled(unittest.TestCase):
    def test_faults(self) -> None:
        """What the system refuses a command is told to it, and is no fault of the agent, which alone leaves a traceback."""
        rows = [(FileNotFoundError(2, "No such file", "/x"), "/x: No such file", ""), (FarmFault("why"), "why", ""), (KeyError("k"), "KeyError: 'k'", "Traceback")]
        for fault, said, log in rows:
            link = mock.Mock()
            with contextlib.redirect_stderr(io.StringIO()) as heard:
                self.assertEqual(handled(mock.Mock(side_effect=fault), written(StoreRequest()).encode(), link), 70)
            link.say.assert_called_once_with(said)
            self.assertEqual(heard.getvalue()[:9], log)


class Tenures(unittest.TestCase):
    def test_in_use(self) -> None:
        """A tenure that nobody used is given back, also where the ask of an execution that its caller left is over only later."""
        agent, lines = mock.Mock(wait=lambda epoch, patience, is_done: support.until(is_done)), list[str]()

        def call(line: str, epoch: int) -> Answer:
            lines.append(line)
            return Answer(note="aborted 2" if lines[2:] else "refused TenureInUse")

        agent.call = call
        shared, tenure = SharedFolders(agent), Tenure(1, 2, Slot("shared:s", True, 0, EMPTY), "/nowhere", 1, users=1)
        shared.tenures["shared:s"] = tenure
        self.assertEqual(shared.leave("shared:s", tenure, support.Heard()).said, "shared:s is given back as it was")
        self.assertEqual((lines, shared.tenures), (["abort 2"] * 3, {}))

    def test_waits(self) -> None:
        """Of two executions the first to leave waits for the commit only where it must commit, and is told what came of it then."""
        for waits, said, is_lost in ((True, "lost shared:s: no", True), (False, "shared:s is in use by others here, and is committed after them", False)):
            agent = mock.Mock(call=mock.Mock(side_effect=FarmFault("no")), wait=lambda epoch, patience, is_done: is_done())
            shared, tenure = SharedFolders(agent), Tenure(1, 2, Slot("shared:s", True, 0, EMPTY), "/nowhere", 1, users=2)
            ends = list[Closed]()
            first = threading.Thread(target=lambda: ends.append(shared.leave("shared:s", tenure, support.Heard(), waits=waits)))
            first.start()
            support.until(lambda: tenure.users == 1)
            first.join(0.3)
            self.assertEqual(first.is_alive(), waits)
            self.assertTrue(shared.leave("shared:s", tenure, support.Heard()).is_lost)
            first.join(support.PATIENCE)
            self.assertEqual((ends[0].said, ends[0].is_lost), (said, is_lost))


class Services(support.RoomTest):
    def test_held_up(self) -> None:
        """Who is told to end ends, though what the agent calls for it never answers."""
        ends = threading.Event()
        self.addCleanup(ends.set)
        service = Service(self.path("x.sock"), lambda *_: int(ends.wait()))
        self.addCleanup(service.close)
        threading.Thread(target=service.serve, daemon=True).start()
        with mock.patch("agent.service.sockets.HELD_MOST", 0.2), socket.socket(socket.AF_UNIX) as link:
            link.connect(service.path)
            link.settimeout(30)
            socket.send_fds(link, [b"f"], [0, 1, 2])
            link.sendall(written(StoreRequest()).encode() + b'\n{"signal": 15}\n')
            with link.makefile("rb") as reader:
                heard, said, ended = (json.loads(reader.readline()) for _ in range(3))
            self.assertIn("doesn't answer", said["say"])
            self.assertEqual((heard, ended), ({"say": ""}, {"exit": 75}))

    def test_next(self) -> None:
        """Who removes a home and begins anew there isn't disturbed by the end of the farm that was there."""
        os.makedirs(self.path("home"))
        one = Service(self.path("home/x.sock"), mock.Mock())
        shutil.rmtree(self.path("home"))
        os.makedirs(self.path("home"))
        other = Service(self.path("home/x.sock"), mock.Mock())
        for service, is_there in ((one, True), (other, False)):
            service.close()
            self.assertEqual(os.path.exists(service.path), is_there)


class Waits(unittest.TestCase):
    def test_told(self) -> None:
        """What is waited for is told when it changes, and else ever less often: 15 minutes take few lines."""
        caller, now = support.Heard(), [0.0]
        with mock.patch("agent.runs.caller.time.monotonic", lambda: now[0]):
            patience = Patience(caller, None)
            for second in range(900):
                now[0] = float(second)
                patience.say(f"node {1 if second < 600 else 2} has locked:c for {second} s, ticket 7")
        self.assertEqual([text.split()[5] for text in caller.said], ["0", "6", "17", "38", "79", "160", "321", "600", "606", "617", "638", "679", "760"])


class Lossy(LocalTransport):
    """Loses, repeats, delays and damages."""

    def __init__(self) -> None:
        super().__init__()
        self.random = random.Random(7)

    def send(self, address: str, line: str) -> None:
        chance = self.random.random()
        if chance < 0.05:
            return
        if chance < 0.1:
            line = line[: len(line) // 2] + "x" + line[len(line) // 2 :]
        if chance > 0.85:
            threading.Timer(self.random.random() * 0.3, super().send, [address, line]).start()
        if chance < 0.95:
            super().send(address, line)


class Cut(LocalTransport):
    """Loses what is for the coordinator while it is cut."""

    is_cut = False

    def send(self, address: str, line: str) -> None:
        if not self.is_cut or address != COORDINATOR:
            super().send(address, line)


@unittest.skipUnless(support.has("casync"), support.needs("casync"))
class Unanswered(support.RoomTest):
    def test_left(self) -> None:
        """Whoever waits for the answer to a commit is told, and may leave. The commit is sent again all the same."""
        program, transport = os.environ.get("FARMCTL", support.PRACTICE), Cut()
        setup = support.setup_of(self.room, program, transport)
        coordinator, node = support.coordinator_of(setup), NodeAgent(1, 1, setup)
        agents: list[CoordinatorAgent | NodeAgent] = [coordinator, node]
        for agent in agents:
            agent.talk.start()
            self.addCleanup(agent.stop)
            threading.Thread(target=agent.serve, daemon=True).start()
        for folder, said in (("locked:c", "lost [0-9]+: what the command left isn't known to count"), ("shared:c", "lost shared:c")):
            path, caller, ends = self.path(folder), support.Heard(), list[object]()
            script = f"echo x > {path}/f; touch {path}.ran; until [ -e {path}.go ]; do sleep 0.05; done"
            run = Run(node, Job(command=["sh", "-c", script], cwd=self.room, env={"PATH": os.environ["PATH"]}, wants=[Want(folder, path)]), caller)

            def does() -> None:
                try:
                    ends.append(run.run())
                except ClientGone as fault:
                    ends.append(fault)

            with self.subTest(folder), mock.patch("agent.runs.caller.LATE", 0.5):
                if folder.startswith("shared") and not can_have_namespaces():
                    continue
                thread = threading.Thread(target=does)
                thread.start()
                support.until(lambda: os.path.exists(f"{path}.ran"))
                transport.is_cut = True
                self.write(f"{folder}.go", "")
                support.until(lambda: any("waiting for the commit of" in text for text in caller.said))
                caller.gone = True
                thread.join(support.PATIENCE)
                self.assertRegex(caller.said[-1], said)
                self.assertIsInstance(ends[0], ClientGone)
                self.assertEqual(coordinator.versions(folder), [])
                transport.is_cut = False
                support.until(lambda: coordinator.versions(folder))
        transport.is_cut = True
        self.unheard(node)

    def unheard(self, node: NodeAgent) -> None:
        """Who waits no longer is told where the coordinator wasn't heard."""
        with self.assertRaisesRegex(WaitOver, "within 0 seconds: the coordinator hasn't answered yet"):
            Run(node, Job(command=["true"], cwd=self.room, env={}, wants=[], wait=0), support.Heard()).run()


@unittest.skipUnless(support.has("casync"), support.needs("casync"))
class BadTransport(support.RoomTest):
    def test_counts(self) -> None:
        """Two nodes add three lines: none is lost, over a transport that loses and repeats."""
        program = os.environ.get("FARMCTL", support.PRACTICE)
        setup = support.setup_of(self.room, program, Lossy())
        coordinator = support.coordinator_of(setup)
        nodes = [NodeAgent(1, 2, setup), NodeAgent(2, 2, setup)]
        agents: list[CoordinatorAgent | NodeAgent] = [coordinator, *nodes]
        for agent in agents:
            agent.talk.start()
            self.addCleanup(agent.stop)
            threading.Thread(target=agent.serve, daemon=True).start()
        ends: list[int] = []

        def work(agent: NodeAgent) -> None:
            path = self.path(f"w{agent.node}")
            for _ in range(agent.node):
                command = ["sh", "-c", f"echo {agent.node} >> {path}/f; wc -l < {path}/f"]
                job = Job(
                    command=command, cwd=self.room, env={"PATH": os.environ["PATH"]}, wants=[Want("locked:c", path)], wait=support.PATIENCE,
                    fenced_status=75, lost_status=75,
                )
                caller = support.Heard()
                with open(self.path("out"), "a") as out:
                    caller.streams = [0, out.fileno(), out.fileno()]
                    ends.append(Run(agent, job, caller).run())

        threads = [threading.Thread(target=work, args=(agent,)) for agent in nodes]
        for thread in threads:
            thread.start()
        for thread in threads:
            thread.join()
        self.assertEqual(ends, [0] * 3)
        self.assertEqual([int(word) for word in self.read("out").split()], [1, 2, 3])


if __name__ == "__main__":
    unittest.main()
