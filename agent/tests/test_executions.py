"""Commands that run under leases."""
from __future__ import annotations

import fcntl
import os
import signal
import subprocess
import sys
import time
import unittest

from agent.runs.executions import Execution, Executions, can_have_namespaces

from agent.tests import support


def alive(mark: str) -> int:
    """How many processes have these words."""
    count = 0
    for pid in os.listdir("/proc"):
        try:
            with open(f"/proc/{pid}/cmdline", "rb") as file:
                count += file.read().replace(b"\0", b" ").decode(errors="replace").startswith(mark)
        except OSError:
            pass
    return count


class Runs:
    """What holds with a pid namespace and without."""

    namespace = False

    def setUp(self) -> None:
        super().setUp()  # type: ignore[misc]
        self.executions = Executions(self.room)  # type: ignore[attr-defined]
        self.executions.has_namespaces = self.namespace
        self.out = os.open(self.path("out"), os.O_RDWR | os.O_CREAT | os.O_APPEND)  # type: ignore[attr-defined]
        self.addCleanup(os.close, self.out)  # type: ignore[attr-defined]

    def start(self, *words: str, env: dict[str, str] | None = None) -> Execution:
        given = {"PATH": os.environ["PATH"]} if env is None else env
        null = os.open("/dev/null", os.O_RDONLY)
        try:
            return self.executions.start(list(words), self.room, given, [null, self.out, self.out], [])  # type: ignore[attr-defined]
        finally:
            os.close(null)

    def status(self, *words: str) -> int | None:
        execution = self.start(*words)
        status = execution.wait(support.PATIENCE)
        self.executions.over(execution)
        return status

    def said(self) -> str:
        return self.read("out")  # type: ignore[attr-defined,no-any-return]

    def test_statuses(self) -> None:
        rows = [(("true",), 0), (("nowhere",), 127), (("sh", "-c", "exit 7"), 7), (("sh", "-c", "kill -9 $$"), 137), (("/nowhere/x",), 127), (("/etc/passwd",), 126)]
        for words, wanted in rows:
            self.assertEqual(self.status(*words), wanted, words)  # type: ignore[attr-defined]
        for said in ("farm: nowhere: no such file or command\n", "farm: /etc/passwd: Permission denied\n"):
            self.assertIn(said, self.said())  # type: ignore[attr-defined]

    def test_streams_folder_environment(self) -> None:
        execution = self.start("sh", "-c", "echo $A; pwd; echo err >&2; cat", env={"A": "b", "PATH": os.environ["PATH"]})
        self.assertEqual(execution.wait(support.PATIENCE), 0)  # type: ignore[attr-defined]
        self.assertEqual(self.said(), f"b\n{os.path.realpath(self.room)}\nerr\n")  # type: ignore[attr-defined]

    def started(self) -> None:
        support.until(lambda: "ready" in self.said())

    def until_alive(self, mark: str, count: int) -> None:
        support.until(lambda: alive(mark) == count, f"there aren't {count} processes {mark}")

    def test_signals(self) -> None:
        execution = self.start("sh", "-c", "trap 'echo heard; exit 5' TERM; echo ready; while :; do sleep 0.05; done")
        self.started()
        execution.signal(signal.SIGSTOP)  # not one that goes through
        execution.signal(signal.SIGTERM)
        self.assertEqual(execution.wait(support.PATIENCE), 5)  # type: ignore[attr-defined]
        self.assertIn("heard", self.said())  # type: ignore[attr-defined]

    def test_early_signal(self) -> None:
        """A signal that comes before the command runs isn't lost, though the agent ignores it, as one started in the background does."""
        before = signal.signal(signal.SIGINT, signal.SIG_IGN)
        try:
            execution = self.start("sleep", "41.5")
        finally:
            signal.signal(signal.SIGINT, before)
        execution.signal(signal.SIGINT)
        self.assertEqual(execution.wait(support.PATIENCE), 130)  # type: ignore[attr-defined]

    def test_leftovers(self) -> None:
        self.assertEqual(self.status("sh", "-c", "sleep 741.6 & setsid sleep 741.6 & exit 0"), 0)  # type: ignore[attr-defined]
        self.assertEqual(alive("sleep 741.6"), 0)  # type: ignore[attr-defined]

    def test_ended(self) -> None:
        mark = f"sleep 741.7{os.getpid()}"
        execution = self.start("sh", "-c", f"trap '' TERM; setsid {mark} & {mark}")
        self.until_alive(mark, 2)
        begun = time.monotonic()
        self.executions.all_over()
        self.assertLess(time.monotonic() - begun, 500)  # type: ignore[attr-defined]  # what outlives it holds the lock until it ends by itself
        self.assertEqual(alive(mark), 0)  # type: ignore[attr-defined]
        self.assertEqual((execution.wait(1), execution.was_ended), (137, True))  # type: ignore[attr-defined]

    def test_agent_killed(self) -> None:
        """The next life's lock is free once nothing of the last agent's executions is left."""
        mark = f"sleep 741.8{os.getpid()}"
        text = (
            f"import sys; sys.path.insert(0, {support.TOP!r})\n"
            "from agent.runs.executions import Executions\n"
            f"e = Executions({self.room!r}); e.has_namespaces = {self.namespace}\n"  # type: ignore[attr-defined]
            f"x = e.start(['sh', '-c', 'setsid {mark} & {mark}'], '/', {{'PATH': '/bin:/usr/bin'}}, [0, 1, 2], [])\n"
            "x.wait(700)\n"
        )
        agent = subprocess.Popen([sys.executable, "-c", text], stdout=self.out, stdin=subprocess.DEVNULL)
        self.until_alive(mark, 2)
        with open(self.executions.lock_path) as held:
            with self.assertRaises(BlockingIOError):  # type: ignore[attr-defined]
                fcntl.flock(held, fcntl.LOCK_EX | fcntl.LOCK_NB)
        agent.kill()
        agent.wait()
        begun = time.monotonic()
        self.executions.all_over()
        self.assertLess(time.monotonic() - begun, 500)  # type: ignore[attr-defined]
        self.assertEqual(alive(mark), 0)  # type: ignore[attr-defined]


class InGroup(Runs, support.RoomTest):
    pass


@unittest.skipUnless(can_have_namespaces(), "the kernel lets this process have no pid namespaces")
class InNamespace(Runs, support.RoomTest):
    namespace = True

    def test_own_processes(self) -> None:
        self.assertEqual(self.status("sh", "-c", "ls /proc | grep -c '^[0-9]'; exit 0"), 0)
        self.assertLess(int(self.said()), 10)

    def test_binds(self) -> None:
        os.makedirs(self.path("from"))
        os.makedirs(self.path("to"))
        for writable, text in ((True, "x"), (False, "y")):
            execution = self.executions.start(
                ["sh", "-c", f"echo {text} > {self.path('to/f')}"], "/", {"PATH": "/bin"}, [0, self.out, self.out],
                [(self.path("from"), self.path("to"), writable)],
            )
            self.assertEqual(execution.wait(support.PATIENCE) == 0, writable)
        self.assertEqual((self.read("from/f"), os.listdir(self.path("to"))), ("x\n", []))


if __name__ == "__main__":
    unittest.main()
