"""What several tests use."""
from __future__ import annotations

import contextlib
import io
import os
import re
import shutil
import signal
import socket
import subprocess
import sys
import tempfile
import time
import unittest
from typing import IO, Callable, Iterator
from unittest import mock

from agent.commands.main import main
from agent.filters.coordinator import CoordinatorAgent
from agent.filters.node import Setup
from agent.folders.index import make_whole
from agent.store.folder import FolderStore, Store
from agent.transport.keys import FarmKey, make_key
from agent.transport.local import Transport

HERE = os.path.dirname(os.path.abspath(__file__))
TOP = os.path.dirname(os.path.dirname(HERE))
FARM = (sys.executable, "-IS", f"{TOP}/farm")  # without what the distribution adds it starts faster
PRACTICE = os.path.join(HERE, "practice.py")
is_root = os.geteuid() == 0
# Under nohup, or behind a shell's `&`, these are ignored, and a command that a test ends by one would rightly go on.
signal.signal(signal.SIGHUP, signal.SIG_DFL)
signal.signal(signal.SIGINT, signal.default_int_handler)
PATIENCE = 180.0  # seconds for which something is waited for that comes at once, but for a machine that has much else to do


def needs(tool: str) -> str:
    """Says for a test that is skipped what it lacks."""
    return f"{tool} isn't installed"


def has(tool: str) -> bool:
    return shutil.which(tool) is not None


class RoomTest(unittest.TestCase):
    """A test with a folder of its own."""

    def setUp(self) -> None:
        self.room = tempfile.mkdtemp(prefix="farm-test-")
        self.addCleanup(shutil.rmtree, self.room, True)

    def path(self, name: str) -> str:
        return f"{self.room}/{name}"

    def write(self, name: str, text: str) -> str:
        os.makedirs(os.path.dirname(self.path(name)), exist_ok=True)
        with open(self.path(name), "w") as file:
            file.write(text)
        return self.path(name)

    def read(self, name: str) -> str:
        with open(self.path(name)) as file:
            return file.read()


def kept(store: Store, path: str) -> tuple[bytes, str]:
    """Keeps what a folder holds. Its index, and the digest under which it lasts."""
    with store.making():
        index = make_whole(store, path)
        digest = store.publish(index)
    store.release(digest)
    return index, digest


class Heard:
    """A caller that remembers what it is told."""

    def __init__(self) -> None:
        self.streams = [0, 1, 2]
        self.gone = False
        self.signalled: Callable[[int], None] | None = None
        self.said: list[str] = []

    def say(self, text: str) -> None:
        self.said.append(text)

    def tell(self, what: object) -> None:
        self.said.append(str(what))


def setup_of(room: str, program: str, transport: Transport) -> Setup:
    """What an agent of a test is made of."""
    return Setup(
        program=program, home=room, key=FarmKey(make_key(f"{room}/key")), store=FolderStore(f"{room}/contents"), transport=transport
    )


def coordinator_of(setup: Setup) -> CoordinatorAgent:
    assert isinstance(setup.key, FarmKey)
    return CoordinatorAgent(setup, setup.key)


class FarmTest(RoomTest):
    """A test with a farm of its own, over the stand-in for the filters, or the program that FARMCTL names."""

    def setUp(self) -> None:
        super().setUp()
        self.home = self.path("home")
        self.env = os.environ | {"FARM_HOME": self.home}
        self.env.setdefault("FARMCTL", PRACTICE)
        self.ups: list[subprocess.Popen[str]] = []
        self.addCleanup(self.end)

    def end(self) -> None:
        for up in self.ups:
            if up.poll() is None:
                up.terminate()
            up.wait(PATIENCE)
            if up.stdout:
                up.stdout.close()
        if os.path.exists(f"{self.home}/pid"):  # of a farm that a command started for itself
            with open(f"{self.home}/pid") as file:
                pid = int(file.read())
            try:
                os.kill(pid, 15)
            except ProcessLookupError:
                pass
            until(lambda: is_over(pid))

    def up(self, *words: str, log: IO[str] | None = None) -> subprocess.Popen[str]:
        """Starts a part of the farm, and waits until it stands."""
        started = subprocess.Popen(
            [*FARM, *words], env=self.env, stdout=subprocess.PIPE, stderr=log, text=True, stdin=subprocess.DEVNULL, cwd=self.room
        )
        self.ups.append(started)
        assert started.stdout
        self.assertEqual(started.stdout.readline(), "up\n")
        return started

    def begin(self, *words: str) -> subprocess.Popen[str]:
        """Starts a command that hears Ctrl-C, also where these tests run in the background and ignore it."""
        ignored = signal.signal(signal.SIGINT, signal.default_int_handler)
        try:
            return subprocess.Popen(
                [*FARM, *words], env=self.env, stdin=subprocess.DEVNULL, stdout=subprocess.PIPE,
                stderr=subprocess.PIPE, text=True, cwd=self.room,
            )
        finally:
            signal.signal(signal.SIGINT, ignored)

    def asked(self, *words: str, status: int = 0) -> str:
        """What a command that runs nothing says, in this process: that is faster."""
        said = io.StringIO()
        with mock.patch.dict("os.environ", self.env), contextlib.redirect_stdout(said), contextlib.redirect_stderr(said):
            done = main(words)
        self.assertEqual(done, status, f"{words}: {said.getvalue()}")
        return said.getvalue()

    def farm(self, *words: str, status: int = 0) -> subprocess.CompletedProcess[str]:
        done = subprocess.run(
            [*FARM, *words], env=self.env, stdin=subprocess.DEVNULL, capture_output=True, text=True,
            cwd=self.room, timeout=PATIENCE,
        )
        self.assertEqual(done.returncode, status, f"{words}: {done.stdout}{done.stderr}")
        return done

    def wait_for(self, path: str) -> None:
        until(lambda: os.path.exists(path), f"there is no {path}")

    def hear(self, process: subprocess.Popen[str], pattern: str) -> None:
        """Waits until a command says this."""
        assert process.stderr
        said = []
        while line := process.stderr.readline():
            said.append(line)
            if re.search(pattern, line):
                return
        self.fail(f"it ended without {pattern!r}, and said {said}")


def is_over(pid: int) -> bool:
    """Whether a process has ended. It may be one of this process, which `asked` started."""
    with contextlib.suppress(ChildProcessError):
        os.waitpid(pid, os.WNOHANG)
    return not os.path.exists(f"/proc/{pid}")


def until(holds: Callable[[], object], else_what: str = "what was waited for didn't come") -> None:
    """Waits until something holds."""
    end = time.monotonic() + PATIENCE
    while not holds():
        if time.monotonic() > end:
            raise AssertionError(else_what)
        time.sleep(0.02)


@contextlib.contextmanager
def redis_server(room: str, *words: str, port: int | None = None) -> Iterator[str]:
    """A Redis server of the test's own. Its URL."""
    port = port or free_port()
    log = f"{room}/redis.log"
    server = subprocess.Popen(["redis-server", "--port", str(port), "--bind", "127.0.0.1", "--save", "", "--dir", room, "--logfile", log, *words])
    try:
        wait_port(port)
        yield f"redis://127.0.0.1:{port}"
    finally:
        server.terminate()
        server.wait()


def wait_port(port: int) -> None:
    """Waits until something listens there."""
    def listens() -> bool:
        with socket.socket() as link:
            return link.connect_ex(("127.0.0.1", port)) == 0

    until(listens)


def free_port() -> int:
    with socket.socket() as link:
        link.bind(("127.0.0.1", 0))
        return int(link.getsockname()[1])
