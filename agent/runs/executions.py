"""Commands that run under leases: each with its own pid namespace where the kernel lets it, else as a group of processes.

Owes the filters that all executions of a life are over before the next life of the node begins: each holds the node's lock of
executions, and `all_over` takes it first. The command's standard streams are the caller's, signals go through to it, and its status
comes back.
"""
from __future__ import annotations

import contextlib
import fcntl
import marshal
import os
import resource
import select
import signal
import subprocess
import sys
import threading
import time
from typing import Any, Callable, Iterator

from agent.runs import launch
from agent.faults import tell


def _launcher_kept() -> int:
    """The launcher as it was when the agent began, whatever becomes of its file while the agent runs."""
    kept = os.memfd_create("launch.py")
    with open(launch.__file__, "rb") as file:
        os.write(kept, file.read())
    return kept


LAUNCHER = _launcher_kept()
OPEN_FILES = resource.getrlimit(resource.RLIMIT_NOFILE)  # how many a command may have, whatever the agent itself needs
SECRET = ("AWS_", "FARM_BROKER")  # what the names of the agent's own variables begin with that no command is to read
OPEN_MOST = 65_536  # that the agent may have: each command that waits has some


def open_many() -> None:
    soft, hard = OPEN_FILES
    most = OPEN_MOST if hard == resource.RLIM_INFINITY else min(hard, OPEN_MOST)
    if soft != resource.RLIM_INFINITY and soft < most:
        resource.setrlimit(resource.RLIMIT_NOFILE, (most, hard))


def can_have_namespaces() -> bool:
    """Whether the kernel lets this process make pid and mount namespaces."""
    child = os.fork()
    if child == 0:
        os._exit(1 if launch.libc.unshare(launch.CLONE_NEWPID | launch.CLONE_NEWNS) else 0)
    return os.waitpid(child, 0)[1] == 0


@contextlib.contextmanager
def launcher(spec: dict[str, Any]) -> Iterator[tuple[list[str], list[int]]]:
    """The words of the program that runs a command, and the descriptors that it is to have. What to run stands in one of them, since
    others can see its words."""
    with os.fdopen(os.memfd_create("execution"), "wb") as said:
        marshal.dump(spec, said)
        said.flush()
        yield [sys.executable, "-I", "-S", f"/proc/self/fd/{LAUNCHER}", str(said.fileno()), str(LAUNCHER)], [said.fileno(), LAUNCHER]


@contextlib.contextmanager
def held_back() -> Iterator[None]:
    """What is started meanwhile keeps the signals that it gets until it takes them: those that come before it can pass them on would be
    lost, where this process ignores them."""
    before = signal.pthread_sigmask(signal.SIG_BLOCK, launch.PASSED)
    try:
        yield
    finally:
        signal.pthread_sigmask(signal.SIG_SETMASK, before)


class Execution:
    """One command. The thread that makes it has to wait for it: the command ends with that thread."""

    def __init__(self, process: subprocess.Popen[bytes]) -> None:
        self.process = process
        self.was_ended = False
        self.ending: int | None = None
        with contextlib.suppress(OSError):  # an old kernel has none
            self.ending = os.pidfd_open(process.pid)

    def wait(self, timeout: float) -> int | None:
        """Its status, 128 and the signal's number where a signal ended it; none where it isn't over yet."""
        if self.ending is not None:  # sooner than `wait`, which looks ever less often
            poll = select.poll()
            poll.register(self.ending, select.POLLIN)
            poll.poll(timeout * 1000)
            timeout = 0
        try:
            status = self.process.wait(timeout)
        except subprocess.TimeoutExpired:
            return None
        return status if status >= 0 else 128 - status

    def __del__(self) -> None:
        if self.ending is not None:
            os.close(self.ending)

    def signal(self, number: int) -> None:
        if number in launch.PASSED:
            self.process.send_signal(number)

    def end(self) -> None:
        """Ends it with all its processes."""
        self.was_ended = self.process.poll() is None or self.was_ended
        while self.process.poll() is None:
            self.process.send_signal(launch.ORPHANED)
            try:
                self.process.wait(1.0)
            except subprocess.TimeoutExpired:
                pass


class Executions:
    """The executions of a node."""

    def __init__(self, home: str, log: Callable[[str], None] = lambda text: None, name: str = "executions") -> None:
        self.log = log
        self.lock_path = f"{home}/{name}"
        self.lock = threading.Lock()
        self.running: set[Execution] = set()
        self.has_namespaces = can_have_namespaces()
        if not self.has_namespaces:
            log("the kernel gives no pid namespace: a command that leaves its session and its parents can outlive its life")

    def _open(self) -> int:
        return os.open(self.lock_path, os.O_RDWR | os.O_CREAT | os.O_CLOEXEC, 0o600)

    def _take_whole(self, handle: int) -> None:
        """Takes the lock that each execution has a part of."""
        told = time.monotonic() + 3.0
        while True:
            try:
                return fcntl.flock(handle, fcntl.LOCK_EX | fcntl.LOCK_NB)
            except BlockingIOError:
                time.sleep(0.02)
            if time.monotonic() > told:
                told = time.monotonic() + 60.0
                tell("commands of an earlier agent of this node still run: this one begins when they have ended")

    def all_over(self) -> None:
        """Ends those that this agent knows, and waits until those of agents before it are over too."""
        with self.lock:
            known = list(self.running)
        for execution in known:
            execution.end()
        handle = self._open()
        try:
            self._take_whole(handle)
        finally:
            os.close(handle)

    def start(
        self, command: list[str], cwd: str, env: dict[str, str], streams: list[int], binds: list[tuple[str, str, bool]], umask: int | None = None
    ) -> Execution:
        held = self._open()
        fcntl.flock(held, fcntl.LOCK_SH)
        spec = {
            "command": command, "cwd": cwd, "env": env, "umask": umask, "binds": binds, "parent": os.getpid(), "namespace": self.has_namespaces,
            "files": OPEN_FILES,
        }
        try:
            with launcher(spec) as (words, said), held_back():
                shown = {name: value for name, value in os.environ.items() if not name.startswith(SECRET)}  # the command can read it: /proc/1/environ
                process = subprocess.Popen(
                    words, env=shown, stdin=streams[0], stdout=streams[1], stderr=streams[2], pass_fds=[held, *said], start_new_session=True
                )
        finally:
            os.close(held)
        execution = Execution(process)
        with self.lock:
            self.running.add(execution)
        return execution

    def over(self, execution: Execution) -> None:
        with self.lock:
            self.running.discard(execution)
