"""Runs one command, and ends with its status. It is started by `executions` as a program of its own: `launch.py DESCRIPTOR ITSELF`, two
descriptors: from the first it reads what to run, from the second it was read.

Owes the filters that no process of the command is left once this program has ended, where it has a pid namespace, and that it ends with
the agent that started it. Without a namespace a process that leaves its parents and its session can escape.
"""
from __future__ import annotations

import ctypes
import marshal
import os
import resource
import signal
import sys

TYPE_CHECKING = False  # each command waits for what is imported here
if TYPE_CHECKING:
    from types import FrameType
    from typing import Any, NoReturn

CLONE_NEWNS, CLONE_NEWPID = 0x20000, 0x20000000
MS_RDONLY, MS_NOSUID, MS_NODEV, MS_NOEXEC, MS_REMOUNT, MS_BIND, MS_REC, MS_PRIVATE = 1, 2, 4, 8, 32, 4096, 16384, 1 << 18
PR_SET_PDEATHSIG, PR_SET_CHILD_SUBREAPER = 1, 36
ORPHANED = signal.SIGRTMIN + 5  # the parent has ended
PASSED = (signal.SIGINT, signal.SIGTERM, signal.SIGHUP, signal.SIGQUIT, signal.SIGUSR1, signal.SIGUSR2)
libc = ctypes.CDLL(None, use_errno=True)


def fail(text: str, status: int = 70) -> NoReturn:
    sys.stderr.write(f"farm: {text}\n")
    sys.stderr.flush()
    os._exit(status)


def checked(result: int, what: str) -> None:
    if result:
        fail(f"{what}: {os.strerror(ctypes.get_errno())}")


def mount(source: str, target: str, kind: str | None, flags: int) -> int:
    return int(libc.mount(os.fsencode(source), os.fsencode(target), kind.encode() if kind else None, flags, None))


def status_of(waited: int) -> int:
    code = os.waitstatus_to_exitcode(waited)
    return code if code >= 0 else 128 - code


def descendants() -> list[int]:
    """All processes below this one."""
    found, new = [], [os.getpid()]
    while new:
        at = new.pop()
        try:
            with open(f"/proc/{at}/task/{at}/children") as file:
                below = [int(word) for word in file.read().split()]
        except OSError:
            continue
        found += below
        new += below
    return found


def kill(pid: int) -> None:
    try:
        os.kill(pid, signal.SIGKILL)
    except ProcessLookupError:
        pass  # it has ended by itself


def end_descendants() -> None:
    """Kills what is below this process, until nothing is: those whose parents end come to this one."""
    while True:
        for pid in descendants():
            kill(pid)
        try:
            os.waitpid(-1, 0)
        except ChildProcessError:
            return


def command(spec: dict[str, Any]) -> NoReturn:
    """Becomes the command."""
    os.setsid()
    for number in (*PASSED, signal.SIGPIPE, ORPHANED):
        signal.signal(number, signal.SIG_DFL)
    signal.pthread_sigmask(signal.SIG_SETMASK, [])
    if spec.get("umask") is not None:
        os.umask(spec["umask"])
    if "files" in spec:
        resource.setrlimit(resource.RLIMIT_NOFILE, spec["files"])
    words = spec["command"]
    try:
        os.chdir(spec["cwd"])
        os.execvpe(words[0], words, spec["env"])
    except FileNotFoundError as fault:
        fail(f"{spec['cwd'] if fault.filename == spec['cwd'] else words[0]}: no such file or command", 127)
    except (OSError, ValueError) as fault:
        fail(f"{words[0]}: {getattr(fault, 'strerror', '') or fault}", 126)


def tend(child: int, is_whole_group: bool) -> int:
    """Waits for a child, passes signals on to it, and gathers whatever ends meanwhile. Its status."""

    def passes(number: int, _frame: FrameType | None) -> None:
        try:
            os.killpg(child, number) if is_whole_group else os.kill(child, number)
        except ProcessLookupError:  # it has no group of its own yet
            try:
                os.kill(child, number)
            except OSError:
                pass
        except OSError:
            pass

    for number in PASSED:
        signal.signal(number, passes)
    signal.pthread_sigmask(signal.SIG_SETMASK, [])
    while True:
        pid, waited = os.waitpid(-1, 0)
        if pid == child:
            return status_of(waited)


def fork_command(spec: dict[str, Any]) -> int:
    child = os.fork()
    if child == 0:
        command(spec)
    return child


def first(spec: dict[str, Any]) -> NoReturn:
    """The first process of the namespace: when it ends all others of it do."""
    checked(libc.prctl(PR_SET_PDEATHSIG, signal.SIGKILL, 0, 0, 0), "prctl")
    signal.signal(ORPHANED, signal.SIG_IGN)
    checked(mount("none", "/", None, MS_REC | MS_PRIVATE), "mounts can't be made private")
    mount("proc", "/proc", "proc", MS_NOSUID | MS_NODEV | MS_NOEXEC)  # where it isn't allowed the old one stays
    for source, target, writable in spec["binds"]:
        checked(mount(source, target, None, MS_BIND | MS_REC), f"{target} can't be bound")
        if not writable:
            checked(mount("none", target, None, MS_REMOUNT | MS_BIND | MS_RDONLY), f"{target} can't be made read-only")
    os._exit(tend(fork_command(spec), True))


def in_namespace(spec: dict[str, Any]) -> NoReturn:
    checked(libc.unshare(CLONE_NEWPID | CLONE_NEWNS), "unshare")
    child = os.fork()
    if child == 0:
        first(spec)

    def orphaned(_number: int, _frame: FrameType | None) -> None:
        kill(child)

    signal.signal(ORPHANED, orphaned)
    if os.getppid() != spec["parent"]:
        kill(child)
    os._exit(tend(child, False))


def in_group(spec: dict[str, Any]) -> NoReturn:
    checked(libc.prctl(PR_SET_CHILD_SUBREAPER, 1, 0, 0, 0), "prctl")
    child = fork_command(spec)

    def orphaned(_number: int, _frame: FrameType | None) -> None:
        end_descendants()
        os._exit(137)

    signal.signal(ORPHANED, orphaned)
    if os.getppid() != spec["parent"]:
        orphaned(0, None)
    status = tend(child, True)
    end_descendants()
    os._exit(status)


def main() -> NoReturn:
    with os.fdopen(int(sys.argv[1]), "rb") as file:
        file.seek(0)
        spec = marshal.load(file)
    os.close(int(sys.argv[2]))
    signal.pthread_sigmask(signal.SIG_BLOCK, [*PASSED, ORPHANED])
    checked(libc.prctl(PR_SET_PDEATHSIG, ORPHANED, 0, 0, 0), "prctl")
    if spec["namespace"]:
        in_namespace(spec)
    in_group(spec)


if __name__ == "__main__":
    main()
