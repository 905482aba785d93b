"""Commands and builds under leases: asks a node of this machine, and starts a farm for it where none runs.

Owes the filters nothing.
"""
from __future__ import annotations

import argparse
import contextlib
import fcntl
import os
import pwd
import sys
import time
from typing import Iterator

from agent.faults import MISSING, USAGE, FarmFault, UsageFault, tell
from agent.service import client
from agent.service.requests import BuildRequest, NodeRequest, NodeWasRetired, RunRequest
from agent.words import want_of, who_of

SERVED = "/var/lib/farm"  # where the units of the package have their homes
LOG_MOST = 8 << 20  # bytes of the log of farms that commands start: a longer one is put aside, in place of the one before it


def start_farm(home: str) -> None:
    """Starts a farm of one node in a process of its own, which ends where nobody uses it."""
    import subprocess

    from agent.tools import TOP, farm_choice

    program = farm_choice()  # a missing program is told here, and not in the farm's log
    env = os.environ | {"FARMCTL": program.path}  # its path may be one from here
    os.makedirs(home, mode=0o700, exist_ok=True)
    if os.path.isdir(f"{SERVED}/here") and not os.access(f"{SERVED}/here", os.X_OK):
        tell("this machine has a farm, which only root and members of its group use: adduser NAME farm makes one")
    tell(f"no farm runs in {home}: one of one node is started, by {program.what}")
    words = [sys.executable, "-IS", os.path.join(TOP, "farm"), "up", "--home", home, "--nodes", "1", "--while-used", "--verbose"]
    if os.path.exists(f"{home}/farm.log") and os.path.getsize(f"{home}/farm.log") > LOG_MOST:
        os.replace(f"{home}/farm.log", f"{home}/farm.log.old")
    with open(f"{home}/farm.log", "ab") as log:
        begun = log.tell()
        started = subprocess.Popen(words, stdin=subprocess.DEVNULL, stdout=subprocess.PIPE, stderr=log, start_new_session=True, cwd=home, env=env)
    assert started.stdout
    with started.stdout as said_up:
        is_up = said_up.readline() == b"up\n"
    if not is_up:
        with open(f"{home}/farm.log", "rb") as said:
            said.seek(begun)
            last = said.read().decode(errors="replace").strip().splitlines()[-1:]
        fault = FarmFault(last[0].removeprefix("farm: ") if last else f"the farm doesn't start, and {home}/farm.log doesn't say why")
        ended = started.wait()
        fault.status = ended if ended in (USAGE, MISSING) else fault.status
        raise fault


def node_sockets(home: str) -> Iterator[str]:
    """The sockets of the nodes of a home that answer, in the order of their numbers."""
    found = os.listdir(home) if os.path.isdir(home) else []
    names = sorted((name for name in found if name.startswith("node") and name.endswith(".sock")), key=lambda name: (len(name), name))
    return (path for name in names if client.is_there(path := f"{home}/{name}"))


def sockets_of(home: str, node: int | None) -> Iterator[str]:
    """The socket of a node of this machine, or of each one, where they answer."""
    if node is None:
        return node_sockets(home)
    path = f"{home}/node{node}.sock"
    return iter([path] if client.is_there(path) else [])


def start_for(home: str, node: int | None) -> None:
    """Starts a farm where no node runs, unless that is for people to do."""
    if node not in (None, 1) or client.is_there(f"{home}/coordinator.sock"):
        raise FarmFault(f"no node {node or ''} runs in {home}".replace("  ", " "))
    if os.path.exists(f"{home}/joined") or os.path.exists(f"{home}/node.key"):
        raise FarmFault(f"no node runs in {home}, which is of a farm over a broker: farm node N --broker redis://.. runs one")
    if os.path.exists(f"{home}/served"):
        raise FarmFault(f"the farm of {home} was killed: farm up starts it again, or remove {home}/served")
    client.check_home(home)
    if os.environ.get("FARM_BROKER") and not os.path.exists(home):
        raise UsageFault(f"FARM_BROKER names a farm of several machines, and {home} isn't there: name the --home of a node, or unset FARM_BROKER")
    os.makedirs(home, mode=0o700, exist_ok=True)
    with open(f"{home}/starting", "w") as lock:
        fcntl.flock(lock, fcntl.LOCK_EX)
        if next(sockets_of(home, node), None) is None:
            start_farm(home)


def ask_running(home: str, node: int | None, request: NodeRequest) -> client.Asked | None:
    """Asks a node, or the first one here that isn't retired. None where none runs."""
    retired = None
    for path in sockets_of(home, node):
        asked = client.ask(path, request, passes_signals=True)
        if not isinstance(asked.told, NodeWasRetired):
            return asked
        retired = asked.told.why
    if retired and node is None:
        raise FarmFault(f"every node that runs in {home} was retired: begin one of another number, as farm up with more --nodes does")
    if retired:
        raise FarmFault(f"{retired}: name another one with --node, or none")
    return None


def ask_node(home: str, node: int | None, request: NodeRequest) -> int:
    return ask_for(home, node, request).status


def ask_for(home: str, node: int | None, request: NodeRequest) -> client.Asked:
    """Asks a node, and starts a farm for it where none runs here."""
    if isinstance(request, (RunRequest, BuildRequest)) and not request.who:
        request = request._replace(who=who_of(own_word()))
    for turn in range(6):
        with contextlib.suppress(client.NoFarm):
            if asked := ask_running(home, node, request):
                return asked
            if turn > 3 or not client.is_there(f"{home}/coordinator.sock"):
                start_for(home, node)
                continue
        time.sleep(0.3)  # it is ending, or its nodes are about to stand
    raise FarmFault(f"no farm answers in {home}")


def own_folder() -> str:
    try:
        return os.getcwd()
    except FileNotFoundError:
        raise FarmFault("the folder that this was called in is there no more") from None


def own_environment() -> dict[str, str]:
    """What this was called with, without the broker and its password: where that has no locale of its own Python sets LC_CTYPE."""
    front = b"LC_CTYPE="
    with open("/proc/self/environ", "rb") as file:
        given = [word.removeprefix(front) for word in file.read().split(b"\0") if word.startswith(front)]
    others = {key: value for key, value in os.environ.items() if key not in ("LC_CTYPE", "FARM_BROKER")}
    return others | {"LC_CTYPE": os.fsdecode(value) for value in given}


def own_word() -> str:
    """Whose a command is, as the history names him: a CI's job, else the user and the machine."""
    env = os.environ
    if env.get("GITHUB_RUN_ID"):
        return f"github:{env['GITHUB_RUN_ID']}/{env.get('GITHUB_JOB', '')}"
    if env.get("CI_JOB_ID"):
        return f"gitlab:{env['CI_JOB_ID']}"
    if env.get("BUILD_TAG"):
        return env["BUILD_TAG"]
    try:
        user = pwd.getpwuid(os.getuid()).pw_name
    except KeyError:
        user = str(os.getuid())
    return f"{user}@{os.uname().nodename}"


def own_umask() -> int:
    os.umask(mask := os.umask(0o077))
    return mask


def do_run(args: argparse.Namespace) -> int:
    command = args.command[args.command[:1] == ["--"] :]
    if not command:
        raise UsageFault("run wants a command, as in farm run -- make")
    for word in args.folder:
        want_of(word)  # wrong words are told before a farm is started
    return ask_node(args.home, args.node, RunRequest(
        command=tuple(command), folders=tuple(args.folder), cwd=own_folder(), env=own_environment(), umask=own_umask(),
        wait=args.wait, must_commit=args.must_commit, stops_when_lost=args.on_lost == "stop",
        on_conflict=args.on_conflict, tells_conflicts=args.verbose, is_warm=args.warm, who=args.who or "",
    ))


def do_build(args: argparse.Namespace) -> int:
    from agent.commands.build import request_of, take_built

    return take_built(args, ask_for(args.home, args.node, request_of(args)))
