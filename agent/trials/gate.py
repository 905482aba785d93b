#!/usr/bin/env python3
"""What the gate tries over the farm's program, which FARMCTL names: both filters killed and started where something is wrong, the main
job, builds and commands end to end, what leases prevent, and some chaos, with agents that have to fail it too.

Prints a line for each trial, and as the last one how many passed, failed and were skipped. The status is 1 where one failed. A trial
waits for real processes, so one that failed is made once more, but never where a version was wrong.
"""
from __future__ import annotations

import contextlib
import os
import shutil
import subprocess
import sys
import tempfile
import time
import unittest
from pathlib import Path
from typing import Callable, Iterator

sys.dont_write_bytecode = True
sys.path.insert(0, str(Path(__file__).resolve().parents[2]))

from agent.build.docker import cli  # noqa: E402
from agent.faults import Missing  # noqa: E402
from agent.runs.executions import can_have_namespaces  # noqa: E402
from agent.tools import TOP, farm_program  # noqa: E402
from agent.trials.farms import PYTHON_FARM  # noqa: E402

MOST = 700  # lines of a trial that failed
TRIAL = f"{TOP}/agent/trials/{{}}.py"
DOCKERFILE = """FROM scratch
COPY busybox /bin/busybox
ARG LINE
RUN --mount=type=cache,id=lines,sharing=locked,target=/lines ["/bin/busybox", "sh", "-c", "echo $LINE >> /lines/f; /bin/busybox cp /lines/f /f"]
"""


class Skipped(Exception):
    """Why a trial isn't made here."""


class Failed(Exception):
    """What a trial showed."""


class Wrong(Failed):
    """A trial showed that the farm was wrong."""


def expect(holds: bool, what: str) -> None:
    if not holds:
        raise Failed(what)


@contextlib.contextmanager
def farm_up(room: str, nodes: int) -> Iterator[str]:
    """A farm of this machine. Its home."""
    home = f"{room}/home"
    up = subprocess.Popen(
        [*PYTHON_FARM, "up", "--home", home, "--nodes", str(nodes)], stdin=subprocess.DEVNULL, stdout=subprocess.PIPE, text=True
    )
    try:
        assert up.stdout
        expect(up.stdout.readline() == "up\n", "the farm doesn't start")
        yield home
    finally:
        up.terminate()
        up.communicate()


def told(words: list[str]) -> str:
    done = subprocess.run(words, stdin=subprocess.DEVNULL, capture_output=True, text=True, timeout=300)
    expect(done.returncode == 0, f"{' '.join(words[-6:])}: status {done.returncode}: {(done.stdout + done.stderr)[-600:]}")
    return done.stdout


def need_tools(*tools: str) -> None:
    lacking = [tool for tool in tools if not shutil.which(tool)]
    if lacking:
        raise Skipped(f"{', '.join(lacking)} isn't installed")


def main_job(room: str) -> str:
    """A Dockerfile is built on two nodes in turn and at once: each version has one line more."""
    need_tools("casync", "buildah", "busybox")
    if os.geteuid() or not can_have_namespaces():
        raise Skipped("builds want root and namespaces")
    context = f"{room}/context"
    os.makedirs(context)
    shutil.copy(shutil.which("busybox") or "", f"{context}/busybox")
    with open(f"{context}/Dockerfile", "w") as file:
        file.write(DOCKERFILE)
    with farm_up(room, 2) as home:
        def build(node: int, line: str) -> list[str]:
            return [*PYTHON_FARM, "build", "--home", home, "--node", str(node), "--build-arg", f"LINE={line}", "-t", f"app:{node}", context]

        for number in range(1, 5):
            told(build(1 + number % 2, f"turn{number}"))
        for _ in range(2):
            both = [subprocess.Popen(build(node, f"once{node}"), stdin=subprocess.DEVNULL, stdout=subprocess.PIPE, stderr=subprocess.STDOUT, text=True)
                    for node in (1, 2)]
            for process in both:
                said = process.communicate(timeout=300)[0]
                expect(process.returncode == 0, said[-600:])
        check_lines(home, f"{room}/got", [["turn1"], ["turn2"], ["turn3"], ["turn4"], *[["once1", "once2"]] * 4])
        for node in (1, 2):
            storage = f"{home}/node{node}/containers"
            told(["buildah", "--root", f"{storage}/root", "--runroot", f"{storage}/run", "--storage-driver", "vfs", "inspect", "--type", "image", f"app:{node}"])
    return "8 builds on two nodes, 8 versions, each with one line more"


def check_lines(home: str, out: str, wanted: list[list[str]]) -> None:
    """Each version is the one before it and one line more, one of those wanted there."""
    before: list[str] = []
    for number, lines in enumerate(wanted, 1):
        told([*PYTHON_FARM, "get", "--home", home, f"locked:lines@{number}", f"{out}{number}"])
        with open(f"{out}{number}/f") as file:
            now = file.read().splitlines()
        expect(now[:-1] == before and now[-1] in lines, f"version {number} holds {now} after {before}")
        before = now
    expect(sorted(before) == sorted(["turn1", "turn2", "turn3", "turn4", "once1", "once1", "once2", "once2"]), f"the last one holds {before}")


def suites(room: str) -> str:
    """The agent's tests of whole farms, over the program."""
    need_tools("casync")
    suite = unittest.defaultTestLoader.loadTestsFromNames([f"agent.tests.test_{name}" for name in ("farm", "builds", "merged", "docker")])
    with open(f"{room}/tests", "w+") as said:
        result = unittest.TextTestRunner(stream=said).run(suite)
        said.seek(0)
        expect(result.wasSuccessful(), said.read()[-2000:])
    return f"{result.testsRun} tests of farms, {len(result.skipped)} skipped"


def count(room: str) -> str:
    """Updates are lost in a plain folder, and none in a leased one."""
    need_tools("casync")
    return "; ".join(told([f"{TOP}/examples/count/run.sh"]).splitlines())


def tried(name: str, *words: str, last: int = 1) -> str:
    """The last lines of another trial."""
    done = subprocess.run([sys.executable, TRIAL.format(name), *words], stdin=subprocess.DEVNULL, capture_output=True, text=True, timeout=1800)
    lines = (done.stdout + done.stderr).splitlines()
    if any(line.startswith("wrong: ") for line in lines):
        raise Wrong("\n".join(lines[-MOST:]))
    expect(done.returncode == 0 and bool(lines), "\n".join(lines[-MOST:]))
    return "; ".join(lines[-last:])


def kills(room: str) -> str:
    """Each filter is killed, or its disk is full, at each of its writes, syncs and renames."""
    need_tools(os.environ.get("CC") or "cc")
    return tried("kills")


def starts(room: str) -> str:
    """Each filter starts where something is wrong with its files. Since a process that is slow to end counts as wrong there, it may be
    tried again."""
    try:
        return tried("starts")
    except Wrong as fault:
        raise Failed(str(fault)) from fault


def chaos(room: str, *words: str) -> str:
    need_tools("casync")
    return tried("chaos", *words, last=3)


def over_pipes(room: str) -> str:
    """Chaos over pipes."""
    return chaos(room, "--over", "pipes", "--seconds", "30")


def over_redis(room: str) -> str:
    """Chaos over Redis."""
    need_tools("redis-server")
    return chaos(room, "--over", "redis", "--seconds", "30")


def found(room: str, *words: str) -> str:
    """Chaos has to find the fault: the longer it goes on, the surer it does."""
    said = ""
    for seconds in ("8", "16", "32"):
        try:
            said = chaos(room, "--builds", "0", "--seconds", seconds, *words)
        except Wrong as fault:
            return "found, " + [line for line in str(fault).splitlines() if line.startswith("wrong: ")][-1]
    raise Failed(said)


def docker_builds(room: str) -> str:
    """Builds by Docker's BuildKit."""
    need_docker()
    return tried("docker")


def kept_ids(room: str) -> str:
    """An agent keeps the ids of leases that didn't end well."""
    need_docker()
    return tried("docker", "--keep-ids")


def need_docker() -> None:
    need_tools("casync", "busybox", "dockerd", "docker")
    if os.geteuid() or not can_have_namespaces():
        raise Skipped("a Docker daemon wants root and namespaces")
    try:
        cli()
    except Missing as why:
        raise Skipped(str(why)) from None


def early_agent(room: str) -> str:
    """An agent commits before its contents are kept."""
    need_tools("redis-server")
    return found(room, "--over", "redis", "--wrong", "early")


def stale_agent(room: str) -> str:
    """An agent takes what stands at a path for what it was."""
    return found(room, "--over", "pipes", "--wrong", "stale")


def merged_folders(room: str) -> str:
    """Commands on snapshots of one folder, merged."""
    need_tools("casync", "redis-server")
    need_namespaces()
    return tried("merged", "--over", "redis", "--seconds", "30", last=2)


def snapshot_agent(room: str) -> str:
    """An agent merges into the version that a command began from, and not into the leased one."""
    need_tools("casync")
    need_namespaces()
    said = ""
    for seconds in ("8", "16", "32"):
        try:
            said = tried("merged", "--over", "pipes", "--seconds", seconds, "--wrong", "snapshot")
        except Wrong as fault:
            return "found, " + [line for line in str(fault).splitlines() if line.startswith("wrong: ")][-1]
    raise Failed(said)


def need_namespaces() -> None:
    if os.geteuid() or not can_have_namespaces():
        raise Skipped("merged folders want root and namespaces")


def taken_over(room: str) -> str:
    """A node was taken over: who took it tries everything beside two honest nodes, and is put out."""
    need_tools("casync", "redis-server")
    return tried("takenover", "--seconds", "15")


def one_key(room: str) -> str:
    """Who took a node over has the farm's own key, as if nodes had none of their own."""
    need_tools("casync", "redis-server")
    try:
        said = tried("takenover", "--seconds", "15", "--wrong", "one-key")
    except Wrong as fault:
        return "found, " + [line for line in str(fault).splitlines() if line.startswith("wrong: ")][0]
    raise Failed(said)


TRIALS: list[Callable[[str], str]] = [
    starts, kills, main_job, suites, count, docker_builds, kept_ids, over_pipes, over_redis, early_agent, stale_agent, merged_folders, snapshot_agent,
    taken_over, one_key,
]


def attempt(trial: Callable[[str], str]) -> str:
    """Makes one trial, and says in a line what came of it: `passed`, `failed`, `wrong` or `skipped`."""
    name, begun = trial.__name__.replace("_", " "), time.monotonic()
    room = os.path.realpath(tempfile.mkdtemp(prefix="farm-"))
    try:
        said, how = trial(room), "passed"
    except Skipped as why:
        said, how = str(why), "skipped"
    except Wrong as fault:
        said, how = str(fault), "wrong"
    except (Failed, subprocess.TimeoutExpired, OSError) as fault:
        said, how = str(fault), "failed"
    finally:
        shutil.rmtree(room, ignore_errors=True)
    print(f"{how}: {name}, {time.monotonic() - begun:.0f} seconds: {said}", flush=True)
    return how


def attempt_again(trial: Callable[[str], str]) -> str:
    """Makes one trial, and once more where it failed and nothing was wrong."""
    how = attempt(trial)
    return attempt(trial) if how == "failed" else how


def main() -> int:
    farm_program()
    hows = [attempt_again(trial) for trial in TRIALS if not sys.argv[1:] or trial.__name__ in sys.argv[1:]]
    failed = hows.count("failed") + hows.count("wrong")
    print(f"the agent over the program: {hows.count('passed')} passed, {failed} failed, {hows.count('skipped')} skipped")
    return 1 if failed or not hows else 0


if __name__ == "__main__":
    sys.exit(main())
