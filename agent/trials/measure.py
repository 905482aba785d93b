#!/usr/bin/env python3
"""Measures the agent on this machine, in one run: what `farm run` costs beside the command, a folder of a gigabyte, one of two in many
files, and a source package built on three nodes with ccache in a leased folder, beside other places for it.

usage: agent/trials/measure.py [start] [folder] [many] [fewer] [modes] [ten] [burst] [large] [rounds SOURCE.tar.gz] [package SOURCE.tar.gz [MAKE WORDS..]]
"""
from __future__ import annotations

import contextlib
import os
import re
import shlex
import shutil
import statistics
import subprocess
import sys
import tempfile
import threading
import time
from concurrent.futures import ThreadPoolExecutor
from pathlib import Path
from typing import Callable, Iterator

sys.dont_write_bytecode = True
sys.path.insert(0, str(Path(__file__).resolve().parents[2]))

from agent.tests.support import redis_server  # noqa: E402
from agent.tools import TOP  # noqa: E402
from agent.trials import s3  # noqa: E402
from agent.trials.farms import PYTHON_FARM, OverRedis, children  # noqa: E402
from agent.trials.gate import farm_up  # noqa: E402

FARM = f"{TOP}/farm"
TIMES = 15


def seconds(words: list[str], env: dict[str, str] | None = None, cwd: str = "/") -> float:
    begun = time.perf_counter()
    done = subprocess.run(words, stdin=subprocess.DEVNULL, capture_output=True, text=True, env=os.environ | (env or {}), cwd=cwd)
    if done.returncode:
        raise SystemExit(f"{' '.join(words)[-300:]}: status {done.returncode}: {(done.stdout + done.stderr)[-800:]}")
    return time.perf_counter() - begun


def row(name: str, *words: str) -> None:
    print(f"{name:<58} {'  '.join(words)}", flush=True)


def middle(words: list[str]) -> str:
    took = sorted(seconds(words) * 1000 for _ in range(TIMES))
    return f"{took[0]:.0f} to {took[-1]:.0f} ms, half of them up to {statistics.median(took):.0f}"


def start(room: str) -> None:
    with farm_up(room, 2) as home:
        run = [FARM, "run", "--home", home]
        row("python3 -IS -c pass", middle(["python3", "-IS", "-c", "pass"]))
        row("farm run -- true", middle([*run, "--", "true"]))
        row("farm run --folder locked:c=w -- true", middle([*run, "--folder", f"locked:c={room}/w", "--", "true"]))


def folder(room: str) -> None:
    """A gigabyte in 4,000 files, which the second and third command leave as it was."""
    fill = f"i=0; while [ $i -lt 4000 ]; do head -c 262144 /dev/urandom > {room}/w/$i; i=$((i + 1)); done"
    with farm_up(room, 2) as home:
        run = [FARM, "run", "--home", home, "--folder", f"locked:big={room}/w", "--", "sh", "-c"]
        row("1 GB: written by a command, and committed", f"{seconds([*run, fill]):.1f} s")
        row("1 GB: leased, unchanged, committed", *(f"{seconds([*run, 'true']):.1f} s" for _ in range(2)))
        read = [FARM, "run", "--home", home, "--folder", f"ro=locked:big={room}/w", "--", "true"]
        row("1 GB: leased to be read", f"{seconds(read):.1f} s")
        row("1 GB: cp -a of it", f"{seconds(['cp', '-a', f'{room}/w', f'{room}/copy']):.1f} s")


class Watched:
    """The greatest memory of an agent, its filters and what it calls, by the program's name; and the seconds of a processor that it and
    what it called took."""

    def __init__(self, agent: int) -> None:
        self.agent = agent
        self.begun = self._seconds()
        self.most: dict[str, int] = {}  # kB
        self.stopping = threading.Event()
        self.thread = threading.Thread(target=self._watch, daemon=True)
        self.thread.start()

    def _watch(self) -> None:
        while not self.stopping.wait(0.05):
            found = [self.agent]
            for pid in found:
                found += children(pid)
                with contextlib.suppress(OSError, KeyError, ValueError):
                    with open(f"/proc/{pid}/status") as file:
                        told = dict(line.split(":", 1) for line in file)
                    name = "agent" if pid == self.agent else told["Name"].strip()
                    self.most[name] = max(self.most.get(name, 0), int(told["VmHWM"].split()[0]))

    def _seconds(self) -> float:
        with open(f"/proc/{self.agent}/stat") as file:
            return sum(int(word) for word in file.read().rpartition(")")[2].split()[11:15]) / os.sysconf("SC_CLK_TCK")

    def end(self, *names: str) -> str:
        self.stopping.set()
        self.thread.join()
        memory = ", ".join(f"{name} {self.most.get(name, 0) / 1024:.0f} MB" for name in names)
        return f"{self._seconds() - self.begun:.0f} s of a processor, {memory}"


def many(room: str, number: int = 50_000) -> None:
    """Many files of 40 kB, two gigabytes, of which a second version changes a hundredth, and a third one on the other node: with contents in a
    folder that both see, in Redis, and in a bucket."""
    write = (
        f"import os, sys\nfor k in range(0, {number}, int(sys.argv[2])):\n  os.makedirs(f'{{sys.argv[1]}}/{{k % 250}}', exist_ok=True)\n"
        "  open(f'{sys.argv[1]}/{k % 250}/{k}', 'wb').write(os.urandom(40_000))"
    )
    with s3.server(f"{room}/swift") as bucket:
        os.environ.update(bucket.env)
        for place, contents in (("a folder", f"{room}/contents"), ("Redis", None), ("a bucket", bucket.url)):
            with apart(room, 2, contents) as farm:
                for node, every, name in ((1, 1, "written"), (1, 100, "1 % changed"), (2, 100, "filled elsewhere, 1 % changed")):
                    watched = Watched(farm.agents[f"node{node}"].pid)
                    took = seconds(farm.run(node, f"locked:many={room}/w{node}", "python3", "-c", write, f"{room}/w{node}", str(every)))
                    row(f"{number / 25_000:.1f} GB, {number} files, in {place}: {name}", f"{took:.1f} s", watched.end("agent"))
            for node in (1, 2):
                shutil.rmtree(f"{room}/w{node}")


class Package:
    """A source package, which is built in a folder of its own each time."""

    def __init__(self, room: str, source: str, words: list[str]) -> None:
        self.room, self.words = room, words
        self.tree = f"{room}/source"
        os.makedirs(self.tree)
        subprocess.run(["tar", "-xf", source, "-C", self.tree, "--strip-components=1"], check=True)

    def script(self, compiler: str, cache: str) -> str:
        """Builds always at one path: ccache tells folders apart."""
        make = " ".join(self.words)
        return (
            f"rm -rf {self.room}/work && cp -a {self.tree} {self.room}/work && cd {self.room}/work && export CCACHE_DIR={cache} && ccache -z >/dev/null && "
            f"make -j4 CC='{compiler}' {make} >/dev/null && ccache --print-stats > {self.room}/stats"
        )

    def hits(self) -> str:
        with open(f"{self.room}/stats") as file:
            stats = {key: int(value) for key, value in re.findall(r"^(\w+)\t(\d+)$", file.read(), re.MULTILINE)}
        found = stats.get("direct_cache_hit", 0) + stats.get("preprocessed_cache_hit", 0)
        return f"{found} of {found + stats.get('cache_miss', 0)}"

    def build(self, how: Callable[[str], list[str]], cache: str, compiler: str = "ccache gcc", env: dict[str, str] | None = None) -> str:
        took = seconds(how(self.script(compiler, cache)), env)
        return f"{took:.2f} s ({self.hits()})"


def package(room: str, source: str, words: list[str]) -> None:
    built = Package(room, source, words)

    def plain(script: str) -> list[str]:
        return ["sh", "-c", script]

    row("gcc alone", f"{seconds(plain(built.script('gcc', f'{room}/none'))):.2f} s")
    row("ccache in a plain folder: cold, warm", *(built.build(plain, f"{room}/plain") for _ in range(2)))
    with redis_server(room) as url:
        env = {"CCACHE_REMOTE_STORAGE": url}
        row("ccache over Redis, a machine each: cold, warm, warm", *(built.build(plain, f"{room}/own{k}", env=env) for k in range(3)))
    with farm_up(room, 3) as home:
        cache = f"{room}/leased"

        def on(node: int) -> Callable[[str], list[str]]:
            return lambda script: [FARM, "run", "--home", home, "--node", str(node), "--folder", f"locked:ccache={cache}{node}", "--", "sh", "-c", script]

        row("farm, locked: node 1 cold, nodes 2, 3 and 1 warm", *(built.build(on(node), f"{cache}{node}") for node in (1, 2, 3, 1)))


class Apart(OverRedis):
    """A coordinator and nodes over Redis, each an agent of its own, undisturbed."""

    def __init__(self, room: str, nodes: int, contents: str | None = None) -> None:
        super().__init__(room, nodes, 0, None)
        self.contents = ["--contents", contents] if contents else []

    def words(self, name: str) -> list[str]:
        return [*super().words(name), *self.contents]

    def command(self, name: str) -> list[str]:
        return [*PYTHON_FARM, *self.words(name), "--verbose"]

    def run(self, node: int, folder: str, *command: str) -> list[str]:
        return [FARM, "run", "--home", self.home(node), "--folder", folder, "--", *command]

    def held(self) -> list[float]:
        """For how many seconds each merge had a lease."""
        logs = [Path(f"{self.room}/node{node}.log").read_text() for node in range(1, self.nodes + 1)]
        return [float(found) for log in logs for found in re.findall(r"of a merge was held for ([0-9.]+) s", log)]


@contextlib.contextmanager
def apart(room: str, nodes: int, contents: str | None = None) -> Iterator[Apart]:
    farm = Apart(f"{room}/farm", nodes, contents)
    try:
        farm.begin()
        yield farm
    finally:
        farm.end()
        shutil.rmtree(farm.room)


def at_once(words: list[list[str]]) -> float:
    """The seconds in which all of these commands end that begin at once."""
    begun = time.perf_counter()
    with ThreadPoolExecutor(len(words)) as pool:
        list(pool.map(seconds, words))
    return time.perf_counter() - begun


def spread(times: list[float]) -> str:
    times = sorted(times)
    return f"{times[0]:.2f} to {times[-1]:.2f} s, half of them up to {statistics.median(times):.2f}" if times else "none"


def modes(room: str) -> None:
    """Four commands of five seconds on four nodes at once, and of one node at one path."""
    with apart(room, 4) as farm:
        def command(mode: str, node: int, name: str) -> list[str]:
            path = f"{room}/{mode}{name}"
            return farm.run(node, f"{mode}:{mode}={path}", "sh", "-c", f"sleep 5; echo x > {path}/{node}{name}")

        for mode in ("locked", "shared", "private", "merged"):
            row(f"4 commands of 5 s on 4 nodes, {mode}", f"{at_once([command(mode, node, str(node)) for node in range(1, 5)]):.1f} s")
        row("4 commands of 5 s on one node, at one path, merged", f"{at_once([command('merged', 1, 'same') for _ in range(4)]):.1f} s")
        small(room, farm)


def small(room: str, farm: Apart) -> None:
    """Six small commands on each node, one after the other, all nodes at once."""
    words = [farm.run(node, f"merged:small={room}/small{node}", "sh", "-c", f"echo x > {room}/small{node}/$$") for node in range(1, farm.nodes + 1)]
    before = len(farm.held())
    took = at_once([["sh", "-c", f"for k in 1 2 3 4 5 6; do {shlex.join(each)} 2>/dev/null || exit 1; done"] for each in words])
    count = 6 * farm.nodes
    row(f"{count} small commands on {farm.nodes} nodes, merged: a second", f"{count / took:.1f}", f"leases {spread(farm.held()[before:])}")


def ten(room: str) -> None:
    """Ten nodes at once."""
    with apart(room, 10) as farm:
        small(room, farm)


WRITE = """import os, random, sys
top, number, seed = sys.argv[1], int(sys.argv[2]), int(sys.argv[3])
dice = random.Random(seed)
for k in range(50_000) if number == 50_000 else dice.sample(range(50_000), number):
    os.makedirs(f"{top}/{k % 250}", exist_ok=True)
    open(f"{top}/{k % 250}/{k}", "wb").write(dice.randbytes(int(sys.argv[4])))
"""


def burst(room: str, size: int = 8_000) -> None:
    """50,000 files of this many bytes, of which four nodes change 100 each at once."""
    with apart(room, 4) as farm:
        def command(node: int, number: int, seed: int) -> list[str]:
            path = f"{room}/burst{node}"
            return farm.run(node, f"merged:burst={path}", sys.executable, "-c", WRITE, path, str(number), str(seed), str(size))

        row(f"{50_000 * size / 1e6:,.0f} MB in 50,000 files: written, and merged", f"{seconds(command(1, 50_000, 0)):.1f} s")
        row("the same on 4 nodes, 1 file changed", f"{at_once([command(node, 1, node) for node in range(1, 5)]):.1f} s")
        for turn in range(2):
            before = len(farm.held())
            took = at_once([command(node, 100, 10 * turn + node) for node in range(1, 5)])
            held = farm.held()[before:]
            row("100 files changed on each of 4 nodes at once", f"{took:.1f} s", f"leases {spread(held)}")
        pids = {name: process.pid for name, process in farm.agents.items()}
        most = {name: int(re.findall(r"VmHWM:\s+(\d+)", Path(f"/proc/{pid}/status").read_text())[0]) / 1024 for name, pid in pids.items()}
        row("greatest memory of an agent", f"{max(most.values()):.0f} MB")


REVISIONS, CHANGED = 6, 5  # builds of each node; files that each of them changes for all nodes

COMPILE = """cd {work} && for file in *.c; do {compiler} -O2 -DLUA_USE_LINUX -c $file -o ${{file%c}}o || exit 1; done"""


class Revisions:
    """A package's C files, as each of four nodes builds them in six revisions: five files differ from revision to revision, and one from node
    to node."""

    def __init__(self, room: str, source: str) -> None:
        self.room = room
        os.makedirs(f"{room}/source")
        subprocess.run(["tar", "-xf", source, "-C", f"{room}/source", "--strip-components=1"], check=True)
        folders = [folder for folder, _, files in os.walk(f"{room}/source") if any(name.endswith(".c") for name in files)]
        self.tree = max(folders, key=lambda folder: len(os.listdir(folder)))
        self.files = sorted(name for name in os.listdir(self.tree) if name.endswith(".c"))

    def made(self, name: str, node: int, revision: int) -> str:
        work = f"{self.room}/{name}/{node}.{revision}"
        shutil.copytree(self.tree, work)
        texts = [(number * CHANGED + k, f"int farm_{number}(void) {{ return {number}; }}") for number in range(1, revision + 1) for k in range(CHANGED)]
        for place, text in [*texts, (node * 7 + revision, f"int farm_of_{node}_{revision}(void) {{ return 0; }}")]:
            with open(f"{work}/{self.files[place % len(self.files)]}", "a") as file:
                file.write(f"\n{text}\n")
        return work

    def run(self, name: str, mode: str | None, farm: Apart | None, env: dict[str, str]) -> None:
        """All builds of a kind: how long they took, and of how many files a result was found, in the first revision and later."""
        works = {(node, revision): self.made(name, node, revision) for node in range(1, 5) for revision in range(REVISIONS)}
        extra = ["--warm"] if name == "private-warm" else []

        def build(node: int) -> None:
            for revision in range(REVISIONS):
                work, cache = works[node, revision], f"{self.room}/{name}-cache{node}"
                script = COMPILE.format(work=work, compiler="gcc" if name == "none" else "ccache gcc")
                given = {"CCACHE_DIR": cache, "CCACHE_STATSLOG": f"{work}/log", "CCACHE_NOHASHDIR": "1", "CCACHE_BASEDIR": work, **env}
                words = ["sh", "-c", script]
                if farm:
                    words = farm.run(node, f"{mode}:cc={cache}", *words)
                    words[2:2] = extra
                seconds(words, given)

        begun = time.perf_counter()
        with ThreadPoolExecutor(4) as pool:
            list(pool.map(build, range(1, 5)))
        took = time.perf_counter() - begun
        told = []
        for revisions in ([0], range(1, REVISIONS)):
            logs = [f"{works[node, revision]}/log" for node in range(1, 5) for revision in revisions]
            lines = [line for log in logs if os.path.exists(log) for line in Path(log).read_text().split()]
            found, missed = sum(line in ("direct_cache_hit", "preprocessed_cache_hit") for line in lines), lines.count("cache_miss")
            told.append(f"{found} of {found + missed}")
        row(f"24 builds on 4 nodes, {name}", f"{took:.1f} s", f"hits at first {told[0]}, then {told[1]}")


def rounds(room: str, source: str) -> None:
    made = Revisions(room, source)
    made.run("none", None, None, {})
    with redis_server(room, "--appendonly", "yes", "--appendfsync", "always") as url:
        made.run("redis", None, None, {"CCACHE_REMOTE_STORAGE": url})
    for name in ("merged", "private-warm", "private", "locked"):
        with apart(room, 4) as farm:
            made.run(name, name.partition("-")[0], farm, {})


def main() -> int:
    words = sys.argv[1:]
    source = words[words.index("package") + 1 :] if "package" in words else []
    tar = os.path.abspath(words.pop(words.index("rounds") + 1)) if "rounds" in words else ""
    print(f"load {os.getloadavg()[0]:.1f}, {os.cpu_count()} processors", flush=True)
    jobs: dict[str, Callable[[str], None]] = {
        "start": start, "folder": folder, "many": many, "fewer": lambda room: many(room, 5_000), "modes": modes, "ten": ten, "burst": burst, "large": lambda room: burst(room, 40_000),
        "rounds": lambda room: rounds(room, tar), "package": lambda room: package(room, os.path.abspath(source[0]), source[1:]),
    }
    for name, job in jobs.items():
        if name in words[: len(words) - len(source)]:
            with tempfile.TemporaryDirectory(prefix="farm-") as room:
                job(os.path.realpath(room))
    return 0


if __name__ == "__main__":
    sys.exit(main())
