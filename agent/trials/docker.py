#!/usr/bin/env python3
"""Builds by Docker's BuildKit on leased folders: two nodes, each with a daemon of its own in a folder of its own, without iptables and bridge.

A Dockerfile that counts is built alternately and at once; a step outlives its killed daemon, and writes on; a build is CACHED; a failed one is
mended; two have one SHARED folder. `--keep-ids` has the agent keep the ids of leases that didn't end well, which has to be found.

usage: agent/trials/docker.py [--keep-ids] [--containerd]
"""
from __future__ import annotations

import argparse
import contextlib
import json
import os
import re
import shutil
import signal
import subprocess
import sys
import tempfile
import time
from pathlib import Path
from typing import Callable, Iterator

sys.dont_write_bytecode = True
sys.path.insert(0, str(Path(__file__).resolve().parents[2]))

from agent.build.docker import cli  # noqa: E402
from agent.build.engine import users_of  # noqa: E402
from agent.tools import TOP  # noqa: E402
from agent.trials.farms import PYTHON_FARM  # noqa: E402

PATIENCE = 120.0
BASE = 'FROM scratch\nCOPY busybox /bin/busybox\nRUN ["/bin/busybox", "--install", "/bin"]\nENV PATH=/bin\n'
MOUNT = "--mount=type=cache,sharing=locked,target=/c"
COUNT = f"FROM farm-trial\nARG LINE\nRUN {MOUNT},id=lines echo $LINE >> /c/f; cp /c/f /f\n"
# A step that writes once the next build's step is there, which waits for it a while: how loaded the machine is doesn't matter.
ZOMBIE = "touch /c/begun; n=0; while [ ! -e /c/go ] && [ $n -lt 300 ]; do sleep 1; n=$((n+1)); done; echo ZOMBIE > /c/z"
NEXT = "touch /c/go; for n in 1 2 3 4 5 6; do [ -e /c/z ] || sleep 1; done; rm /c/go; ls /c > /c/seen"
PLANTED = """import sys
sys.path.insert(0, {top!r})
from agent.build import cacheids, docker
docker.end_users = lambda paths: None
renewed = cacheids._renewed
if {keeps_ids}:
    cacheids._renewed = lambda known: known if known.id else renewed(known)
from agent.commands.main import main
sys.exit(main(sys.argv[1:]))
"""  # an agent that ends no step of an old id, so that the id alone is in its way; and one that keeps ids too


class Wrong(Exception):
    """What the farm did that it must not do."""


def expect(holds: object, what: str) -> None:
    if not holds:
        raise Wrong(what)


class Daemon:
    """A dockerd of the trial's own."""

    def __init__(self, home: str, by_containerd: bool) -> None:
        self.home, self.host, self.by_containerd = home, f"unix://{home}/docker.sock", by_containerd
        self.process: subprocess.Popen[bytes] | None = None

    def start(self) -> None:
        os.makedirs(self.home, exist_ok=True)
        words = ["--data-root", f"{self.home}/data", "--exec-root", f"{self.home}/exec", "--host", self.host, "--pidfile", f"{self.home}/pid"]
        words += ["--iptables=false", "--ip6tables=false", "--bridge=none", "--storage-driver", "overlayfs" if self.by_containerd else "overlay2"]
        with open(f"{self.home}/daemon.json", "w") as file:
            json.dump({"features": {"containerd-snapshotter": True}} if self.by_containerd else {}, file)
        words += ["--config-file", file.name]
        with open(f"{self.home}/log", "ab") as log:
            self.process = subprocess.Popen(["dockerd", *words], stdin=subprocess.DEVNULL, stdout=log, stderr=log, start_new_session=True)
        end = time.monotonic() + 60.0
        while self.call("version").returncode:
            expect(time.monotonic() < end and self.process.poll() is None, f"dockerd doesn't start: {Path(self.home, 'log').read_text()[-600:]}")
            time.sleep(0.2)
        told = self.call("info", "--format", "{{.DriverStatus}}").stdout
        expect(("containerd.snapshotter" in told) is self.by_containerd, f"the daemon's images lie elsewhere: {told}")

    def call(self, *words: str) -> subprocess.CompletedProcess[str]:
        env = os.environ | {"DOCKER_HOST": self.host, "DOCKER_BUILDKIT": "1"}
        return subprocess.run(["docker", *words], env=env, stdin=subprocess.DEVNULL, capture_output=True, text=True, timeout=PATIENCE)

    def kill(self) -> None:
        """Kills it as a crash does, and starts it anew. Its containerd ends too."""
        assert self.process
        self.process.kill()
        self.process.wait()
        for path in (f"{self.home}/pid", f"{self.home}/exec/containerd/containerd.pid"):
            with contextlib.suppress(OSError, ValueError):
                if path.endswith("containerd.pid"):
                    os.kill(int(Path(path).read_text()), signal.SIGKILL)
                os.unlink(path)
        self.start()

    def stop(self) -> None:
        if self.process:
            self.process.terminate()
            try:
                self.process.wait(20.0)
            except subprocess.TimeoutExpired:
                self.process.kill()
                self.process.wait()
        self.end_steps()
        with open("/proc/self/mountinfo") as file:
            left = [row.split(" ")[4] for row in file if row.split(" ")[4].startswith(f"{self.home}/")]
        for path in sorted(left, reverse=True):
            subprocess.run(["umount", "-l", path], capture_output=True)


    def end_steps(self) -> None:
        """Kills steps that outlived the daemon: those that have one of its directories at /c, which may be removed."""
        for path in Path("/proc").glob("[0-9]*/mountinfo"):
            with contextlib.suppress(OSError):
                rows = [row.split(" ") for row in path.read_text().splitlines()]
                if any(row[4] == "/c" and f"{self.home}/data/" in row[3] for row in rows):
                    os.kill(int(path.parent.name), signal.SIGKILL)


class Trial:
    def __init__(self, room: str, keeps_ids: bool, by_containerd: bool) -> None:
        self.room, self.home, self.context = room, f"{room}/home", f"{room}/context"
        self.daemons = [Daemon(f"{room}/d{number}", by_containerd) for number in (1, 2)]
        self.farm_words = [sys.executable, "-c", PLANTED.format(top=TOP, keeps_ids=keeps_ids)]

    @contextlib.contextmanager
    def standing(self) -> Iterator[None]:
        os.makedirs(self.context)
        shutil.copy(shutil.which("busybox") or "", f"{self.context}/busybox")
        try:
            for daemon in self.daemons:
                daemon.start()
                with open(f"{self.context}/base", "w") as file:
                    file.write(BASE)
                done = daemon.call("build", "--network", "none", "-t", "farm-trial", "-f", f"{self.context}/base", self.context)
                expect(done.returncode == 0, done.stderr[-600:])
            yield
        finally:
            for daemon in self.daemons:
                daemon.stop()

    @contextlib.contextmanager
    def farm(self, words: list[str]) -> Iterator[None]:
        up = subprocess.Popen([*words, "up", "--home", self.home, "--nodes", "2"], stdin=subprocess.DEVNULL, stdout=subprocess.PIPE, text=True)
        try:
            assert up.stdout
            expect(up.stdout.readline() == "up\n", "the farm doesn't start")
            yield
        finally:
            up.terminate()
            up.communicate()

    def begin(self, node: int, text: str, *words: str, host: str | None = None) -> subprocess.Popen[str]:
        with tempfile.NamedTemporaryFile("w", dir=self.context, prefix="Dockerfile", delete=False) as file:
            file.write(text)
        env = os.environ | {"DOCKER_HOST": host or self.daemons[node - 1].host}
        call = [*PYTHON_FARM, "build", "--home", self.home, "--node", str(node), "--builder", "docker", "--network", "none", "--progress", "plain"]
        call += ["-f", file.name, *words, self.context]
        return subprocess.Popen(call, env=env, stdin=subprocess.DEVNULL, stdout=subprocess.PIPE, stderr=subprocess.STDOUT, text=True)

    def build(self, node: int, text: str, *words: str, status: int = 0) -> str:
        process = self.begin(node, text, *words)
        said = process.communicate(timeout=PATIENCE)[0]
        expect(process.returncode == status, f"a build ended with {process.returncode}, and not with {status}: {said[-1500:]}")
        return said

    def got(self, folder: str) -> dict[str, str]:
        """The files of a version, with what they hold."""
        out = f"{self.room}/got"
        shutil.rmtree(out, ignore_errors=True)
        subprocess.run([*PYTHON_FARM, "get", "--home", self.home, folder, out], check=True, capture_output=True)
        return {name: Path(out, name).read_text() for name in os.listdir(out)}

    def versions(self, folder: str) -> int:
        done = subprocess.run([*PYTHON_FARM, "log", "--home", self.home, folder], capture_output=True, text=True)
        return len(re.findall(r"(?m) version \d+ ticket ", done.stdout))

    # What is tried.

    def counts(self) -> str:
        """Alternately, CACHED, and at once."""
        for number in (1, 2, 3, 4):
            self.build(1 + number % 2, COUNT, "--build-arg", f"LINE=turn{number}", "-t", "app")
        again = self.build(1, COUNT, "--build-arg", "LINE=turn4", "-t", "app")
        expect(re.search(r"(?m)^#\d+ CACHED$", again.partition("RUN")[2]) and "there is no new version" in again, again[-1500:])
        expect(self.versions("locked:lines") == 4, "a CACHED build made a version")
        self.build(2, COUNT, "--build-arg", "LINE=turn4", "--no-cache")
        for turn in "ab":
            both = [self.begin(node, COUNT, "--build-arg", f"LINE={turn}{node}") for node in (1, 2)]
            for process in both:
                said = process.communicate(timeout=PATIENCE)[0]
                expect(process.returncode == 0, said[-1500:])
        lines = self.got("locked:lines")["f"].split()
        front = ["turn1", "turn2", "turn3", "turn4", "turn4"]
        expect(lines[:5] == front and sorted(lines[5:]) == ["a1", "a2", "b1", "b2"], f"it counted {lines}")
        return "10 builds on two daemons, 9 versions, each with one line more, and a CACHED one without"

    def mended(self) -> str:
        """The steps that ended before a build failed are run again: what they wrote isn't there."""
        bad = f"FROM farm-trial\nRUN {MOUNT},id=mend echo it > /c/fetched\nRUN {MOUNT},id=mend [ -e /c/fetched ] && {{}}\n"
        said = self.build(1, bad.format("false"), status=1)
        expect("the build failed" in said and self.versions("locked:mend") == 0, said[-1500:])
        self.build(1, bad.format("cat /c/fetched"))
        expect(self.got("locked:mend") == {"fetched": "it\n"}, "what the mended build left isn't there")
        return "a failed build mended"

    def pruned(self) -> str:
        """BuildKit drops a mount between two steps, and the second one has another directory. And the daemon is one node's."""
        text = f"FROM farm-trial\nRUN {MOUNT},id=prune touch /c/begun\nRUN sleep 6\nRUN {MOUNT},id=prune ls /c\n"
        build, end = self.begin(1, text), time.monotonic() + PATIENCE
        while not os.path.exists(f"{self.known('locked:prune')['path']}/begun"):
            expect(time.monotonic() < end and build.poll() is None, "the step doesn't begin")
            time.sleep(0.1)
        time.sleep(1.0)
        self.daemons[0].call("builder", "prune", "--force", "--all")
        said = build.communicate(timeout=PATIENCE)[0]
        expect("BuildKit dropped the cache mount of locked:prune" in said, said[-1500:])
        expect(build.returncode == 70 and self.versions("locked:prune") == 0, f"{build.returncode}, of a mount that was pruned")
        lines = self.got("locked:lines")["f"]
        self.build(1, COUNT, "--build-arg", "LINE=pruned")  # no build had that mount meanwhile
        expect(self.got("locked:lines")["f"] == f"{lines}pruned\n", "a folder whose mount was pruned isn't filled anew")
        other = self.begin(2, COUNT, host=self.daemons[0].host)
        said = other.communicate(timeout=PATIENCE)[0]
        expect(other.returncode == 70 and "another node of this machine builds by the daemon" in said, said[-1500:])
        return "a pruned mount, and another node's daemon, refused"

    def shared(self) -> str:
        """Two builds of one node have one directory at once."""
        waits = "for i in 1 2 3 4 5 6 7 8 9 10 11 12 13 14 15; do [ -e /c/{} ] && exit 0; sleep 1; done; exit 9"
        text = "FROM farm-trial\nRUN --mount=type=cache,id=both,target=/c touch /c/{}; " + waits + "\n"
        both = [self.begin(1, text.format(own, other)) for own, other in (("x", "y"), ("y", "x"))]
        for process in both:
            said = process.communicate(timeout=PATIENCE)[0]
            expect(process.returncode == 0, said[-1500:])
        expect(sorted(self.got("shared:both")) == ["x", "y"], "what both wrote isn't there")
        return "two builds in one SHARED folder"

    def zombie(self) -> str:
        """A step outlives its daemon, and writes while the next build has the folder."""
        mount = f"FROM farm-trial\nRUN {MOUNT},id=zombie "
        self.build(1, f"{mount} echo first > /c/a\n")
        self.orphan(f"{mount} {ZOMBIE}\n")
        self.build(1, f"{mount} {NEXT}\n")
        found = self.got("locked:zombie")
        expect(sorted(found) == ["a", "seen"], f"the next version holds {found}, of a step that outlived its daemon")
        return "a step that outlived its daemon wrote into no version"

    def orphan(self, text: str) -> str:
        """Kills the daemon once a step of a build writes. The directory that the step goes on to have."""
        build, end, path = self.begin(1, text), time.monotonic() + PATIENCE, "/nowhere"
        while not os.path.exists(f"{path}/begun"):
            expect(time.monotonic() < end and build.poll() is None, "the step doesn't begin")
            time.sleep(0.1)
            path = str(self.known("locked:zombie")["path"])
        self.daemons[0].kill()
        said = build.communicate(timeout=PATIENCE)[0]
        expect(build.returncode != 0, f"a build ended well whose daemon was killed: {said[-1500:]}")
        return path

    def ended(self) -> str:
        """A step that outlived its daemon is ended with its build, and what it wrote goes with the next lease."""
        mount = f"FROM farm-trial\nRUN {MOUNT},id=zombie "
        path = self.orphan(f"{mount} touch /c/begun; sleep 600\n")
        expect(not list(users_of([path])), f"a step still has {path}, of a build that is over")
        self.build(1, f"{mount} true\n")
        expect(not os.path.exists(path), f"{path} is still there, of a lease that didn't end well")
        return "and was ended, and its directory dropped"

    def known(self, slot: str) -> dict[str, object]:
        """What node 1 knows of a slot's mount."""
        for path in Path(self.home, "node1", "docker").glob("*/mounts/*.json"):
            told: dict[str, object] = json.loads(path.read_text())
            if told["slot"] == slot:
                return told
        return {"path": "/nowhere"}


def found(tried: Callable[[], str]) -> str:
    """What the plant makes wrong."""
    try:
        said = tried()
    except Wrong as fault:
        return f"found: {str(fault).splitlines()[0][:120]}"
    raise Wrong(f"kept ids aren't found: {said}")


def main() -> int:
    words = argparse.ArgumentParser()
    words.add_argument("--keep-ids", action="store_true", help="plants the fault that ids are kept")
    words.add_argument("--containerd", action="store_true", help="the daemons' images lie in containerd's storage, as Docker 24 and newer can have it")
    args = words.parse_args()
    keeps_ids: bool = args.keep_ids
    os.environ["PATH"] = f"{os.path.dirname(cli())}:{os.environ['PATH']}"
    room = os.path.realpath(tempfile.mkdtemp(prefix="farm-docker-"))
    trial = Trial(room, keeps_ids, args.containerd)
    try:
        with trial.standing():
            with trial.farm(trial.farm_words):
                if keeps_ids:
                    said = [found(trial.zombie), found(trial.mended)]
                else:
                    said = [trial.counts(), trial.mended(), trial.pruned(), trial.shared(), trial.zombie()]
            if not keeps_ids:
                with trial.farm(list(PYTHON_FARM)):
                    said.append(trial.ended())
        print("; ".join(said))
    except Wrong as fault:
        print(f"wrong: {fault}")
        return 1
    finally:
        shutil.rmtree(room, ignore_errors=True)
    return 0


if __name__ == "__main__":
    sys.exit(main())
