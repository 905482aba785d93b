#!/usr/bin/env python3
"""Chaos whose builds are those of Docker's BuildKit: three nodes, each with a daemon of its own, and with the rest of what `chaos.py` does
daemons are killed, their steps left to go on, and what they keep is pruned. By hand, for minutes or hours.

The last line is `N right, M wrong`, and the status is 1 where something was wrong.

usage: agent/trials/dockerkills.py [--seconds N] [--seed N] [--over pipes|redis] [--containerd] [--verbose]
"""
from __future__ import annotations

import argparse
import os
import shutil
import sys
from pathlib import Path

sys.dont_write_bytecode = True
sys.path.insert(0, str(Path(__file__).resolve().parents[2]))

from agent.build.docker import cli  # noqa: E402
from agent.trials.chaos import NODES, SPOILT, WORK, Chaos, Given, judged  # noqa: E402
from agent.trials.docker import BASE, Daemon, Wrong  # noqa: E402
from agent.trials.verdict import Told, Verdict  # noqa: E402

BUILDS = 0.6  # the share of builds
LOCKED = "RUN --mount=type=cache,id=a,sharing=locked,target=/a"
SHARED = "RUN --mount=type=cache,id=s,target=/s"


class DockerChaos(Chaos):
    def __init__(self, given: Given, room: str, by_containerd: bool) -> None:
        super().__init__(given, room)
        self.deck += ("daemon", "daemon", "prune")
        self.daemons = {node: Daemon(f"{room}/d{node}", by_containerd) for node in range(1, NODES + 1)}

    def env(self, node: int) -> dict[str, str]:
        return os.environ | {"DOCKER_HOST": self.daemons[node].host}

    def build(self, name: str, node: int, token: str, nap: float, fails: bool) -> Told:
        """Two steps with the folder, of which only the second ends what the first began; or one with a SHARED folder."""
        context = f"{self.room}/work/{name}/context"
        os.makedirs(context, exist_ok=True)
        shared = self.dice.random() < 0.2
        ends = "\nexit 3" if fails else ""
        first, _, rest = WORK.format(path="/a", token=token, nap=nap, size=self.dice.randrange(1, 200_000)).partition("\nhead ")
        steps = [f"echo {token} >> /s/lineage; sleep {nap}{ends}"] if shared else [first, f"head {rest}{ends}"]
        lines = [f"COPY step{number} /\n{SHARED if shared else LOCKED} sh -e /step{number}\n" for number in range(len(steps))]
        for number, step in enumerate(steps):
            Path(context, f"step{number}").write_text(step)
        Path(context, "Dockerfile").write_text("FROM farm-trial\n" + "".join(lines))
        words = ["--builder", "docker", "--network", "none", "--progress", "plain", context]
        return self._client(name, node, "build", words, token, ["shared:s" if shared else "locked:a"], None)

    def disturb_by(self, what: str) -> None:
        node = self.dice.randrange(1, NODES + 1)
        if what == "daemon":
            self.daemons[node].kill()
            self.count("daemons killed")
        elif what == "prune":
            self.daemons[node].call("builder", "prune", "--force", "--all")
            self.count("prunes")
        else:
            super().disturb_by(what)

    def trial(self) -> Verdict:
        context = f"{self.room}/base"
        os.makedirs(context)
        shutil.copy(shutil.which("busybox") or "", f"{context}/busybox")
        Path(context, "Dockerfile").write_text(BASE)
        try:
            for daemon in self.daemons.values():
                daemon.start()
                done = daemon.call("build", "--network", "none", "-t", "farm-trial", context)
                if done.returncode:
                    raise Wrong(done.stderr[-600:])
            verdict = super().trial()
            for told in self.told:
                if f"exit code: {SPOILT}" in told.said:
                    verdict.blame(f"{told.token}, a build, found a folder as no step leaves it")
            return verdict
        finally:
            for daemon in self.daemons.values():
                daemon.stop()


def main() -> int:
    made = argparse.ArgumentParser(description=__doc__, formatter_class=argparse.RawDescriptionHelpFormatter)
    made.add_argument("--seconds", type=float, default=60, help="how long the farm is disturbed (%(default)s)")
    made.add_argument("--seed", type=int, default=1)
    made.add_argument("--over", choices=["pipes", "redis"], default="pipes")
    made.add_argument("--containerd", action="store_true", help="the daemons' images lie in containerd's storage")
    made.add_argument("--verbose", action="store_true", help="keeps the folder, and says where it is")
    args = made.parse_args()
    os.environ["PATH"] = f"{os.path.dirname(cli())}:{os.environ['PATH']}"
    given = Given(args.seconds, args.seed, args.over, None, BUILDS, args.verbose)
    return judged(given, lambda given, room: DockerChaos(given, room, args.containerd))


if __name__ == "__main__":
    sys.exit(main())
