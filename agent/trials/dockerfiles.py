#!/usr/bin/env python3
"""Random Dockerfiles: the targets of the cache mounts that Docker's own build makes, by a daemon of the trial's own, and those that the reader
finds. A mount that only BuildKit finds would run outside of any lease. By hand.

usage: agent/trials/dockerfiles.py [--seed N] [--count N]
"""
from __future__ import annotations

import argparse
import os
import posixpath
import random
import shutil
import sys
import tempfile
from collections import Counter
from pathlib import Path

sys.dont_write_bytecode = True
sys.path.insert(0, str(Path(__file__).resolve().parents[2]))

from agent.build.docker import cli  # noqa: E402
from agent.build.dockerfile import Base, Reader, plan  # noqa: E402
from agent.build.dockertext import BadDockerfile  # noqa: E402
from agent.build.engine import Engine  # noqa: E402
from agent.trials.docker import BASE, Daemon  # noqa: E402

GAPS = (" ", " ", "  ", "\t", " \\\n ", " \\\n# c\n ", " \\ \n\n  ", " \\\n  # RUN x\n")
BODIES = (
    "true", "true && true", ":", 'echo "# no"', "echo 'a \\\\ b'", '["/bin/true"]', "true # --mount=typ=cache,target=/no",
    "echo \\\n --mount=nothing", "true \\\n && true",
)
IDS = ("a", "$V", "${W}", "${U:-d}", "x\\y", '"q"', "'s'")


class Writer:
    """Writes Dockerfiles, each cache mount with a target of its own."""

    def __init__(self, seed: int) -> None:
        self.random, self.seed, self.mounts = random.Random(seed), seed, 0

    def maybe(self, chance: float) -> bool:
        return self.random.random() < chance

    def mount(self) -> str:
        self.mounts += 1
        target, one = f"/m{self.seed}x{self.mounts}", self.random.choice
        parts = ["type=cache", one((f"target={target}", f"dst={target}", f"destination={target}/", f"target={target}/..{target}"))]
        parts += [f"sharing={one(('shared', 'locked', 'private'))}"] if self.maybe(0.5) else []
        parts += [one(("ro", "readonly", "rw", "readonly=false"))] if self.maybe(0.3) else []
        parts += [f"id={one(IDS)}{self.mounts}"] if self.maybe(0.4) else []
        self.random.shuffle(parts)
        word = ",".join(parts)
        word = word.replace("type", "TYPE") if self.maybe(0.1) else word
        word = f"'{word}'" if self.maybe(0.1) else f'"{word}"' if self.maybe(0.1) else word
        at = self.random.randrange(len(word))
        return f"--mount={word[:at]}\\\n{word[at:]}" if self.maybe(0.1) else f"--mount={word}"

    def run(self) -> str:
        words = [self.mount() for _ in range(self.random.choice((0, 0, 1, 1, 2)))]
        words += ["--mount=type=tmpfs,target=/t"] if self.maybe(0.15) else []
        self.random.shuffle(words)
        head = self.random.choice(("RUN", "run", "Run", " RUN", "\tRUN"))
        text = head + "".join(self.random.choice(GAPS) + word for word in [*words, self.random.choice(BODIES)]) + "\n"
        return text.replace("\n", "\r\n") if self.maybe(0.05) else text

    def instruction(self, names: list[str]) -> str:
        one = self.random.choice
        others = ["ENV V=v\n", "ENV V=v W=w\n", "ENV W w\n", f"ARG {one(('V=a', 'W=$V', 'W=w', 'V'))}\n", "# RUN x\n", "\n", "WORKDIR /w\n"]
        others += [f"COPY --from={one(names)} /bin/busybox /bb\n"] if names else []
        return self.run() if self.maybe(0.6) else one(others)

    def text(self) -> str:
        text = self.random.choice(("", "", "", "# escape=\\\n", "\ufeff", "# comment\n\n"))
        has_arg = self.maybe(0.3)
        text += "ARG G=farm-trial\n" if has_arg else ""
        names: list[str] = []
        for number in range(self.random.choice((1, 1, 2, 3, 4))):
            base = "$G" if has_arg and self.maybe(0.3) else self.random.choice(("farm-trial", "farm-trial", *names[-2:]))
            name = f"{self.random.choice('abcd')}{number}" if self.maybe(0.6) else ""
            text += f"{self.random.choice(('FROM', 'from'))} {base}{self.random.choice((' AS ', ' as ')) if name else ''}{name}\n"
            names += [name] if name else []
            text += "".join(self.instruction(names) for _ in range(self.random.choice((1, 2, 3))))
        return text


def mounted(engine: Engine) -> dict[str, str]:
    """The cache mounts that a daemon keeps: of each record the target of the step that made it."""
    told = engine.ask("/system/df")["BuildCache"]
    return {each["ID"]: posixpath.normpath(each["Description"].split(" ")[2]) for each in told if each["Type"] == "exec.cachemount"}


def tried(daemon: Daemon, context: str, text: str) -> tuple[str, str]:
    """What came of one, and what is to be told of it."""
    try:
        own = {mount.target for mount in plan(text, {}, None, lambda name: Base({"PATH": "/bin"}), reader=Reader(True)).mounts}
    except BadDockerfile:
        return "refused", ""
    Path(context, "Dockerfile").write_text(text, newline="")
    engine = Engine(daemon.host)
    before = mounted(engine)
    done = daemon.call("build", "-q", "--network", "none", context)
    theirs = {target for record, target in mounted(engine).items() if record not in before}
    told = f"{text!r}: BuildKit mounts {sorted(theirs)}, and {sorted(own)} were found"
    if not theirs <= own:
        return "missed", told
    if done.returncode:
        return "failed", ""
    return ("same", "") if theirs == own else ("more", told)


def main() -> int:
    words = argparse.ArgumentParser()
    words.add_argument("--seed", type=int, default=1)
    words.add_argument("--count", type=int, default=200)
    asked = words.parse_args()
    os.environ["PATH"] = f"{os.path.dirname(cli())}:{os.environ['PATH']}"
    room = tempfile.mkdtemp(prefix="farm-docker-")
    daemon, writer, counts = Daemon(f"{room}/d", False), Writer(asked.seed), Counter[str]()
    try:
        os.makedirs(context := f"{room}/context")
        shutil.copy(shutil.which("busybox") or "", f"{context}/busybox")
        Path(context, "Dockerfile").write_text(BASE)
        daemon.start()
        daemon.call("build", "--network", "none", "-t", "farm-trial", context)
        for _ in range(asked.count):
            how, told = tried(daemon, context, writer.text())
            counts[how] += 1
            if told:
                print(f"{how}: {told}", flush=True)
    finally:
        daemon.stop()
        shutil.rmtree(room, ignore_errors=True)
    print(", ".join(f"{count} {how}" for how, count in sorted(counts.items())))
    return 1 if counts["missed"] or counts["more"] else 0


if __name__ == "__main__":
    sys.exit(main())
