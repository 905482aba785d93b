#!/usr/bin/env python3
"""Times of one Dockerfile by Docker alone and by the farm's builders, in one run: Debian from debootstrap, C files by gcc through ccache, and
400 MB in 20,000 files in its cache mount. By hand: it takes minutes and some gigabytes.

Each row has the seconds, and how many instructions were CACHED.
"""
from __future__ import annotations

import os
import re
import shutil
import subprocess
import sys
import tempfile
import time
from pathlib import Path

sys.dont_write_bytecode = True
sys.path.insert(0, str(Path(__file__).resolve().parents[2]))

from agent.build.docker import cli  # noqa: E402
from agent.tools import need  # noqa: E402
from agent.trials.docker import Trial, expect  # noqa: E402
from agent.trials.farms import PYTHON_FARM  # noqa: E402

FILES, SIZE = 20_000, 20_000  # of the cache, and the bytes of each
MOUNT = "--mount=type=cache,id=cc,sharing=locked,target=/cc"
DOCKERFILE = f"""FROM scratch
ADD root.tar /
ENV PATH=/usr/bin:/bin
COPY src /src
RUN {MOUNT} [ -e /cc/bulk ] || perl /src/bulk.pl
RUN {MOUNT} cd /src && for f in *.c; do CCACHE_DIR=/cc/ccache ccache gcc -O2 -c $f -o /tmp/$f.o || exit 1; done
ARG STEP
RUN {MOUNT} echo $STEP >> /cc/steps
"""
BULK = f"""open(my $random, '<', '/dev/urandom'); mkdir '/cc/bulk';
for my $n (0 .. {FILES - 1}) {{
  my $at = '/cc/bulk/' . ($n % 100); mkdir $at; read($random, my $data, {SIZE});
  open(my $file, '>', "$at/$n"); print $file $data; close($file);
}}
"""


class Times(Trial):
    def prepare(self) -> None:
        """What the Dockerfile adds."""
        root = f"{self.room}/root"
        words = ["--variant=minbase", "--include=gcc,libc6-dev,ccache", "bookworm", root, "http://deb.debian.org/debian"]
        subprocess.run([need("debootstrap"), *words], check=True, stdout=subprocess.DEVNULL)
        subprocess.run(["tar", "-C", root, "--exclude=./dev/*", "--exclude=./var/cache/apt/*", "-cf", f"{self.context}/root.tar", "."], check=True)
        shutil.rmtree(root)
        os.makedirs(f"{self.context}/src")
        Path(self.context, "src/bulk.pl").write_text(BULK)
        for number in range(12):
            text = "".join(f"int f{number}_{k}(int a) {{ return a * {k} + {number}; }}\n" for k in range(400))
            Path(self.context, f"src/f{number}.c").write_text(text)
        Path(self.context, "Dockerfile").write_text(DOCKERFILE)

    def row(self, name: str, words: list[str], node: int = 1) -> None:
        begun = time.perf_counter()
        env = os.environ | {"DOCKER_HOST": self.daemons[node - 1].host, "DOCKER_BUILDKIT": "1"}
        done = subprocess.run([*words, self.context], env=env, stdin=subprocess.DEVNULL, capture_output=True, text=True)
        took = time.perf_counter() - begun
        said = done.stdout + done.stderr
        expect(done.returncode == 0, said[-2000:])
        cached = len(re.findall(r"(?m)^#\d+ CACHED$|Using cache", said))
        print(f"{name:60} {took:5.1f} s, {cached} CACHED, load {os.getloadavg()[0]:.1f}", flush=True)

    def run(self) -> None:
        common = ["--network", "none", "--progress", "plain"]
        docker = ["docker", "build", *common, "-t", "alone"]
        farm = {node: [*PYTHON_FARM, "build", "--home", self.home, "--node", str(node), "--builder", "docker", *common, "-t", "app"] for node in (1, 2)}
        buildah = [*PYTHON_FARM, "build", "--home", self.home, "--node", "1", "--layers", "--network", "none", "-t", "app"]
        step = ["--build-arg", "STEP=first"]
        self.row("docker build, from nothing", [*docker, *step])
        self.row("farm, from nothing", [*farm[1], *step])
        for turn in range(3):
            self.row("docker build again", [*docker, *step])
            self.row("farm, the folder there, again", [*farm[1], *step])
        for turn in range(3):
            changed = ["--build-arg", f"STEP={turn}"]
            self.row("docker build, the last step changed", [*docker, *changed])
            self.row("farm, the folder there, the last step changed", [*farm[1], *changed])
        self.row("farm, the folder filled on another node", [*farm[2], "--build-arg", "STEP=other"], 2)
        self.row("farm, the folder there, one file changed by the other node", [*farm[1], "--build-arg", "STEP=back"])
        self.row("buildah, from nothing, the folder filled", [*buildah, *step])
        self.row("buildah, the last step changed, the folder filled", [*buildah, "--build-arg", "STEP=more"])


def main() -> int:
    os.environ["PATH"] = f"{os.path.dirname(cli())}:{os.environ['PATH']}"
    room = os.path.realpath(tempfile.mkdtemp(prefix="farm-docker-"))
    trial = Times(room, False, False)
    try:
        with trial.standing():
            trial.prepare()
            with trial.farm(list(PYTHON_FARM)):
                trial.run()
    finally:
        shutil.rmtree(room, ignore_errors=True)
    return 0


if __name__ == "__main__":
    sys.exit(main())
