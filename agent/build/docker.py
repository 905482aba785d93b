"""BuildKit behind a Docker daemon of this machine as a builder.

Of each slot this node has one cache mount in the daemon, under an id that nobody can guess, and the leased folder is filled where BuildKit
keeps that mount: nothing is copied in or out. Which directory that is a small build tells, the probe, which mounts it locked, and so waits
until no step has it.

Owes the filters that no later lease has the directory of a lease that didn't end well (`cacheids`). A step may outlive the command that
asked for it, as it does where its daemon is killed: it is over as far as folders go. Steps of one id have one sharing for ever: else
BuildKit gives it a second directory. So a SHARED folder is probed only while no step has it: when its tenure is opened, and when it is closed.
"""
from __future__ import annotations

import contextlib
import functools
import json
import os
import re
import secrets
import shutil
import socket
import subprocess
from dataclasses import replace
from typing import Callable, Iterable

from agent.build.builder import CacheMount, Image
from agent.build.cacheids import CacheIds
from agent.build.dockerfile import Base, Reader
from agent.build.dockertext import BadDockerfile
from agent.build.engine import UNIX, Engine, end_users, host_path
from agent.build.mounts import Mount
from agent.faults import FarmFault, Missing, UsageFault
from agent.runs.executions import launcher
from agent.runs.launch import ORPHANED
from agent.service.requests import BuildOptions
from agent.store.lasting import put_file
from agent.tools import need, whole, why
from agent.words import short_name

SCRIPT = (
    "for n in {numbers}; do echo $(/busybox stat -c '%d %i' /m/$n) $(/busybox grep \" /m/$n \" /proc/self/mountinfo | "
    "while read a b dev root rest; do echo $dev $root; done); done > /told"
)
REFUSED_ARGS = ("BUILDKIT_CACHE_MOUNT_NS", "BUILDKIT_SYNTAX")
SYNTAX = re.compile(r"\s*(?:#|//)\s*syntax\s*=\s*(\S+)", re.IGNORECASE)
DOCKERS_SYNTAX = re.compile(r"(?:docker\.io/)?docker/dockerfile:1(?:[.@-].*)?")
OLDEST, WITH_HEREDOCS, WITH_BUILDX = 20, 23, 23  # versions of Docker


class Docker:
    name = "docker"

    def __init__(self, home: str, host: str, room: Callable[[], contextlib.AbstractContextManager[str]], shares_daemon: bool = False) -> None:
        self.home, self.host, self.room, self.shares_daemon = home, host, room, shares_daemon
        self.engine = Engine(host)
        self.ids = CacheIds(f"{home}/mounts")
        self.claimed: dict[str, socket.socket] = {}  # of a daemon's id: what says on this machine that this node has it
        self.version = 0
        self.daemon = ""  # which one it is, and how it stores

    # Calls.

    def _words(self, *words: str) -> list[str]:
        return [cli(), *words]

    def _env(self, config: str) -> dict[str, str]:
        path = os.environ.get("PATH", os.defpath)
        return {"PATH": path, "HOME": self.home, "DOCKER_HOST": self.host, "DOCKER_BUILDKIT": "1", "DOCKER_CONFIG": config}

    def _config(self, room: str, options: BuildOptions) -> str:
        """A folder of the CLI's for one build, with its caller's logins. By its node id BuildKit knows which files of a context it was sent."""
        config = f"{room}/docker"
        os.makedirs(f"{config}/buildx", mode=0o700, exist_ok=True)
        if not os.path.exists(f"{self.home}/node"):
            os.makedirs(self.home, exist_ok=True)
            put_file(f"{self.home}/node", secrets.token_hex(32).encode())
        for name in (".buildNodeID", "buildx/.buildNodeID"):
            shutil.copyfile(f"{self.home}/node", f"{config}/{name}")
        with open(os.open(f"{config}/config.json", os.O_WRONLY | os.O_CREAT | os.O_TRUNC, 0o600), "w") as file:
            file.write(options.logins or "{}")
        return config

    def _call(self, *words: str, config: str, check: Callable[[], None] = lambda: None) -> subprocess.CompletedProcess[str]:
        """A call that ends with the agent."""
        spec = {"command": self._words(*words), "cwd": "/", "env": self._env(config), "binds": [], "parent": os.getpid(), "namespace": False}
        with launcher(spec) as (call, said):
            process = subprocess.Popen(
                call, pass_fds=said, stdin=subprocess.DEVNULL, stdout=subprocess.PIPE, stderr=subprocess.PIPE, text=True, errors="replace"
            )
        return whole(process, check, ORPHANED)

    def _done(self, what: str, *words: str, options: BuildOptions = BuildOptions(), check: Callable[[], None] = lambda: None) -> str:
        with self.room() as room:
            done = self._call(*words, config=self._config(room, options), check=check)
        if done.returncode:
            raise FarmFault(f"{what}: {why(done)}")
        return done.stdout + done.stderr

    # What is refused.

    def warning(self) -> str:
        return ""

    def check(self, text: str, build_args: dict[str, str], options: BuildOptions) -> Reader:
        if os.geteuid():
            raise FarmFault("builds need the farm to run as root")
        if not self.host.startswith(UNIX):
            raise UsageFault(f"{self.host} may be another machine's daemon, whose folders aren't here: name one of this, DOCKER_HOST=unix://..")
        self._check_daemon()
        if options.contexts and self.version < WITH_BUILDX:
            raise UsageFault("--build-context wants Docker 23.0 or newer")
        for name in REFUSED_ARGS:
            if name in build_args:
                raise BadDockerfile(0, f"the build argument {name} isn't carried out: it changes which cache mounts BuildKit finds")
        return Reader(True, syntax_of(text) or self.version >= WITH_HEREDOCS, options.platform)

    def _check_daemon(self) -> None:
        self.version, told = self.engine.version()
        if self.version < OLDEST:
            raise Missing(f"the Docker daemon at {self.host} is of version {told}: its BuildKit has no cache mounts before 20.10")
        need("busybox")
        cli()
        info = self.engine.ask("/info")
        kinds = [kind for kind in ("rootless", "userns") if any(f"name={kind}" in each for each in info.get("SecurityOptions") or [])]
        if kinds:
            raise FarmFault(f"the Docker daemon at {self.host} runs with {kinds[0]}: owners there aren't what they are in a leased folder")
        self._claim(daemon := f"{info['ID']} {info['DockerRootDir']}")  # daemons of one machine may have one id
        self.daemon = f"{daemon} {info['Driver']}"

    def _claim(self, daemon: str) -> None:
        """Says on this machine that this node has the daemon: another one would keep each folder there once more."""
        if daemon in self.claimed or self.shares_daemon:
            return
        made = socket.socket(socket.AF_UNIX)
        try:
            made.bind(f"\0farm-{short_name(daemon, 'daemon')}")
        except OSError:
            made.close()
            raise FarmFault(
                f"another node of this machine builds by the daemon at {self.host}, and each would keep its own copy of every folder there: "
                "build on that node, or name another daemon, or say --shares-daemon"
            ) from None
        self.claimed[daemon] = made

    # Images.

    def base_of(self, name: str, options: BuildOptions, check: Callable[[], None]) -> Base:
        told = None if options.pull else self.engine.config_of(name, options.platform)
        if told is None:
            platform = [f"--platform={options.platform}"] if options.platform else []
            try:
                self._done("", "pull", *platform, name, options=options, check=check)
            except FarmFault as fault:
                self.engine.version()  # else it is the daemon that is gone
                raise BadDockerfile(0, f"the image {name} isn't here and can't be pulled{fault}") from None
            told = self.engine.config_of(name) or {}
        pairs = (word.partition("=") for word in told.get("Env") or [])
        return Base({key: value for key, _, value in pairs}, told.get("OnBuild") or [], told.get("Shell"))

    def command(self, image: Image) -> tuple[list[str], dict[str, str]]:
        options = image.options
        words = self._words("build", "--iidfile", f"{image.room}/docker-image", "-f", image.dockerfile)
        words += [f"--build-arg={key}={value}" for key, value in image.build_args.items()]
        words += ["--target", image.target] if image.target else []
        for key, value in (("network", options.network), ("progress", options.progress), ("platform", options.platform)):
            words += [f"--{key}={value}"] if value else []
        words += ["--quiet"] if options.quiet else []
        words += ["--pull"] if options.pull else []
        several = (("secret", options.secrets), ("ssh", options.ssh), ("cache-from", options.cache_from), ("build-context", options.contexts))
        for key, values in several:
            words += [f"--{key}={value}" for value in values]
        if image.ignore_file:
            shutil.copyfile(image.ignore_file, f"{image.dockerfile}.dockerignore")
        return [*words, image.context], image.env | self._env(self._config(image.room, options))

    def built(self, image: Image) -> str:
        with open(f"{image.room}/docker-image") as file:
            return file.read().strip()

    def tag(self, name: str, tag: str, *, keeps_old: bool = False) -> None:
        self.engine.tag(name, tag)

    def push(self, image: Image, tag: str, check: Callable[[], None]) -> None:
        self._done(f"the image {tag} can't be pushed", "push", tag, options=image.options, check=check)

    def drop_unnamed(self) -> list[str]:
        """None: they are the daemon's, as those of any `docker build`."""
        return []

    def sweep(self, rooms: list[str]) -> None:
        with contextlib.suppress(FarmFault, OSError):
            self.engine.version()  # a daemon that doesn't answer is swept another time
            for room in rooms:
                self._drop_image(f"{room}/docker-image")
            self._drop_old(self.ids.slots())

    def _drop_image(self, path: str) -> None:
        """Removes the image that a killed build had made, unless it has a tag already."""
        with contextlib.suppress(FarmFault, OSError), open(path) as file:
            name = file.read().strip()
            if not self.engine.is_named(name):
                self._done("", "image", "rm", name)

    # Mounts.

    def enter(self, room: str, slots: Iterable[str], check: Callable[[], None]) -> list[CacheMount]:
        """After a lease that ended well no step has a mount, and it is where it was, or else `still` finds out: only new ones are probed."""
        taken = self.ids.take(list(slots), self.daemon)
        try:
            self._drop_old([mount.slot for mount in taken])
            new = [mount for mount in taken if not os.path.isdir(mount.path)]
            paths = dict(zip((mount.id for mount in new), self._probe([mount.id for mount in new], check)))
            held = [replace(mount, path=paths.get(mount.id, mount.path)) for mount in taken]
            for mount in held:
                self.ids.found(mount, self.daemon)
            return held
        except BaseException:
            for mount in taken:
                self.ids.leave(mount.slot, mount.id, False)
            raise

    def word(self, mount: Mount, held: CacheMount) -> str:
        """No uid, gid or mode: with these BuildKit makes a second directory for one id. PRIVATE is locked within a build: the lease has one
        instance. The tmpfs puts the id into the step's key, where BuildKit leaves it out; it lies in /dev, so that no image gets a stub of it."""
        sharing = "shared" if mount.sharing == "shared" else "locked"
        word = f"--mount=type=cache,id={held.id},target={mount.target},sharing={sharing}" + ("" if mount.writable else ",readonly")
        return f"{word} --mount=type=tmpfs,target=/dev/{held.id}"

    def first_words(self, options: BuildOptions) -> str:
        """What makes each step's key a new one. BuildKit's own `--no-cache` would give cache mounts new directories too."""
        return f"--mount=type=tmpfs,target=/dev/farm-{secrets.token_hex(16)} " if options.no_cache else ""

    def still(self, held: Iterable[CacheMount], check: Callable[[], None]) -> None:
        """That no step has the mounts any more, and that they are what was filled: a prune gives an id another directory."""
        mounts = list(held)
        end_users([mount.path for mount in mounts])  # of a SHARED folder: what a killed daemon left of another build
        for mount, path in zip(mounts, self._probe([mount.id for mount in mounts], check)):
            if path != mount.path:
                raise FarmFault(f"BuildKit dropped the cache mount of {mount.slot} during the build, as a prune does: its steps had another folder")

    def leave(self, held: Iterable[CacheMount], ended_well: bool) -> None:
        mounts = list(held)
        if mounts and not ended_well:
            end_users([mount.path for mount in mounts])  # a step outlives its killed daemon
        for mount in mounts:
            self.ids.leave(mount.slot, mount.id, ended_well)

    def _drop_old(self, slots: list[str]) -> None:
        """Removes what leases left that didn't end well, with what still runs there. Nothing rests on it: the next one has another id."""
        for slot, identifier, path in self.ids.old(slots):
            end_users([path])
            try:
                records = [os.path.basename(os.path.dirname(path))] if path.endswith("/diff") else self.engine.records_of(identifier)
                for record in records:
                    self._done("", "builder", "prune", "--force", "--filter", f"id={record}")
            except (FarmFault, OSError):
                continue  # another time
            if not os.path.exists(path):
                self.ids.dropped(slot, identifier)

    def _probe(self, ids: list[str], check: Callable[[], None]) -> list[str]:
        """The directory of each cache mount, which no step has just now; a new one where there is none."""
        if not ids:
            return []
        with self.room() as room:
            os.makedirs(context := f"{self.home}/probe", exist_ok=True)
            if not os.path.exists(f"{context}/busybox"):
                shutil.copy(need("busybox"), f"{context}/busybox.new")
                os.rename(f"{context}/busybox.new", f"{context}/busybox")
            mounts = ["--mount=type=bind,source=busybox,target=/busybox"]
            mounts += [f"--mount=type=cache,id={each},target=/m/{n},sharing=locked,readonly" for n, each in enumerate(ids)]
            script = SCRIPT.format(numbers=" ".join(str(n) for n in range(len(ids))))
            mounts.append(f"--mount=type=tmpfs,target=/dev/farm-{secrets.token_hex(16)}")
            run = " ".join(["RUN", *mounts, json.dumps(["/busybox", "sh", "-c", script])])
            with open(f"{room}/Dockerfile", "w") as file:
                file.write(f"FROM scratch\n{run}\n")
            words = ("build", "--progress", "plain", "--network", "none", "-o", f"type=local,dest={room}/out", "-f", f"{room}/Dockerfile", context)
            done = self._call(*words, config=self._config(room, BuildOptions()), check=check)
            if done.returncode:
                self.engine.version()  # else it is the daemon that is gone
                raise FarmFault(f"BuildKit can't mount caches: {why(done)}")
            with open(f"{room}/out/told") as told:
                rows = [line.split() for line in told]
        return [host_path(mark, root, int(device), int(number)) for device, number, mark, root in rows]


@functools.cache
def cli() -> str:
    """The first `docker` of the path that can build."""
    why_not = ""
    for folder in os.environ.get("PATH", os.defpath).split(os.pathsep):
        path = f"{folder}/docker"
        if os.access(path, os.X_OK):
            told = re.search(r"version (\d+)\.", _asked(path, "--version").stdout)
            if told and int(told[1]) < WITH_BUILDX or not _asked(path, "buildx", "version").returncode:
                return path
            why_not = f"{path} builds by buildx, which isn't installed: apt-get install docker-buildx"
    if why_not:
        raise Missing(why_not)
    return need("docker")


def _asked(*words: str) -> subprocess.CompletedProcess[str]:
    return subprocess.run(words, stdin=subprocess.DEVNULL, capture_output=True, text=True)


def syntax_of(text: str) -> bool:
    """Whether a Dockerfile names Docker's own reader of version 1. Any other one is refused: it may see other cache mounts."""
    names_one = False
    for number, line in enumerate(text.removeprefix("\ufeff").splitlines(), 1):
        found = SYNTAX.match(line)
        if found and not DOCKERS_SYNTAX.fullmatch(found[1]):
            raise BadDockerfile(number, f"syntax={found[1]}: another reader may see other cache mounts, and only docker/dockerfile:1 is let through")
        names_one = names_one or bool(found)
        if line.strip() and not re.match(r"\s*(#|//)", line):
            break
    return names_one
