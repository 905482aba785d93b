"""Debian's buildah as a builder: without a daemon, its storage a folder of the node's, its steps isolated as `isolation` says.

Owes the filters that it ends with the agent, and that of a cache mount it uses the folder that `enter` told, in the build's own room, and
nothing else: also a mount that the Dockerfile's reader missed is of that room.
"""
from __future__ import annotations

import contextlib
import functools
import glob
import hashlib
import json
import os
import re
import secrets
import subprocess
import tempfile
import threading
import time
from dataclasses import dataclass
from datetime import datetime
from typing import Any, Callable, Iterable, Iterator

from agent.build.builder import CacheMount, Image, is_for
from agent.build.dockerfile import BUILDAH, Base, Reader
from agent.build.dockertext import BadDockerfile
from agent.build.isolation import Isolation, found
from agent.build.mounts import Mount
from agent.faults import FarmFault, UsageFault
from agent.runs.executions import launcher
from agent.runs.launch import ORPHANED
from agent.service.requests import BuildOptions
from agent.tools import need, whole, why
from agent.words import short_name

# A secret that no step asks for: it stands in the containers of a build, and in no image. It tells when the build began.
MARK = "id=farm-build-"
MARKED = re.compile(rf"{MARK}([0-9.]+),")


PROBE = "farm-probe"


@dataclass(frozen=True)
class Caches:
    """Where a buildah keeps cache mounts in its temporary folder: by their ids, as 1.28 does, or since by digests of them."""

    folder: str
    is_hashed: bool

    def place_of(self, identifier: str) -> str:
        return f"{self.folder}/{hashlib.sha256(identifier.encode()).hexdigest()[:16] if self.is_hashed else identifier}"


class Buildah:
    name = "buildah"
    LOCK_FILE = "buildah-cache-lockfile"

    def __init__(
        self, home: str, room: Callable[[], contextlib.AbstractContextManager[str]] = tempfile.TemporaryDirectory, isolation: str | None = None
    ) -> None:
        self.home, self.room = home, room
        self.wanted = isolation  # oci or chroot; else the best that there is
        self.storage = ["--root", f"{home}/root", "--runroot", f"{home}/run", "--storage-driver", "vfs"]
        self.tagging = threading.Lock()
        self.unnamed: set[str] = set()  # images that lost their last name to another one
        self.stays: list[str] = []  # what is to be told of them

    def _words(self, *words: str) -> list[str]:
        if os.geteuid():
            raise FarmFault("builds need the farm to run as root")
        return [need("buildah"), *self.storage, *words]

    def _call(self, *words: str, check: Callable[[], None] = lambda: None, temporary: str | None = None) -> subprocess.CompletedProcess[str]:
        """A call outside any lease. It ends with the agent."""
        os.makedirs(self.home, exist_ok=True)
        with self.room() as room:
            env = {"PATH": os.environ.get("PATH", os.defpath), "HOME": self.home, "TMPDIR": temporary or room}
            spec = {"command": self._words(*words), "cwd": "/", "env": env, "binds": [], "parent": os.getpid(), "namespace": False}
            with launcher(spec) as (call, said):
                process = subprocess.Popen(
                    call, pass_fds=said, stdin=subprocess.DEVNULL, stdout=subprocess.PIPE, stderr=subprocess.PIPE, text=True, errors="replace"
                )
            return whole(process, check, ORPHANED)

    @functools.cached_property
    def isolation(self) -> Isolation:
        """Tried once: a second thread that comes meanwhile tries too, and finds the same."""
        return found(self.wanted)

    @functools.cached_property
    def caches(self) -> Caches:
        """Where this buildah keeps cache mounts. But for 1.28 it is tried, once: it makes the folder of one before it finds nothing to run."""
        if "version 1.28." in self._said("--version"):
            return Caches("buildah-cache", False)
        with self.room() as room:
            os.mkdir(f"{room}/empty")
            with open(f"{room}/Dockerfile", "w") as file:
                file.write(f'FROM scratch\nRUN --mount=type=cache,id={PROBE},target=/c ["/none"]\n')
            done = self._call("bud", "--isolation", "chroot", "-f", file.name, f"{room}/empty", temporary=room)
            found = glob.glob(f"{glob.escape(room)}/buildah-cache*/*")
            for is_hashed in (False, True):
                caches = Caches(os.path.basename(os.path.dirname(found[0])) if found else "", is_hashed)
                if found == [f"{room}/{caches.place_of(PROBE)}"]:
                    return caches
        raise FarmFault(f"this buildah keeps cache mounts where no leased folder can be: {[path.removeprefix(room) for path in found]}. {why(done)}")

    def check(self, text: str, build_args: dict[str, str], options: BuildOptions) -> Reader:
        if options.network not in (None, "host") and not self.isolation.is_wall:
            raise UsageFault(f"--network {options.network} wants an OCI runtime: by chroot the steps have this machine's network. {self.isolation.why}")
        return BUILDAH

    def warning(self) -> str:
        return "" if self.isolation.is_wall or self.wanted == "chroot" else str(self.isolation)

    def base_of(self, name: str, options: BuildOptions, check: Callable[[], None]) -> Base:
        told = self._inspected(name, options, check)
        docker = (told.get("Docker") or {}).get("config") or {}
        env = ((told.get("OCIv1") or {}).get("config") or {}).get("Env") or docker.get("Env") or []
        pairs = (word.partition("=") for word in env)
        return Base({key: value for key, _, value in pairs}, docker.get("OnBuild") or [], docker.get("Shell"))

    def _inspected(self, name: str, options: BuildOptions, check: Callable[[], None]) -> dict[str, Any]:
        done = self._call("inspect", "--type", "image", name)
        if done.returncode or options.pull or not _is_for(options.platform, done.stdout):
            with self.room() as room:
                platform = [f"--platform={options.platform}"] if options.platform else []
                pulled = self._call("pull", *authfile(room, options), *platform, name, check=check)
            if pulled.returncode:
                raise BadDockerfile(0, f"the image {name} isn't here and can't be pulled: {why(pulled)}")
            done = self._call("inspect", "--type", "image", pulled.stdout.split()[-1])
        if done.returncode:
            raise BadDockerfile(0, f"the image {name} can't be read: {why(done)}")
        return dict(json.loads(done.stdout))

    def enter(self, room: str, slots: Iterable[str], check: Callable[[], None]) -> list[CacheMount]:
        """Each under an id that never comes again: by `--layers` buildah takes a step from its cache by its words alone, whatever a leased
        folder holds by now."""
        own = secrets.token_hex(16)
        os.makedirs(f"{room}/tmp/{self.caches.folder}", exist_ok=True)
        ids = [(slot, f"{short_name(slot)}-{own}") for slot in slots]
        return [CacheMount(slot, identifier, f"{room}/tmp/{self.caches.place_of(identifier)}") for slot, identifier in ids]

    def word(self, mount: Mount, held: CacheMount) -> str:
        """The builder gets no sharing: its own lock of one would wait for itself where a RUN has two mounts of a folder."""
        return f"--mount=type=cache,id={held.id},target={mount.target}" + ("" if mount.writable else ",readonly")

    def first_words(self, options: BuildOptions) -> str:
        return ""

    def still(self, held: Iterable[CacheMount], check: Callable[[], None]) -> None:
        for mount in held:
            lock = f"{mount.path}/{self.LOCK_FILE}"
            if os.path.isfile(lock) and not os.path.islink(lock) and not os.path.getsize(lock):
                os.unlink(lock)

    def leave(self, held: Iterable[CacheMount], ended_well: bool) -> None:
        """Nothing of the mounts outlives their room."""

    def command(self, image: Image) -> tuple[list[str], dict[str, str]]:
        os.makedirs(f"{image.room}/tmp", exist_ok=True)
        words = self._words("bud", "--pull=false", "--iidfile", f"{image.room}/image", "-f", image.dockerfile)
        words += self.isolation.words(image.room, image.options.network)
        words.append(f"--secret={MARK}{time.time():.3f},src={os.devnull}")
        words += [f"--build-arg={key}={value}" for key, value in image.build_args.items()]
        words += ["--target", image.target] if image.target else []
        words += ["--format", image.format] if image.format else []
        words += ["--ignorefile", image.ignore_file] if image.ignore_file else []
        words += [*authfile(image.room, image.options), *_words_of(image.options)]
        return [*words, image.context], image.env | {"PATH": os.environ.get("PATH", os.defpath), "TMPDIR": f"{image.room}/tmp", "HOME": image.room}

    def built(self, image: Image) -> str:
        return self._built_in(image.room)

    def _built_in(self, room: str) -> str:
        with open(f"{room}/image") as file:
            return file.read().strip()

    def tag(self, name: str, tag: str, *, keeps_old: bool = False) -> None:
        before: dict[str, set[str]] = {}
        with self.tagging:
            if not keeps_old:
                with self._cleaning():
                    before = self._images("--all")
            done = self._call("tag", name, tag)
            if done.returncode:
                raise FarmFault(f"the image {name} can't be tagged {tag}: {why(done)}")
            with self._cleaning():
                now = self._images("--all") if before else {}
                self.unnamed.update(
                    image for image, names in before.items() if names and names <= now[name] and image in now and not now[image]
                )

    def push(self, image: Image, tag: str, check: Callable[[], None]) -> None:
        done = self._call("push", *authfile(image.room, image.options), tag, f"docker://{tag}", check=check)
        if done.returncode:
            raise FarmFault(f"the image {tag} can't be pushed: {why(done)}")

    @contextlib.contextmanager
    def _cleaning(self) -> Iterator[None]:
        """What goes wrong meanwhile is told, and fails no build."""
        try:
            yield
        except (FarmFault, OSError, ValueError, LookupError, TypeError) as fault:
            self.stays.append(f"an image that lost its name may stay: {fault}")

    def _said(self, *words: str) -> str:
        done = self._call(*words)
        if done.returncode:
            raise FarmFault(f"buildah {words[0]}: {why(done)}")
        return done.stdout

    def _images(self, *which: str) -> dict[str, set[str]]:
        """The names of each image."""
        return {each["id"]: set(each["names"] or ()) for each in json.loads(self._said("images", "--json", "--no-trunc", *which))}

    def _layers(self, name: str) -> list[str]:
        return list(json.loads(self._said("inspect", "--type", "image", name))["OCIv1"]["rootfs"]["diff_ids"])

    def drop_unnamed(self) -> list[str]:
        for image in sorted(self.unnamed):
            with self._cleaning():
                self._drop(image)
        said, self.stays = list(dict.fromkeys(self.stays)), []
        return said

    def _drop(self, image: str) -> None:
        names = self._images("--all")
        if image in names and not names[image]:
            below = self._removed_with(image, names)
            if below:
                self.unnamed.discard(image)
                raise FarmFault(f"with {image} buildah would remove {below}, which it was built from")
            self._said("rmi", image)  # where that fails it is tried again
        self.unnamed.discard(image)

    def _removed_with(self, image: str, names: dict[str, set[str]]) -> str | None:
        """An image that buildah would remove too, and that lost its name to none, or never had one: it also removes what an image was built
        from, where that has no name and nothing else was built from it."""
        shown, layers = self._images(), self._layers(image)  # what another one was built from is shown only if it has a name
        below = [each for each in names if not names[each] and each not in shown and each not in self.unnamed]
        return next((each for each in below if (own := self._layers(each)) == layers[: len(own)]), None)

    def sweep(self, rooms: list[str]) -> None:
        for room in rooms:
            self.isolation.forget(room)
        left, untagged = self._left(), self._untagged(rooms)
        if left or untagged:
            with self._cleaning():
                stages = self._stages(left)
                self.unnamed.update(untagged, stages)
                if left:
                    self._said("rm", *(container for container, _, _ in left))
                for image in (*untagged, *stages):
                    self._drop(image)

    def _untagged(self, rooms: list[str]) -> list[str]:
        """The images that builds in these rooms had made when they were killed. One that has its tag already isn't removed."""
        found = []
        for room in rooms:
            with contextlib.suppress(OSError, ValueError):
                found.append(self._built_in(room))
        return found

    def _left(self) -> list[tuple[str, str, float]]:
        """The containers of builds of the farm: each with the image that it begins with, and when its build began."""
        found = []
        for path in glob.glob(f"{glob.escape(self.home)}/root/vfs-containers/*/userdata/buildah.json"):
            with contextlib.suppress(OSError, ValueError, LookupError, TypeError), open(path) as file:
                told = json.load(file)
                marks = [MARKED.match(secret) for secret in told["CommonBuildOpts"]["Secrets"] or ()]
                found += [(told["container-id"], f"sha256:{told['image-id']}", float(mark[1])) for mark in marks if mark]
        return found

    def _stages(self, left: list[tuple[str, str, float]]) -> list[str]:
        """Which of these images a killed build made of a stage for those after it, the newest first: they have no name, and are younger than
        the build, so that its Dockerfile doesn't name them."""
        images = json.loads(self._said("images", "--json", "--no-trunc", "--all"))
        made = {each["id"]: datetime.fromisoformat(each["createdatraw"]).timestamp() for each in images if not each["names"]}
        return sorted({image for _, image, begun in left if made.get(image, begun) > begun}, key=lambda image: -made[image])


def authfile(room: str, options: BuildOptions) -> list[str]:
    """The words that name the caller's registry logins, in a file of the build's room."""
    if not options.logins:
        return []
    path = f"{room}/logins.json"
    with open(os.open(path, os.O_WRONLY | os.O_CREAT | os.O_TRUNC, 0o600), "w") as file:
        file.write(options.logins)
    return ["--authfile", path]


def _words_of(options: BuildOptions) -> list[str]:
    """The options of a build as `buildah bud` spells them."""
    words = [f"--platform={options.platform}"] if options.platform else []
    words += ["--no-cache"] if options.no_cache else []
    words += ["--quiet"] if options.quiet else []
    words += ["--layers", "--force-rm"] if options.layers else ["--layers=false"]
    return [*words, *(f"--secret={each}" for each in options.secrets), *(f"--ssh={each}" for each in options.ssh)]


def _is_for(platform: str | None, inspected: str) -> bool:
    """Whether what `buildah inspect` told is of an image for this platform."""
    told = json.loads(inspected).get("OCIv1") or {}
    return is_for(platform, *(told.get(key) or "" for key in ("os", "architecture", "variant")))
