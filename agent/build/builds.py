"""A Dockerfile's build under one lease of all folders that its cache mounts name.

Owes the filter what a run owes it (`runs`), and that nothing is leased, and nothing runs, where the Dockerfile is refused.
"""
from __future__ import annotations

import contextlib
import glob
import os
import tempfile
import threading
from dataclasses import replace
from typing import Callable

from agent.build import dockerfile
from agent.build.buildah import Buildah
from agent.build.builder import Builder, CacheMount, Image, check_tag
from agent.build.docker import Docker
from agent.build.dockertext import BadDockerfile
from agent.faults import BAD_DOCKERFILE, FENCED_BUILD, LOST, FarmFault, UsageFault
from agent.filters.node import NodeAgent
from agent.folders.shared import Tenure
from agent.runs.caller import Caller, Patience
from agent.runs.progress import Progress
from agent.runs.run import Job, Placed, Run
from agent.service.requests import BuildRequest, Built
from agent.store.lasting import put_file
from agent.words import Want, short_name, who_of

IMAGE = "docker-image://"

OF_SHARED = "One node at a time has a shared folder: --shared-as merged, locked or private treats such mounts otherwise"


class Refused(FarmFault):
    """The Dockerfile can't be built under leases."""

    status = BAD_DOCKERFILE


def dockerfile_of(request: BuildRequest) -> str:
    """The path of the Dockerfile that is to be built."""
    if not os.path.isdir(request.context):
        raise Refused(f"{request.context} is no folder of this machine, as a build's context has to be")
    names = [f"{request.context}/Containerfile", f"{request.context}/Dockerfile"]
    if request.file:
        names = [os.path.join(request.cwd, request.file), os.path.join(request.context, request.file)]
    found = next((name for name in names if os.path.isfile(name)), None)
    if found is None:
        raise Refused(f"there is no {names[-1]}")
    if found.endswith(".in"):
        raise Refused(f"{found}: the builder would run it through cpp")
    return found


class Builds:
    """The builds of a node. One lock has the builders, and how many builds are under way."""

    def __init__(self, agent: NodeAgent, builder: Builder | None = None, isolation: str | None = None) -> None:
        self.agent = agent
        self.builder: Builder = builder or Buildah(f"{agent.home}/containers", agent.places.rooms.room, isolation)
        self.home = f"{agent.home}/builds"
        self.lock = threading.Lock()
        self.daemons = {host: self._docker(host) for host in known_daemons(agent.home)}
        self.under_way = 0
        self.dirty = True  # a build may have been killed before this agent began

    def _docker(self, host: str) -> Docker:
        home = f"{self.agent.home}/docker/{short_name(host, 'daemon')}"
        os.makedirs(home, exist_ok=True)
        put_file(f"{home}/host", host.encode())
        return Docker(home, host, self.agent.places.rooms.room)

    def builder_of(self, asked: BuildRequest) -> Builder:
        if asked.builder == self.builder.name:
            return self.builder
        with self.lock:
            if asked.daemon not in self.daemons:
                self.daemons[asked.daemon] = self._docker(asked.daemon)
            self.daemons[asked.daemon].shares_daemon = asked.shares_daemon
            return self.daemons[asked.daemon]

    def _builders(self) -> list[Builder]:
        return [self.builder, *self.daemons.values()]

    def enter(self) -> str:
        """A room for one more build."""
        with self.lock:
            self._sweep()
            self.under_way += 1
            os.makedirs(self.home, exist_ok=True)
            return tempfile.mkdtemp(prefix="b", dir=self.home)

    def sweep(self) -> None:
        """Removes what killed builds left, unless one is under way."""
        with self.lock:
            self._sweep()

    def _sweep(self) -> None:
        if self.under_way == 0 and self.dirty:
            rooms = [entry.path for entry in os.scandir(self.home)] if os.path.isdir(self.home) else []
            for builder in self._builders():
                builder.sweep(rooms)
            if os.path.isdir(self.home):
                self.agent.places.trash.take(self.home)
                self.agent.places.forget_within(self.home)
            self.dirty = False

    def leave(self, room: str, ended_well: bool) -> list[str]:
        """What is to be told of images that lost their names. They go when no build is under way that may begin with them."""
        with self.lock:
            self.under_way -= 1
            self.dirty = self.dirty or not ended_well
            said = [] if self.under_way or self.dirty else [text for builder in self._builders() for text in builder.drop_unnamed()]
        self.agent.places.trash.take(room)
        return said


def known_daemons(home: str) -> list[str]:
    """The Docker daemons by which a node has built."""
    found = []
    for path in glob.glob(f"{glob.escape(home)}/docker/*/host"):
        with open(path) as file:
            found.append(file.read())
    return found


class Build:
    """A build for a caller."""

    def __init__(self, builds: Builds, asked: BuildRequest, caller: Caller) -> None:
        for tag in asked.tags:
            check_tag(tag)
        if asked.push and not asked.tags:
            raise UsageFault("--push wants the name to push to: -t REGISTRY/NAME")
        self.builds, self.asked, self.caller = builds, asked, caller
        self.builder = builds.builder_of(asked)
        self.held: dict[str, CacheMount] = {}  # of each folder
        self.own: list[CacheMount] = []  # those of this build's lease: a SHARED folder's is its tenure's

    def run(self) -> int:
        path = dockerfile_of(self.asked)
        plan = self._plan(path)
        room = self.builds.enter()
        status = -1
        try:
            status = self._run(path, plan, room)
            return status
        finally:
            for text in self.builds.leave(room, status in (0, LOST, FENCED_BUILD)):
                self.caller.say(text)

    def _plan(self, path: str) -> dockerfile.Plan:
        """What the Dockerfile wants. Images that it begins with are fetched now: nobody waits for that under a lease."""
        asked, images = self.asked, dict(each.partition("=")[::2] for each in self.asked.options.contexts)

        def base_of(name: str) -> dockerfile.Base:
            named = images.get(name)
            if named is not None and not named.startswith(IMAGE):
                return dockerfile.Base({})
            return self.builder.base_of((named or name).removeprefix(IMAGE), asked.options, Patience(self.caller, None).check)

        try:
            with open(path, encoding="utf-8", newline="") as file:
                text = file.read()
            reader = self.builder.check(text, asked.build_args, asked.options)
            if warning := self.builder.warning():
                self.caller.say(warning)
            return dockerfile.plan(text, asked.build_args, asked.target, base_of, asked.shared_as, reader)
        except UnicodeDecodeError:
            raise Refused(f"{path} isn't UTF-8") from None
        except BadDockerfile as fault:
            raise Refused(str(fault)) from None

    def _image(self, path: str, plan: dockerfile.Plan, room: str) -> Image:
        asked, ignored = self.asked, f"{path}.dockerignore"
        return Image(
            context=asked.context, dockerfile=f"{room}/Dockerfile", room=room, build_args=asked.build_args, target=asked.target and plan.target,
            format=asked.format, ignore_file=ignored if os.path.exists(ignored) else None, env=asked.env, options=asked.options,
        )

    def _run(self, path: str, plan: dockerfile.Plan, room: str) -> int:
        asked, is_docker = self.asked, self.builder.name == "docker"
        image, folders = self._image(path, plan, room), plan.folders()
        if is_docker and any(folder.startswith("merged:") for folder in folders):
            raise Refused("merged folders are no directories of BuildKit's: --shared-as shared, locked or private goes with --builder docker")
        for folder, mounts in folders.items():
            self.caller.say(f"{folder} is wanted in line {', '.join(str(mount.line) for mount in mounts)}")

        def filled(want: Want, place: str, is_new: bool) -> None:
            mount = folders[want.folder][0]
            if is_new and not os.listdir(place):  # the first mount says whose a new folder is
                os.chown(place, mount.uid, mount.gid)
                os.chmod(place, mount.mode)

        def left(paths: dict[str, str]) -> None:
            self.builder.still([replace(self.held[folder], path=paths[folder]) for folder in folders if self._is_own(folder)], self._check())

        job = Job(
            command=[], cwd=asked.cwd, env={}, wait=asked.wait, must_commit=asked.must_commit, stops_when_lost=asked.stops_when_lost,
            keeps_failed=asked.keep_failed,
            # Of a SHARED folder the mount alone says whether it may be written: what is leased is the tenure.
            wants=[Want(folder, "", folder.startswith("shared:") or any(m.writable for m in mounts)) for folder, mounts in folders.items()],
            place=lambda slots, tenures: self._placed(plan, image, slots, tenures), home=self.builder if is_docker else None,
            skips_unchanged=is_docker, fenced_status=FENCED_BUILD, lost_status=LOST, of_shared=OF_SHARED, filled=filled, left=left,
            on_conflict=asked.on_conflict, tells_conflicts=asked.tells_conflicts, is_warm=asked.is_warm, who=who_of(asked.who),
            progress=Progress() if is_docker else None,
        )
        return self._settled(job, image)

    def _check(self) -> Callable[[], None]:
        return Patience(self.caller, None).check

    def _is_own(self, folder: str) -> bool:
        """Whether a folder's mount is of this build, and not of an open folder's tenure."""
        return self.held[folder] in self.own

    def _placed(self, plan: dockerfile.Plan, image: Image, slots: dict[str, str], tenures: dict[str, Tenure]) -> Placed:
        """Writes the Dockerfile with the mounts of the lease, under the lease."""
        self.builder.leave(self.own, False)  # of a life before this one, in which nothing ran
        self.held = {folder: tenure.mount for folder, tenure in tenures.items() if tenure.mount}
        wanted = {folder: slots.get(folder, folder) for folder in plan.folders() if folder not in self.held}
        self.own = self.builder.enter(image.room, wanted.values(), self._check())
        self.held |= dict(zip(wanted, self.own))
        with open(image.dockerfile, "w", encoding="utf-8", newline="") as file:
            first = self.builder.first_words(image.options)
            file.write(plan.text(lambda mount: self.builder.word(mount, self.held[mount.folder]), first))
        command, env = self.builder.command(image)
        return Placed(command, env, {folder: mount.path for folder, mount in self.held.items()})

    def _settled(self, job: Job, image: Image) -> int:
        """Runs the build under its lease. The status, once the image is tagged or it is told why not."""
        run = Run(self.builds.agent, job, self.caller)
        try:
            status = run.run()
        except (FarmFault, OSError):
            with contextlib.suppress(FileNotFoundError):  # else it wasn't built
                self.caller.say(f"image {self.builder.built(image)} is built, and isn't tagged")
            raise
        finally:
            self.builder.leave(self.own, run.counts and run.ended == 0)
            if self.builder is self.builds.builder:
                for path in run.paths.values():
                    self.builds.agent.places.forget(path)
        if run.how == "failed" or run.stopped:
            self.caller.say("the build failed" if run.how == "failed" else "the build was stopped")
        elif status in (0, LOST, FENCED_BUILD):
            self._name(image, status)
        return status

    def _name(self, image: Image, status: int) -> None:
        """Tags the image, and pushes it, now that what the build left counts."""
        name, tags = self.builder.built(image), self.asked.tags
        if tags and (status == 0 or self.asked.tag_fenced):
            for tag in tags:
                self.builder.tag(name, tag, keeps_old=self.asked.options.layers)
            self.caller.say(f"image {name} is tagged {', '.join(tags)}")
            for tag in tags if self.asked.push else ():
                self.builder.push(image, tag, self._check())
                self.caller.say(f"image {name} is pushed to {tag}")
        elif status:
            self.caller.say(f"image {name} is built, and isn't tagged: what it left in its cache folders doesn't count")
        else:
            self.caller.say(f"image {name}")
        if status == 0:
            self.caller.tell(Built(image=name))
