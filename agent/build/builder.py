"""The programs that build images, behind one interface.

A builder owes the filters that what it runs ends with the agent, or can reach no folder of a later lease, and that the steps of a build
have of a leased folder what stands at the path that `enter` told, and nothing else.
"""
from __future__ import annotations

import re
from dataclasses import dataclass, field
from typing import Callable, Iterable, Protocol

from agent.build.dockerfile import Base, Reader
from agent.build.mounts import Mount
from agent.faults import UsageFault
from agent.service.requests import BuildOptions

# An image's name as registries spell it: a first part with a point or a port is a registry, and all else is in small letters.
PART = r"[a-z0-9]+(?:(?:[._]|__|-+)[a-z0-9]+)*"
LABEL = r"[A-Za-z0-9](?:[A-Za-z0-9-]*[A-Za-z0-9])?"
REGISTRY = rf"(?=[^/]*[.:]|localhost/){LABEL}(?:\.{LABEL})*(?::[0-9]+)?/"
TAG = r":[0-9A-Za-z_][0-9A-Za-z_.-]{0,127}"
IMAGE_NAME = re.compile(rf"(?!sha256:)(?P<registry>{REGISTRY})?{PART}(?:/{PART})*(?P<tag>{TAG})?")
LONGEST_NAME = 255  # with its registry, which is localhost/ where none is named


def check_tag(tag: str) -> None:
    """Refuses what can't be an image's tag, before anything is built for it."""
    found = IMAGE_NAME.fullmatch(tag)
    if not found or len(tag) - len(found["tag"] or "") + (0 if found["registry"] else len("localhost/")) > LONGEST_NAME:
        raise UsageFault(f"{tag!r} can't be an image's name: it is spelled [REGISTRY/]NAME[:TAG], and NAME is in small letters")


@dataclass(frozen=True, kw_only=True)
class Image:
    """What is to be built."""

    context: str
    dockerfile: str
    room: str  # a folder of the build's own
    build_args: dict[str, str] = field(default_factory=dict)
    target: str | None = None
    format: str | None = None
    ignore_file: str | None = None
    env: dict[str, str] = field(default_factory=dict)
    options: BuildOptions = BuildOptions()


@dataclass(frozen=True)
class CacheMount:
    """What a builder has for a leased slot: the id that its steps mount, and the path at which they have it."""

    slot: str
    id: str
    path: str


class Builder(Protocol):
    name: str

    def check(self, text: str, build_args: dict[str, str], options: BuildOptions) -> Reader:
        """Refuses what this builder can't carry out, before anything is fetched or leased. Who reads the Dockerfile."""

    def warning(self) -> str:
        """What the caller of a build is to be told of how its steps run."""

    def base_of(self, name: str, options: BuildOptions, check: Callable[[], None]) -> Base:
        """What an image says of builds that begin with it. It is fetched first where it isn't here, as long as `check` finds that
        somebody waits for it."""

    def enter(self, room: str, slots: Iterable[str], check: Callable[[], None]) -> list[CacheMount]:
        """The mounts of slots for a build in this room, which has their leases. What they hold doesn't count until `leave` says so."""

    def word(self, mount: Mount, held: CacheMount) -> str:
        """What the Dockerfile has in the place of a mount."""

    def first_words(self, options: BuildOptions) -> str:
        """What the words of each RUN begin with."""

    def command(self, image: Image) -> tuple[list[str], dict[str, str]]:
        """The command that builds, and its environment."""

    def still(self, held: Iterable[CacheMount], check: Callable[[], None]) -> None:
        """The build is over: takes out of its mounts what the builder put there for itself. Raises where its steps had something else."""

    def leave(self, held: Iterable[CacheMount], ended_well: bool) -> None:
        """The lease is over too. It ended well where all that the steps left in its mounts counts."""

    def built(self, image: Image) -> str:
        """The name of the image that was built."""

    def tag(self, name: str, tag: str, *, keeps_old: bool = False) -> None:
        """Gives an image a tag. Another one that had it, and has no other name, goes, unless it is kept."""

    def push(self, image: Image, tag: str, check: Callable[[], None]) -> None:
        """Sends the image of a tag to the registry that its name says, as the caller."""

    def drop_unnamed(self) -> list[str]:
        """Removes the images that lost their last name to such a tag, and nothing else. No build is under way. Which ones stay, and why."""

    def sweep(self, rooms: list[str]) -> None:
        """Removes what builds left which didn't end by themselves, those of these rooms and others. None is under way."""


def is_for(platform: str | None, system: str, arch: str, variant: str) -> bool:
    """Whether an image that is here is one for OS/ARCHITECTURE[/VARIANT]; each is, where none is wanted."""
    wanted = (platform or "").split("/")
    return all(not own or not theirs or own == theirs for own, theirs in zip(wanted, (system, arch, variant)))
