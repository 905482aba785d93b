"""What commands ask a node, and what it tells them.

Each is made by keywords. They are named tuples, since a command that asks would start a third slower over dataclasses.

Owes the filters nothing: who may enter the farm's home may ask all of it.
"""
from __future__ import annotations

from typing import NamedTuple

# What of a caller's environment a build gets.
BUILD_ENV = ("http_proxy", "https_proxy", "no_proxy", "HTTP_PROXY", "HTTPS_PROXY", "NO_PROXY")


# Asked of a node.


class RunRequest(NamedTuple):
    """Runs a command under leases, with the streams that come beside the request."""

    command: tuple[str, ...]
    folders: tuple[str, ...]  # as `--folder` spells them
    cwd: str
    env: dict[str, str]
    umask: int
    wait: float | None = None  # seconds for the lease
    must_commit: bool = False
    stops_when_lost: bool = False
    on_conflict: str = "newer"
    tells_conflicts: bool = False
    is_warm: bool = False  # a new PRIVATE folder begins as the last version of any
    who: str = ""  # for whom it runs, as the history tells it


class BuildOptions(NamedTuple):
    """What a build leaves to its builder, as `docker build` spells it."""

    network: str | None = None
    progress: str | None = None
    platform: str | None = None
    quiet: bool = False
    layers: bool = False  # instructions are cached, by buildah
    no_cache: bool = False
    pull: bool = False
    secrets: tuple[str, ...] = ()
    ssh: tuple[str, ...] = ()
    cache_from: tuple[str, ...] = ()
    contexts: tuple[str, ...] = ()  # NAME=VALUE
    logins: str | None = None  # the caller's, as in Docker's config.json


class BuildRequest(NamedTuple):
    """Builds a Dockerfile under leases."""

    context: str
    cwd: str
    build_args: dict[str, str]
    env: dict[str, str]
    file: str | None = None
    tags: tuple[str, ...] = ()
    push: bool = False
    builder: str = "buildah"
    daemon: str = ""  # the address of Docker's
    shares_daemon: bool = False  # with other nodes
    options: BuildOptions = BuildOptions()
    target: str | None = None
    format: str | None = None
    wait: float | None = None
    must_commit: bool = False
    stops_when_lost: bool = False
    shared_as: tuple[str, ...] = ()  # `MODE`, or `ID=MODE`: what SHARED mounts are treated as
    keep_failed: bool = False
    tag_fenced: bool = False
    on_conflict: str = "newer"
    tells_conflicts: bool = False
    is_warm: bool = False  # a new PRIVATE folder begins as the last version of any
    who: str = ""  # for whom it runs, as the history tells it


class ForgetRequest(NamedTuple):
    """Forgets what a node keeps of its own, but for the digests that are needed and what is younger than the grace (seconds)."""

    needed: tuple[str, ...]
    grace: float


# Asked of a node or the coordinator.


class NeededRequest(NamedTuple):
    """Asks which contents are needed, with the last `keep` versions of each folder."""

    keep: int


class StoreRequest(NamedTuple):
    """Asks where contents lie."""


# Told.


class NodeWasRetired(NamedTuple):
    why: str


class Built(NamedTuple):
    image: str


class Forgotten(NamedTuple):
    contents: int


class Digests(NamedTuple):
    digests: tuple[str, ...]


class StorePlace(NamedTuple):
    """Where contents lie: the Redis of a broker, or of several, parted by blanks; or the folder or bucket named; neither: the home's own folder."""

    broker: str | None
    contents: str | None


NodeRequest = RunRequest | BuildRequest | ForgetRequest | NeededRequest | StoreRequest
NodeTold = NodeWasRetired | Built | Forgotten | Digests | StorePlace
