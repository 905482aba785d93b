"""What operators ask the coordinator, and what it tells them. Commands under leases start the faster without these.

Owes the filters nothing.
"""
from __future__ import annotations

from typing import NamedTuple

from agent.counts import Sample
from agent.service.requests import Digests, NeededRequest, StorePlace, StoreRequest


class StatusRequest(NamedTuple):
    """Asks who has what, with the last versions of each folder."""

    last: int = 0


class LogRequest(NamedTuple):
    """Asks for the versions of a folder's slots, or of one slot."""

    folder: str


class LostRequest(NamedTuple):
    """Asks for the versions that generations before this one had, and the record hasn't: of a folder or slot, or all."""

    folder: str | None


class WithdrawRequest(NamedTuple):
    ticket: int


class RetireRequest(NamedTuple):
    node: int
    is_gone: bool  # the operator vouches that all it ran is over
    is_last_too: bool = False  # also where no other node is left


class PruneRequest(NamedTuple):
    folder: str


class HistoryRequest(NamedTuple):
    """Asks what came to pass: all that is kept of a folder, of a node, since a time of day; or the newest events after a number."""

    folder: str | None = None
    node: int | None = None
    since: float | None = None
    after: int | None = None


class WhyRequest(NamedTuple):
    """Asks who has a folder, who waits for it, and how long that usually takes."""

    folder: str


class Lease(NamedTuple):
    ticket: int
    node: int
    life: int
    ask: int
    kind: str
    slots: tuple[str, ...]
    since: float | None  # time of day at which the agent saw it granted
    who: str = ""  # as its node's agent tells it


class Waiting(NamedTuple):
    kind: str
    node: int
    life: int
    ask: int
    folders: tuple[str, ...]
    left: bool  # nobody waits for it any more
    since: float | None = None  # time of day at which the agent saw it first
    who: str = ""  # as its node's agent tells it


class Snapshot(NamedTuple):
    """A command that has no lease: it runs on a version, or waits until what it left is merged."""

    node: int
    slot: str
    version: int
    since: float  # time of day
    state: str  # running, merging


class Version(NamedTuple):
    version: int
    ticket: int
    digest: str
    size: int | None = None  # bytes of its files, where that is known
    note: str = ""  # what its agent said of it
    # What the history has, of which nothing may be known:
    at: float | None = None  # time of day of its commit
    node: int = 0
    who: str = ""
    files: int | None = None
    held: float | None = None  # seconds for which its lease lived
    hits: tuple[int, ...] | None = None  # how much its ccache had, and of how much


class FolderStatus(NamedTuple):
    slot: str
    version: int
    ticket: int
    digest: str
    versions: tuple[Version, ...] = ()  # the last ones, newest first


class Status(NamedTuple):
    leases: tuple[Lease, ...]
    waiting: tuple[Waiting, ...]
    folders: tuple[FolderStatus, ...]
    lives: dict[str, int]
    gone: tuple[int, ...]
    retired: tuple[str, ...]
    tickets: int
    heard: dict[str, float]  # of a node: the time of day at which it was heard
    now: float
    snapshots: tuple[Snapshot, ...] = ()
    versions: int = 0  # of all folders together
    waited: float = 0.0  # seconds for which the oldest ask has waited
    record: int = 0  # bytes of the coordinator's record and its log
    troubles: tuple[str, ...] = ()  # of several brokers those that its agent can't reach, in words


class Versions(NamedTuple):
    slots: dict[str, tuple[Version, ...]]


class CountsRequest(NamedTuple):
    """Asks what an agent's process counted since it began: of a node too."""


class Counted(NamedTuple):
    process: int  # whose they are: one serves several sockets
    samples: tuple[Sample, ...]


class Past(NamedTuple):
    """Events, the newest last, as lines of JSON."""

    last: int  # the number of the newest event of all
    lines: tuple[str, ...]
    left_out: int = 0  # older ones that were asked for too


class Usual(NamedTuple):
    """How long something took, in seconds."""

    times: int
    median: float
    most: float


class Why(NamedTuple):
    now: float
    leases: tuple[Lease, ...]
    waiting: tuple[Waiting, ...]
    snapshots: tuple[Snapshot, ...]
    held: Usual | None
    waited: Usual | None
    is_known: bool  # whether the folder has a version


CoordinatorRequest = (
    StatusRequest | LogRequest | LostRequest | WithdrawRequest | RetireRequest | PruneRequest | HistoryRequest | WhyRequest | NeededRequest | StoreRequest
    | CountsRequest
)
CoordinatorTold = Digests | StorePlace | Status | Versions | Past | Why | Counted
