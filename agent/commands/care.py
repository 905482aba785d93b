"""Commands that look after a farm: a folder is seeded, this machine is looked at.

Owes the filters nothing: a folder is seeded under a lease as any command's.
"""
from __future__ import annotations

import argparse
import contextlib
import os
import shutil
import tempfile
import time
from typing import Callable, Iterator, NamedTuple

from agent.commands.run import ask_node, node_sockets, own_environment, own_folder, own_umask
from agent.faults import FAULT, FarmFault, UsageFault, show
from agent.service import client
from agent.service.operators import Status, StatusRequest
from agent.service.requests import RunRequest, StorePlace, StoreRequest

REPLACE = 'find "$2" -mindepth 1 -delete && cp -a -- "$1/." "$2"'
LOW = 0.1  # of a disk: less free room is told
SILENT = 30.0  # seconds for which a node that is well is heard


def do_put(args: argparse.Namespace) -> int:
    """Makes a folder's next version what a folder of this machine holds."""
    source = os.path.realpath(args.source)
    if not os.path.isdir(source):
        raise UsageFault(f"{args.source} is no folder")
    if args.folder.startswith("shared:"):
        raise UsageFault("a SHARED folder is written by several at once: name a locked or private one")
    room = tempfile.mkdtemp(prefix="farm-put-")
    try:
        return ask_node(args.home, args.node, RunRequest(
            command=("sh", "-c", REPLACE, "put", source, f"{room}/folder"), folders=(f"{args.folder}={room}/folder",), cwd=own_folder(),
            env=own_environment(), umask=own_umask(), wait=args.wait, must_commit=True,
        ))
    finally:
        shutil.rmtree(room, ignore_errors=True)


def do_restore(args: argparse.Namespace) -> int:
    """Makes a folder's next version what an earlier one held."""
    from agent.commands.ask import do_get

    folder, _, number = args.version.rpartition("@")
    if not folder or not number.isdecimal():
        raise UsageFault(f"{args.version} names no version: FOLDER@NUMBER")
    by = args.by or args.home
    if client.is_there(f"{by}/coordinator.sock") and next(node_sockets(by), None) is None:
        raise FarmFault(f"no node runs in {by}: --by names the home of one that runs on this machine")
    with tempfile.TemporaryDirectory(prefix="farm-restore-") as room:
        do_get(argparse.Namespace(home=args.home, folder=args.version, to=f"{room}/held", lost=False))
        return do_put(argparse.Namespace(home=by, node=args.node, wait=args.wait, folder=folder, source=f"{room}/held"))


KEPT = ("key", "record", "record.log", "known", "lost")  # of a coordinator's home: without these the farm can't go on as it was
TRIES = 100  # to read the record and its log together


def do_backup(args: argparse.Namespace) -> int:
    """Copies a coordinator's key, record and log into a file, also while it runs. The copy was read back."""
    import io
    import tarfile

    kept = _together(args.home)
    if b"" in (kept.get("key", b""), kept.get("record", b"") + kept.get("record.log", b"")):
        raise UsageFault(f"{args.home} has no record: name the --home of the farm's coordinator")
    _check_kept(kept)
    path = os.path.abspath(args.to)
    handle, beside = tempfile.mkstemp(prefix=".farm-backup-", dir=os.path.dirname(path))  # its mode is 0600: it has the farm's key
    try:
        with os.fdopen(handle, "wb") as file:
            with tarfile.open(fileobj=file, mode="w") as archive:
                for name, data in kept.items():
                    member = tarfile.TarInfo(name)
                    member.size, member.mode, member.mtime = len(data), 0o600, int(time.time())
                    archive.addfile(member, io.BytesIO(data))
            file.flush()
            os.fsync(file.fileno())
        os.rename(beside, path)
    except BaseException:
        os.unlink(beside)
        raise
    show(f"{path} has {', '.join(kept)}: it holds the farm's key, so keep it as closed as that")
    return 0


def _together(home: str) -> dict[str, bytes]:
    """The files of a home that belong together: no new record was begun while they were read."""
    for _ in range(TRIES):
        before, kept = _record_of(home), dict[str, bytes]()
        for name in KEPT:
            with contextlib.suppress(FileNotFoundError), open(f"{home}/{name}", "rb") as file:
                kept[name] = file.read()
        if before == _record_of(home):
            return kept
    raise FarmFault(f"the record of {home} was written anew again and again")


def _record_of(home: str) -> tuple[int, ...]:
    """Which files the record and its log are. The log only grows, until a new record is begun."""
    found = list[int]()
    for name in ("record", "record.log"):
        with contextlib.suppress(FileNotFoundError):
            here = os.lstat(f"{home}/{name}")
            found += [here.st_ino, here.st_mtime_ns if name == "record" else 0]
    return tuple(found)


def _check_kept(kept: dict[str, bytes]) -> None:
    """Reads a record back."""
    from agent.filters.lines import Filter, FilterGone
    from agent.tools import farm_program

    with tempfile.TemporaryDirectory(prefix="farm-backup-") as room:
        for name, data in kept.items():
            with open(f"{room}/{name}", "wb") as file:
                file.write(data)
        try:
            Filter([farm_program(), "coordinator", "--record", f"{room}/record", "--key", f"{room}/key"]).close()
        except FilterGone as gone:
            raise FarmFault(f"the record couldn't be read back, and nothing is kept: {gone.said}") from None


class Finding(NamedTuple):
    """What was looked at; why it isn't well, and how that is mended, where it isn't."""

    what: str
    trouble: str = ""
    is_warning: bool = False

    def __str__(self) -> str:
        how = "well" if not self.trouble else "warning" if self.is_warning else "WRONG"
        return f"{how}: {self.what}{': ' if self.trouble else ''}{self.trouble}"


def do_doctor(args: argparse.Namespace) -> int:
    """Says what of this machine and its farm isn't well, and how to mend it. The status is 70 where something is wrong."""
    findings = [finding for look in LOOKS for finding in look(args.home)]
    for finding in findings:
        show(str(finding))
    wrong = sum(bool(finding.trouble) and not finding.is_warning for finding in findings)
    return FAULT if wrong else 0


def _look_at_tools(home: str) -> Iterator[Finding]:
    from agent.tools import farm_choice

    for tool, package, use, is_needed in (
        ("casync", "casync", "folders are kept by it", True), ("buildah", "buildah", "farm build needs it", False),
        ("docker", "docker.io", "farm build --builder docker needs it, with its daemon", False),
        ("redis-server", "redis-server", "a farm of several machines needs one somewhere", False),
    ):
        yield Finding(tool, "" if shutil.which(tool) else f"{use}: apt-get install {package}", is_warning=not is_needed)
    try:
        found = farm_choice()
        yield Finding(f"the program that decides, {found.what}, {found.path}")
    except FarmFault as fault:
        yield Finding("the program that decides", str(fault))


def _look_at_kernel(home: str) -> Iterator[Finding]:
    from agent.runs.executions import can_have_namespaces

    yield Finding("pid and mount namespaces", "" if can_have_namespaces() else "commands can outlive their agent, and no SHARED folder can be used: run it as root", is_warning=True)


def _look_at_isolation(home: str) -> Iterator[Finding]:
    from agent.build import isolation

    if shutil.which("buildah"):
        here = isolation.found()
        yield Finding("how buildah's steps are kept apart", "" if here.is_wall else str(here), is_warning=True)


def _look_at_home(home: str) -> Iterator[Finding]:
    from agent.transport.keys import FARM_NAME, NODE_NAME

    if not os.path.isdir(home):
        yield Finding(f"the home {home}", "there is none yet: farm up, node or run makes it", is_warning=True)
        return
    disk = shutil.disk_usage(home)
    free = f"{disk.free / 1e9:.1f} GB of {disk.total / 1e9:.1f} GB are free"
    yield Finding(f"room for {home}: {free}", "make room, as farm gc does" if disk.free < LOW * disk.total else "", is_warning=True)
    status = os.stat(home)
    yield Finding(f"who may enter {home}", f"others may: chmod o-rwx {home}" if status.st_mode & 0o007 else "")
    keys = [path for path in (f"{home}/{FARM_NAME}", f"{home}/{NODE_NAME}") if os.path.exists(path)]
    if not keys:
        yield Finding("the key", f"{home} has none: farm key N FILE on the coordinator's machine writes it", is_warning=not os.path.exists(f"{home}/joined"))
    for path in keys:
        yield Finding(f"the key {path}", f"others may read it: chmod 600 {path}" if os.stat(path).st_mode & 0o077 else "")


def _look_at_farm(home: str) -> Iterator[Finding]:
    nodes = list(node_sockets(home)) if os.path.isdir(home) else []
    path = f"{home}/coordinator.sock"
    if client.is_there(path):
        told = client.told_at(path, StatusRequest(), Status, shows=False)
        yield Finding(f"the coordinator: ticket {told.tickets}, {len(told.leases)} leases, {len(told.waiting)} asks wait")
        for number, at in sorted(told.heard.items(), key=lambda each: int(each[0])):
            silent = time.time() - at
            if int(number) in told.gone:
                if silent <= SILENT:
                    yield Finding(f"node {number}", "it was retired, and its agent still runs: end it", is_warning=True)
                continue
            trouble = f"it wasn't heard for {silent:.0f} s: if it is gone for good, farm retire {number} --gone" if silent > SILENT else ""
            yield Finding(f"node {number}", trouble, is_warning=True)
    elif nodes and os.path.exists(f"{home}/joined"):
        yield Finding("the coordinator: it runs on another machine")
    elif nodes:
        yield Finding("the coordinator", f"it doesn't answer at {path}: end the farm's agent, and start it again")
    else:
        yield Finding("a farm", f"none runs in {home}: farm run starts one, and farm up one that lasts", is_warning=True)
    for place in {client.told_at(each, StoreRequest(), StorePlace, shows=False) for each in (nodes or [path]) if client.is_there(each)}:
        yield _store(home, place)
        yield from _brokers(home, place)


def _brokers(home: str, place: StorePlace) -> Iterator[Finding]:
    """Of several brokers each one."""
    from agent.transport.keys import key_of
    from agent.transport.redis_wire import Redis, signed_in

    urls = (place.broker or "").split()
    for url in urls if len(urls) > 1 else ():
        server = Redis(signed_in(url, key_of(home).password()), must_answer=False)
        try:
            server.greet()
            yield Finding(f"the broker {server.where}")
        except FarmFault as fault:
            yield Finding(f"the broker {server.where}", f"{fault}: start it, the others go on meanwhile", is_warning=True)


def _store(home: str, place: StorePlace) -> Finding:
    """Whether contents can be reached."""
    from agent.commands.ask import store_at

    what = f"the store {place.contents or 'over Redis' if place.broker else place.contents or f'{home}/contents'}"
    try:
        store_at(home, place).index("0" * 64)
        return Finding(what)
    except (FarmFault, OSError) as fault:
        return Finding(what, str(fault).removeprefix(f"{what} "))


LOOKS: tuple[Callable[[str], Iterator[Finding]], ...] = (_look_at_tools, _look_at_kernel, _look_at_isolation, _look_at_home, _look_at_farm)
