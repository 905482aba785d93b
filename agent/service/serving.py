"""Starts agents in this process, and answers what commands ask of them.

Owes the filters that one agent alone serves a home, which their own locks see to, and that they are ended before this process is.
"""
from __future__ import annotations

import contextlib
import functools
import math
import os
import signal
import socket
import threading
import time
from dataclasses import dataclass, field
from typing import Sequence

from agent.build.builds import Build, Builds
from agent.service.client import check_home, is_there
from agent.filters.bounds import MOST
from agent.filters.coordinator import SILENT_LEAST, CoordinatorAgent
from agent.runs.executions import open_many
from agent.counts import Counts
from agent.faults import LOST, ClientGone, FarmFault, NodeRetired, UsageFault, WaitOver, sentence, show, tell
from agent.logs import INFO, NOTICE, WARNING, Log, opened
from agent.transport.keys import FARM_NAME, NODE_NAME, FarmKey, Key, Names, key_of, make_key, renew_key
from agent.filters.lines import line_of
from agent.filters.node import NodeAgent, Setup
from agent.folders.places import check_outside
from agent.history.told import past_of, why_of, with_past
from agent.store.opened import open_store
from agent.transport.redis import RedisTransport
from agent.transport.redis_wire import signed_in
from agent.runs.run import Job, Run
from agent.service.forgetting import ByItself, Rule
from agent.service.operators import (
    Counted, CountsRequest, HistoryRequest, LogRequest, LostRequest, PruneRequest, RetireRequest, StatusRequest, Version, Versions, WhyRequest,
    WithdrawRequest,
)
from agent.service.requests import (
    BuildRequest, Digests, ForgetRequest, Forgotten, NeededRequest, RunRequest, StorePlace, StoreRequest,
)
from agent.service.sockets import Connection, Handler, Service, group_of
from agent.store.folder import is_old
from agent.store.shared import SharedStore
from agent.store.lasting import clock_of
from agent.tools import farm_program
from agent.transport.local import LocalTransport, Transport
from agent.words import DIGEST, is_bucket, want_of, who_of

IDLE = 10.0  # seconds after which a farm that a command started for itself ends


@dataclass(frozen=True, kw_only=True)
class Wanted:
    """What a process is to serve."""

    home: str
    coordinator: bool
    nodes: tuple[int, ...]
    most: int  # how many nodes the farm has
    brokers: tuple[str, ...] = ()
    contents: str | None = None  # the folder of a store that machines share, or s3://BUCKET/PREFIX
    lease_timeout: float | None = None
    most_asks: int = MOST  # leases and asks that one node may have at once
    verbose: bool = False
    log_json: bool = False
    gc: Rule = Rule()
    isolation: str | None = None  # of buildah's steps
    group: str | None = None  # whose members may ask, beside the home's owner
    while_used: bool = False
    restored: bool = False  # the operator vouches for the coordinator's record, though the farm knows of a later one


@dataclass
class Served:
    wanted: Wanted
    coordinator: CoordinatorAgent | None = None
    nodes: list[NodeAgent] = field(default_factory=list)
    services: list[Service] = field(default_factory=list)
    gc: ByItself | None = None

    def is_busy(self) -> bool:
        """Whether somebody waits for something here, or a folder is open that has to be closed yet."""
        return any(service.busy for service in self.services) or any(node.shared.tenures or node.merged.waiting for node in self.nodes)

    def stop(self) -> None:
        if self.gc:
            self.gc.over.set()
        for service in self.services:
            service.close()
        for node in self.nodes:
            node.stop()
        if self.coordinator:
            self.coordinator.stop()


def check(wanted: Wanted) -> None:
    """Refuses what can't be served, before anything of it is made."""
    home, mark = wanted.home, f"{wanted.home}/joined"
    check_home(home)
    if wanted.lease_timeout is not None and wanted.lease_timeout < SILENT_LEAST:
        raise UsageFault(f"a node that is well may be silent for some seconds: --lease-timeout is at least {SILENT_LEAST:g}")
    if not wanted.brokers and os.path.exists(mark):
        raise UsageFault(f"{home} is of a farm over a broker. If that farm is gone, remove {mark}")
    if not wanted.brokers and os.path.exists(f"{home}/{NODE_NAME}"):
        raise UsageFault(f"{home}/{NODE_NAME} is the key of a node of a farm over a broker: name that --broker")
    if wanted.restored and (is_there(f"{home}/coordinator.sock") or not os.path.exists(f"{home}/{FARM_NAME}")):
        raise UsageFault(f"--restored is for a coordinator that has ended, and whose key and record lie in {home}")
    if wanted.brokers and wanted.coordinator and os.path.exists(mark) and not os.path.exists(f"{home}/record") and not wanted.restored:
        raise UsageFault(f"{home} is of a farm whose coordinator has another home, or lost its record: a second one would give its tickets again")
    if wanted.brokers and not wanted.coordinator:
        check_node_key(home, wanted.nodes[0])


def check_node_key(home: str, node: int) -> None:
    """A machine with a node alone has that node's key, and no other."""
    path = f"{home}/{NODE_NAME}"
    if os.path.exists(path):
        key_of(home).of_node(node)
    elif os.path.exists(f"{home}/{FARM_NAME}"):
        raise UsageFault(
            f"{home}/{FARM_NAME} is the key of the whole farm, which only the coordinator's machine has: farm key {node} --home {home} --replace "
            f"puts that of node {node} in its place"
        )
    else:
        raise UsageFault(f"{path} is missing: farm key {node} FILE on the coordinator's machine writes it. Bring it here by a way that nobody else can read")


def join(wanted: Wanted, names: Names) -> None:
    """Marks the home of a farm over a broker: a farm that serves it alone would have a coordinator of its own, and other versions."""
    if wanted.brokers:
        with open(f"{wanted.home}/joined", "w") as file:
            file.write(" ".join(each.rpartition("@")[2].removeprefix("redis://") for each in wanted.brokers) + f"\n{names.farm}\n")


def check_joined(home: str, names: Names) -> None:
    """Refuses a home that served a farm of another key."""
    with contextlib.suppress(FileNotFoundError), open(f"{home}/joined") as file:
        if file.read().splitlines()[1:] not in ([], [names.farm]):
            raise UsageFault(f"{home} served another farm, whose key was another one than what is here now: name another --home")


def check_contents(folder: str, names: Names) -> None:
    """Refuses a folder of contents that another farm has: each would forget what the other one needs."""
    mark = f"{folder}/farm"
    close_to_others(folder, None)
    try:
        with open(mark, "x") as file:
            file.write(names.farm)
    except FileExistsError:
        with open(mark) as file:
            if file.read() not in ("", names.farm):
                raise UsageFault(f"{folder} has the contents of another farm: name another --contents. If that farm is gone, remove {mark}") from None


def close_to_others(folder: str, group: str | None) -> None:
    """Makes a folder, or closes one, so that only its owner enters it, and a group whose members reach the sockets there: the key, and what a
    build kept, is its owner's alone."""
    os.makedirs(folder, mode=0o700, exist_ok=True)
    here, mode = os.stat(folder), 0o750 if group else 0o700
    if group and here.st_gid != group_of(group):
        os.chown(folder, -1, group_of(group))
    if here.st_mode & 0o777 != mode:
        try:
            os.chmod(folder, mode)
        except PermissionError:
            raise UsageFault(f"{folder} is another user's: name one of your own, or have its owner chmod it to {mode:o}") from None


def _key(wanted: Wanted) -> Key:
    """The farm's key where its coordinator is served, else that of the node."""
    if not wanted.coordinator:
        return key_of(wanted.home)
    path = make_key(f"{wanted.home}/{FARM_NAME}")
    if wanted.restored:
        renew_key(path)
    return FarmKey(path)


def setup_of(wanted: Wanted) -> Setup:
    check(wanted)
    program = farm_program()
    close_to_others(wanted.home, wanted.group)
    key = _key(wanted)
    check_joined(wanted.home, key.names)
    if wanted.contents and not is_bucket(wanted.contents):
        check_contents(wanted.contents, key.names)
    transport: Transport = LocalTransport()
    counts, log = Counts(), opened(wanted.verbose, wanted.log_json)
    brokers = [signed_in(each, key.password()) for each in wanted.brokers]
    if brokers:
        transport = over_brokers(brokers, key.names, counts, log)
    store = open_store(wanted.home, brokers, wanted.contents, key.names, "-".join(map(str, wanted.nodes)))
    store.counts, store.log = counts, log
    if isinstance(store, SharedStore) and not store.keeps_well():
        tell("Redis doesn't sync what it is given (appendonly yes, appendfsync always): its crash can lose contents")
    return Setup(program=program, home=wanted.home, key=key, store=store, transport=transport, log=log, counts=counts)


def over_brokers(brokers: Sequence[str], names: Names, counts: Counts, log: Log) -> Transport:
    """Lines over a broker, or several. That one can't be reached is told once, and that it can be again."""
    def reached(which: str, why: str) -> None:
        if said := counts.reached(which, why):
            log(said, WARNING if why else NOTICE)

    farm = f"farm-{names.lines()}"
    if len(brokers) > 1:
        from agent.transport.brokers import Brokers

        return Brokers(brokers, farm, lambda where, why: reached(f"the broker {where}", why))
    transport = RedisTransport(brokers[0], farm)
    transport.reached = functools.partial(reached, "the broker")
    return transport


def begin(wanted: Wanted) -> Served:
    """Starts all that is wanted, or nothing."""
    setup = setup_of(wanted)
    served = Served(wanted)
    try:
        if wanted.coordinator:
            _begin_coordinator(served, setup)
        for number in wanted.nodes:
            _begin_node(served, setup, number)
        if served.coordinator:
            served.coordinator.watch.settle(set(wanted.nodes))
        join(wanted, setup.key.names)
        if wanted.gc.every is not None:
            sockets = [f"{wanted.home}/node{number}.sock" for number in wanted.nodes]
            served.gc = ByItself(wanted.home, wanted.gc, setup.store, sockets, setup.counts, setup.log)
            served.gc.start()
    except BaseException:
        served.stop()
        raise
    return served


def _begin_coordinator(served: Served, setup: Setup) -> None:
    wanted = served.wanted
    assert isinstance(setup.key, FarmKey)
    agent = CoordinatorAgent(
        setup, setup.key, wanted.lease_timeout, nodes=wanted.most, has_broker=bool(wanted.brokers), most_asks=wanted.most_asks
    )
    served.coordinator = agent
    agent.talk.start()
    if wanted.restored:
        lost = sum(map(len, agent.watch.restore().values()))
        tell(
            f"the farm is of a new generation: bring each node's machine its new key, by farm key N FILE here, and start them again. {lost} versions that "
            "are known of the one before aren't in the record, and farm log --lost shows them"
        )
    agent.watch.begin()
    agent.look_back()
    threading.Thread(target=agent.serve, daemon=True).start()
    agent.watch.settle(set())
    _serve(served, "coordinator", lambda asked, link: answer_operator(agent, served.wanted, asked, link), agent.log)


def _begin_node(served: Served, setup: Setup, number: int) -> None:
    agent = NodeAgent(number, served.wanted.most, setup)
    agent.talk.start()
    served.nodes.append(agent)
    agent.places.sweep()
    builds = Builds(agent, isolation=served.wanted.isolation)
    threading.Thread(target=agent.serve, daemon=True).start()
    _serve(served, f"node{number}", lambda asked, link: answer_command(agent, builds, served.wanted, asked, link), agent.log)


def _serve(served: Served, name: str, handler: Handler, log: Log) -> None:
    def failed(fault: Exception) -> None:
        if isinstance(fault, (UsageFault, NodeRetired, WaitOver, ClientGone)):
            log(f"refused: {fault}", INFO)  # it is the caller's own
        elif isinstance(fault, (FarmFault, OSError)):
            log(f"a request failed: {sentence(fault) if isinstance(fault, OSError) else fault}", WARNING)
        else:
            log.fault(fault)

    service = Service(f"{served.wanted.home}/{name}.sock", handler, served.wanted.group, failed)
    served.services.append(service)
    threading.Thread(target=service.serve, daemon=True).start()


def serve(wanted: Wanted) -> int:
    """Serves, and ends well whatever ends it."""
    with opened(wanted.verbose, wanted.log_json).hearing_all():
        return _serve_until_ended(wanted)


def _serve_until_ended(wanted: Wanted) -> int:
    over, leaving = threading.Event(), threading.Event()
    open_many()
    if wanted.while_used:
        signal.signal(signal.SIGUSR1, lambda *_: leaving.set())
    elif wanted.coordinator:
        take_over(wanted.home)
    served = begin(wanted)  # until it stands a signal ends this process at once
    for number in (signal.SIGINT, signal.SIGTERM, signal.SIGHUP):
        if signal.getsignal(number) != signal.SIG_IGN:  # whoever started it keeps it off, as nohup does
            signal.signal(number, lambda *_: over.set())
    mark = f"{wanted.home}/served"
    try:
        with open(f"{wanted.home}/pid", "w") as file:
            file.write(f"{os.getpid()}\n")
        if not wanted.while_used:
            open(mark, "w").close()  # it stands until a farm that people started has ended well: till then no command starts another in its place
        show("up", at_once=True)
        notify("READY=1")
        _stand(served, over, leaving)
    finally:
        notify("STOPPING=1")
        served.stop()
        if not wanted.while_used:
            with contextlib.suppress(FileNotFoundError):
                os.unlink(mark)
        _forget_pid(f"{wanted.home}/pid")
    return 0


def notify(text: str) -> None:
    """Tells the service manager that started this process, where one did, by the protocol of sd_notify(3)."""
    path = os.environ.get("NOTIFY_SOCKET")
    if path:
        with contextlib.suppress(OSError), socket.socket(socket.AF_UNIX, socket.SOCK_DGRAM) as link:
            link.connect("\0" + path[1:] if path.startswith("@") else path)
            link.send(text.encode())


def take_over(home: str) -> None:
    """Ends the farm that a command started here for itself, once nobody uses it."""
    path, told = f"{home}/coordinator.sock", time.monotonic() + 1.0
    if os.path.exists(f"{home}/served") or not is_there(path):
        return
    with contextlib.suppress(OSError, ValueError), open(f"{home}/pid") as file:
        pid = int(file.read())
        with open(f"/proc/{pid}/cmdline", "rb") as words:
            if b"--while-used" in words.read().split(b"\0"):  # else what the file names is gone
                os.kill(pid, signal.SIGUSR1)
    while os.path.exists(f"{home}/pid") and is_there(path):
        if time.monotonic() > told:
            tell(f"waiting for the farm that a command started in {home}: other commands use it yet")
            told = math.inf
        time.sleep(0.05)


def _stand(served: Served, over: threading.Event, leaving: threading.Event) -> None:
    """Waits until it is told to end, or nobody uses it any more: at once where another one takes it over."""
    wanted = served.wanted
    while not over.wait(0.5):
        if served.coordinator:
            served.coordinator.watch.check()
        idle = time.monotonic() - max(service.used for service in served.services)
        if wanted.while_used and not served.is_busy() and (idle > IDLE or leaving.is_set()):
            for service in served.services:
                service.close()
            over.wait(0.2)  # who asked just now is answered yet
            while served.is_busy() and not over.wait(0.2):
                pass
            break


def _forget_pid(path: str) -> None:
    """Removes what names this process, unless the next one of this home has begun."""
    with contextlib.suppress(OSError):
        with open(path) as file:
            is_ours = file.read() == f"{os.getpid()}\n"
        if is_ours:
            os.unlink(path)


def answer_command(agent: NodeAgent, builds: Builds, wanted: Wanted, request: object, link: Connection) -> int:
    """A request to a node."""
    if isinstance(request, RunRequest):
        return run_of(agent, wanted, request, link).run()
    if isinstance(request, BuildRequest):
        agent.check_retired()
        return Build(builds, request, link).run()
    if isinstance(request, ForgetRequest):
        agent.places.forget_gone()
        agent.merged.give_up()
        link.tell(Forgotten(contents=forget(agent, set(request.needed), request.grace)))
        builds.sweep()
    elif isinstance(request, NeededRequest):
        link.tell(Digests(digests=tuple(sorted(agent.needed(request.keep)))))
    elif isinstance(request, StoreRequest):
        link.tell(StorePlace(broker=" ".join(wanted.brokers) or None, contents=wanted.contents))
    elif isinstance(request, CountsRequest):
        link.tell(Counted(process=os.getpid(), samples=agent.counts.told()))
    else:
        raise FarmFault(f"a node answers no {type(request).__name__}")
    return 0


def run_of(agent: NodeAgent, wanted: Wanted, request: RunRequest, link: Connection) -> Run:
    """The run that a command asks for, none of whose folders lies within the farm's own."""
    agent.check_retired()
    uncounted = LOST if request.must_commit else None
    job = Job(
        command=list(request.command), cwd=request.cwd, env=request.env, wants=[want_of(word) for word in request.folders],
        wait=request.wait, stops_when_lost=request.stops_when_lost, fenced_status=uncounted, lost_status=uncounted, must_commit=request.must_commit, umask=request.umask,
        on_conflict=request.on_conflict, tells_conflicts=request.tells_conflicts, is_warm=request.is_warm, who=who_of(request.who),
    )
    run = Run(agent, job, link)
    for path in run.paths.values():
        for own in filter(None, (wanted.home, wanted.contents)):
            if not is_bucket(own):
                check_outside(path, own)
    return run


def forget(agent: NodeAgent, needed: set[str], grace: float) -> int:
    """Forgets the contents of a node that aren't needed and are older than the grace, as far as its filter lets it. How many went."""
    folder, oldest = f"{agent.home}/filter/contents", clock_of(agent.home) - grace
    found = [name for name in os.listdir(folder) if DIGEST.fullmatch(name)] if os.path.isdir(folder) else []
    gone = [name for name in found if name not in needed and is_old(f"{folder}/{name}", oldest)]
    return sum(not agent.call(line_of("forget", name)).is_refused for name in gone)


def answer_operator(agent: CoordinatorAgent, wanted: Wanted, request: object, link: Connection) -> int:
    """A request to the coordinator."""
    if isinstance(request, StatusRequest):
        link.tell(agent.status(request.last))
    elif isinstance(request, LogRequest):
        link.tell(Versions(slots={slot: with_past(agent.history, slot, agent.versions(slot)) for slot in agent.slots_of(request.folder)}))
    elif isinstance(request, HistoryRequest):
        link.tell(past_of(agent.history, request))
    elif isinstance(request, WhyRequest):
        link.tell(why_of(agent.history, request.folder, agent.status()))
    elif isinstance(request, LostRequest):
        link.tell(Versions(slots={slot: tuple(Version(version=number, ticket=0, digest=some[number]) for number in sorted(some))
                                  for slot, some in agent.watch.lost().items() if request.folder in (None, slot, slot.partition("#")[0])}))
    elif isinstance(request, WithdrawRequest):
        link.say(agent.operate("withdraw", str(request.ticket)))
    elif isinstance(request, RetireRequest):
        link.say(agent.retire(request.node, request.is_gone, request.is_last_too))
    elif isinstance(request, PruneRequest):
        slots = agent.slots_of(request.folder)
        if not slots:
            raise FarmFault(f"{request.folder} has no version")
        for slot in slots:
            link.say(f"{slot}: {agent.operate('prune', slot)}")
    elif isinstance(request, NeededRequest):
        link.tell(Digests(digests=tuple(sorted(agent.needed(request.keep)))))
    elif isinstance(request, StoreRequest):
        link.tell(StorePlace(broker=" ".join(wanted.brokers) or None, contents=wanted.contents))
    elif isinstance(request, CountsRequest):
        link.tell(Counted(process=os.getpid(), samples=agent.setup.counts.told()))
    else:
        raise FarmFault(f"a coordinator answers no {type(request).__name__}")
    return 0
