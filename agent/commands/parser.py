"""The words of `farm`. What only some commands need is imported where they begin: a command that only asks an agent starts the faster.

Owes the filters nothing: a word's meaning is judged where it is used.
"""
from __future__ import annotations

import argparse
import math
import os
import time
from typing import Any, Callable, Sequence

from agent.faults import FarmFault, show
from agent.commands.run import SERVED, do_build, do_run
from agent.commands.serve import do_coordinator, do_node, do_up
from agent.words import USES, who_of

ENDS = """statuses: the command's or builder's own; 64 wrong words; 65 a Dockerfile that can't be built under leases; 69 a program is missing;
70 a fault; 75 the lease wasn't granted in time, or what was left doesn't count; 76 a build whose lease had ended"""

UNITS = {"s": 1, "m": 60, "h": 3600, "d": 86_400}  # seconds
SIZES = {"k": 10**3, "M": 10**6, "G": 10**9, "T": 10**12}  # bytes


def default_home() -> str:
    """The home that FARM_HOME names; the one that a unit of this machine serves, if this user may use it; else the user's own."""
    state = os.environ.get("XDG_STATE_HOME") or os.path.expanduser("~/.local/state")
    return os.environ.get("FARM_HOME") or served_home() or f"{state}/farm"


def served_home() -> str | None:
    """A home of this machine's units with a node that this user may ask."""
    homes = [(f"{SERVED}/here", 1), *((f"{SERVED}/node{number}", number) for number in range(1, 17))] if os.path.isdir(SERVED) else []
    return next((home for home, number in homes if os.access(f"{home}/node{number}.sock", os.W_OK)), None)


def parser() -> argparse.ArgumentParser:
    top = argparse.ArgumentParser(prog="farm", description="Runs commands and builds under leases of cache folders.", epilog=ENDS)
    top.add_argument("--version", action=Version, nargs=0, help="says the version, and which program decides")
    verbs = top.add_subparsers(dest="verb", required=True, metavar="COMMAND")
    setattr(verbs, "home", default_home())
    for add in (_serving_words, _run_words, _build_words, _asking_words, _operating_words, _care_words):
        add(verbs)
    return top


def parsed(words: Sequence[str] | None) -> argparse.Namespace:
    """The words of a call. A FILE that needn't be there is read behind options too, where argparse leaves it over."""
    made = parser()
    args, left = made.parse_known_args(words)
    if args.verb == "key" and args.to is None and len(left) == 1 and (left == ["-"] or left[0][:1] not in ("", "-")):
        args.to, left = left[0], []
    if left:
        made.error(f"unrecognized arguments: {' '.join(left)}")
    return args


class Version(argparse.Action):
    """Says the version, and which program decides."""

    def __call__(self, *_: object) -> None:
        from agent.tools import farm_choice
        from release.choice import told
        from release.sources import version

        try:
            what = told("farmd", farm_choice()).partition(", ")[2]
        except FarmFault as fault:
            what = f"and no program to decide: {fault}"
        show(f"farm {version()}, {what}")
        raise SystemExit(0)


def seconds(text: str) -> float:
    """How long somebody may wait, or how old something is."""
    if not 0 <= float(text) < math.inf:
        raise ValueError
    return float(text)


def duration(text: str) -> float:
    """Seconds, or with a unit: s, m, h, d. Not none at all."""
    found = seconds(text[:-1]) * UNITS[text[-1]] if text[-1:] in UNITS else seconds(text)
    if found < 1:
        raise ValueError
    return found


def size(text: str) -> int:
    """Bytes, or with a unit: k, M, G, T, of a thousand each."""
    found = float(text[:-1]) * SIZES[text[-1]] if text[-1:] in SIZES else float(text)
    if not 1 <= found < 2**63:
        raise ValueError
    return int(found)


def node(text: str) -> int:
    """A node's number, or how many a farm has."""
    if not 1 <= int(text) <= 1024:
        raise argparse.ArgumentTypeError(f"a farm has the nodes 1 to 1,024, and not {text}")
    return int(text)


def ticket(text: str) -> int:
    if not 1 <= int(text) < 2**64:
        raise ValueError
    return int(text)


def shared_as(text: str) -> str:
    """`[ID=]MODE`."""
    if text.rpartition("=")[2] not in USES:
        raise argparse.ArgumentTypeError(f"a mode is one of {', '.join(USES)}, and not {text!r}")
    return text


def path(text: str) -> str:
    """A path that is named: an empty one, as of a variable that isn't set, would be the folder that this is called in."""
    if not text:
        raise ValueError
    return text


def word(text: str) -> str:
    """Whose a command is."""
    if not text or who_of(text) != text:
        raise argparse.ArgumentTypeError(f"a word has at most 64 characters, all of them printable ASCII and none a space, and not {text!r:.80}")
    return text


def moment(text: str) -> float:
    """A time of day: as a date, or as how long ago it was."""
    units = {"s": 1, "m": 60, "h": 3600, "d": 86400}
    if text[:-1].isdecimal() and text[-1:] in units:
        return time.time() - int(text[:-1]) * units[text[-1]]
    from datetime import datetime

    try:
        return datetime.fromisoformat(text).timestamp()
    except (ValueError, OverflowError):
        raise argparse.ArgumentTypeError(f"a time is written as 90m, 2h, 3d or 2026-05-01T10:00, and not {text!r:.80}") from None


def _asks(name: str, module: str = "ask") -> Callable[[argparse.Namespace], int]:
    """A command of a module that is read where it is called."""
    def does(args: argparse.Namespace) -> int:
        import importlib

        return int(getattr(importlib.import_module(f"agent.commands.{module}"), name)(args))

    return does


def _verb(verbs: Any, name: str, does: Callable[[argparse.Namespace], int], text: str, example: str) -> argparse.ArgumentParser:
    home = verbs.home
    made: argparse.ArgumentParser = verbs.add_parser(name, help=text, description=text, epilog=f"example: {example}")
    made.set_defaults(does=does)
    made.add_argument("--home", type=path, default=home, help="the farm's folder on this machine (%(default)s, or FARM_HOME)")
    return made


def _serving_words(verbs: Any) -> None:
    up = _verb(verbs, "up", do_up, "coordinator and nodes on this machine", "farm up --nodes 3")
    up.add_argument("--while-used", action="store_true", help="ends where nobody uses it for a while")
    coordinator = _verb(
        verbs, "coordinator", do_coordinator, "the coordinator alone", "farm coordinator --broker redis://10.0.0.1"
    )
    one = _verb(verbs, "node", do_node, "one node alone", "farm node 2 --broker redis://10.0.0.1")
    one.add_argument("number", type=node, metavar="N")
    for made in (up, coordinator, one):
        made.add_argument("--nodes", type=node, default=3, help="how many nodes the farm has (%(default)s)")
        made.add_argument("--contents", type=path, metavar="PLACE", help="where contents are kept: a folder that all machines see, or s3://BUCKET/PREFIX")
        made.add_argument("--group", metavar="NAME", help="whose members may use the farm too, as good as root where root serves it")
        made.add_argument("--verbose", action="store_true", help="logs what the filters answer too")
        made.add_argument("--log-json", action="store_true", help="logs each event as an object of JSON")
        _forgetting_words(made)
    for made in (up, one):
        made.add_argument(
            "--isolation", choices=["oci", "chroot"], help="how buildah's steps are kept apart (oci where crun or runc works, else chroot, which is no wall)"
        )
    for made in (up, coordinator):
        made.add_argument(
            "--restored", action="store_true", help="vouches for a record that is older than the farm: begins a new generation, with a new key"
        )
        made.add_argument(
            "--most-asks", type=ticket, default=4096, metavar="M", help="how many leases, and asks that wait, one node may have at once (%(default)s)"
        )
        made.add_argument(
            "--lease-timeout", type=seconds, metavar="SECONDS", help="withdraws the leases of a node that wasn't heard for so long"
        )
    for made in (coordinator, one):
        made.add_argument(
            "--broker", action="append", required=not os.environ.get("FARM_BROKER"), metavar="redis://..",
            help="Redis (or FARM_BROKER, which others don't see). Of several, each named so, or with blanks between them, one is enough",
        )


def _forgetting_words(made: argparse.ArgumentParser) -> None:
    made.add_argument("--gc-every", type=duration, metavar="TIME", help="forgets by itself what nothing needs, so often: seconds, or 30m, 1h, 1d")
    made.add_argument("--keep", type=int, metavar="K", help="and keeps the last K versions of each folder (1)")
    made.add_argument("--keep-days", type=seconds, metavar="D", help="and what is younger")
    made.add_argument("--most-bytes", type=size, metavar="SIZE", help="but in a store of more, as 50G, the oldest goes before that, as far as --keep lets it")
    made.add_argument("--grace", type=seconds, default=3600, metavar="SECONDS", help="never what is younger (%(default)s)")


def _run_words(verbs: Any) -> None:
    run = _verb(
        verbs, "run", do_run, "runs a command with its folders leased",
        "farm run --folder locked:ccache=$HOME/ccache -- make CCACHE_DIR=$HOME/ccache CC='ccache gcc'",
    )
    run.usage = "farm run [OPTION].. [--folder [ro=]FOLDER=PATH].. [--] COMMAND.."
    run.add_argument("--node", type=node, metavar="N", help="the node that runs it (the first one here that isn't retired)")
    run.add_argument("--folder", action="append", default=[], metavar="[ro=]FOLDER=PATH", help="merged:ID, locked:ID, private:ID or shared:ID")
    run.add_argument("--wait", type=seconds, metavar="SECONDS", help="waits no longer for the lease, and for 0 only takes what is free: else the status is 75")
    run.add_argument("--must-commit", action="store_true", help="status 75 where what the command left doesn't count")
    run.add_argument("--on-lost", choices=["stop", "go-on"], default="go-on", help="what a command does whose lease has ended")
    _common_words(run)
    run.add_argument("command", nargs=argparse.REMAINDER, metavar="COMMAND")


def _common_words(made: argparse.ArgumentParser) -> None:
    made.add_argument(
        "--on-conflict", choices=["newer", "theirs", "mine", "fail"], default="newer",
        help="whose a path of a merged folder is that others changed meanwhile too (%(default)s); fail: nothing counts, and the status is 75",
    )
    made.add_argument("--verbose", action="store_true", help="tells each such path")
    made.add_argument("--warm", action="store_true", help="a new private folder begins as the last version of any of its name")
    made.add_argument("--as", type=word, dest="who", metavar="WORD", help="whose it is, for farm history (a CI's job, else user@machine)")


def _build_words(verbs: Any) -> None:
    build = _verb(
        verbs, "build", do_build, "builds a Dockerfile with its cache mounts leased", "farm build --node 1 -t app:latest ."
    )
    build.add_argument("--node", type=node, metavar="N")
    build.add_argument("-f", "--file", type=path, metavar="Dockerfile")
    build.add_argument("-t", "--tag", action="append", default=[], metavar="NAME")
    build.add_argument("--builder", choices=["buildah", "docker"], default="buildah", help="docker: BuildKit of this machine's Docker (%(default)s)")
    build.add_argument("--shares-daemon", action="store_true", help="lets several nodes build by one Docker daemon, each with its own copies")
    build.add_argument("--build-arg", action="append", default=[], metavar="K=V")
    build.add_argument("--target", metavar="STAGE")
    build.add_argument("--format", choices=["oci", "docker"])
    for name in ("--network", "--progress", "--platform"):
        build.add_argument(name, help="as of docker build")
    for name in ("--no-cache", "--pull", "--push"):
        build.add_argument(name, action="store_true", help="as of docker build")
    build.add_argument("-q", "--quiet", action="store_true", help="shows the image's id alone")
    build.add_argument("--layers", action="store_true", help="buildah caches instructions, but for those after a RUN with a cache mount")
    build.add_argument("--iidfile", type=path, metavar="FILE", help="writes the image's id there")
    for name in ("--secret", "--ssh", "--cache-from", "--build-context"):
        build.add_argument(name, action="append", default=[], help="as of docker build")
    build.add_argument("--wait", type=seconds, metavar="SECONDS")
    build.add_argument("--must-commit", action="store_true", help="waits until what it left in shared folders that others use too counts: else status 75")
    build.add_argument("--on-lost", choices=["stop", "go-on"], default="go-on")
    build.add_argument("--shared-as", type=shared_as, action="append", default=[], metavar="[ID=]MODE", help="treats shared mounts so, or those of one id")
    build.add_argument("--keep-failed", action="store_true", help="commits also what a failed build left")
    build.add_argument("--tag-fenced", action="store_true", help="tags the image also where the lease had ended")
    _common_words(build)
    build.add_argument("context", type=path)


def _asking_words(verbs: Any) -> None:
    status = _verb(verbs, "status", _asks("do_status"), "who has what since when, and who waits", "farm status --json")
    status.add_argument("--json", action="store_true")
    web = _verb(verbs, "web", _asks("do_web"), "a page with the farm's status, to read", "farm web --port 8080")
    web.add_argument("--port", type=int, required=True)
    web.add_argument("--address", default="127.0.0.1", help="the address that it listens at (%(default)s): who reaches it may read all")
    log = _verb(verbs, "log", _asks("do_log"), "the versions of a folder", "farm log locked:ccache")
    log.add_argument("folder", nargs="?")
    log.add_argument("--json", action="store_true")
    log.add_argument("--lost", action="store_true", help="what generations before this one had beyond the record")
    past = _verb(verbs, "history", _asks("do_history", "past"), "what came to pass: asks, leases, commits, and what didn't count", "farm history --since 2h locked:ccache")
    past.add_argument("folder", nargs="?")
    past.add_argument("--json", action="store_true", help="one object a line")
    past.add_argument("--since", type=moment, metavar="WHEN", help="as 90m, 2h, 3d or 2026-05-01T10:00")
    past.add_argument("--node", type=node, metavar="N", help="what one node did")
    why = _verb(verbs, "why", _asks("do_why", "past"), "who has a folder, who waits for whom, and how long that usually takes", "farm why locked:ccache")
    why.add_argument("folder")
    get = _verb(verbs, "get", _asks("do_get"), "what a version holds, without a lease", "farm get locked:ccache@3 third")
    get.add_argument("folder", metavar="FOLDER[@NUMBER]")
    get.add_argument("--lost", action="store_true", help="of what farm log --lost shows")
    get.add_argument("to", type=path, metavar="DIR", help="a folder, or - for a tar on the standard output")


def _operating_words(verbs: Any) -> None:
    withdraw = _verb(verbs, "withdraw", _asks("do_withdraw"), "ends a lease: its holder's commit won't count", "farm withdraw 17")
    withdraw.add_argument("ticket", type=ticket, metavar="T")
    retire = _verb(verbs, "retire", _asks("do_retire"), "ends a node for good", "farm retire 3")
    retire.add_argument("node", type=node, metavar="N")
    retire.add_argument("--gone", action="store_true", help="the node is gone for good: you vouch that all it ran is over")
    retire.add_argument("--yes", action="store_true", help="also where no other node is left")
    expel = _verb(
        verbs, "expel", _asks("do_expel"), "puts out a node that was taken over: its leases end, and nothing that it says counts any more", "farm expel 3"
    )
    expel.add_argument("node", type=node, metavar="N")
    put = _verb(verbs, "put", _asks("do_put", "care"), "makes a folder's next version what DIR holds", "farm put locked:ccache ~/.ccache")
    put.add_argument("folder")
    put.add_argument("source", type=path, metavar="DIR")
    put.add_argument("--node", type=node, metavar="N")
    put.add_argument("--wait", type=seconds, metavar="SECONDS")
    restore = _verb(
        verbs, "restore", _asks("do_restore", "care"), "makes a folder's next version what an earlier one held", "farm restore locked:ccache@17"
    )
    restore.add_argument("version", metavar="FOLDER@NUMBER")
    restore.add_argument("--by", type=path, metavar="HOME", help="the home of a node of this machine, where the coordinator has one of its own")
    restore.add_argument("--node", type=node, metavar="N")
    restore.add_argument("--wait", type=seconds, metavar="SECONDS")


def _care_words(verbs: Any) -> None:
    _verb(verbs, "doctor", _asks("do_doctor", "care"), "says what of this machine and its farm isn't well, and how to mend it", "farm doctor")
    key = _verb(verbs, "key", _asks("do_key", "keys"), "writes the key of a node, on the coordinator's machine", "farm key 2 node2.key")
    key.add_argument("node", type=node, metavar="N")
    key.add_argument("to", type=path, nargs="?", metavar="FILE", help="or - for the standard output")
    key.add_argument("--replace", action="store_true", help="in a node's home: puts it in the place of the farm's key")
    users = _verb(
        verbs, "broker-users", _asks("do_broker_users", "keys"), "prints what Redis's file of users wants: one for each node", "farm broker-users >>users.acl"
    )
    users.add_argument("--nodes", type=node, default=3, help="how many nodes the farm has (%(default)s)")
    backup = _verb(
        verbs, "backup", _asks("do_backup", "care"), "copies the coordinator's key and record into a file, while it runs", "farm backup farm.tar"
    )
    backup.add_argument("to", metavar="FILE")
    prune = _verb(verbs, "prune", _asks("do_prune"), "makes a folder's next version the empty one", "farm prune locked:ccache")
    prune.add_argument("folder")
    du = _verb(verbs, "du", _asks("do_du", "sizes"), "how much room the versions of each folder take", "farm du --json")
    du.add_argument("--json", action="store_true")
    gc = _verb(verbs, "gc", _asks("do_gc"), "forgets what nothing needs, on this machine", "farm gc --keep 3")
    gc.add_argument("--keep", type=int, default=1, metavar="K", help="keeps the last K versions of each folder (%(default)s)")
    gc.add_argument("--grace", type=seconds, default=3600, metavar="SECONDS", help="keeps what is younger (%(default)s)")
