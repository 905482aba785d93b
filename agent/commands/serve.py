"""Commands that serve: a coordinator, a node, or a whole farm of one machine.

Owes the filters nothing: `service` keeps what is owed.
"""
from __future__ import annotations

import argparse
import os

from agent.faults import UsageFault


def _serve(args: argparse.Namespace, coordinator: bool, nodes: list[int]) -> int:
    from agent.service.forgetting import Rule
    from agent.service.serving import Wanted, serve

    if args.gc_every is None and (args.keep, args.keep_days, args.most_bytes) != (None, None, None):
        raise UsageFault("--keep, --keep-days and --most-bytes say what a farm forgets by itself: name --gc-every too, as in --gc-every 1h")
    if args.keep is not None and args.keep < 1:
        raise UsageFault("the last version of a folder is always kept: --keep is at least 1")
    return serve(Wanted(
        home=args.home, coordinator=coordinator, nodes=tuple(nodes), most=args.nodes, brokers=_brokers(args),
        contents=args.contents, isolation=getattr(args, "isolation", None), lease_timeout=getattr(args, "lease_timeout", None), most_asks=getattr(args, "most_asks", 1), verbose=args.verbose,
        while_used=getattr(args, "while_used", False), group=args.group,
        restored=getattr(args, "restored", False), log_json=args.log_json,
        gc=Rule(keep=args.keep or 1, grace=args.grace, young=86_400 * (args.keep_days or 0), most=args.most_bytes, every=args.gc_every),
    ))


def _brokers(args: argparse.Namespace) -> tuple[str, ...]:
    """Each once, in order: what is named here, else what the environment names. A farm of one machine has none."""
    if not hasattr(args, "broker"):
        return ()
    return tuple(dict.fromkeys(" ".join(args.broker or [os.environ.get("FARM_BROKER", "")]).split()))


def do_up(args: argparse.Namespace) -> int:
    return _serve(args, True, list(range(1, args.nodes + 1)))


def do_coordinator(args: argparse.Namespace) -> int:
    return _serve(args, True, [])


def do_node(args: argparse.Namespace) -> int:
    if args.number > args.nodes:
        raise UsageFault(f"there is no node {args.number} of {args.nodes}: --nodes says how many the farm has")
    return _serve(args, False, [args.number])
