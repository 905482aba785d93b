"""Commands that hand out the keys of nodes, on the coordinator's machine.

Owes the filters that a node's machine is handed that node's key alone.
"""
from __future__ import annotations

import argparse
import hashlib
import os
import sys

from agent.faults import UsageFault, show
from agent.store.lasting import put_file
from agent.store.opened import farm_name
from agent.transport.keys import FARM_NAME, NODE_NAME, FarmKey
from agent.transport.local import COORDINATOR, node_address

OF_NODES = "+ping +select +time +xadd +xread +xrevrange +get +exists +set +zadd +zscore +hset +hdel +hkeys +hgetall +incr +eval"
OF_COORDINATOR = f"{OF_NODES} +del +zrem +scan +strlen +config|get"


def farm_key(home: str) -> FarmKey:
    path = f"{home}/{FARM_NAME}"
    if not os.path.exists(path):
        raise UsageFault(f"{path} is missing: name the --home of the farm's coordinator, on its machine")
    return FarmKey(path)


def do_key(args: argparse.Namespace) -> int:
    """Writes a node's key, or puts it in the place of the farm's, which nodes had before each had its own."""
    text = farm_key(args.home).of_node(args.node).text()
    if args.replace:
        return _replace(args.home, args.node, text)
    if args.to is None:
        raise UsageFault(f"name the file to write: farm key {args.node} FILE, or - for the standard output")
    if args.to == "-":
        sys.stdout.write(text)
        return 0
    put_file(os.path.abspath(args.to), text.encode())
    show(f"{args.to} is the key of node {args.node}: bring it to that node's machine, as {NODE_NAME} in its home, by a way that nobody else can read")
    return 0


def _replace(home: str, node: int, text: str) -> int:
    if os.path.exists(f"{home}/record"):
        raise UsageFault(f"{home} is the home of the farm's coordinator, which needs the farm's key")
    put_file(f"{home}/{NODE_NAME}", text.encode())
    os.unlink(f"{home}/{FARM_NAME}")
    show(f"{home} has the key of node {node} now, and that of the farm no more")
    return 0


def do_broker_users(args: argparse.Namespace) -> int:
    """Prints what Redis's file of users wants: one for the coordinator, and one for each node, which can write to any stream, read its own, and
    give and read contents, and delete nothing. No password is printed: each agent makes its own of its key."""
    key, most = farm_key(args.home), args.nodes
    contents, lines = farm_name(key.names), f"farm-{key.names.lines()}"
    show(_user("farm-coordinator", key.password(), OF_COORDINATOR, f"~{contents}:* ~{lines}:*"))
    for number in range(1, most + 1):
        places = f"%W~{lines}:to:{COORDINATOR} %W~{lines}:to:node.* %RW~{lines}:to:{node_address(number)}"
        places += "".join(f" ~{contents}:{kind}" for kind in ("index:*", "chunk:*", "given", "held", "holds"))
        show(_user(f"farm-node{number}", key.of_node(number).password(), OF_NODES, places))
    show("user default off ~* &* +@all")  # as which Redis reads its own file of commands: without these it would lose what scripts wrote
    sys.stderr.write("farm: begin the agents with --broker redis://farm-coordinator@HOST, redis://farm-node1@HOST ..\n")
    return 0


def _user(name: str, password: str, commands: str, places: str) -> str:
    return f"user {name} on #{hashlib.sha256(password.encode()).hexdigest()} resetkeys resetchannels {places} -@all {commands}"
