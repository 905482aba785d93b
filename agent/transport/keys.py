"""The keys of a farm: its own, which the coordinator's machine alone has, and one of each node, which is made of that.

Owes the filters that a node's machine is handed that node's key alone, and that nothing an agent seals opens as a message of a filter, but
the Hello by which an operator puts a node out.
"""
from __future__ import annotations

import contextlib
import hashlib
import hmac
import os
import re
import secrets
from typing import NamedTuple

from agent.faults import UsageFault, named
from agent.store.lasting import put_file
from agent.transport.hints import FarmHints, Hints

LATER = re.compile(rb"[0-9a-f]{64}\n([0-9a-f]{16}) later generation")  # the file of a key of a later generation
NODE_FILE = re.compile(r"([0-9a-f]{64})\nnode ([0-9]{1,4}) of farm ([0-9a-f]{16}) in generation ([0-9a-f]{16})\n", re.ASCII)
FARM_NAME, NODE_NAME = "key", "node.key"  # the files of a home


class Names(NamedTuple):
    """What a farm is called where others can read it."""

    farm: str  # what it keeps in places that farms share: no two farms have one
    generation: str  # of its present key

    def lines(self) -> str:
        """Where the generation's lines go."""
        return self.farm if self.farm == self.generation else f"{self.farm}-{self.generation}"


class NodeKey(NamedTuple):
    """The key of a node: who has it speaks as that node, and as nobody else."""

    node: int
    digits: str
    names: Names

    def of_node(self, node: int) -> NodeKey:
        if node != self.node:
            raise UsageFault(f"the key here is that of node {self.node}: node {node} has its own, by farm key {node} on the coordinator's machine")
        return self

    def hints(self) -> Hints:
        return Hints(self.digits.encode())

    def seal(self, text: str) -> str:
        """A line of this node, or to it, as a filter seals it."""
        return f"{text} {hmac.new(self.digits.encode(), text.encode(), hashlib.sha256).hexdigest()}"

    def password(self) -> str:
        """Its agent's at the broker."""
        return _password(self.digits.encode())

    def text(self) -> str:
        """What the key's file has."""
        return f"{self.digits}\nnode {self.node} of farm {self.names.farm} in generation {self.names.generation}\n"


class FarmKey:
    """The farm's own key. Nothing is sealed under it: the keys of nodes are made of it, and what coordinators tell each other is sealed under one more."""

    def __init__(self, path: str) -> None:
        with open(path, "rb") as file:
            self.key = file.read().removesuffix(b"\n")
        self.path = path
        own = Hints(self.key)
        later = LATER.fullmatch(self.key)
        self.names = Names(later[1].decode() if later else own.name(), own.name())

    def of_node(self, node: int) -> NodeKey:
        return NodeKey(node, digits_of(self.key, node), self.names)

    def password(self) -> str:
        return _password(self.key)

    def hints(self) -> FarmHints:
        return FarmHints(Hints(self.key), lambda node: self.of_node(node).hints())

    def proof(self, text: str) -> str:
        """What shows that the coordinator said something: no node can make it."""
        own = hmac.new(self.key, b"what is known", hashlib.sha256).digest()
        return hmac.new(own, text.encode(), hashlib.sha256).hexdigest()[:32]


Key = FarmKey | NodeKey


def digits_of(farm: bytes, node: int) -> str:
    """What a node's lines are sealed under, made of the farm's key."""
    return hmac.new(farm, b"key of node %d in epoch 0" % node, hashlib.sha256).hexdigest()


def _password(key: bytes) -> str:
    own = hmac.new(key, b"password at the broker", hashlib.sha256).digest()
    return hmac.new(own, b"password", hashlib.sha256).hexdigest()


def make_key(path: str) -> str:
    """The file of the farm's key. It is made where there is none."""
    if not os.path.exists(path):
        os.makedirs(os.path.dirname(path), exist_ok=True)
        fresh = f"{path}.{secrets.token_hex(4)}"
        try:
            with named(path), open(os.open(fresh, os.O_WRONLY | os.O_CREAT | os.O_EXCL, 0o600), "w") as file:
                file.write(secrets.token_hex(32) + "\n")
                file.flush()
                os.fsync(file.fileno())
            with contextlib.suppress(FileExistsError):
                os.link(fresh, path)  # the first of two that make it at once
        finally:
            with contextlib.suppress(FileNotFoundError):
                os.unlink(fresh)
        folder = os.open(os.path.dirname(path), os.O_RDONLY | os.O_DIRECTORY)
        os.fsync(folder)  # a farm whose key is lost can't go on
        os.close(folder)
    return path


def renew_key(path: str) -> None:
    """Makes the farm one of a new generation: nothing that was sealed before opens any more, and what the farm keeps has its old name. The
    old key stays beside it."""
    names = FarmKey(path).names
    with open(path, "rb") as file:
        put_file(f"{path}.{names.generation}", file.read())
    put_file(path, f"{secrets.token_hex(32)}\n{names.farm} later generation\n".encode())


def node_key(path: str) -> NodeKey:
    """What the file of a node's key has."""
    with open(path, encoding="ascii", errors="replace") as file:
        found = NODE_FILE.fullmatch(file.read())
    if not found:
        raise UsageFault(f"{path} is no key of a node, as farm key N makes one on the coordinator's machine")
    return NodeKey(int(found[2]), found[1], Names(found[3], found[4]))


def key_of(home: str) -> Key:
    """The key that a home has: the farm's, or that of its node."""
    path = f"{home}/{NODE_NAME}"
    return node_key(path) if os.path.exists(path) else FarmKey(f"{home}/{FARM_NAME}")
