"""What agents tell each other beside the filters' messages: a lease has ended, who holds a folder, a node is heard, a content is missed,
nobody waits for an ask, which tickets and versions are known.

Owes the filters that nothing of it reaches them. A hint changes only what people are shown and how early a lost execution stops. Hints
between a node and the coordinator are sealed, under a key that is made of that node's, so that nothing an agent seals opens as a message of
a filter, and no node is believed about another. Nodes tell each other of contents without a seal: whoever says it, it does no harm.
"""
from __future__ import annotations

import hashlib
import hmac
from typing import Callable

FRONT = "hint "
OPEN = ("lacks", "offered")  # hints without a seal, from anybody
OF_COORDINATORS = ("coordinator", "iscoordinator")  # who has the farm's own key says these
NODES_MOST = 1024


class Hints:
    """Seals and opens the hints of one node and the coordinator."""

    def __init__(self, key: bytes) -> None:
        self.key = hmac.new(key, b"hints of agents", hashlib.sha256).digest()

    def name(self) -> str:
        """A name of the key, which tells nothing of it."""
        return hmac.new(self.key, b"name", hashlib.sha256).hexdigest()[:16]

    def _mac(self, text: str) -> str:
        return hmac.new(self.key, text.encode(), hashlib.sha256).hexdigest()

    def seal(self, text: str) -> str:
        return f"{FRONT}{text} {self._mac(text)}"

    def open(self, line: str) -> list[str] | None:
        """The words of a hint; none where it isn't one, or was damaged or forged."""
        text, _, mac = line.removeprefix(FRONT).rpartition(" ")
        if not line.startswith(FRONT) or not hmac.compare_digest(mac.encode(), self._mac(text).encode()):
            return None
        return text.split(" ")


class FarmHints:
    """The coordinator's: it seals for each node under that node's key, and believes a node about itself alone: its hints have its number behind
    their name."""

    def __init__(self, own: Hints, of_node: Callable[[int], Hints]) -> None:
        self.own, self.of_node = own, of_node
        self.known: dict[int, Hints] = {}

    def node(self, node: int) -> Hints:
        if node not in self.known:
            self.known[node] = self.of_node(node)
        return self.known[node]

    def seal(self, node: int, text: str) -> str:
        return self.node(node).seal(text)

    def seal_to_coordinators(self, text: str) -> str:
        return self.own.seal(text)

    def open(self, line: str) -> list[str] | None:
        words = line.split(" ", 3)
        if words[0] != FRONT.strip() or len(words) < 4:
            return None
        if words[1] in OF_COORDINATORS:
            return self.own.open(line)
        if not (words[2].isascii() and words[2].isdecimal() and len(words[2]) <= 4 and 1 <= int(words[2]) <= NODES_MOST):
            return None
        return self.node(int(words[2])).open(line)


def to_nodes(text: str) -> str:
    """A hint from a node to another one."""
    return f"{FRONT}{text} -"


def from_nodes(line: str) -> list[str] | None:
    """The words of such a hint; none where it isn't one."""
    words = line.split(" ")
    return words[1:-1] if len(words) > 3 and words[0] == FRONT.strip() and words[1] in OPEN and words[-1] == "-" else None
