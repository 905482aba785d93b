"""What a node's agent tells of its own leases: who asked, what he waited, what was left, and what caches had.

Owes the filters nothing. A node may tell anything: each word is of a bounded form, and says something of that node's own asks and tickets
alone, which `seen` looks after.
"""
from __future__ import annotations

import re
from typing import NamedTuple

from agent.history.events import WHO

NUMBER = re.compile(r"[0-9]{1,15}", re.ASCII)
SECONDS = re.compile(r"[0-9]{1,9}(\.[0-9])?", re.ASCII)
SIZE = re.compile(r"([!-~]+)=([0-9]{1,15}):([0-9]{1,15})", re.ASCII)
NAMES = ("waits", "begun", "keeps", "hits", "left")
WORDS_MOST, ASKS_MOST = 24, 1_024  # words of one hint, and asks of one that tells which ones are left


class Told(NamedTuple):
    """A hint of a node."""

    name: str
    node: int
    life: int = 0
    ask: int = 0
    ticket: int = 0
    waited: float = 0.0
    who: str = ""
    sizes: dict[str, tuple[int, int]] = {}  # of a slot: files and bytes, or hits and of how many
    asks: tuple[int, ...] = ()  # for which nobody waits any more


def waits(node: int, life: int, ask: int, waited: float, who: str) -> str:
    """Somebody waits for the lease of an ask."""
    return f"waits {node} {life} {ask} {waited:.1f} {who or '-'}"


def begun(node: int, ticket: int, waited: float, who: str) -> str:
    """An execution begins."""
    return f"begun {node} {ticket} {waited:.1f} {who or '-'}"


def keeps(node: int, ticket: int, sizes: dict[str, tuple[int, int]]) -> str:
    """What an execution left, before its commit."""
    return _sized("keeps", node, ticket, sizes)


def hits(node: int, ticket: int, counts: dict[str, tuple[int, int]]) -> str:
    """What caches had, before the lease ends."""
    return _sized("hits", node, ticket, counts)


def _sized(name: str, node: int, ticket: int, sizes: dict[str, tuple[int, int]]) -> str:
    return " ".join([name, str(node), str(ticket), *(f"{slot}={one}:{other}" for slot, (one, other) in sizes.items())])


def told(words: list[str]) -> Told | None:
    """The words of a hint, which a node sealed; none, where it isn't one of these, or has what none of them may have."""
    if words[0] not in NAMES or not 4 <= len(words) <= (ASKS_MOST if words[0] == "left" else WORDS_MOST):
        return None
    count = {"waits": 4, "left": len(words)}.get(words[0], 3)
    numbers = words[1:count]
    if not all(NUMBER.fullmatch(word) for word in numbers):
        return None
    node, *ids = (int(word) for word in numbers)
    if words[0] == "left":
        return Told("left", node, life=ids[0], asks=tuple(ids[1:]))
    if words[0] in ("keeps", "hits"):
        found = [SIZE.fullmatch(word) for word in words[3:]]
        sizes = {each[1]: (int(each[2]), int(each[3])) for each in found if each}
        return Told(words[0], node, ticket=ids[0], sizes=sizes) if all(found) else None
    if len(words) != count + 2 or not SECONDS.fullmatch(words[count]) or not WHO.fullmatch(words[count + 1]):
        return None
    who = "" if words[count + 1] == "-" else words[count + 1]
    waited = float(words[count])
    if words[0] == "waits":
        return Told("waits", node, life=ids[0], ask=ids[1], waited=waited, who=who)
    return Told("begun", node, ticket=ids[0], waited=waited, who=who)
