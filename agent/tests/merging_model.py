"""The rule of `farmd merge`, path by path and slowly: for the stand-in, and for tests of the agent that compare with it."""
from __future__ import annotations

import sys
from urllib.parse import unquote_to_bytes

Listing = dict[str, str]  # of each path, the words of its entry


def read(text: str) -> Listing:
    rows = [line.split(" ", 1) for line in text.splitlines()]
    found = {path: entry for path, entry in rows}
    order = [spelled(path) for path in found]
    if len(found) != len(rows) or order != sorted(order) or text and not text.endswith("\n"):
        raise ValueError("it holds no listing")
    return found


def spelled(path: str) -> list[bytes]:
    return unquote_to_bytes(path).split(b"/")


def chosen(base: str | None, mine: str | None, theirs: str | None, rule: str) -> tuple[str | None, str, bool]:
    """What stands at a path if nothing stands below it: the entry, whose it is, and whether both sides had something else in mind."""
    if mine == base or mine == theirs:
        return theirs, "theirs", False
    if theirs == base:
        return mine, "mine", False
    if rule != "newer":
        return (mine, "mine", True) if rule == "mine" else (theirs, "theirs", True)
    if mine is None or theirs is None:
        return (theirs, "theirs", True) if mine is None else (mine, "mine", True)
    is_mine = (mine[1:], mine[0]) > (theirs[1:], theirs[0])
    return (mine, "mine", True) if is_mine else (theirs, "theirs", True)


def merge(base: Listing, mine: Listing, theirs: Listing, rule: str) -> tuple[dict[str, tuple[str, str]], list[str]]:
    """Of each path that stands its side and entry, and the conflicts."""
    paths = base.keys() | mine.keys() | theirs.keys()
    picked = {path: chosen(base.get(path), mine.get(path), theirs.get(path), rule) for path in paths}
    stands: dict[str, tuple[str, str]] = {}
    conflicts = {path for path, (_, _, is_contested) in picked.items() if is_contested}
    for path, (entry, side, _) in picked.items():
        if entry is not None:
            stands[path] = side, entry
    for path in sorted(paths):
        entry = picked[path][0]
        if (entry is None or entry[0] != "d") and any(
            below.startswith(f"{path}/") and other is not None for below, (other, _, _) in picked.items()
        ):
            side = "theirs" if theirs.get(path, " ")[0] == "d" else "mine"
            stands[path] = side, (theirs if side == "theirs" else mine)[path]
            conflicts.add(path)
    return stands, sorted(conflicts, key=spelled)


def main(words: list[str]) -> int:
    rule = "newer"
    if words[:1] == ["--rule"]:
        rule, words = words[1], words[2:]
    listings = []
    for path in words:
        with open(path, encoding="utf-8") as file:
            try:
                listings.append(read(file.read()))
            except ValueError as fault:
                print(f"refused BadListing\n{path}: {fault}", file=sys.stderr)
                return 1
    base, mine, theirs = listings
    stands, conflicts = merge(base, mine, theirs, rule)
    for path in sorted(stands, key=spelled):
        print(stands[path][0], path, stands[path][1])
    for path in conflicts:
        print("conflict", path)
    return 0
