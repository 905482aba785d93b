#!/usr/bin/env python3
"""Compares `merge` of the program with a slow model of the rule, over random triples of small trees.

usage: [FARMCTL=PROGRAM] [CALL_SECONDS=N] printed/merged.py [--many TRIPLES] [--seed N]

Without FARMCTL it is the farmctl that the gate builds. All triples of a call stand in one listing, each below a folder of its own that no
side changes, so that a call decides many. The last line is how many triples were right; the status is 1 where one was wrong.
"""
from __future__ import annotations

import argparse
import os
import random
import subprocess
import sys
import tempfile
from collections.abc import Iterator
from pathlib import Path

PROGRAM = os.path.abspath(os.environ.get("FARMCTL") or Path(__file__).resolve().parent.parent / "crates/farmctl/out/farmctl")
SECONDS = float(os.environ.get("CALL_SECONDS") or 60)
RULES = ("newer", "theirs", "mine")
TOGETHER = 1000  # triples of a call
NAMES = (b"a", b"a-b", b"a.", b"b", b"c d", b"%", b"#", b"\xff\xfe", b"0")

Names = tuple[bytes, ...]
Listing = dict[Names, str]  # what stands at each path
Triple = tuple[Listing, Listing, Listing]


# ---- the model: each path by the rule, and all others looked through for what stands below it


def rank(entry: str) -> tuple[bytes, bytes]:
    """What makes an entry newer: the bytes behind its kind, and then the kind."""
    return entry[1:].encode(), entry[:1].encode()


def favoured(rule: str, mine: str | None, theirs: str | None) -> str:
    """The side that is right where both changed a path, differently."""
    if rule != "newer":
        return rule
    if mine is None or theirs is None:
        return "theirs" if mine is None else "mine"
    return "mine" if rank(mine) > rank(theirs) else "theirs"


def chosen(rule: str, base: str | None, mine: str | None, theirs: str | None) -> tuple[str, bool]:
    """The side that a path is taken from, if no other path mattered, and whether both sides changed it, differently."""
    if mine == base or mine == theirs:
        return "theirs", False
    if theirs == base:
        return "mine", False
    return favoured(rule, mine, theirs), True


def is_folder(entry: str | None) -> bool:
    return entry is not None and entry.startswith("d")


def merged(rule: str, triple: Triple) -> tuple[dict[Names, tuple[str, str]], set[Names]]:
    """The side and the entry of each path that stands after the merge, and the conflicts."""
    base, mine, theirs = triple
    sides = {"mine": mine, "theirs": theirs}
    paths = base.keys() | mine.keys() | theirs.keys()
    picks = {path: chosen(rule, base.get(path), mine.get(path), theirs.get(path)) for path in paths}
    flat = {path for path, (side, _) in picks.items() if path in sides[side]}
    stands, conflicts = dict[Names, tuple[str, str]](), set[Names]()
    for path, (side, is_contested) in picks.items():
        other = "mine" if side == "theirs" else "theirs"
        is_above = any(len(path) < len(each) and each[: len(path)] == path for each in flat)
        stays = is_above and not is_folder(sides[side].get(path)) and is_folder(sides[other].get(path))
        if is_contested or stays:
            conflicts.add(path)
        entry = sides[other if stays else side].get(path)
        if entry is not None:
            stands[path] = (other if stays else side, entry)
    return stands, conflicts


# ---- texts


def escaped(name: bytes) -> str:
    return "".join(chr(byte) if 33 <= byte <= 126 and byte not in b"#%@" else f"%{byte:02X}" for byte in name)


def spelled(path: Names) -> str:
    return "/".join(map(escaped, path))


def listing_text(listing: Listing) -> str:
    return "".join(f"{spelled(path)} {listing[path]}\n" for path in sorted(listing))


def answer(rule: str, triples: list[Triple]) -> str:
    """What is printed for all of them."""
    lines, last = list[str](), list[str]()
    for number, triple in enumerate(triples):
        top = top_of(number)
        stands, conflicts = merged(rule, triple)
        lines.append(f"theirs {spelled(top)} d 755\n")
        lines += (f"{stands[path][0]} {spelled(top + path)} {stands[path][1]}\n" for path in sorted(stands))
        last += (f"conflict {spelled(top + path)}\n" for path in sorted(conflicts))
    return "".join(lines + last)


# ---- random triples


def top_of(number: int) -> Names:
    return (b"%06d" % number,)


def entry_of(chance: random.Random) -> str:
    return f"{chance.choice('fflp')} {chance.choice((1, 2, 10)):020d} {chance.choice('ab')}"


def fill(chance: random.Random, tree: Listing, path: Names, depth: int) -> None:
    """Puts something at the path: a file, or a folder with a few names."""
    if depth and chance.random() < 0.6:
        tree[path] = chance.choice(("d 755", "d 755", "d 700"))
        for name in chance.sample(NAMES, chance.randint(0, 3)):
            fill(chance, tree, (*path, name), depth - 1)
    else:
        tree[path] = entry_of(chance)


def without(tree: Listing, path: Names) -> Listing:
    return {each: entry for each, entry in tree.items() if each[: len(path)] != path}


def changed(chance: random.Random, tree: Listing) -> Listing:
    """A tree with a few paths removed, replaced, added or touched."""
    tree = dict(tree)
    for _ in range(chance.choice((0, 1, 1, 2, 3, 5))):
        paths = [path for path in tree]
        folders: list[Names] = [(), *(path for path in paths if is_folder(tree[path]))]
        if paths and chance.random() < 0.7:
            path = chance.choice(paths)
            if chance.random() < 0.5 and not is_folder(tree[path]):
                tree[path] = entry_of(chance)
                continue
            tree = without(tree, path)
            if chance.random() < 0.5:
                continue
        else:
            path = (*chance.choice(folders), chance.choice(NAMES))
            tree = without(tree, path)
        fill(chance, tree, path, 2)
    return tree


def loose(chance: random.Random, tree: Listing) -> Listing:
    """A listing that is no tree: some folders' lines are gone, or are files'."""
    return {path: entry_of(chance) if chance.random() < 0.1 else entry for path, entry in tree.items() if chance.random() < 0.85}


def triples_of(chance: random.Random) -> Iterator[Triple]:
    while True:
        base = dict[Names, str]()
        for name in chance.sample(NAMES, chance.randint(0, 3)):
            fill(chance, base, (name,), 2)
        mine, theirs = changed(chance, base), changed(chance, base)
        if chance.random() < 0.2:
            base, mine, theirs = loose(chance, base), loose(chance, mine), loose(chance, theirs)
        yield base, mine, theirs


# ---- the program


def told(rule: str, triples: list[Triple], room: Path) -> str:
    """What the program prints for all of them."""
    for index, name in enumerate(("base", "mine", "theirs")):
        whole: Listing = {}
        for number, triple in enumerate(triples):
            whole[top_of(number)] = "d 755"
            whole |= {top_of(number) + path: entry for path, entry in triple[index].items()}
        (room / name).write_text(listing_text(whole), "ascii")
    words = [PROGRAM, "merge", "--rule", rule, "base", "mine", "theirs"]
    done = subprocess.run(words, cwd=room, capture_output=True, timeout=SECONDS, check=True)
    return done.stdout.decode("ascii")


def first_wrong(rule: str, triples: list[Triple], room: Path) -> str:
    """The first triple of which something else is printed, if there is one."""
    for triple in triples:
        wanted, came = answer(rule, [triple]), told(rule, [triple], room)
        if wanted != came:
            base, mine, theirs = map(listing_text, triple)
            return f"--rule {rule}\nbase\n{base}mine\n{mine}theirs\n{theirs}wanted\n{wanted}came\n{came}"
    return f"--rule {rule}: {len(triples)} triples together, and none of them alone"


def main() -> int:
    words = argparse.ArgumentParser()
    words.add_argument("--many", type=int, default=3000)
    words.add_argument("--seed", type=int, default=random.randrange(1 << 32))
    found = words.parse_args()
    source, right, contested = triples_of(random.Random(found.seed)), 0, 0
    with tempfile.TemporaryDirectory(prefix="farm-merged-") as made:
        while right < found.many:
            triples = [next(source) for _ in range(min(TOGETHER, found.many - right))]
            for rule in RULES:
                wanted = answer(rule, triples)
                if wanted != told(rule, triples, Path(made)):
                    print(f"merged: seed {found.seed}\n{first_wrong(rule, triples, Path(made))}")
                    return 1
                contested += wanted.count("\nconflict ")
            right += len(triples)
    print(f"merged: {right} triples right by each of {len(RULES)} rules, with {contested} conflicts")
    return 0 if right and contested else 1


if __name__ == "__main__":
    sys.exit(main())
