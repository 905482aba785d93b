"""The digests of the sources that a program is built from, and which crates differ.

Read by `farm`, `farmd` and `farmctl` each time that they begin a program, so it reads each file once and calls nothing.
"""
from __future__ import annotations

import functools
import hashlib
import os
from typing import NamedTuple

TOP = os.path.dirname(os.path.dirname(os.path.abspath(__file__)))
PROGRAMS = ("farmd", "farmctl")


class Digests(NamedTuple):
    """Of one crate: of what is compiled (its line of crates.txt, and src/), and of what is proved of that (specs/ and proofs/)."""

    code: str
    proof: str


def version() -> str:
    """The version of this checkout, or of the package that is installed."""
    with open(f"{TOP}/VERSION") as file:
        return file.read().strip()


def digest_of(path: str) -> str:
    """The SHA-256 of a file."""
    with open(path, "rb") as file:
        return hashlib.file_digest(file, "sha256").hexdigest()


def has_sources(top: str = TOP) -> bool:
    """Whether this is a checkout. An installed farm has no sources."""
    return os.path.exists(f"{top}/crates.txt")


def crates_of(top: str = TOP) -> dict[str, list[str]]:
    """Each crate of crates.txt with the libraries that it uses."""
    with open(f"{top}/crates.txt") as file:
        lines = [line.partition("#")[0] for line in file]
    return {name.strip(): sorted(below.split()) for name, found, below in (line.partition(":") for line in lines) if found}


def needed(program: str, top: str = TOP) -> list[str]:
    """The crates that a program stands on, and its own, by rising name."""
    every = crates_of(top)
    found, queue = set[str](), [program]
    while queue:
        name = queue.pop()
        if name in every and name not in found:
            found.add(name)
            queue += every[name]
    return sorted(found)


def crate_digests(name: str, below: list[str], top: str = TOP) -> Digests:
    """What stands here of a crate."""
    folder = f"{top}/crates/{name}"
    code = hashlib.sha256(f"{name}: {' '.join(below)}\n".encode())
    proof = hashlib.sha256()
    for kept, parts in ((code, ("src",)), (proof, ("specs", "proofs"))):
        for part in parts:
            for path in files_below(f"{folder}/{part}"):
                kept.update(f"{digest_of(path)}  {os.path.relpath(path, folder)}\n".encode())
    return Digests(code.hexdigest(), proof.hexdigest())


def files_below(folder: str) -> list[str]:
    """The files within a folder, by rising path."""
    return sorted((f"{at}/{name}" for at, _, names in os.walk(folder) for name in names), key=os.fsencode)


@functools.cache
def standing(programs: tuple[str, ...] = PROGRAMS, top: str = TOP) -> dict[str, Digests]:
    """What stands here of each crate that the programs need, as this process found it first."""
    every = crates_of(top)
    names = sorted({name for program in programs for name in needed(program, top)})
    return {name: crate_digests(name, every[name], top) for name in names}


def differing(here: dict[str, Digests], there: dict[str, Digests], proofs_too: bool = False) -> list[str]:
    """The crates whose code differs, or, if that is asked, what is proved of it."""
    changed = [
        name for name in sorted({*here, *there})
        if name not in here or name not in there or here[name].code != there[name].code or proofs_too and here[name].proof != there[name].proof
    ]
    return changed


def stamp(program: str, top: str = TOP) -> str:
    """One digest of all sources of a program, which stands beside what is built of them."""
    lines = [f"{name} {each.code}" for name, each in standing((program,), top).items()]
    return hashlib.sha256("\n".join(lines).encode()).hexdigest()
