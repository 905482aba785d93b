"""MANIFEST: the released programs, the sources that each was proved and built from, and the kit that did it."""
from __future__ import annotations

from typing import NamedTuple

from release.sources import TOP, Digests

FORMAT = "jugcress release 1"
PATH = f"{TOP}/release/MANIFEST"


class BadManifest(Exception):
    """The text is no manifest that this version reads."""


class Program(NamedTuple):
    """A released program: its bytes, and their SHA-256."""

    size: int
    digest: str


class Manifest(NamedTuple):
    version: str
    kit: str  # as `rt version` prints it
    handles: str  # the SHA-256 of HANDLES
    crates: dict[str, Digests]
    programs: dict[str, Program]

    def __str__(self) -> str:
        lines = [FORMAT, f"version {self.version}", f"kit {self.kit}", f"handles {self.handles}"]
        lines += [f"crate {name} {each.code} {each.proof}" for name, each in self.crates.items()]
        lines += [f"program {name} {each.size} {each.digest}" for name, each in self.programs.items()]
        return "\n".join([*lines, ""])


def parsed(text: str) -> Manifest:
    """The manifest that a text spells, and no other text does."""
    lines = text.split("\n")
    found = dict(line.split(" ", 1) for line in lines[1:4] if " " in line)
    try:
        crates = [line.split(" ")[1:] for line in lines if line.startswith("crate ")]
        programs = [line.split(" ")[1:] for line in lines if line.startswith("program ")]
        made = Manifest(
            version=found["version"], kit=found["kit"], handles=found["handles"],
            crates={name: Digests(code, proof) for name, code, proof in crates},
            programs={name: Program(int(size), digest) for name, size, digest in programs},
        )
    except (KeyError, ValueError):
        raise BadManifest("it isn't in the form of one") from None
    if str(made) != text:
        raise BadManifest("it isn't in the form of one")
    return made


def read() -> Manifest:
    """The manifest of this checkout or package."""
    with open(PATH) as file:
        return parsed(file.read())
