"""Which program runs: the one that FARMCTL names; one that was proved and built here from these sources; the released one, if it was built
from these sources; a trial of them. Nothing is proved or built unasked, and nothing runs whose bytes aren't the manifest's.
"""
from __future__ import annotations

import os
import shutil
from typing import NamedTuple

from release import manifest
from release.sources import PROGRAMS, TOP, differing, digest_of, has_sources, stamp, standing, version

MISSING, SPOILT = 69, 70
MOST_NAMED = 4  # crates that a sentence names


class NoProgram(Exception):
    """No program may run here: why, what to do, and the status that says so."""

    def __init__(self, text: str, status: int) -> None:
        super().__init__(text)
        self.status = status


class Choice(NamedTuple):
    """A program that may run, and what it is."""

    path: str
    what: str  # `the release`, `built here` and the like


def named() -> Choice | None:
    """The program that FARMCTL names."""
    given = os.environ.get("FARMCTL")
    if not given:
        return None
    found = shutil.which(given)
    if not found:
        raise NoProgram(f"the farm's program isn't there, or can't be run: FARMCTL names {given}", MISSING)
    return Choice(os.path.abspath(found), "what FARMCTL names")


def built(name: str) -> Choice | None:
    """A program that was proved and built here from the sources that stand here."""
    return stamped(name, name, "proved and built here")


def trial(name: str) -> Choice | None:
    """A trial that was built here from the sources that stand here."""
    return stamped(name, "trial", "a trial, of which nothing is proved")


def stamped(name: str, file_name: str, what: str) -> Choice | None:
    """A program among what was built here, if its stamp says these sources and these bytes."""
    path = f"{TOP}/crates/{name}/out/{file_name}"
    try:
        with open(f"{path}.sources") as file:
            kept, digest = file.read().split()
    except (OSError, ValueError):
        return None
    return Choice(path, what) if os.access(path, os.X_OK) and kept == stamp(name, TOP) and digest == digest_of(path) else None


def released(name: str) -> Choice | None:
    """The released program. None where there is none, or it was built from other sources."""
    path = f"{TOP}/release/{name}"
    if not os.path.exists(path) or not os.path.exists(manifest.PATH):
        return None
    try:
        found = manifest.read()
    except (manifest.BadManifest, UnicodeDecodeError) as fault:
        raise NoProgram(f"{manifest.PATH} is spoilt: {fault}. Take the release anew from where it came from", SPOILT) from None
    program = found.programs.get(name)
    if program is None or program.size != os.path.getsize(path) or program.digest != digest_of(path):
        raise NoProgram(f"{path} is spoilt: it isn't the file that MANIFEST names. Take the release anew from where it came from", SPOILT)
    return Choice(path, "the release") if not changed(name, found) else None


def changed(name: str, found: manifest.Manifest) -> list[str]:
    """The crates of a program whose sources aren't those of the release, or HANDLES."""
    if not has_sources(TOP):
        return []
    here = standing((name,), TOP)
    handles = [] if os.path.exists(f"{TOP}/HANDLES") and digest_of(f"{TOP}/HANDLES") == found.handles else ["HANDLES"]
    return handles + differing(here, {crate: each for crate, each in found.crates.items() if crate in here})


def chosen(name: str) -> Choice:
    """The program that runs."""
    choice = named() or built(name) or released(name) or trial(name)
    if choice is None:
        raise NoProgram(why_none(name), MISSING)
    return choice


def chosen_filter() -> Choice:
    """The program whose processes decide, of those that have them: farmd before farmctl."""
    choice = named() or next(filter(None, (find(name) for find in (built, released, trial) for name in PROGRAMS)), None)
    if choice is None:
        raise NoProgram(why_none("farmd"), MISSING)
    return choice


def why_none(name: str) -> str:
    """Why nothing runs, and what to do."""
    what = "there is no release here"
    if os.path.exists(f"{TOP}/release/{name}"):
        crates = changed(name, manifest.read())
        more = f" and {len(crates) - MOST_NAMED} more" if len(crates) > MOST_NAMED else ""
        what = f"the release was built from other sources of {', '.join(crates[:MOST_NAMED])}{more}"
    return (
        f"{what}. ./{name} --build proves and builds these with the Rattle kit, in an hour or so; "
        f"./{name} --trial builds them optimised in some two minutes, and proves nothing"
    )


def told(name: str, choice: Choice) -> str:
    """The line of --version."""
    return f"{name} {version()}, {choice.what}, sha256:{digest_of(choice.path)}"
