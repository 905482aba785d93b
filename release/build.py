"""Builds a program out of the sources that stand here, by the Rattle kit: proved as the gate does it, or optimised and unproved for a trial.

Both work on a copy of the crates that the program needs, so the checkout may change meanwhile; what was built bears a stamp of the sources
that it was built from.
"""
from __future__ import annotations

import contextlib
import os
import shutil
import subprocess
import sys
import tempfile
import threading
import time
from typing import Iterator

from release.choice import MISSING, NoProgram
from release.sources import TOP, digest_of, needed, stamp, standing

PARTS = ("src", "specs", "proofs", "stdin", "stdout", "args", "status", "data")  # what a program is proved and run with: no edits
FAILED = 70
LOOK = 2.0  # seconds from one line of progress to the next


def tell(name: str, text: str) -> None:
    print(f"{name}: {text}", file=sys.stderr, flush=True)


def need_kit() -> str:
    """The folder of the kit."""
    found = shutil.which("rt")
    if not found:
        raise NoProgram("it is built by the Rattle kit, whose command rt isn't here: put rt on the PATH", MISSING)
    return os.path.dirname(os.path.dirname(os.path.realpath(found)))


@contextlib.contextmanager
def copied(programs: tuple[str, ...]) -> Iterator[str]:
    """A copy of the crates that programs need."""
    with tempfile.TemporaryDirectory(prefix="jugcress-build-") as room:
        names = sorted({name for program in programs for name in needed(program)})
        os.mkdir(f"{room}/.git")
        shutil.copyfile(f"{TOP}/HANDLES", f"{room}/HANDLES")
        with open(f"{TOP}/crates.txt") as file, open(f"{room}/crates.txt", "w") as copied_file:  # line by line: what was proved is kept by them
            copied_file.writelines(line for line in file if line.partition(":")[0].strip() in names)
        for name in names:
            os.makedirs(f"{room}/crates/{name}")
            for part in PARTS:
                copy(f"{TOP}/crates/{name}/{part}", f"{room}/crates/{name}/{part}")
        yield room


def copy(one: str, to: str) -> None:
    if os.path.isdir(one):
        shutil.copytree(one, to)
    elif os.path.exists(one):
        shutil.copyfile(one, to)


def put(name: str, program: str, kind: str, sources: str) -> str:
    """Puts a program that was built where `choice` looks for it, with its stamp."""
    folder = f"{TOP}/crates/{name}/out"
    os.makedirs(folder, exist_ok=True)
    to = f"{folder}/{kind}"
    with contextlib.suppress(FileNotFoundError):
        os.unlink(f"{to}.sources")
    shutil.copyfile(program, f"{to}.new")
    os.chmod(f"{to}.new", 0o755)
    os.replace(f"{to}.new", to)
    with open(f"{to}.sources", "w") as file:
        file.write(f"{sources} {digest_of(to)}\n")
    return to


def proved(programs: tuple[str, ...], room: str, anew: bool = False) -> None:
    """Proves and builds programs in a copy of their crates, and tells how far it is."""
    name, begun = programs[0], time.monotonic()
    with open(f"{room}/log", "w") as log:
        running = subprocess.Popen(["rt", "ci", *(["--anew"] if anew else [])], cwd=room, stdin=subprocess.DEVNULL, stdout=log, stderr=log)
        try:
            watch(name, room, running, begun)
        finally:
            if running.poll() is None:
                running.terminate()
                running.wait()
    if running.returncode:
        kept = f"{TOP}/crates/{name}/out/build.log"
        os.makedirs(os.path.dirname(kept), exist_ok=True)
        shutil.copyfile(f"{room}/log", kept)
        raise NoProgram(f"it was not built; {kept} says why", FAILED)


def watch(name: str, room: str, running: subprocess.Popen[bytes], begun: float) -> None:
    """Tells of each crate that is proved, until all are."""
    total, said = len(os.listdir(f"{room}/crates")), ""
    while running.poll() is None:
        done = sum(os.path.exists(f"{room}/crates/{each}/out/rlib/{each}.rlib") for each in os.listdir(f"{room}/crates"))
        now = f"{done} of {total} crates are proved after {(time.monotonic() - begun) / 60:.0f} minutes"
        if now != said:
            said = now
            tell(name, now)
        with contextlib.suppress(subprocess.TimeoutExpired):
            running.wait(LOOK)


def build(name: str) -> str:
    """`--build`: proves and builds a program as the gate does."""
    need_kit()
    tell(name, "proving and building it, in some 20 minutes to two hours; what an earlier run proved on this machine is not proved again")
    with copied((name,)) as room:
        sources = stamp(name, room)
        proved((name,), room)
        return put(name, f"{room}/crates/{name}/out/{name}", name, sources)


def trial(name: str) -> str:
    """`--trial`: an optimised program of which nothing is proved, out of what the kit's interpreter for trials lowers."""
    kit = need_kit()
    tell(name, "building a trial, of which nothing is proved, in some two minutes")
    with copied((name,)) as room, progress(name):
        sources = stamp(name, room)
        flags = lowered(name, room, kit)
        link(f"{room}/{name}", room, kit, flags)
        return put(name, f"{room}/{name}", "trial", sources)


@contextlib.contextmanager
def progress(name: str) -> Iterator[None]:
    """Tells every half minute that it goes on."""
    over, begun = threading.Event(), time.monotonic()

    def ticks() -> None:
        while not over.wait(30.0):
            tell(name, f"still building, after {time.monotonic() - begun:.0f} s")

    teller = threading.Thread(target=ticks, daemon=True)
    teller.start()
    try:
        yield
    finally:
        over.set()
        teller.join()


def lowered(name: str, room: str, kit: str) -> list[str]:
    """Has the kit lower a program to LLVM's form, and stop there: module.bc in the room. The words for clang, but for the level."""
    own = f"{room}/kit"
    os.makedirs(f"{own}/bin")
    os.makedirs(f"{own}/toolchain/bin")
    for folder in ("", "bin", "toolchain", "toolchain/bin"):
        for each in os.listdir(f"{kit}/{folder}"):
            path = os.path.join(folder, each)
            if path not in ("bin", "toolchain", "toolchain/bin", "toolchain/bin/clang", "bin/rt", "bin/rtlib.py"):
                os.symlink(f"{kit}/{path}", f"{own}/{path}")
    for each in ("rt", "rtlib.py"):
        shutil.copy(f"{kit}/bin/{each}", f"{own}/bin/{each}")
    clang = f"{own}/toolchain/bin/clang"
    with open(clang, "w") as file:
        file.write(
            '#!/bin/bash\nfor each in "$@"; do case $each in -fsanitize=*)\n'
            f'  cp module.bc "{room}/module.bc"; printf \'%s\\n\' "$@" >"{room}/flags"; exit 1 ;; esac; done\n'
            f'exec -a "$0" "{kit}/toolchain/bin/clang" "$@"\n'
        )
    os.chmod(clang, 0o755)
    with open(f"{room}/log", "w") as log:
        env = os.environ | {"TMPDIR": room}
        subprocess.run([f"{own}/bin/rt", "try", "--", "--help"], cwd=f"{room}/crates/{name}", env=env, stdin=subprocess.DEVNULL, stdout=log, stderr=log)
    if not os.path.exists(f"{room}/flags"):
        kept = f"{TOP}/crates/{name}/out/build.log"
        os.makedirs(os.path.dirname(kept), exist_ok=True)
        shutil.copyfile(f"{room}/log", kept)
        raise NoProgram(f"it was not built; {kept} says why", FAILED)
    with open(f"{room}/flags") as file:
        flags = file.read().split("\n")
    return [flag for flag in flags if flag and flag != "-O0" and not flag.startswith(("-fsanitize=", "--sysroot"))]


def link(to: str, room: str, kit: str, flags: list[str]) -> None:
    """Compiles what was lowered, optimised, and links it."""
    with open(f"{room}/log", "a") as log:
        for words in (
            [f"{kit}/toolchain/bin/clang", f"--sysroot={kit}/toolchain", *flags, "-O1"],
            [
                f"{kit}/bin/rattle-link", "--target", "x86_64-unknown-linux-gnu", "--toolchain", f"{kit}/toolchain", "-o", to,
                f"{room}/module.o", f"{kit}/c/libos_c.a", f"{kit}/c/liblibc_c.a",
            ],
        ):
            subprocess.run(words, cwd=room, check=True, stdin=subprocess.DEVNULL, stdout=log, stderr=log)


def has_changed(programs: tuple[str, ...], room: str) -> bool:
    """Whether the checkout changed since a copy of it was made."""
    return standing(programs) != standing(programs, room)
