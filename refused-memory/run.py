#!/usr/bin/env python3
"""Refuses each allocation in turn that farmctl or farmd asks for, and looks at what the program answers.

usage: refused-memory/run.py, at the top of the repository, once crates/farmctl/out/farmctl and crates/farmd/out/farmd are built

Each command runs once with all memory, has to end with the status that its row names, and then runs once for each of its
allocations, with that one refused. Such a run has to end as the undisturbed one does, or with status 3 and the line `out of memory`;
then nothing is on standard output, and no file was made, but that a run of jobs which memory ended midway keeps the record that stands
then, as its words say. Of the runs of jobs a few may end as `fault NoThread`, those whose
allocation was for a thread: the kit doesn't tell why a thread can't be started. Anything else is told, a run that doesn't end within
a minute too, and the check fails.
"""
import collections
import concurrent.futures
import os
import re
import subprocess
import sys
import tempfile
from typing import NamedTuple

# Where the calls have their folders.
PLACE = os.path.abspath("crates/farmctl/out")
# The worked schedules stand in this table, a line each, with `; ` for a line's end.
WORKED = "printed/worked.cases"
# The row of two nodes, which is run so often with threads that rest at random too, the refused one the longest.
SHAKEN, ROUNDS = ("run --nodes 2 df-cache-modes.llb df-cache-modes.llb", 0), 4
# Each command on files of `examples`, and the status of its undisturbed run. It is one of farmctl, unless it names farmd.
ROWS = [
    ("replay locked.schedule", 0),
    ("replay parked.schedule", 0),
    ("replay fenced.schedule", 0),
    ("replay restarted.schedule", 0),
    ("replay tenure.schedule", 0),
    ("replay coordinator-restarted.schedule", 0),
    ("replay --strict --explain failed-save.schedule", 1),
    ("draw tenure.schedule", 0),
    ("draw --explain failed-save.schedule", 0),
    ("check df-multistage.llb", 0),
    ("check --explain locked.schedule", 1),
    ("keys df-cache-modes.llb", 0),
    ("wants df-cache-modes.llb", 0),
    ("record farm.record", 0),
    ("record --explain locked.schedule", 1),
    ("record live.record", 0),
    ("record --explain damaged-log.record", 1),
    ("run --nodes 1 --record kept df-cache-modes.llb", 0),
    SHAKEN,
    ("run --nodes 1 --strict failing.llb put-remove.llb", 1),
    ("farmd node --node 3 --nodes 2 --store nowhere --key key", 2),
    ("farmd coordinator --record nowhere --key nothing", 4),
]
# The listings of a merge, written so too.
LISTINGS = {
    "base": "a d; a/b f 1; c f 1; ",
    "mine": "a d; a/b f 2; a/e%20 f 2; c f 2; ",
    "theirs": "a d; a/b f 3; d f 3; ",
}
# How many runs of a row may end as NoThread. That allocation has another number where a thread that runs already allocates too.
NO_THREAD = 16


class Said(NamedTuple):
    """What came of a run: its status, the lines that it printed, its standard error, and the files that it left."""

    status: int | str
    printed: list[bytes]
    told: bytes
    files: dict[str, bytes]


def answer(words: list[str], environment: dict[str, str]) -> Said:
    """Calls a program in a folder of its own."""
    with tempfile.TemporaryDirectory(dir=PLACE) as room:
        try:
            ran = subprocess.run(
                words, env=environment, cwd=room, stdin=subprocess.DEVNULL, capture_output=True, timeout=60
            )
        except subprocess.TimeoutExpired:
            return Said("without an end", [], b"", {})
        # How many commits a run on two nodes has depends on which thread is first.
        printed = [line for line in ran.stdout.splitlines() if not line.startswith(b"commits ")]
        return Said(ran.returncode, printed, ran.stderr, {name: read(f"{room}/{name}") for name in os.listdir(room)})


def read(path: str) -> bytes:
    with open(path, "rb") as file:
        return file.read()


def allocations(words: list[str], preload: dict[str, str]) -> tuple[Said, int]:
    """Returns what the undisturbed run answers, and how many allocations it asks for."""
    with tempfile.NamedTemporaryFile(dir=PLACE) as count:
        count.write(bytes(8))
        count.flush()
        whole = answer(words, {**preload, "COUNT": count.name})
        return whole, int.from_bytes(read(count.name), sys.byteorder)


def end_of(said: Said, whole: Said, words: list[str]) -> str:
    """Returns how a run with an allocation refused ended, beside the undisturbed one."""
    status, printed, told, files = said
    if said == whole:
        return "same"
    # The record of what stood when a run was stopped, and its log, which is empty.
    is_kept = "--record" in words and set(files) == {"kept", "kept.log"} and files["kept"].startswith(b"BKFARM03") and not files["kept.log"]
    is_clean = not printed and (not files or is_kept)
    if is_clean and (status, told) == (3, b"out of memory\n"):
        return "refused"
    if is_clean and (words[1], status, told) == ("run", 4, b"fault NoThread\n"):
        return "no thread"
    return "otherwise"


def is_sound(row: str, status: int, preload: dict[str, str], folder: str = "examples") -> bool:
    """Prints what came of a row on files of a folder, and returns whether nothing else did than may."""
    name, *words = row.split() if row.startswith("farmd ") else ["farmctl", *row.split()]
    words = [os.path.abspath(f"{folder}/{word}") if "." in word else word for word in words]
    words.insert(0, os.path.abspath(f"crates/{name}/out/{name}"))
    whole, count = allocations(words, preload)
    ends, wrong = collections.Counter[str](), list[str]()
    # Threads that rest leave a processor to others.
    at_once = (os.cpu_count() or 1) * (10 if "SHAKE" in preload else 1)
    with concurrent.futures.ThreadPoolExecutor(at_once) as pool:
        runs = pool.map(lambda number: answer(words, {**preload, "REFUSE": str(number)}), range(1, count + 1))
        for number, said in enumerate(runs, 1):
            end = end_of(said, whole, words)
            ends[end] += 1
            if end == "otherwise":
                wrong.append(f"  allocation {number}: {said}"[:600])
    print(
        f"{row}{', shaken' if 'SHAKE' in preload else ''}: status {whole.status}, {count} allocations, {ends['refused']} runs refused, {ends['same']} as before,"
        f" {ends['no thread']} without a thread, {len(wrong)} otherwise",
        flush=True,
    )
    for line in wrong[:8]:
        print(line, flush=True)
    # A row whose command doesn't work, or of which no allocation was refused, shows nothing.
    if whole.status == status and ends["refused"] > 0 and ends["no thread"] <= NO_THREAD and not wrong:
        return True
    print(f"  failed: wanted are status {status}, refusals, at most {NO_THREAD} without a thread, and nothing otherwise", flush=True)
    return False


def worked(folder: str) -> list[tuple[str, int]]:
    """Writes each worked schedule to a file of the folder, and returns a row for each."""
    schedules = re.findall(r"^text F (nodes .+)$", read(WORKED).decode(), re.MULTILINE)
    rows = []
    for number, schedule in enumerate(schedules, 1):
        with open(f"{folder}/worked-{number}.schedule", "w", encoding="ascii") as file:
            file.write(schedule.replace("; ", "\n"))
        rows.append((f"replay worked-{number}.schedule", 0))
    return rows


def merge(folder: str) -> tuple[str, int]:
    """Writes the listings to files of the folder, and returns the row of their merge."""
    for name, text in LISTINGS.items():
        with open(f"{folder}/{name}.listing", "w", encoding="ascii") as file:
            file.write(text.replace("; ", "\n"))
    return "farmd merge base.listing mine.listing theirs.listing", 0


def main() -> int:
    with tempfile.TemporaryDirectory(dir=PLACE) as room:
        library = f"{room}/refuse.so"
        compiler = os.environ.get("CC") or "cc"
        subprocess.run([compiler, "-O2", "-shared", "-fPIC", "-o", library, "refused-memory/refuse.c", "-ldl"], check=True)
        preload = {**os.environ, "LD_PRELOAD": library}
        sound = [is_sound(row, status, preload) for row, status in ROWS]
        sound += [is_sound(*SHAKEN, {**preload, "SHAKE": "1"}) for _ in range(ROUNDS)]
        rows = worked(room)
        sound += [is_sound(row, status, preload, room) for row, status in [*rows, merge(room)]]
    return 0 if all(sound) and rows else 1


sys.exit(main())
