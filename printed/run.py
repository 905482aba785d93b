#!/usr/bin/env python3
"""Calls farmctl as the tables beside it say, and compares what it prints, its statuses and its files.

usage: [FARMCTL=PROGRAM] [CALL_SECONDS=N] printed/run.py [TABLE..]

Without FARMCTL it is the farmctl that the gate builds; `processes.cases` is farmd's too. A call may take 60 seconds, and one of a build
that isn't proved needs more. A table is a file `TABLE.cases` of blocks, parted by an empty line. The first word of a line says what it is:

    # ..                   a comment
    text NAME LINE; LINE   adds text to a file: `; ` is a line feed, and escapes are those of Python
    hex NAME DIGITS        adds bytes to it
    lines NAME N LINE      adds a line N times, with its number for {}; `hexes` adds bytes so
    cut NAME FROM TO       the block is tried with the file cut to each of these lengths
    $ WORDS                calls farmctl in the folder of the files; a last word `<NAME` is the file that it reads, `>PATH` one that it
                           prints to
    < LINE                 is read by it; `<!` is a line that gets no seal
    > LINE                 is printed to the standard output
    ! LINE                 is printed to the standard error
    = N                    is the status, where it isn't 0
    left NAME TEXT         is what a file has at the end; the others have what they were given

Of what is printed a line `...` is any lines, and `...` at a line's end any rest. A line that begins with `m ` is a message, read or printed
with its MAC under the key that is made of the file `key` for the node of its second word, or with a dash where it is of a content. The files of a block without a call are there for all blocks below it. The schedules of `worked.cases`
are also cut at each byte, and read, or refused at their last line. The status is 1 where a case is wrong, or none is tried.
"""
from __future__ import annotations

import concurrent.futures
import dataclasses
import difflib
import hashlib
import hmac
import os
import re
import subprocess
import sys
import tempfile
from collections.abc import Callable, Iterator
from pathlib import Path
from typing import IO

HERE = Path(__file__).resolve().parent
PROGRAM = os.path.abspath(os.environ.get("FARMCTL") or HERE.parent / "crates/farmctl/out/farmctl")
SECONDS = float(os.environ.get("CALL_SECONDS") or 60)


@dataclasses.dataclass
class Call:
    """The words of a call, what it reads, and what is wanted of it."""
    words: list[str]
    read: list[str] = dataclasses.field(default_factory=list)
    out: list[str] = dataclasses.field(default_factory=list)
    err: list[str] = dataclasses.field(default_factory=list)
    status: int = 0


@dataclasses.dataclass
class Case:
    """Where a block stands, its files and calls, the files that change, and the file that is cut."""
    place: str
    files: dict[str, bytes]
    calls: list[Call] = dataclasses.field(default_factory=list)
    left: dict[str, bytes] = dataclasses.field(default_factory=dict)
    cut: tuple[str, range] = ("", range(0))


def unescaped(text: str) -> str:
    return text.encode("ascii").decode("unicode_escape")


def data_of(text: str) -> bytes:
    return unescaped(text).replace("; ", "\n").encode("latin-1")


def repeated(rest: str) -> str:
    count, _, line = rest.partition(" ")
    return "".join(f"{line}\n".format(number) for number in range(1, int(count) + 1)) if "{" in line else f"{line}\n" * int(count)


DATA: dict[str, Callable[[str], bytes]] = {"text": data_of, "hex": bytes.fromhex}
DATA |= {"lines": lambda rest: repeated(rest).encode("ascii"), "hexes": lambda rest: bytes.fromhex(repeated(rest))}


def mac(key: bytes, text: str) -> str:
    return hmac.new(key, text.encode("latin-1"), hashlib.sha256).hexdigest()


def sealed(case: Case, line: str) -> str:
    """A message's line with its seal; any other as it is."""
    if not line.startswith("m "):
        return line
    text, key = line[2:], case.files.get("key", b"").removesuffix(b"\n")
    if text.startswith(("fetch ", "blob ")):
        return f"{line} -"
    if named := re.match(r"[^ ]* ([1-9][0-9]*) ", text):
        key = mac(key, f"key of node {named[1]} in epoch 0").encode("ascii")
    return f"{line} {mac(key, text)}"


def add(case: Case, line: str) -> None:
    """Takes a line of a block."""
    kind, _, rest = line.partition(" ")
    name, _, data = rest.partition(" ")
    if kind in DATA:
        case.files[name] = case.files.get(name, b"") + DATA[kind](data)
    elif kind == "left":
        case.left[name] = data_of(data)
    elif kind == "cut":
        first, last = map(int, data.split())
        case.cut = name, range(first, last + 1)
    elif kind == "$":
        case.calls.append(Call(rest.split()))
    elif kind == "=":
        case.calls[-1].status = int(rest)
    elif kind in ("<", "<!"):
        case.calls[-1].read.append(sealed(case, unescaped(rest)) if kind == "<" else unescaped(rest))
    elif kind in (">", "!"):
        (case.calls[-1].out if kind == ">" else case.calls[-1].err).append(sealed(case, rest))
    elif kind != "#":
        raise ValueError(f"{case.place}: {line}")


def cases_of(table: Path) -> Iterator[Case]:
    """The cases of a table."""
    shared, number = dict[str, bytes](), 1
    for block in table.read_text("ascii").split("\n\n"):
        case = Case(f"{table.name}:{number}", dict(shared))
        for line in block.splitlines():
            add(case, line)
        number += block.count("\n") + 2
        name, lengths = case.cut
        if not case.calls:
            shared = case.files
        elif not name:
            yield case
        for length in lengths:
            yield dataclasses.replace(case, files=case.files | {name: case.files[name][:length]})


def is_so(wanted: list[str], printed: bytes) -> bool:
    """Whether this was printed."""
    parts = ("(?:.*\n)*" if line == "..." else f"{re.escape(line)}\n" for line in wanted)
    pattern = "".join(parts).replace(re.escape("...") + "\n", "(?s:.*)\n")
    return re.fullmatch(pattern, printed.decode("latin-1")) is not None


def ran(words: list[str], room: str, read: bytes) -> tuple[int, bytes, bytes]:
    """The status of a call, -1 where it doesn't end, and what it printed."""
    path = words.pop()[1:] if words and words[-1].startswith(">") else ""
    with open(path or os.devnull, "wb") as other:
        out: IO[bytes] | int = other if path else subprocess.PIPE
        try:
            done = subprocess.run([PROGRAM, *words], cwd=room, input=read, stdout=out, stderr=subprocess.PIPE, timeout=SECONDS)
        except subprocess.TimeoutExpired:
            return -1, b"", b"it doesn't end\n"
    return done.returncode, done.stdout or b"", done.stderr


def wrong_call(case: Case, call: Call, room: str) -> str:
    """What is wrong of a call: no text where nothing is."""
    words, read = list(call.words), "".join(f"{line}\n" for line in call.read).encode("latin-1")
    if words and words[-1].startswith("<"):
        words, read = words[:-1], case.files[words[-1][1:]]
    status, out, err = ran(words, room, read)
    if status == call.status and is_so(call.out, out) and is_so(call.err, err):
        return ""
    wanted = [*(f"> {line}" for line in call.out), *(f"! {line}" for line in call.err), f"= {call.status}"]
    printed = [f"{mark} {line}" for mark, text in ((">", out), ("!", err)) for line in text.decode("latin-1").splitlines()]
    differs = list(difflib.unified_diff(wanted, [*printed, f"= {status}"], "wanted", "came", lineterm="", n=2))
    return "\n".join(f"  {line}" for line in (f"$ {' '.join(call.words)}", *differs[:60]))


def wrong_case(case: Case) -> str:
    """What is wrong of a case."""
    with tempfile.TemporaryDirectory(prefix="farm-printed-") as room:
        for name, data in case.files.items():
            Path(room, name).parent.mkdir(exist_ok=True)
            Path(room, name).write_bytes(data)
        wrong = [wrong_call(case, call, room) for call in case.calls]
        left = {path.relative_to(room).as_posix(): path.read_bytes() for path in Path(room).rglob("*") if path.is_file()}
    wrong += [f"  {name} has other bytes" for name, data in (case.files | case.left).items() if left.get(name) != data]
    return "\n".join(filter(None, wrong))


def wrong_cuts(case: Case) -> str:
    """What is wrong of a schedule that is cut at each byte: more beginnings are read than its lines, and fewer than all."""
    text, read = case.files["F"], 0
    for length in range(len(text) + 1):
        status, _, err = ran(["replay", "-"], "/", text[:length])
        last = text[:length].count(b"\n") + 1
        if (status, err) not in ((0, b""), (1, f"refused BadLine {last}\n".encode())):
            return f"  cut to {length} bytes: status {status}, {err!r}"
        read += status == 0
    return "" if text.count(b"\n") < read < len(text) else f"  {read} beginnings are read"


def tries(tables: list[str]) -> Iterator[tuple[str, Case, Callable[[Case], str]]]:
    """The cases of these tables, of all if none is named: where each stands, and what tells what is wrong of it."""
    for table in sorted(HERE.glob("*.cases")):
        for case in cases_of(table) if table.stem in tables or not tables else ():
            yield case.place, case, wrong_case
            if table.stem == "worked":
                yield f"{case.place}, cut", case, wrong_cuts


def main() -> int:
    with concurrent.futures.ThreadPoolExecutor(os.cpu_count()) as pool:
        found = [(place, pool.submit(wrong_of, case)) for place, case, wrong_of in tries(sys.argv[1:])]
    wrong = [f"printed/{place}\n{said.result()}" for place, said in found if said.result()]
    print(*wrong, f"printed: {len(found) - len(wrong)} right, {len(wrong)} wrong", sep="\n")
    return 0 if found and not wrong else 1


if __name__ == "__main__":
    sys.exit(main())
