#!/usr/bin/env python3
"""Damages inputs of the tables, and looks at what farmctl answers.

usage: [FARMCTL=PROGRAM] [CALL_SECONDS=N] printed/damaged.py [COUNT [SEED]]

Of each kind COUNT inputs are made of sound ones, 300 if it isn't said: bytes are turned, cut out, repeated or put in, and mostly the digests
and heads of what a coordinator keeps are made right then. Each is refused, as docs/REFUSALS.md has it, or accepted, and no file changes. The
line of a schedule that is refused is the first one; a schedule that is accepted prints the same without its empty lines, and what
disturbed.py looks at holds. `check` and `keys` agree, and so do `record` and the coordinator that starts from the same files. The status is
1 where something is wrong. Tried on programs that abort, don't end, run out of memory, write to the file, accept or refuse everything, print
a line less or another number, or name or explain a refusal otherwise: each is told.
"""
from __future__ import annotations

import hashlib
import random
import re
import sys
import tempfile
from collections.abc import Callable, Iterator
from pathlib import Path

sys.dont_write_bytecode = True

from disturbed import Wrong, expect, failures  # noqa: E402
from run import HERE, cases_of, ran  # noqa: E402

Files = dict[str, bytes]
Damage = Callable[[random.Random, bytes], bytes]
Look = Callable[[Files], bool]
FORM = r"Truncated|VarintTooLong|BadWireType|BadFieldNumber|NotUtf8 \d+|EmptyDefinition|NoResult|Cycle|UnknownSharing \d+ \d+"
PLACED = "BadOp|NoOp|BadInputDigest|MissingInput|NegativeIndex|NoMeta|NoArgs|NoMounts|NoRoot|BadMountInput|NoCacheOpt|TooManyCacheMounts"
KEPT = "Truncated|BadMagic|BadDigest|NotCanonical (?:Order|Range|Utf8|Trailing|Relation)"
REFUSALS = {"replay": r"BadLine \d+", "record": rf"(?:{KEPT})(?: \d+)?|BadHead \d+"} | dict.fromkeys(("check", "keys"), rf"{FORM}|(?:{PLACED}) \d+")


def called(words: list[str], files: Files, read: bytes = b"") -> tuple[int, str, str, Files]:
    """The status of a call in a folder of these files, what is printed, and what they are then."""
    with tempfile.TemporaryDirectory(prefix="farm-damaged-") as room:
        for name, data in files.items():
            Path(room, name).write_bytes(data)
        status, out, err = ran(words, room, read)
        return status, out.decode("latin-1"), err.decode("latin-1"), {path.name: path.read_bytes() for path in Path(room).iterdir()}


def answer(word: str, files: Files) -> tuple[str, list[str]]:
    """The refusal of a file, or none and the lines that are printed of it."""
    status, out, err, left = called([word, "--explain", "F"], files)
    lines, refusal = out.split("\n")[:-1], re.fullmatch(rf"refused ({REFUSALS[word]})\n(F(?:\.log)?: .+)\n", err)
    events = "".join(f"F: event {line.split()[0]}: .+\n" for line in lines if " refused " in line)
    is_known = not lines if status == 1 and refusal else status == 0 and re.fullmatch(events, err)
    expect(bool(is_known), f"{word}: status {status}, {out[-200:]!r}, {err[-200:]!r}")
    expect(left == files, f"{word}: a file isn't as it was")
    places, explained = (re.findall("(?<= )\\d+", text) for text in (refusal.groups() if refusal else ("", "")))
    expect(set(places) <= set(explained), f"{word}: {err!r}")
    return refusal[1] if refusal else "", lines


def damaged(dice: random.Random, data: bytes) -> bytes:
    made = bytearray(data)
    for _ in range(dice.choice((1, 1, 2, 4))):
        first, length = dice.randrange(len(made) + 1), dice.choice((1, 2, 8, 64))
        run = made[first:first + length]
        turned = bytes(byte ^ 1 << dice.randrange(8) for byte in run[:1]) + run[1:]
        made[first:first + length] = dice.choice((turned, turned, b"", run + run, bytes(dice.choices(made or b"0", k=length)) + run))
    return bytes(made)


def damaged_record(dice: random.Random, data: bytes) -> bytes:
    made = damaged(dice, data)
    return made[:-32] + hashlib.sha256(made[:-32]).digest() if dice.randrange(4) else made


def damaged_log(dice: random.Random, log: bytes) -> bytes:
    """A log with an entry that is damaged, lost or repeated, mostly under right heads."""
    entries: list[bytes] = re.findall(rb"(?s)BKENTR01.*?(?=.{24}BKENTR01|\Z)", log)
    place = dice.randrange(len(entries))
    ways: list[list[bytes]] = [[damaged_record(dice, entries[place])], [], 2 * [entries[place]]]
    entries[place:place + 1] = dice.choice(ways)
    heads = [log[:8] + len(entry).to_bytes(8, "big") for entry in entries]
    made = b"".join(head + hashlib.sha256(head).digest()[:8] + entry for head, entry in zip(heads, entries))
    return made if dice.randrange(4) else damaged(dice, log)


def look_at_schedule(files: Files) -> bool:
    """Whether it is accepted, as all of these."""
    refusal, told = answer("replay", files)
    text = files["F"].split(b"\n")
    if refusal:
        place = int(refusal.split()[1])
        before, to = (answer("replay", {"F": b"\n".join(text[:count])})[0] for count in (place - 1, place))
        expect(to == refusal and (place == 1 or not before), f"{refusal}, to that line {to!r}, to the one before {before!r}")
        return False
    lines = [text[0], *filter(None, text[1:])]
    expect(answer("replay", {"F": b"\n".join(lines)})[1] == told, "it prints other lines without the empty ones")
    expect([line.split()[0] for line in told[:len(lines) - 1]] == [str(number) for number in range(1, len(lines))], f"{told!s:.300} isn't of {lines!s:.300}")
    failures([line.decode("ascii") for line in lines])
    return True


def look_at_definition(files: Files) -> bool:
    (refusal, checked), (other, keyed) = (answer(word, files) for word in ("check", "keys"))
    expect(refusal == other, f"check refuses it as {refusal!r}, keys as {other!r}")
    if not refusal:
        digests, (*counted, digest, _) = [line.split()[0] for line in keyed], " ".join(checked).split()
        expect(counted == ["vertices", str(len(set(digests))), "result"] and digest in digests, f"{checked} isn't of {keyed!s:.300}")
    return not refusal


def facts_of(line: str) -> list[str]:
    """What a coordinator says of a line of its record."""
    match line.split():
        case ["life" | "gone" | "retired", *_]:
            return [line]
        case ["home", _]:
            return []
        case ["last", ticket]:
            return [f"tickets {ticket}"]
        case ["lease", *words]:
            kind = "tenure" if "tenure" in words else "shared" if "shared" in words else "plain"
            return [" ".join(["lease", *words[:4], kind, *(word for word in words if ":" in word)])]
    slot, *versions = line.split()
    return [*(version.replace(":", " ") for version in versions), f"last {slot} {versions[-1]}"]


def look_at_record(files: Files) -> bool:
    refusal, lines = answer("record", files)
    asks = ["status", *(f"line {line.split()[0]}" for line in lines if ":" in line.split()[0])]
    words = ["coordinator", "--record", "F", "--key", "key"]
    status, out, err, left = called(words, files | {"key": b"5" * 64}, "".join(f"{ask}\n" for ask in asks).encode("ascii"))
    expect(err.startswith("refused BadRecord\n") and status == 1 if refusal else not err and status == 0, f"{refusal!r}, coordinator {err!r}")
    expect(not refusal or files.items() <= left.items(), "a coordinator that doesn't start changes a file")
    told, wanted = (sorted(facts) for facts in (re.findall("^: (.*)$", out, re.MULTILINE), [fact for line in lines for fact in facts_of(line)]))
    expect(told == wanted, f"record {wanted!s:.300}, coordinator {told!s:.300}")
    return not refusal


def sound(table: str, word: str) -> Iterator[Files]:
    """What the first call of a case reads, or a coordinator leaves, as F and F.log."""
    for case in cases_of(HERE / f"{table}.cases"):
        call = case.calls[0]
        name = "farm.record" if word == "coordinator" else call.words[-1]
        if call.words[0] == word and not call.status and not case.cut[0] and not any("/" in file for file in case.files):
            left = called(call.words, case.files, "".join(f"{line}\n" for line in call.read).encode("latin-1"))[3]
            yield {file.replace(name, "F"): data for file, data in left.items() if file in (name, f"{name}.log") and data}


def tried(name: str, files: list[Files], file: str, damage: Damage, look: Look, count: int, seed: int) -> bool:
    """Whether damaged inputs are answered as they should be, some accepted and some refused."""
    dice, said = random.Random(seed), list[str]()
    for place, each in enumerate(dice.choices(files, k=count)):
        try:
            said.append("accepted" if look(each | {file: damage(dice, each[file])}) else "refused")
        except (Wrong, LookupError, ValueError) as wrong:
            said.append("wrong")
            print(f"{name}, input {place}: {wrong!r}")
    print(f"{count} damaged {name}: {said.count('accepted')} accepted, {said.count('wrong')} wrong", flush=True)
    return set(said) == {"accepted", "refused"}


def main(count: int = 300, seed: int = 1) -> int:
    kept = [*sound("records", "record"), *sound("processes", "coordinator")]
    records, logs = ([files for files in kept if files.keys() == names] for names in ({"F"}, {"F", "F.log"}))
    are_right = [
        tried("schedules", list(sound("worked", "replay")), "F", damaged, look_at_schedule, count, seed),
        tried("definitions", list(sound("definitions", "check")), "F", damaged, look_at_definition, count, seed),
        tried("records", records, "F", damaged_record, look_at_record, count, seed),
        tried("logs", logs, "F.log", damaged_log, look_at_record, count, seed),
    ]
    return 0 if all(are_right) else 1


if __name__ == "__main__":
    sys.exit(main(*map(int, sys.argv[1:])))
