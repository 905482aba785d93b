#!/usr/bin/env -S python3 -I
"""A week in an hour: commands of three nodes over Redis, while all agents forget by themselves and leases are withdrawn.

usage: agent/trials/week.py [--seconds S] [--seed N] [--at-once N]

At the end each of the last versions is read back whole, what the stores had was bounded throughout, and the history, which is followed as the
page does, has each version and each end of a lease once, as the commands were told it; its files are bounded, and have the last of it. What
agents count, /metrics, and the page in a browser, whose picture is left in /tmp/week.png, agree with it. The status is 1 where one of these
isn't so.
"""
from __future__ import annotations

import argparse
import hashlib
import json
import os
import random
import re
import shutil
import subprocess
import sys
import tempfile
import threading
import time
import urllib.request
from collections import Counter
from typing import NamedTuple

sys.path.insert(0, os.path.dirname(os.path.dirname(os.path.dirname(os.path.abspath(__file__)))))

from agent.commands.ask import counted  # noqa: E402
from agent.counts import Sample  # noqa: E402
from agent.faults import FarmFault  # noqa: E402
from agent.history.events import ENDS, Event, event_of, slot_name  # noqa: E402
from agent.history.kept import FILE_MOST, FILES  # noqa: E402
from agent.service import client  # noqa: E402
from agent.service.operators import HistoryRequest, Past, Status, StatusRequest, WithdrawRequest  # noqa: E402
from agent.service.requests import RunRequest  # noqa: E402
from agent.tests.browser import Browser  # noqa: E402
from agent.trials.farms import PYTHON_FARM, OverRedis  # noqa: E402

NODES, FOLDERS, KEEP, EVERY = 3, 12, 3, 5  # seconds between two runs of gc
DATA = 100_000  # bytes of a version, which don't pack
# One file has both, since a merge takes each path of another command.
WORK = f"""[ ! -e f/data ] || [ "$(head -c {DATA} f/data | sha256sum | head -c 64)" = "$(tail -c 64 f/data)" ] || exit 9
head -c {DATA} /dev/urandom >new; (cat new; sha256sum <new | head -c 64) >f/data"""
ENDED = re.compile(r"(committed|fenced|merged|lost) |[^ ]+ has it all in version")  # the last: others' edits of each path are newer
GREATEST = 3 * FOLDERS * (KEEP + 2 * NODES) * DATA  # bytes of a store: what is kept, and what is made between two runs, thrice


class Forgetful(OverRedis):
    """Agents that forget by themselves."""

    def words(self, name: str) -> list[str]:
        return [*super().words(name), "--gc-every", str(EVERY), "--keep", str(KEEP), "--grace", "1", "--log-json"]

    def command(self, name: str) -> list[str]:
        return [*PYTHON_FARM, *self.words(name)]


class Seen(NamedTuple):
    """What the history has of a folder's leases, or what of it the page shows."""

    versions: tuple[int, ...] = ()  # in the order of their commits
    ends: dict[str, int] = {}  # how many leases ended so: one that was fenced counts as that alone


class Week:
    """One lock has what commands were told."""

    def __init__(self, farm: Forgetful, seconds: float, seed: int, at_once: int) -> None:
        self.farm, self.end, self.seed, self.at_once = farm, time.monotonic() + seconds, seed, at_once
        self.lock = threading.Lock()
        self.told: Counter[str] = Counter()  # what came of commands, as they were told
        self.over = threading.Event()
        self.lines = list[str]()  # of the history, whose follower has them
        self.wrong = list[str]()

    def work(self, node: int, place: int) -> None:
        """Commands of a node, one after the other, as `farm run` asks for them."""
        dice = random.Random(f"{self.seed}.{node}.{place}")
        room, path = f"{self.farm.room}/work{node}.{place}", f"{self.farm.home(node)}/node{node}.sock"
        os.makedirs(room)
        while time.monotonic() < self.end:
            folder = f"{dice.choice(('locked', 'locked', 'merged'))}:c{dice.randrange(FOLDERS)}"
            request = RunRequest(
                command=("sh", "-c", WORK), folders=(f"{folder}=f",), cwd=room, env=dict(os.environ), umask=0o022, who=f"week-{place}",
            )
            try:
                self.take(client.ask(path, request, shows=False))
            except FarmFault as fault:
                with self.lock:
                    self.wrong.append(f"node {node} doesn't answer: {fault}")
                return

    def take(self, asked: client.Asked) -> None:
        said = [found[1] or "all_newer" for text in asked.said if (found := ENDED.match(text))]
        with self.lock:
            self.told[said[-1] if said else f"status {asked.status}"] += 1
            if asked.status or not said:
                self.wrong.append(f"a command ended with {asked.status}: {asked.said[-3:]}")

    def disturb(self) -> None:
        """Withdraws a lease now and then: the newest one, which may be over before that is heard."""
        dice = random.Random(self.seed)
        while time.monotonic() < self.end:
            time.sleep(dice.uniform(1, 4))
            if leases := self.status().leases:
                client.ask(self.coordinator, WithdrawRequest(ticket=max(lease.ticket for lease in leases)), shows=False)

    def follow(self) -> None:
        """Hears the history's new events, until all is over."""
        last, is_over = 0, False
        while not is_over:
            is_over = self.over.wait(0.5)
            told = self.past(HistoryRequest(after=last))
            self.lines += told.lines
            last = told.last

    def past(self, asked: HistoryRequest) -> Past:
        return client.told_at(self.coordinator, asked, Past, shows=False)

    @property
    def coordinator(self) -> str:
        return f"{self.farm.home(None)}/coordinator.sock"

    def status(self) -> Status:
        return client.told_at(self.coordinator, StatusRequest(last=KEEP), Status, shows=False)

    def run(self) -> None:
        places = [(node, place) for node in range(1, NODES + 1) for place in range(self.at_once)]
        works = [threading.Thread(target=self.work, args=place) for place in places]
        works.append(threading.Thread(target=self.disturb))
        follower = threading.Thread(target=self.follow)
        for thread in [*works, follower]:
            thread.start()
        for thread in works:
            thread.join()
        time.sleep(2 * EVERY + 2)  # the last runs of gc
        self.over.set()
        follower.join()

    # The verdict.

    def judge(self) -> None:
        status = self.status()
        self.judge_versions(status)
        self.judge_counts(status)
        self.judge_history(status)
        self.judge_page(status)
        self.judge_sizes()

    def judge_versions(self, status: Status) -> None:
        """Each of the last versions of each folder is there whole."""
        for folder in status.folders:
            for number in range(max(1, folder.version - KEEP + 1), folder.version + 1):
                to = f"{self.farm.room}/got"
                done = subprocess.run([*PYTHON_FARM, "get", "--home", self.farm.home(None), f"{folder.slot}@{number}", to], capture_output=True, text=True)
                if done.returncode or not is_whole(f"{to}/data"):
                    self.wrong.append(f"{folder.slot} version {number} can't be read back: {done.stderr}")
                shutil.rmtree(to, ignore_errors=True)

    def judge_counts(self, status: Status) -> None:
        of_coordinator = values(counted(self.farm.home(None)), "leases_over_total")
        of_nodes: Counter[str] = Counter()
        for node in range(1, NODES + 1):
            of_nodes.update(values(counted(self.farm.home(node)), "commands_total"))
        rows = [
            ("versions and commits", status.versions, of_coordinator["committed"]),
            ("versions and commands that were told of one", status.versions, self.told["committed"] + self.told["merged"]),
            ("commands that committed", of_nodes["committed"], self.told["committed"] + self.told["merged"] + self.told["all_newer"]),
            ("commands that were fenced", of_nodes["fenced"], self.told["fenced"]),
        ]
        self.wrong += [f"{what} don't agree: {one:g} and {other:g}" for what, one, other in rows if one != other]

    def judge_history(self, status: Status) -> None:
        """Each version is there once, each grant has one end, and there are as many as agents counted."""
        events = [event for line in self.lines if (event := event_of(line))]
        if [event.number for event in events] != list(range(1, len(self.lines) + 1)):
            self.wrong.append("the history's numbers don't rise by one")
        kinds, seen = Counter(event.kind for event in events), seen_of(events)
        granted, ended = (sorted(event.ticket for event in events if event.kind in of) for of in (("grant",), set(ENDS) - {"fence"}))
        if granted != ended or len(set(granted)) < len(granted):
            self.wrong.append(f"grants and ends aren't one to one: {sorted(set(granted) ^ set(ended))[:9]}")
        tickets = {(slot, version[0]): event.ticket for event in events for slot, version in event.versions.items()}
        for folder in status.folders:
            if seen[folder.slot].versions != tuple(range(1, folder.version + 1)):
                self.wrong.append(f"{folder.slot}: the history's versions aren't 1 to {folder.version}")
            if any(tickets.get((folder.slot, each.version)) != each.ticket for each in folder.versions):
                self.wrong.append(f"{folder.slot}: the history has other tickets than {[each.ticket for each in folder.versions]}")
            self.judge_kept(folder.slot)
        print(f"the history has {dict(kinds)}")
        self.judge_kinds(kinds)
        sizes = [entry.stat().st_size for entry in os.scandir(self.farm.home(None)) if entry.name.startswith("history")]
        if len(sizes) > FILES or max(sizes) > FILE_MOST:
            self.wrong.append(f"the history's files have {sizes} bytes")

    def judge_kept(self, slot: str) -> None:
        """What the files have of a folder is the last of what was heard of it."""
        told, heard = ([line for line in lines if f'"{slot}"' in line] for lines in (self.past(HistoryRequest(folder=slot)).lines, self.lines))
        if not told or told != heard[-len(told) :]:
            self.wrong.append(f"{slot}: the history's files have {len(told)} lines, which aren't the last of {len(heard)}")

    def judge_kinds(self, kinds: Counter[str]) -> None:
        samples = counted(self.farm.home(None))
        over, numbers = values(samples, "leases_over_total"), {sample.name: sample.value for sample in samples if not sample.labels}
        rows = [
            ("commits", kinds["commit"], over["committed"]), ("withdrawals", kinds["withdraw"], over["ended"]), ("fences", kinds["fence"], over["fenced"]),
            ("waits", kinds["grant"], numbers["wait_seconds_count"]), ("holds", sum(kinds[end] for end in set(ENDS) - {"fence"}), numbers["hold_seconds_count"]),
            ("asks", kinds["ask"], kinds["grant"]), ("lost leases", kinds["lost"], 0),
            ("begins", kinds["begin"], max(kinds["grant"] - kinds["withdraw"], min(kinds["begin"], kinds["grant"]))),  # a lease may end before its command begins
        ]
        self.wrong += [f"the history's {what} and those that agents counted: {one} and {other:g}" for what, one, other in rows if one != other]

    def judge_page(self, status: Status) -> None:
        """What the page has of the newest events, in a browser, and what /metrics tells, is what the history has."""
        words = [*PYTHON_FARM, "web", "--home", self.farm.home(None), "--port", "0"]
        with subprocess.Popen(words, stdin=subprocess.DEVNULL, stdout=subprocess.PIPE, text=True) as page:
            try:
                assert page.stdout
                self._judge_page(status, page.stdout.readline().strip())
            finally:
                page.terminate()

    def _judge_page(self, status: Status, url: str) -> None:
        with urllib.request.urlopen(f"{url}metrics", timeout=60) as answer:
            lines = set(answer.read().decode().splitlines())
        wanted = [f"farm_versions {status.versions}", *(f'farm_folder_versions_total{{slot="{each.slot}"}} {each.version}' for each in status.folders)]
        self.wrong += [f"/metrics hasn't {line}" for line in wanted if line not in lines]
        browser = Browser(f"{self.farm.room}/browser", 1200, 1000)
        try:
            browser.open(url)
            browser.wait("told && last > 0 && rows.size > 0")
            found = browser.value(SPANS)
            browser.picture("/tmp/week.png")
        finally:
            browser.close()
        newest = seen_of([event for line in self.past(HistoryRequest(after=0)).lines if (event := event_of(line))])
        shown = {slot: Seen(tuple(each["versions"]), each["ends"]) for slot, each in found["spans"].items()}
        self.wrong += [f"the page has {shown.get(slot)} of {slot}, not {newest[slot]}" for slot in newest if shown.get(slot) != newest[slot]]
        table = [[each.slot, str(each.version)] for each in status.folders]
        if sorted(found["folders"]) != sorted(table):
            self.wrong.append(f"the page has the folders {found['folders']}")
        print(f"the page had {sum(sum(each.ends.values()) for each in shown.values())} ends of leases")

    def judge_sizes(self) -> None:
        """What each run of gc told is bounded, and some of them freed something."""
        for name in self.farm.names():
            runs, freed, greatest = 0, 0, 0.0
            with open(f"{self.farm.room}/{name}.log") as file:
                events = [json.loads(line) for line in file if line.startswith("{")]
            for event in events:
                if event["level"] == "error":
                    self.wrong.append(f"{name}: {event['text']}")
                if found := re.search(r"chunks, ([0-9.]+) (bytes|kB|MB|GB); it forgot ([0-9]+) contents", event["text"]):
                    runs, freed = runs + 1, freed + int(found[3])
                    greatest = max(greatest, float(found[1]) * {"bytes": 1, "kB": 10**3, "MB": 10**6, "GB": 10**9}[found[2]])
            print(f"{name}: {runs} runs of gc forgot {freed} contents, and no store had more than {greatest / 1e6:.1f} MB after one")
            if not freed or greatest > GREATEST:
                self.wrong.append(f"{name} forgot {freed} contents, and had {greatest:.0f} bytes")


SPANS = """({
    spans: Object.fromEntries([...rows].map(([slot, {spans}]) => [slot, {
        versions: spans.filter(span => span.how === "commit").map(span => span.version),
        ends: spans.reduce((ends, span) => ({...ends, [span.how]: (ends[span.how] || 0) + 1}), {})}])),
    folders: [...document.querySelectorAll("#folders tbody tr")].map(line => [line.cells[0].textContent, line.cells[1].textContent])})"""


def seen_of(events: list[Event]) -> dict[str, Seen]:
    """What events, the newest last, have of each folder."""
    versions: dict[str, list[int]] = {}
    ends: dict[tuple[str, int], str] = {}
    for event in events:
        for slot in map(slot_name, event.folders):
            if event.kind in ENDS and (event.kind != "fence" or (slot, event.ticket) in ends):
                ends[slot, event.ticket] = event.kind
                versions.setdefault(slot, []).extend(event.versions[slot][:1] if slot in event.versions else ())
    return {slot: Seen(tuple(found), dict(Counter(how for (of, _), how in ends.items() if of == slot))) for slot, found in versions.items()}


def is_whole(path: str) -> bool:
    with open(path, "rb") as file:
        data = file.read()
    return hashlib.sha256(data[:DATA]).hexdigest().encode() == data[DATA:]


def values(samples: tuple[Sample, ...], name: str) -> dict[str, float]:
    return {sample.labels["how"]: sample.value for sample in samples if sample.name == name}


def main() -> int:
    words = argparse.ArgumentParser(description=__doc__)
    words.add_argument("--seconds", type=float, default=3600)
    words.add_argument("--seed", type=int, default=1)
    words.add_argument("--at-once", type=int, default=4, help="commands of each node")
    args = words.parse_args()
    os.dup2(os.open(os.devnull, os.O_RDONLY), 0)
    room = tempfile.mkdtemp(prefix="farm-week-")
    farm = Forgetful(room, NODES, args.seed, None)
    try:
        farm.begin()
        week = Week(farm, args.seconds, args.seed, args.at_once)
        week.run()
        week.judge()
    finally:
        farm.end()
    print(f"{sum(week.told.values())} commands: {dict(week.told)}")
    for wrong in week.wrong:
        print(f"WRONG: {wrong}")
    if not week.wrong:
        shutil.rmtree(room, ignore_errors=True)
    return 1 if week.wrong else 0


if __name__ == "__main__":
    sys.exit(main())
