"""A farm that nobody visits: it forgets by itself, counts, and logs."""
from __future__ import annotations

import contextlib
import io
import json
import os
import shutil
import subprocess
import time
import unittest
from typing import Any, Callable, Iterator
from unittest import mock

from agent import faults, logs
from agent.commands.ask import counted
from agent.counts import Counts, Sample
from agent.faults import FarmFault
from agent.folders.index import make_whole
from agent.logs import ERROR, NOTICE, WARNING, Log
from agent.service import client
from agent.service.forgetting import ByItself, Rule, alone, size_of
from agent.service.operators import Status, StatusRequest
from agent.service.requests import Digests, ForgetRequest, Forgotten, NeededRequest, StorePlace
from agent.store.folder import FolderStore
from agent.web import metrics

from agent.tests import support

ALERTS = f"{support.TOP}/packaging/alerts.yml"


def held_by(folder: str) -> set[str]:
    """All files of a home's contents, and what its nodes have."""
    places = [f"{folder}/contents/chunks", f"{folder}/contents/indexes", *(f"{folder}/node{n}/filter/contents" for n in (1, 2))]
    return {os.path.relpath(f"{at}/{name}", folder) for place in places for at, _, names in os.walk(place) for name in names}


@unittest.skipUnless(support.has("casync"), support.needs("casync"))
class ByTime(support.FarmTest):
    def run_on(self, number: int) -> None:
        data = bytes([number]) * 5 + os.urandom(100_000)
        with open(self.path("data"), "wb") as file:
            file.write(data)
        self.farm("run", "--folder", "locked:c=w", "--", "cp", "data", f"w/f{number % 2}")

    def events(self, log: str) -> list[dict[str, Any]]:
        return [json.loads(line) for line in self.read(log).splitlines()]

    def up_for(self, home: str, look: Callable[[], object], *words: str) -> list[dict[str, Any]]:
        """Serves a home until gc was done and looked at. Its log."""
        self.env["FARM_HOME"] = home
        with open(self.path("log"), "w") as log:
            up = self.up("up", "--nodes", "1", "--gc-every", "1", "--log-json", *words, log=log)
            support.until(lambda: "it forgot" in self.read("log"))
            look()
            up.terminate()
            up.wait()
        return self.events("log")

    def get_all(self, name: str, versions: range) -> None:
        for version in versions:
            self.asked("get", f"locked:c@{version}", self.path(f"{name}{version}"))

    def metrics(self, home: str) -> str:
        told = client.told_at(f"{home}/coordinator.sock", StatusRequest(), Status, shows=False)
        return metrics.of_farm(told) + metrics.of_counts(counted(home))

    def test_same(self) -> None:
        """By itself a farm forgets what it would by hand, and no more. With a bound the oldest go, though they are young; what is needed stays."""
        up = self.up("up", "--nodes", "1")
        for number in range(4):
            self.run_on(number)
        up.terminate()
        up.wait()
        homes, told = {name: self.path(name) for name in ("bytime", "bound", "full")}, list[str]()
        for home in homes.values():
            shutil.copytree(self.home, home, copy_function=shutil.copy2)
        before = held_by(self.home)
        up = self.up("up", "--nodes", "1")
        self.asked("gc", "--keep", "2", "--grace", "0")
        up.terminate()
        up.wait()
        left, place = held_by(self.home), f'{{store="{homes["bytime"]}/contents"}}'
        self.assertLess(left, before)
        freed = sum(os.path.getsize(f"{homes['bytime']}/{name}") for name in before - left if name.startswith("contents"))
        events = self.up_for(homes["bytime"], lambda: told.append(self.metrics(homes["bytime"])), "--keep", "2", "--grace", "0")
        self.assertEqual((held_by(homes["bytime"]), {event["level"] for event in events}), (left, {"notice"}))
        for wanted in (f"farm_gc_freed_bytes_total{place} {freed}", f"farm_store_contents{place} 2", 'farm_gc_runs_total{how="failed"} 0', "farm_versions 4"):
            self.assertIn(f"{wanted}\n", told[0])
        # Each version has two files of 100 kB, of which the next one has one: three versions have 400 kB, the last one has 200.
        for name, most, count, level in (("bound", "350k", 2, "warning"), ("full", "150k", 1, "error")):
            events = self.up_for(homes[name], lambda: self.get_all(name, range(5 - count, 5)), "--keep-days", "1", "--grace", "0", "--most-bytes", most)
            said = [event["level"] for event in events if "--most-bytes" in event["text"]]
            self.assertEqual((len(os.listdir(f"{homes[name]}/contents/indexes")), said[:1]), (count, [level]), name)

    def test_counts(self) -> None:
        """What agents counted agrees with what commands were told, and what failed stands in the log with its reason."""
        with open(self.path("log"), "w") as log:
            self.up("up", "--nodes", "2", "--log-json", log=log)
        self.run_on(1)
        self.run_on(2)
        self.farm("run", "--folder", "locked:c=w", "--", "false", status=1)
        held = self.begin("run", "--folder", "locked:c=w", "--", "sh", "-c", "touch in; sleep 760")
        self.wait_for(self.path("in"))
        waits = self.begin("run", "--node", "2", "--folder", "locked:c=v", "--", "true")
        self.hear(waits, "waiting for locked:c")
        self.assertRegex(self.metrics(self.home), "farm_asks_waiting 1\n(#.*\n)*farm_ask_oldest_seconds [0-9.]*[1-9]")
        self.asked("withdraw", "4")
        waits.communicate()
        held.terminate()
        held.communicate()
        shutil.rmtree(f"{self.home}/contents/chunks")
        self.farm("run", "--folder", "locked:c=other", "--wait", "0.5", "--", "true", status=70)
        told = self.metrics(self.home)
        for wanted in (
            'farm_leases_over_total{how="committed"} 3', 'farm_leases_over_total{how="ended"} 1', 'farm_commands_total{how="committed"} 3',
            'farm_commands_total{how="failed"} 2', 'farm_commands_total{how="not_begun"} 1', "farm_wait_seconds_count 6", "farm_asks_waiting 0",
            "farm_ask_oldest_seconds 0", "farm_nodes_heard 2", 'farm_hold_seconds_bucket{le="+Inf"} 6', 'farm_store_seconds_count{does="keep"} 3',
        ):
            self.assertIn(f"{wanted}\n", told)
        if promtool := shutil.which("promtool"):
            done = subprocess.run([promtool, "check", "metrics"], input=told, capture_output=True, text=True)
            self.assertEqual((done.returncode, done.stdout + done.stderr), (0, ""))
        self.assertRegex(self.asked("status"), r"locked:c is at version 3\n3 versions in all, in a record of 0\.0 MB\n")
        events = self.events("log")
        self.assertIn({"level": "notice", "part": "coordinator", "node": 1, "ticket": 4, "text": "the lease was ended before its commit"}, [
            {key: value for key, value in event.items() if key != "time"} for event in events])
        self.assertRegex(" ".join(event["text"] for event in events if event["level"] == "warning" and event.get("node") == 1), "a request failed: .*chunks")


@unittest.skipUnless(support.has("casync"), support.needs("casync"))
class Sizes(support.FarmTest):
    def test_du(self) -> None:
        """What folders share counts for each of them, and what only one has is its own; what no version names is told."""
        both, one = os.urandom(60_000).hex(), os.urandom(30_000).hex()
        self.write("both", both)
        self.write("one", one)
        self.up("up")
        for folder, script in (("locked:a", "cp both w/f"), ("locked:a", "cp one w/g"), ("locked:b", "cp both v/f"), ("private:e", "true")):
            path = {"locked:a": "w", "locked:b": "v"}.get(folder, "e")
            self.farm("run", "--folder", f"{folder}={path}", "--", "sh", "-c", script)
        self.asked("prune", "locked:a")
        told = json.loads(self.asked("du", "--json"))
        rows = {each["slot"]: each for each in told["folders"]}
        self.assertEqual({slot: (each["versions"], each["kept"]) for slot, each in rows.items()}, {"locked:a": (3, 3), "locked:b": (1, 1), "private:e#1": (1, 1)})
        self.assertLess(rows["locked:b"]["own"], 1_000)
        self.assertGreater(rows["locked:a"]["own"], 30_000)
        self.assertAlmostEqual(rows["locked:a"]["size"] - rows["locked:a"]["own"], 60_000, delta=5_000)
        self.assertEqual(told["unused"], 0)
        self.asked("gc", "--grace", "0")
        self.assertRegex(self.asked("du"), r"locked:b: \d+\.\d kB, \d+\.\d kB of it no other folder's; 1 of 1 versions are kept\n(.*\n)*.* no version names 0 bytes of it\n")
        self.assertEqual(json.loads(self.asked("du", "--json"))["folders"][0], {"slot": "locked:a", "versions": 3, "kept": 1, "size": 0, "own": 0})


class Once(support.RoomTest):
    """Runs of gc over a store whose farm is a value."""

    def setUp(self) -> None:
        super().setUp()
        self.store = FolderStore(self.path("contents"))
        self.fault = ""
        self.needed = set[str]()

    def told_at(self, path: str, request: object, kind: Any, shows: bool = True) -> Any:
        if self.fault:
            raise FarmFault(self.fault)
        if isinstance(request, NeededRequest):
            return Digests(tuple(self.needed))
        return Forgotten(0) if isinstance(request, ForgetRequest) else StorePlace(None, None)

    @contextlib.contextmanager
    def running(self, rule: Rule) -> Iterator[tuple[ByItself, io.StringIO, Counts]]:
        counts = Counts()
        with mock.patch("agent.service.client.told_at", self.told_at), contextlib.redirect_stderr(io.StringIO()) as heard:
            yield ByItself(self.room, rule, self.store, [], counts, Log(NOTICE)), heard, counts

    def publish(self, names: str) -> dict[str, str]:
        """Contents of their own chunks, the first ones the oldest. They are held."""
        found = {}
        for age, name in enumerate(reversed(names), 1):
            self.write(f"{name}/f", os.urandom(20_000).hex())
            with self.store.making():
                found[name] = self.store.publish(make_whole(self.store, self.path(name)))
            for folder, _, files in os.walk(self.path("contents")):
                for file in files:
                    if os.stat(f"{folder}/{file}").st_mtime > 10**9 and "holds" not in folder:
                        os.utime(f"{folder}/{file}", (10**8 - age, 10**8 - age))
        return found

    @unittest.skipUnless(support.has("casync"), support.needs("casync"))
    def test_late(self) -> None:
        """With a bound no more goes than has to, also where long after the look what is younger is as old as what went."""
        found, forget = self.publish("abc"), self.store.forget

        def late(ask: Any, grace: float, tell: Any) -> tuple[int, int]:
            return forget(ask, grace - 1.5, tell)

        for digest in found.values():
            self.store.release(digest)
        self.needed = {found["c"]}
        size = self.store.tally().size()
        with self.running(Rule(grace=0.0, young=10.0**9 * 9, most=size - 1, every=1.0)) as (by_itself, _, _), mock.patch.object(self.store, "forget", late):
            self.assertTrue(by_itself.once())
        self.assertEqual(set(os.listdir(self.store.indexes)), {found["b"], found["c"]})

    @unittest.skipUnless(support.has("casync"), support.needs("casync"))
    def test_stays(self) -> None:
        """What a commit under way holds stays, and what is needed; of the rest the oldest go first, and no more than have to."""
        digests = self.publish("abcde")
        self.needed = {digests["a"]}
        for name in "acde":
            self.store.release(digests[name])  # b is held
        rules = [
            (Rule(grace=10**9 * 9), "abcde"), (Rule(young=10**9 * 9, most=10**9), "abcde"), (Rule(young=10**9 * 9, most=100_000), "abde"),
            (Rule(young=10**9 * 9, most=1), "ab"),
        ]
        for rule, left in rules:
            with self.running(rule) as (gc, heard, counts):
                self.assertTrue(gc.once(), heard.getvalue())
            self.assertEqual({name for name in digests if self.store.index(digests[name])}, set(left), heard.getvalue())
        self.store.release(digests["b"])
        with self.running(Rule()) as (gc, heard, counts):
            self.assertTrue(gc.once())
        self.assertEqual(os.listdir(self.store.indexes), [digests["a"]])
        self.assertRegex(heard.getvalue(), r"notice: gc: .*/contents has 1 contents and [0-9]+ chunks, [0-9.]+ kB; it forgot 1 contents and [0-9]+ chunks, [0-9.]+ kB, in")

    def test_faults(self) -> None:
        """A run that fails says why, and the next one is done; two never run at once in one home."""
        with self.running(Rule(every=7)) as (gc, heard, counts):
            self.fault = "the coordinator's agent doesn't say what is needed"
            self.assertFalse(gc.once())
            self.fault = ""
            with alone(self.room, waits=True):
                self.assertFalse(gc.once())
            self.assertTrue(gc.once())
        self.assertRegex(heard.getvalue(), "error: gc: it wasn't done, and is tried again in 7 s: the coordinator's agent doesn't say what is needed\n"
                         ".*notice: gc: another one is under way in this home, so this one is left out\n\Z")
        self.assertEqual(counts.told()[:1], (Sample("gc_freed_bytes_total", {"store": self.store.root}, 0.0),))
        self.assertIn(Sample("gc_runs_total", {"how": "failed"}, 1.0), counts.told())

    def test_first(self) -> None:
        """An agent that is often started anew forgets at its times too."""
        with self.running(Rule(every=100)) as (gc, _, _):
            self.assertEqual(gc._first(100), 100)
            for ago, least, most in ((30, 60, 70), (300, 0, 0), (-50, 100, 100)):
                at = time.time() - ago
                os.utime(self.write("gc", ""), (at, at))
                self.assertTrue(least <= gc._first(100) <= most, ago)


class Logged(support.RoomTest):
    def test_forms(self) -> None:
        """One line an event, by level, with what it is about; whatever its text has."""
        rows = [
            (Log(NOTICE), r"\A[-0-9]{10} [:0-9]{8} warning: node 1, ticket 7, locked:c: why not\n\Z"),
            (Log(NOTICE, for_journal=True), r"\A<4>node 1, ticket 7, locked:c: why not\n\Z"),
            (Log(ERROR), r"\A\Z"), (logs.SILENT, r"\A\Z"),
        ]
        for log, wanted in rows:
            with contextlib.redirect_stderr(io.StringIO()) as heard:
                log.of(node=1)("why\nnot", WARNING, ticket=7, folder="locked:c")
            self.assertRegex(heard.getvalue(), wanted)
        with contextlib.redirect_stderr(io.StringIO()) as heard:
            Log(NOTICE, as_json=True).of(node=1).fault(KeyError("a"))
        told = json.loads(heard.getvalue())
        self.assertEqual((told["level"], told["node"], told["text"]), ("error", 1, "KeyError: 'a' (at )"))
        with contextlib.redirect_stderr(io.StringIO()) as heard, Log(NOTICE).hearing_all():
            faults.tell("what people are told")
        self.assertRegex(heard.getvalue(), "warning: what people are told\n")
        with contextlib.redirect_stderr(io.StringIO()) as heard:
            faults.tell("again")
        self.assertEqual(heard.getvalue(), "farm: again\n")

    def test_sizes(self) -> None:
        for count, text in ((1, "1 bytes"), (1500, "1.5 kB"), (2 * 10**12, "2.0 TB")):
            self.assertEqual(size_of(count), text)


@unittest.skipUnless(support.has("promtool"), support.needs("promtool"))
class Alerts(support.RoomTest):
    def test_rules(self) -> None:
        """Each alert fires where it should, and none where all is well."""
        labels = 'instance="a"'
        well = {"farm_tickets_total": "1x1500", f"farm_reachable{{{labels}}}": "1x1500", f'farm_gc_runs_total{{{labels},how="done"}}': "0+1x1500",
                f'farm_gc_runs_total{{{labels},how="failed"}}': "0x1500", f"farm_store_bytes{{{labels}}}": "70x1500", f"farm_store_most_bytes{{{labels}}}": "100x1500"}
        rows: list[tuple[dict[str, str], list[str]]] = [
            ({}, []), ({"farm_tickets_total": "_x1500"}, ["FarmAway"]), ({'farm_node_silent_seconds{node="3"}': "61x1500"}, ["FarmNodeSilent"]),
            ({"farm_ask_oldest_seconds": "3601x1500"}, ["FarmAskWaits"]), ({f"farm_reachable{{{labels}}}": "0x1500"}, ["FarmUnreachable"]),
            ({f"farm_store_bytes{{{labels}}}": "81x1500"}, ["FarmStoreFills"]),
            ({f'farm_gc_runs_total{{{labels},how="failed"}}': "0+1x1500"}, []),
            ({f'farm_gc_runs_total{{{labels},how="failed"}}': "0+1x1500", f'farm_gc_runs_total{{{labels},how="done"}}': "0x1500"}, ["FarmStoreFills"]),
            ({'farm_leases_over_total{how="fenced"}': "0+1x1500"}, ["FarmWorkLost"]), ({'farm_commands_total{how="lost"}': "0+1x1500"}, ["FarmWorkLost"]),
        ]
        names = sorted({name for _, some in rows for name in some})
        tests = [{"interval": "1m", "input_series": [{"series": name, "values": values} for name, values in (well | series).items()],
                  "promql_expr_test": [{"expr": f'count by (alertname) (ALERTS{{alertstate="firing",alertname="{name}"}})', "eval_time": "24h",
                                        "exp_samples": [{"labels": f'{{alertname="{name}"}}', "value": 1}] if name in fires else []} for name in names]}
                 for series, fires in rows]
        self.write("tests.yml", json.dumps({"rule_files": [ALERTS], "evaluation_interval": "1m", "tests": tests}))
        for words in (["check", "rules", ALERTS], ["test", "rules", self.path("tests.yml")]):
            done = subprocess.run(["promtool", *words], capture_output=True, text=True)
            self.assertEqual(done.returncode, 0, done.stdout + done.stderr)
        self.assertIn(f"{len(names)} rules found", subprocess.run(["promtool", "check", "rules", ALERTS], capture_output=True, text=True).stdout)


if __name__ == "__main__":
    unittest.main()
