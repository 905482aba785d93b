"""The history of a farm: what is kept, what is skipped, whom it believes, and what people are told of it."""
from __future__ import annotations

import contextlib
import io
import json
import os
import unittest
from typing import Any, Callable
from unittest import mock

from agent.commands.run import own_word
from agent.counts import Counts
from agent.filters.lines import Answer
from agent.filters.measured import Measured
from agent.history import hints, seen
from agent.history.events import FOLDER_MOST, Event, cut, event_of, line_of
from agent.history.kept import History
from agent.history.told import past_of, usual
from agent.logs import SILENT
from agent.runs import hits
from agent.runs.hits import counts, since
from agent.runs.progress import Progress, heard
from agent.service.operators import HistoryRequest, Status, Waiting
from agent.words import who_of

from agent.tests import support

SPOILT = (
    "", "{", "null", "[]", '{"kind":"grant"}', '{"kind":"grant","number":1}', '{"kind":"sold","number":1,"at":1}', '{"kind":"grant","number":-1,"at":1}',
    '{"kind":"grant","number":true,"at":1}', '{"kind":"grant","number":1,"at":NaN}', '{"kind":"grant","number":1,"at":1e400}',
    '{"kind":"grant","number":1,"at":1,"who":"a b"}', '{"kind":"grant","number":1,"at":1,"who":"\\u001b[2J"}', '{"kind":"grant","number":1,"at":1,"folders":"c"}',
    '{"kind":"grant","number":1,"at":1,"folders":["a\\nb"]}', f'{{"kind":"grant","number":1,"at":1,"folders":["{"x" * 400}"]}}',
    '{"kind":"commit","number":1,"at":1,"hits":{"c":[2,1]}}', '{"kind":"commit","number":1,"at":1,"versions":{"c":[1]}}', '{"kind":"commit","number":1,"at":1,"versions":{"c":[1,"2",3]}}', "[" * 9000, "\x00\x7f\xff",
    '{"kind":"grant","number":1,"at":1',
)


def ready(history: History) -> None:
    """Waits until all is written."""
    support.until(lambda: not history.pending)
    history.close()


class Kept(support.RoomTest):
    def history(self, **how: Any) -> History:
        self.said = list[str]()
        made = History(self.path("history"), self.said.append, **how)
        self.addCleanup(made.close)
        return made

    def test_bounds(self) -> None:
        """Files are bounded in size and number, their owner's alone, and read again in order."""
        history = self.history(files=3, most=2_000)
        for ticket in range(1, 101):
            history.add(Event("grant", node=1, ticket=ticket, folders=("locked:c",)))
            support.until(lambda: not history.pending)
        ready(history)
        names = sorted(os.listdir(self.room))
        self.assertEqual(names, ["history", "history.1", "history.2"])
        for name in names:
            found = os.stat(self.path(name))
            self.assertTrue(found.st_size <= 2_000 and found.st_mode & 0o777 == 0o600, (name, found))
        again = self.history(files=3, most=2_000)
        tickets = [event.ticket for event in again.events()]
        self.assertEqual(tickets, list(range(100, 100 - len(tickets), -1)))
        self.assertGreater(len(tickets), 40)
        self.assertEqual((again.number, again.add(Event("ask")).number, self.said), (100, 101, []))

    def test_spoilt(self) -> None:
        """Spoilt and half lines are skipped, and told once. What follows half a line is whole."""
        good = [Event("grant", number=number, at=5.0, node=1, ticket=number, folders=('locked:a"b\\', "ro=locked:d"), who="x@y", waited=0.0) for number in (1, 2)]
        for line in SPOILT:
            self.assertIsNone(event_of(line), line)
        self.assertEqual([event_of(line_of(event)) for event in good], good)
        self.assertEqual(event_of(line_of(good[0])[:-1] + ',"colour":{"of":1}}'), good[0])  # of a newer agent
        with open(self.path("history"), "w", encoding="latin-1") as file:
            file.write("\n".join([line_of(good[0]), *SPOILT[:-1], line_of(good[1]), SPOILT[-1]]))
        history = self.history()
        history.add(Event("prune", at=6.0))
        ready(history)
        again = self.history()
        self.assertEqual([event.number for event in again.events()], [3, 2, 1])
        self.assertEqual(len(self.said), 1)
        self.assertIn("no event, which is skipped", self.said[0])
        found = past_of(again, HistoryRequest(folder='locked:a"b\\'))
        self.assertEqual([event and event.number for event in map(event_of, found.lines) if event], [1, 2])
        self.assertEqual([len(past_of(again, HistoryRequest(since=since, node=1)).lines) >= 2 for since in (4.0, 5.5)], [True, False])

    def test_unwritable(self) -> None:
        """What can't be written is told once, and kept in memory; it is written again as soon as it can be."""
        def fifo() -> None:
            os.mkfifo(self.path("history"))

        rows: tuple[Callable[[], None], ...] = (lambda: os.mkdir(self.path("history")), fifo, lambda: os.symlink("/dev/full", self.path("history")), lambda: os.symlink("/etc/passwd", self.path("history")))
        for spoils in rows:
            spoils()
            history = self.history()
            for ticket in range(3):
                history.add(Event("grant", ticket=ticket))
                support.until(lambda: not history.pending)
            support.until(lambda: [each for each in self.said if "can't be written" in each])
            self.assertEqual(sum("can't be written" in each for each in self.said), 1, self.said)
            self.assertEqual([event.ticket for event in history.events()], [2, 1, 0])
            (os.rmdir if os.path.isdir(self.path("history")) else os.unlink)(self.path("history"))
            history.add(Event("grant", ticket=9))
            ready(history)
            self.assertEqual(json.loads(self.read("history"))["ticket"], 9)
            os.unlink(self.path("history"))

    def test_long_names(self) -> None:
        """A folder's name of any length is one word of bounded length, and two don't become one."""
        long = [f"private:{'x' * 4000}{end}" for end in ("a", "b")]
        self.assertEqual(len({cut(text) for text in long}), 2)
        self.assertTrue(all(len(cut(f"{text}#17")) <= FOLDER_MOST + 3 and cut(f"{text}#17").endswith("#17") for text in long))
        event = Event("grant", number=1, at=1.0, folders=(cut(f"{long[0]}#2"),))
        self.assertTrue(event.is_of(cut(long[0])) and not event.is_of(cut(long[1])))
        self.assertEqual(event_of(line_of(event)), event)


class Believes(support.RoomTest):
    """What a coordinator's agent takes of lines, and of nodes."""

    def setUp(self) -> None:
        super().setUp()
        self.history = History(self.path("history"), lambda text: None)
        self.addCleanup(self.history.close)
        self.seen = seen.Seen(self.history)

    def grant(self, node: int, ticket: int, slot: str = "locked:c=0:" + "0" * 64) -> None:
        self.seen.hear(Answer(sends=[f"granted {node} 1 {ticket} {ticket} plain {slot} mac"], note=f"granted {ticket}"))

    def told(self) -> list[tuple[str, int, int, str]]:
        return [(event.kind, event.node, event.ticket, event.who) for event in reversed(list(self.history.events()))]

    def test_hints(self) -> None:
        rows: list[tuple[str, bool]] = [
            ("begun 1 7 2.5 a@b", True), ("waits 1 1 3 0.0 -", True), ("keeps 1 7 locked:c=2:30", True), ("begun 1 7 2.5", False), ("begun 1 7 -1.0 x", False),
            ("begun 1 7 2.5 \x1b[2J", False), ("begun 1 7 2.5 é", False), (f"begun 1 7 2.5 {'x' * 65}", False), ("begun 1 7 2.5 a b", False), ("begun 1 x 2.5 a", False),
            (f"begun 1 {'9' * 16} 2.5 a", False), ("keeps 1 7 c=1", False), (f"keeps 1 7 c={'9' * 16}:1", False), (f"keeps 1 7{' c=1:1' * 30}", False), ("keeps 1 7", False),
            ("hits 1 7 locked:c=3:4", True), ("hits 1 7 locked:c=3", False), ("left 1 1 3", True), (f"left 1 1{' 3' * 900}", True), ("left 1 1", False), ("left 1 1 x", False), (f"left 1 1{' 3' * 2000}", False),
            ("keeps 1 7 a\nb=1:1", False), ("held 1 7 2.5 a", False), ("begun 1 7 2.5 ", False), ("waits 1 ² 3 0.0 -", False),
        ]
        for text, is_right in rows:
            self.assertEqual(hints.told(text.split(" ")) is not None, is_right, text)

    def test_another_node(self) -> None:
        """A node is believed about its own leases, once of each thing, and about no slot that it doesn't have."""
        self.grant(1, 7)
        for text in ("hits 2 7 locked:c=1:1", "hits 1 7 locked:d=1:1 locked:c=9:8", "hits 1 7 locked:c=8:9", "hits 1 7 locked:c=9:9"):
            self.seen.hear_hint(text.split(" "))
        for text in ("begun 2 7 1.0 mallory", "keeps 2 7 locked:c=1:1", "begun 1 9 1.0 x", "begun 1 7 1.0 alice", "begun 1 7 1.0 again", "keeps 1 7 locked:d=1:1 locked:c=2:30",
                     "keeps 1 7 locked:c=9:99"):
            self.seen.hear_hint(text.split(" "))
        for note in ("granted before 7", "nudged", "started"):  # what is said again
            self.grant(1, 7)
            self.seen.hear(Answer(sends=[f"granted 1 1 7 7 plain locked:c=0:{'0' * 64} mac"], note=note))
        for note in ("committed before 7", "committed before 7"):  # the first answer was lost with its filter
            self.seen.hear(Answer(sends=[f"committed 1 1 7 locked:c=1:{'a' * 64} mac"], note=note))
        self.assertEqual(self.told(), [("ask", 1, 0, ""), ("grant", 1, 7, ""), ("begin", 1, 7, "alice"), ("commit", 1, 7, "alice")])
        last = next(self.history.events())
        self.assertEqual((last.versions, last.hits, event_of(line_of(last))), ({"locked:c": (1, 2, 30)}, {"locked:c": (8, 9)}, last))

    def test_ends(self) -> None:
        """Each end of a lease, the commits that come after it, and asks that wait."""
        for ticket in (1, 2, 3, 4):
            self.grant(1, ticket, f"locked:{ticket}=0:{'0' * 64}")
        self.seen.hear(Answer(facts=["ended 1 1"], note="withdrawn 1"))
        for node in (2, 1, 1):  # another node's, and one that comes again
            self.seen.hear(Answer(sends=[f"fenced {node} 1 1 mac"], note="fenced 1"))
        self.seen.hear(Answer(sends=["fenced 1 1 99 mac"], note="fenced 99"))
        self.seen.hear(Answer(note="released 2"))
        self.seen.hear(Answer(note="released 2"))
        for _ in range(2):
            self.seen.take("acquire 2 1 5 locked:3 mac", "parked")
        self.seen.hear_hint("waits 2 1 5 0.5 bob".split(" "))
        self.assertEqual(self.seen.asked(2, 1, 5)[1], "bob")
        self.seen.hear(Answer(sends=[f"granted 2 1 5 6 plain locked:3=0:{'0' * 64} mac"], note="nothing"))  # what a new life left
        self.seen.take("hello 1 2 mac", "nothing")
        self.seen.hear(Answer(note="retired 2"))
        self.seen.pruned("locked:1", 8)
        grants = [each for ticket in (1, 2, 3, 4) for each in (("ask", 1, 0, ""), ("grant", 1, ticket, ""))]
        self.assertEqual(self.told(), [*grants, ("withdraw", 1, 1, ""), ("fence", 1, 1, ""), ("release", 1, 2, ""), ("ask", 2, 0, ""), ("wait", 2, 0, ""), ("lost", 1, 3, ""),
                                       ("grant", 2, 6, "bob"), ("lost", 1, 4, ""), ("lost", 2, 6, "bob"), ("retire", 2, 0, ""), ("prune", 0, 8, "")])

    def test_left(self) -> None:
        """An ask that was given up says so once, also over a restart, and what comes of it later isn't its waiting."""
        for ask in (5, 6):
            self.seen.take(f"acquire 2 1 {ask} locked:c mac", "parked")
        self.seen.hear_hint("waits 2 1 5 0.5 bob".split(" "))
        for text in ("left 1 1 5", "left 2 2 5", "left 2 1 9", "left 2 1 5 9", "left 2 1 5"):
            self.seen.hear_hint(text.split(" "))
        found = next(self.history.events())
        self.assertEqual((found.kind, found.folders, found.who, found.ask), ("leave", ("locked:c",), "bob", 5))
        self.assertIsNotNone(found.waited)
        ready(self.history)
        self.history = History(self.path("history"), lambda text: None)
        self.addCleanup(self.history.close)
        self.seen = seen.Seen(self.history)
        waiting = tuple(Waiting(kind="acquire", node=2, life=1, ask=ask, folders=("locked:c",), left=False) for ask in (5, 6))
        self.seen.begin(Status(leases=(), waiting=waiting, folders=(), lives={}, gone=(), retired=(), tickets=0, heard={}, now=0.0))
        self.assertEqual(self.seen.asked(2, 1, 6)[0], next(self.history.events('"wait"', '"ask":6')).at)
        self.seen.hear_hint("left 2 1 5".split(" "))
        self.seen.hear(Answer(sends=[f"granted 2 1 5 6 plain locked:c=0:{'0' * 64} mac"], note="nothing"))
        self.assertIsNone(next(self.history.events()).waited)
        self.seen.take("hello 2 2 mac", "nothing")
        self.seen.take("acquire 2 2 1 locked:c mac", "parked")
        self.seen.hear(Answer(note="retired 2"))
        kinds = [(event.kind, event.ask) for event in reversed(list(self.history.events())) if event.kind in ("leave", "grant")]
        self.assertEqual(kinds, [("leave", 5), ("grant", 5), ("leave", 6), ("leave", 1)])

    def test_together(self) -> None:
        """An ask that was granted by a line that came together with it is one, and doesn't wait."""
        self.grant(1, 7)
        self.seen.take("acquire 1 1 7 locked:c mac", "parked")
        self.assertEqual([each[0] for each in self.told()], ["ask", "grant"])
        self.assertEqual(self.seen.asks, {})

    def test_lost_answer(self) -> None:
        """A commit whose answer was lost with its filter counts when it is told again, also where another one has the folder by then."""
        self.grant(1, 1)
        self.grant(2, 2, "locked:d=0:" + "0" * 64)
        self.grant(2, 3)
        for _ in range(2):
            self.seen.hear(Answer(sends=[f"committed 1 1 1 locked:c=1:{'a' * 64} mac"], note="committed before 1"))
        kinds = [each[:3] for each in self.told() if each[0] in ("lost", "commit", "grant")]
        self.assertEqual(kinds, [("grant", 1, 1), ("grant", 2, 2), ("lost", 1, 1), ("grant", 2, 3), ("commit", 1, 1)])

    def test_budget(self) -> None:
        """A node that asks without end drives nobody else's events out, and its commits are there all the same."""
        with mock.patch.object(seen, "BURST", 10), mock.patch.object(seen, "REFILL", 0.0):
            for ticket in range(1, 50):
                self.grant(1, ticket, f"locked:{ticket}=0:{'0' * 64}")
            self.seen.hear(Answer(sends=[f"committed 1 1 49 locked:49=1:{'a' * 64} mac"], note="committed 49"))
            self.grant(2, 60)
        kinds = [(event.kind, event.node) for event in self.history.events()]
        self.assertEqual((kinds.count(("grant", 1)) + kinds.count(("ask", 1)), kinds[:3]), (10, [("grant", 2), ("ask", 2), ("commit", 1)]))

    def test_nothing_rests_on_it(self) -> None:
        """Whatever it can't make sense of is nobody's fault."""
        for answer in (Answer(sends=["granted"], note="granted x"), Answer(sends=["committed a b c d"], note="committed x"), Answer(note="released"), Answer(note="")):
            self.seen.hear(answer)
        for line in ("", "acquire", "acquire x y z mac", "hello 1 2 mac"):
            self.seen.take(line, "parked")
        self.assertEqual(self.told(), [])


CCACHE = """#!/bin/sh
echo "$* $CCACHE_DIR $CCACHE_CONFIGPATH" >>%s
set -- $(cat $CCACHE_DIR/*/stats $CCACHE_DIR/*/*/stats 2>/dev/null)
printf 'direct_cache_hit\\t%%s\\npreprocessed_cache_hit\\t%%s\\ncache_miss\\t%%s\\nstats_updated_timestamp\\t7\\n' $1 $2 $3
"""


def told_hits(hits: int, preprocessed: int, missed: int) -> str:
    """The counters of the stand-in."""
    return f"{hits}\n{preprocessed}\n{missed}\n"


class Hits(support.RoomTest):
    """What ccache counts: a stand-in for it tells what stands in its folder, and notes each call."""

    def setUp(self) -> None:
        super().setUp()
        os.chmod(self.write("bin/ccache", CCACHE % self.path("calls")), 0o755)

    def test_counts(self) -> None:
        files: list[tuple[dict[str, str], hits.Counts | None, bool]] = [
            ({}, hits.Counts(0, 0), False), ({"0/x": "1", "stats": told_hits(1, 1, 1), "config": ""}, hits.Counts(0, 0), False), ({"0/stats": told_hits(5, 2, 3)}, hits.Counts(7, 10), True),
            ({"f/a/stats": told_hits(0, 0, 3)}, hits.Counts(0, 3), True), ({"0/stats": "1\n2\n"}, None, True), ({"0/stats": "of a program\n"}, None, False), ({"0/stats": "", "1/stats": "1\n1\n1\n"}, None, False),
        ]
        with mock.patch.dict("os.environ", {"PATH": f"{self.path('bin')}:{os.environ['PATH']}"}):
            for number, (texts, wanted, is_called) in enumerate(files):
                for name, text in texts.items():
                    self.write(f"{number}/{name}", text)
                self.write("calls", "")
                self.assertEqual(counts(self.path(f"{number}")), wanted, texts)
                self.assertEqual(self.read("calls"), f"--print-stats {self.path(f'{number}')} /dev/null\n" if is_called else "", texts)
            self.write("calls", "")
            os.symlink(self.path("2/0/stats"), self.write("9/0/x", "")[:-1] + "stats")  # a program of the command's made these
            os.mkfifo(f"{os.path.dirname(self.write('8/0/x', ''))}/stats")
            self.assertEqual([counts(self.path(name)) for name in ("8", "9")], [None, None])
            self.assertEqual(self.read("calls"), "")
            self.write("bin/ccache", "#!/bin/sh\nexit 1\n")
            self.assertIsNone(counts(self.path("2")))
        with mock.patch.dict("os.environ", {"PATH": "/nowhere"}):
            self.assertEqual([counts(self.path(name)) for name in ("1", "2")], [hits.Counts(0, 0), None])

    def test_steps(self) -> None:
        """What a build says goes on unchanged, and its steps are counted, in whatever pieces it comes; also where nobody reads it."""
        said = (
            "#1 [internal] load build definition from Dockerfile\n#1 DONE 0.0s\n\n#4 [linux/amd64 base 1/3] FROM box\n#4 CACHED\n\n#5 [base 2/3] RUN true\n#5 CACHED\r\n"
            "#6 [base 3/3] RUN echo '#7 CACHED'\n#6 0.1 #7 CACHED\n#6 DONE 0.2s\n#8 [stage-1 1/1] COPY --from=base /x /x\n#8 CACHED\n#9 exporting\n"
        )
        for size in (1, 7, 4096):
            progress, (source, to) = Progress(), os.pipe()
            with heard([0, 1, to], progress.hear, lambda: False) as streams:
                for at in range(0, len(said), size):
                    os.write(streams[2], said[at : at + size].encode())
            os.close(to)
            with open(source, "rb") as file:
                self.assertEqual((file.read().decode(), progress.counts()), (said, hits.Counts(2, 3)))
        source, to = os.pipe()
        os.close(source)
        with heard([0, 1, to], progress.hear, lambda: True) as streams, self.assertRaises(BrokenPipeError):
            while True:
                os.write(streams[2], b"x" * 1000)
        os.close(to)
        self.assertIsNone(Progress().counts())

    def test_since(self) -> None:
        rows = [((0, 0), (3, 4), (3, 4)), ((3, 4), (5, 9), (2, 5)), ((3, 4), (3, 4), None), ((3, 4), (0, 1), None), ((3, 4), (9, 5), None), (None, (1, 1), None), ((1, 1), None, None)]
        for before, after, wanted in rows:
            self.assertEqual(since(before and hits.Counts(*before), after and hits.Counts(*after)), wanted, (before, after))


class Words(unittest.TestCase):
    def test_who(self) -> None:
        rows = (
            ({"GITHUB_RUN_ID": "17", "GITHUB_JOB": "build all"}, "github:17/build_all"), ({"CI_JOB_ID": "5", "BUILD_TAG": "x"}, "gitlab:5"),
            ({"BUILD_TAG": "jenkins-é-3"}, "jenkins-_-3"), ({"BUILD_TAG": "x" * 99}, "x" * 64),
        )
        for env, who in rows:
            with mock.patch.dict("os.environ", env, clear=True):
                self.assertEqual(who_of(own_word()), who)
        with mock.patch.dict("os.environ", {}, clear=True):
            self.assertRegex(own_word(), r"\A[^@]+@[^@]+\Z")

    def test_fenced_again(self) -> None:
        """A commit that was fenced counts once, however often it comes."""
        counts = Counts()
        measured = Measured(counts, SILENT)
        for note in ("fenced 7", "fenced 7", "fenced 8"):
            measured.answered(Answer(note=note))
        self.assertEqual([each.value for each in counts.told() if each.labels.get("how") == "fenced"], [2])

    def test_usual(self) -> None:
        rows: list[list[float | None]] = [[], [None], [1.0], [5.0, 1.0, None, 2.0], [1.0, 2.0]]
        self.assertEqual([usual(seconds) for seconds in rows], [None, None, (1, 1.0, 1.0), (3, 2.0, 5.0), (2, 1.5, 2.0)])


@unittest.skipUnless(support.has("casync"), support.needs("casync"))
class OfAFarm(support.FarmTest):
    def events(self, *words: str) -> list[dict[str, Any]]:
        return [json.loads(line) for line in self.asked("history", "--json", *words).splitlines()]

    def test_past(self) -> None:
        """Who had a folder, who waits for it, for how long they usually have it, and what a node wrote; also after the coordinator began anew."""
        self.up("up", "--nodes", "2")
        self.farm("run", "--as", "first", "--folder", "locked:c=w", "--", "sh", "-c", "echo one > w/f; echo two > w/g")
        holds = self.begin("run", "--as", "nightly", "--on-lost", "stop", "--folder", "locked:c=w", "--", "sh", "-c", "touch in; sleep 760")
        self.wait_for(self.path("in"))
        waits = self.begin("run", "--node", "2", "--folder", "merged:c=v", "--folder", "private:p=p", "--", "sh", "-c", "touch v/h p/x")
        waiting = self.begin("run", "--node", "2", "--as", "bob", "--folder", "locked:c=u", "--", "true")
        support.until(lambda: "(bob) waits" in self.asked("why", "locked:c"))
        why = self.asked("why", "merged:c")
        self.assertRegex(why, r"(?m)^node 1 \(nightly\) has it since 20[^ ]*Z \([0-9]+ s\), ticket 2$")
        self.assertRegex(why, r"(?m)^node 2 \(bob\) waits for node 1 \(nightly\)( and node 2[^ ]*( \([^)]*\))?)* since 20[^ ]*Z \([0-9]+ s\)$")
        self.assertRegex(why, r"(?m)^it is usually held for [0-9.]+ s \(the median of 1 time, the longest [0-9.]+ s\)$")
        self.assertEqual({lease["who"] for lease in json.loads(self.asked("status", "--json"))["leases"] if "locked:c" in lease["slots"]}, {"nightly"})
        self.asked("withdraw", "2")
        for process in (holds, waits, waiting):
            process.communicate(timeout=support.PATIENCE)
        self.assertRegex(self.asked("log", "locked:c"), r"\Alocked:c version 1 ticket 1 [0-9a-f]{64} 20[^ ]*Z node 1 by first 2 files 8 bytes held [0-9.]+ s\n")
        first = json.loads(self.asked("log", "--json", "locked:c"))["locked:c"][0]
        self.assertEqual([first[name] for name in ("version", "ticket", "node", "who", "files", "size")], [1, 1, 1, "first", 2, 8])
        found = self.events("locked:c")
        kinds = [(event["kind"], event.get("who")) for event in found]
        self.assertEqual(kinds[:4], [("ask", None), ("grant", None), ("begin", "first"), ("commit", "first")])
        for wanted in (("withdraw", "nightly"), ("wait", None), ("commit", "bob")):
            self.assertIn(wanted, kinds)
        self.assertEqual({event["node"] for event in self.events("--node", "2")}, {2})
        self.assertEqual(self.events("--since", "2999-01-01"), [])
        self.assertEqual(len(self.events("--since", "1h", "locked:c")), len(found))
        self.assertRegex(self.asked("history", "private:p"), r"(?m)^20[^ ]*Z node 2 commit private:p#1 version 1 1 file 0 bytes ticket [0-9]+ by [^ ]+@[^ ]+ held [0-9.]+ s$")
        self.end()
        self.ups = []
        self.up("up", "--nodes", "2")
        self.assertEqual(self.events("locked:c")[: len(found)], found)
        for words, status in ((["why", "locked:none"], 70), (["why", "x"], 64), (["history", "x"], 64), (["history", "--since", "soon"], 64), (["run", "--as", "a b", "true"], 64)):
            with contextlib.redirect_stderr(io.StringIO()):
                self.asked(*words, status=status)

    def test_hits(self) -> None:
        """What ccache had for a command stands where its lease ends, also of one that failed, and of a merged folder."""
        os.chmod(self.write("bin/ccache", CCACHE % self.path("calls")), 0o755)
        self.env["PATH"] = f"{self.path('bin')}:{os.environ['PATH']}"
        self.up("up", "--nodes", "1")
        for number, (folder, counted, status) in enumerate((("locked:c", (0, 0, 3), 0), ("locked:c", (4, 1, 4), 0), ("locked:c", (9, 1, 4), 7), ("merged:c", (5, 1, 5), 0), ("locked:d", (), 0))):
            text = self.write(f"{number}", told_hits(*counted) if counted else "")
            self.farm("run", "--folder", f"{folder}=w", "--", "sh", "-c", f"mkdir -p w/0; cp {text} w/0/{'stats' if counted else 'x'}; exit {status}", status=status)
        found = [(event["kind"], event.get("hits")) for event in self.events() if event["kind"] in ("commit", "release")]
        wanted = [[0, 3], [5, 6], [5, 5], [1, 2]]
        self.assertEqual(found, [(kind, {"locked:c": hits}) for kind, hits in zip(("commit", "commit", "release", "commit"), wanted)] + [("commit", None)])
        self.assertRegex(self.asked("history", "locked:c"), r"(?m)^20[^ ]*Z node 1 commit locked:c version 2 .* held [0-9.]+ s 5 of 6 hits$")
        self.assertEqual([each["hits"] for each in json.loads(self.asked("log", "--json", "locked:c"))["locked:c"]], [wanted[0], wanted[1], wanted[3]])

    def test_without(self) -> None:
        """A farm whose history can't be written goes on, and tells what it saw since it began."""
        os.makedirs(f"{self.home}/history")
        self.up("up", "--nodes", "1")
        self.farm("run", "--folder", "locked:c=w", "--", "touch", "w/f")
        self.assertRegex(self.asked("log", "locked:c"), r"\Alocked:c version 1 ticket 1 [0-9a-f]{64} 20[^ ]*Z node 1 by ")
        self.assertEqual(os.listdir(f"{self.home}/history"), [])


if __name__ == "__main__":
    unittest.main()
