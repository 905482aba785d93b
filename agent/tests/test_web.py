"""The page with the farm's status."""
from __future__ import annotations

import contextlib
import http.client
import io
import json
import os
import shutil
import socket
import subprocess
import threading
import time
import unittest
import urllib.error
import urllib.request
from typing import Any, Sequence

from agent.faults import FarmFault
from agent.history.events import Event, line_of
from agent.service.carried import made
from agent.service.operators import Past, Status
from agent.web import web

from agent.tests import support
from agent.tests.browser import Browser

MARKED = "locked:<script>document.title='bad'</script><img/src=x/onerror=document.title='bad'>"


def told(nodes: int, leases: int, folder: str = "locked:c") -> dict[str, Any]:
    """A status as a coordinator tells it."""
    now = time.time()
    return {
        "now": now, "gone": [2], "retired": [], "tickets": 9, "lives": {str(n): 1_700_000_000 + n for n in range(1, nodes + 1)},
        "heard": {str(n): now - n for n in range(1, nodes + 1)},
        "leases": [{"ticket": t, "node": t % nodes + 1, "life": 1, "ask": t, "kind": "plain", "slots": [f"{folder}{t}"], "since": now - t} for t in range(1, leases + 1)],
        "snapshots": [{"node": 2, "slot": "locked:c", "version": 4, "since": now - 2, "state": "merging"}],
        "waiting": [{"kind": "acquire", "node": 1, "life": 1, "ask": 5, "folders": [folder], "left": True, "since": now - 40, "who": "nightly"}],
        "folders": [{"slot": f"{folder}{t}", "version": 3, "ticket": t, "digest": "0" * 64, "versions": [
            {"version": v, "ticket": v, "digest": "0" * 64, "size": 1234 ** v} for v in (3, 2, 1)]} for t in range(1, leases + 1)],
    }


def events(folders: int, count: int, now: float) -> list[Event]:
    """The past of some folders: each lease asks, waits, begins, and ends."""
    ends, made = ("commit", "commit", "commit", "release", "fence", "withdraw", "lost", "commit"), list[Event]()
    for turn in range(count // 4):
        folder, at, held = f"locked:cache{turn % folders:02}", now - (count // 4 - turn) * 3.0, 20.0 + 17 * (turn % 7)
        last, waited = ends[turn // folders % len(ends)], float(turn % 5) * 9
        how = "withdraw" if last == "fence" else last
        whole = Event("ask", at=at - waited, node=turn % 4 + 1, ask=turn, folders=(folder,))
        made += [whole, whole._replace(kind="grant", at=at, ticket=turn + 1, waited=waited), whole._replace(kind="begin", at=at, ticket=turn + 1, who=f"ci-{turn}")]
        made += [whole._replace(kind="leave", at=at + held, node=2, ask=turn, who="impatient", waited=held * 0.7)] if turn % 12 == 5 else []
        made.append(whole._replace(
            kind=how, at=at + held, ticket=turn + 1, who=f"ci-{turn}", waited=waited, held=held,
            versions={folder: (turn // folders + 1, 40 + turn, 1_000_000 + 4000 * turn)} if how == "commit" else {},
            hits={folder: (90 + turn % 10, 100)} if turn % 3 == 0 else {},
        ))
        made += [made[-1]._replace(kind="fence", held=None, waited=None)] if last == "fence" else []
    return [event._replace(number=number) for number, event in enumerate(made, 1)]


def missing() -> Status:
    raise KeyError("what")


def has_ipv6() -> bool:
    try:
        with socket.create_server(("::1", 0), family=socket.AF_INET6):
            return True
    except OSError:
        return False


class Served(support.RoomTest):
    """A page whose farm is a value."""

    def serve(self, status: Any, address: str = "127.0.0.1", events: Sequence[Event] = ()) -> int:
        def read() -> Status:
            if isinstance(status, str):
                raise FarmFault(status)
            value: Status = made(Status, status)
            return value

        def past(after: int) -> Past:
            return Past(last=len(events), lines=tuple(map(line_of, events[after:])))

        server = web.Server(address, 0, web.Sources(read, past))
        thread = threading.Thread(target=server.serve_forever, args=(0.05,))
        thread.start()
        self.addCleanup(thread.join)
        self.addCleanup(server.server_close)
        self.addCleanup(server.shutdown)
        return server.server_port

    def get(self, port: int, path: str, method: str = "GET", at: str = "127.0.0.1", **heads: str) -> tuple[int, bytes, str]:
        link = http.client.HTTPConnection(at, port, timeout=support.PATIENCE)
        link.request(method, path, headers=heads)
        answer = link.getresponse()
        data = answer.read()
        link.close()
        return answer.status, data, answer.headers.get("Content-Security-Policy", "")


class Answers(Served):
    def test_answers(self) -> None:
        port = self.serve(told(2, 2))
        status, page, policy = self.get(port, "/")
        self.assertEqual(status, 200)
        self.assertNotIn(b"http", page.replace(b"http-equiv", b""))  # nothing of another server
        self.assertIn("default-src 'none'; script-src 'sha256-", policy)
        self.assertEqual(len(json.loads(self.get(port, "/status.json")[1])["leases"]), 2)
        past = self.serve(told(2, 2), events=events(1, 8, 1e9))
        answers = [json.loads(self.get(past, f"/history.json?after={after}")[1]) for after in (0, 6, 99)]
        self.assertEqual([(answer["last"], len(answer["lines"])) for answer in answers], [(8, 8), (8, 2), (8, 0)])
        rows = [("/../agent/web.py", "GET", 404), ("/status.json?x", "GET", 404), ("/history.json", "GET", 404), ("/history.json?after=-1", "GET", 404), ("/", "POST", 501), ("/status.json", "DELETE", 501)]
        for path, method, wanted in rows:
            self.assertEqual(self.get(port, path, method)[0], wanted, path)
        self.assertEqual(self.get(port, "/status.json", Host="evil.example")[0], 403)
        self.assertEqual(self.get(port, "/", Host=f"localhost:{port}")[0], 200)
        self.assertEqual(self.get(self.serve("no farm answers"), "/status.json")[:2], (503, b"no farm answers"))

    def test_metrics(self) -> None:
        """Prometheus's own reader, where promtool is there, finds nothing wrong with the text; and it says what the status does."""
        status, data, _ = self.get(self.serve(told(2, 2, 'locked:a"b\\')), "/metrics")
        lines = data.decode().splitlines()
        self.assertEqual(status, 200)
        for wanted in ('farm_leases{kind="plain"} 2', 'farm_leases{kind="tenure"} 0', "farm_asks_waiting 1", "farm_tickets_total 9", "farm_nodes_retired 1",
                       'farm_folder_versions_total{slot="locked:a\\"b\\\\1"} 3', "# TYPE farm_tickets_total counter", 'farm_snapshots{state="merging"} 1'):
            self.assertIn(wanted, lines)
        if promtool := shutil.which("promtool"):
            done = subprocess.run([promtool, "check", "metrics"], input=data, capture_output=True)
            self.assertEqual((done.returncode, done.stdout + done.stderr), (0, b""))

    def test_gone(self) -> None:
        """Who asks and is gone before the answer is nobody's fault."""
        server = web.Server("127.0.0.1", 0, web.Sources(missing, lambda after: Past(0, ())))
        self.addCleanup(server.server_close)
        host = f"Host: 127.0.0.1:{server.server_port}\r\n\r\n".encode()
        for asked, said in ((b"GET / HTTP/1.1\r\n" + host, ""), (b"GET / HT", ""), (b"GET /status.json HTTP/1.1\r\n" + host, "KeyError: 'what'")):
            ours, theirs = socket.socketpair()
            theirs.sendall(asked)
            theirs.close()
            with contextlib.redirect_stderr(io.StringIO()) as heard:
                server.process_request_thread(ours, ("", 0))
            self.assertRegex(heard.getvalue(), f"{said}\\n" if said else r"\A\Z")

    @unittest.skipUnless(has_ipv6(), "there is no IPv6 here")
    def test_ipv6(self) -> None:
        everywhere = self.serve(told(1, 1), "::")
        for at in ("127.0.0.1", "::1"):
            self.assertEqual(self.get(everywhere, "/", at=at, Host="a.name:80")[0], 200, at)
        for address, at in (("::1", "::1"), ("::ffff:127.0.0.1", "127.0.0.1")):
            port = self.serve(told(1, 1), address)
            for host, status in ((f"[{address}]:{port}", 200), (f"localhost:{port}", 200), ("evil.example", 403), (f"[::2]:{port}", 403)):
                self.assertEqual(self.get(port, "/status.json", at=at, Host=host)[0], status, (address, host))


class Addresses(support.FarmTest):
    @unittest.skipUnless(has_ipv6(), "there is no IPv6 here")
    def test_url(self) -> None:
        page = self.begin("web", "--port", "0", "--address", "::1")
        assert page.stdout
        url = page.stdout.readline().strip()
        self.assertRegex(url, r"\Ahttp://\[::1\]:[0-9]+/\Z")
        with urllib.request.urlopen(url, timeout=support.PATIENCE) as answer:
            self.assertEqual(answer.status, 200)
        with self.assertRaises(urllib.error.HTTPError) as none:
            urllib.request.urlopen(f"{url}status.json", timeout=support.PATIENCE)
        with none.exception as said:
            self.assertIn(b"no farm answers", said.read())
        page.terminate()
        self.assertEqual((page.communicate(timeout=support.PATIENCE), page.returncode), (("", ""), 0))

    def test_unusable(self) -> None:
        """What is no address of this machine is told in one sentence."""
        for address in ("", "nowhere.invalid", "a..b", "\udcff", "2001:db8::1", "192.0.2.1"):
            said = self.asked("web", "--port", "0", f"--address={address}", status=70)
            self.assertRegex(said, r"\Afarm: no page at '[^\n]*', port 0: [^\n]+\n\Z")
        for port in ("-1", "65536"):
            self.assertIn("0-65535", self.asked("web", "--port", port, status=70))


LOOP = "let sum = 0; for (let k = 0; k < 1e7; k++) sum += k % 7; window.kept = sum"


@unittest.skipUnless(support.has("chromium"), support.needs("chromium"))
class InBrowser(Served):
    def browser(self) -> Browser:
        made = Browser(self.room, *(1200, 1000) if os.environ.get("FARM_PICTURE") else ())
        self.addCleanup(made.close)
        return made

    def took(self, browser: Browser, script: str) -> float:
        """How many times as long a script takes as ten million turns of a loop, some 20 milliseconds where the machine has nothing else to do:
        the best of nine."""
        timed = "(() => {{ const begun = performance.now(); {}; return performance.now() - begun; }})()".format
        took, turns = (min(browser.value(timed(each)) for _ in range(9)) for each in (script, LOOP))
        if os.environ.get("FARM_TIMES"):
            print(f"{script}: {took:.1f} ms, the loop {turns:.1f} ms")
        return float(took / turns)

    def test_markup(self) -> None:
        browser = self.browser()
        browser.open(f"http://127.0.0.1:{self.serve(told(3, 2, MARKED))}/")
        self.assertTrue(browser.wait("document.querySelectorAll('#leases tbody tr').length === 2"))
        self.assertEqual(browser.value("document.querySelector('#leases td.long').textContent"), f"{MARKED}1")
        self.assertEqual(browser.value("[document.title, document.scripts.length, document.images.length]"), ["farm", 1, 0])
        self.assertIn("retired", browser.value("document.querySelector('#nodes').textContent"))
        self.assertIn("lease that nobody wants any more", browser.value("document.querySelector('#waiting').textContent"))

    def test_many(self) -> None:
        browser = self.browser()
        browser.open(f"http://127.0.0.1:{self.serve(told(200, 2000))}/")
        self.assertTrue(browser.wait("document.querySelectorAll('#leases tbody tr').length === 2000"))
        self.assertLess(self.took(browser, "draw(); document.body.offsetHeight"), 100)  # it draws every two seconds
        browser.value("wanted.value = 'locked:c1999'; wanted.dispatchEvent(new Event('input'))")
        self.assertTrue(browser.wait("document.querySelectorAll('#leases tbody tr').length === 1"))
        self.assertIn("200", browser.value("String(Object.keys(told.lives).length)"))

    def test_past(self) -> None:
        """Fifty folders and ten thousand events: drawn at once, and zoomed by keys and by dragging."""
        browser = self.browser()
        browser.open(f"http://127.0.0.1:{self.serve(told(4, 3, 'locked:cache0'), events=events(50, 10_000, time.time()))}/")
        self.assertTrue(browser.wait("rows.size >= 50"))
        self.assertLess(self.took(browser, "line()"), 25)
        whole = browser.value("drawn")
        self.assertLess(whole, 2500)  # only the rows that are seen
        browser.value("past.focus()")
        widths = [browser.value("seen().to - seen().from")]
        for key in ("+", "+", "ArrowLeft", "-"):
            browser.key(key)
            widths.append(browser.value("seen().to - seen().from"))
        self.assertEqual([round(width / widths[0], 2) for width in widths], [1, 0.5, 0.25, 0.25, 0.5])
        self.assertLess(browser.value("drawn"), whole)
        browser.drag(*browser.value("(() => { const box = canvas.getBoundingClientRect(); return [box.left + 300, box.top + 60, box.left + 400]; })()"))
        share = browser.value("100 / (past.clientWidth - NAMES)")
        self.assertAlmostEqual(browser.value("seen().to - seen().from"), widths[-1] * share, delta=widths[-1] * 0.02)
        browser.key("0")
        self.assertAlmostEqual(browser.value("seen().to - seen().from"), widths[0], delta=30)
        browser.value("wanted.value = 'cache07'; wanted.dispatchEvent(new Event('input'))")
        self.assertEqual(browser.value("shown"), ["locked:cache07"])
        found = browser.value("(() => { const span = rows.get('locked:cache07').spans.at(-1); look(span.from - 5, span.to + 5); return under(NAMES + 300, AXIS + 10); })()")
        self.assertEqual("hits" in found, browser.value("rows.get('locked:cache07').spans.at(-1).of === 100"))
        self.assertRegex(found, r"\Alocked:cache07\nnode [1-4], by ci-[0-9]+\n[a-z ]+[^\n]*, ticket [0-9]+\n20[^\n]*, for [0-9.]+ (s|min)")
        browser.key("?")
        if os.environ.get("FARM_PICTURE"):
            browser.value("explain(); wanted.value = ''; look(told.now - 900, told.now); draw()")
            browser.picture(os.environ["FARM_PICTURE"])
            browser.key("?")
        self.assertIn("after its lease had ended", browser.value("document.querySelector('dialog[open]').textContent"))

    def test_left(self) -> None:
        """An ask that was given up has the bar of its waiting up to then, and the one that still stands for it none."""
        now = time.time()
        browser = self.browser()
        browser.open(f"http://127.0.0.1:{self.serve(told(1, 0), events=[Event('leave', number=1, at=now - 30, node=1, folders=('locked:c',), who='bob', waited=20.0)])}/")
        self.assertTrue(browser.wait("rows.size === 1"))
        browser.value("look(told.now - 60, told.now)")
        texts = browser.value("[-40, -10].map(ago => under(NAMES + (60 + ago) / 60 * (past.clientWidth - NAMES), AXIS + 10))")
        self.assertRegex(texts[0], r"\Alocked:c\nnode 1, by bob\ngave up at 20[^\n]*\nwaited 20 s\Z")
        self.assertEqual(texts[1], "")

    def test_strange_past(self) -> None:
        """What is no event is skipped, markup stays text, and a history that began anew is taken anew."""
        made = [Event("grant", number=1, at=1.0, node=1, ticket=1, folders=(MARKED,)), Event("commit", number=2, at=time.time(), node=1, ticket=1, folders=(MARKED,), who=MARKED, held=9.0)]
        browser = self.browser()
        browser.open(f"http://127.0.0.1:{self.serve(told(1, 0), events=made)}/")
        self.assertTrue(browser.wait("rows.size === 1"))
        browser.value("takePast({last: 9, lines: ['', '{', 'null', '[]', '{\"kind\":\"commit\"}', '{\"kind\":\"commit\",\"folders\":7}']}); line()")
        self.assertEqual(browser.value("rows.size"), 1)
        browser.value("tip.textContent = under(past.clientWidth - 2, AXIS + 10)")
        self.assertEqual(browser.value("[document.title, document.images.length, document.scripts.length]"), ["farm", 0, 1])
        browser.value("takePast({last: 1, lines: []}); line()")
        self.assertEqual(browser.value("[rows.size, last]"), [0, 1])

    def test_lights(self) -> None:
        """Text and ground are far apart, by day and by night."""
        browser = self.browser()
        browser.open(f"http://127.0.0.1:{self.serve(told(3, 2))}/")
        browser.wait("document.querySelectorAll('#leases tbody tr').length === 2")
        sums = []
        for is_dark in (False, True):
            browser.dark(is_dark)
            script = "getComputedStyle(document.querySelector('%s')).%s.match(/[0-9]+/g).slice(0, 3).reduce((a, b) => a + Number(b), 0)"
            sums.append((browser.value(script % ("#leases td", "color")), browser.value(script % ("#leases th", "backgroundColor"))))
        self.assertTrue(sums[0][0] < 200 < 600 < sums[0][1] and sums[1][1] < 200 < 500 < sums[1][0], sums)


@unittest.skipUnless(support.has("chromium"), support.needs("chromium"))
@unittest.skipUnless(support.has("casync"), support.needs("casync"))
class OfAFarm(support.FarmTest):
    def test_lease(self) -> None:
        """A lease appears, is withdrawn, and disappears."""
        self.up("up", "--nodes", "2")
        self.farm("run", "--folder", "locked:c=w", "--", "sh", "-c", "head -c 5000 /dev/zero > w/f")
        page = self.begin("web", "--port", "0")
        self.addCleanup(page.communicate)
        self.addCleanup(page.terminate)
        assert page.stdout
        url = page.stdout.readline().strip()
        browser = Browser(self.room)
        self.addCleanup(browser.close)
        browser.open(url)
        self.assertTrue(browser.wait("document.querySelector('#leases').textContent.includes('nobody has')"))
        held = self.begin("run", "--node", "1", "--on-lost", "stop", "--folder", "locked:c=w", "--", "sh", "-c", "touch in; sleep 760")
        self.wait_for(self.path("in"))
        waits = self.begin("run", "--node", "2", "--folder", "locked:c=v", "--", "true")
        self.assertTrue(browser.wait("document.querySelector('#leases').textContent.includes('locked:c') && document.querySelector('#waiting').textContent.includes('locked:c')"))
        ticket = json.loads(self.asked("status", "--json"))["leases"][0]["ticket"]
        self.asked("withdraw", str(ticket))
        held.communicate(timeout=support.PATIENCE)
        waits.communicate(timeout=support.PATIENCE)
        self.assertTrue(browser.wait("document.querySelector('#leases').textContent.includes('nobody has')"))
        self.assertTrue(browser.wait("rows.get('locked:c').spans.map(span => span.how).sort().join() === 'commit,commit,withdraw'"))
        self.assertRegex(browser.value("document.querySelector('#folders').textContent"), "locked:c2[0-9]+[0-9.]+ kB[0-9.]+ s[0-9.]+ s1: ")
        self.end()
        self.ups = []
        self.assertTrue(browser.wait("document.querySelector('#said.lost') !== null"))


if __name__ == "__main__":
    unittest.main()
