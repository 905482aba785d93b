"""Transports and hints."""
from __future__ import annotations

import contextlib
import hmac
import os
import shutil
import socket
import subprocess
import threading
import unittest
import urllib.parse
from typing import Any
from unittest import mock

from agent.folders import trees
from agent.folders.index import make_whole
from agent.store.chunks import chunk_names, chunk_path
from agent.faults import ClientGone, FarmFault, Missing, UsageFault
from agent.transport.hints import from_nodes, to_nodes
from agent.transport.keys import FarmKey, make_key, node_key, renew_key
from agent.transport.needs import Needs, parts
from agent.store.packing import packed
from agent.store.redis import HOLD, RedisStore
from agent.transport.redis import RedisTransport
from agent.transport.redis_wire import Redis, RedisAway, RedisFault
from agent.store.folder import ChunksMissing
from agent.transport.local import LocalTransport, Transport, address_of

from agent.tests import support


class Carries(support.RoomTest):
    def carries(self, transport: Transport) -> None:
        self.assertIsNone(transport.receive("node.1", 0.05))
        transport.send("node.1", "a b")
        transport.send("node.2", "c")
        transport.send("node.1", "d")
        lines = list[str]()

        def are_here() -> bool:
            lines.extend(filter(None, [transport.receive("node.1", 1.0)]))
            return len(lines) > 1

        support.until(are_here)
        self.assertEqual(lines, ["a b", "d"])
        self.assertIsNone(transport.receive("node.1", 0.05))


class Needed(unittest.TestCase):
    def test_answers(self) -> None:
        """Only what answers the question that is open counts, and only all of it."""
        needs, words = Needs(), list[str]()
        digests = {f"{number:064x}" for number in range(8_001)}
        told = parts(digests)
        self.assertEqual([len(part) for part in told], [8_000, 1])
        self.assertEqual(parts([]), [[]])

        def send(word: str) -> None:
            words.append(word)
            needs.take([words[0][::-1], "0", "1", "0" * 64])
            for number in (1, 0, 1)[: len(words) + 1]:
                needs.take([word, str(number), "2", *told[number]])

        self.assertEqual(needs.ask(send), digests)

        def send_again(word: str) -> None:
            needs.take([words[0], "0", "1", "old"])
            needs.take([word, "0", "1"])

        self.assertEqual(needs.ask(send_again), set())


class Local(Carries):
    def test_local(self) -> None:
        self.carries(LocalTransport())
        full = LocalTransport(most=1)
        full.send("x", "kept")
        full.send("x", "lost")
        self.assertEqual([full.receive("x", 0.05), full.receive("x", 0.05)], ["kept", None])

    def test_addresses(self) -> None:
        rows = [("acquire 3 1 1 locked:a 00", "coordinator"), ("hello 3 1 00", "coordinator"), ("granted 3 1 1 1 plain 00", "node.3"),
                ("fetch 12 3 aa 00", "node.12"), ("blob 2 00", "node.2")]
        for line, wanted in rows:
            self.assertEqual(address_of(line), wanted)


@unittest.skipUnless(support.has("redis-server"), support.needs("redis-server"))
class OverRedis(Carries):
    def test_lines(self) -> None:
        with support.redis_server(self.room) as url:
            transport = RedisTransport(url, "t")
            transport.receive("node.2", 0.01)
            self.carries(transport)
            transport.server.call("XADD", "t:to:node.1", "*", "line", "two\nlines")
            transport.server.call("XADD", "t:to:node.1", "*", "other", "x")
            self.assertIsNone(transport.receive("node.1", 0))  # nothing is here yet
            self.assertEqual(transport.receive("node.1", 0.05), "")
            for text in ("a", "b"):
                transport.server.call("XADD", "t:to:node.1", "*", "line", text)
            self.assertEqual([transport.receive("node.1", 1.0), transport.receive("node.1", 0)], ["a", "b"])
            transport.server.call("XADD", "t:to:node.1", "9999999999999-0", "line", "of a clock that was ahead")
            transport.receive("node.1", 1.0)
            transport.server.call("FLUSHALL")
            transport.receive("node.1", 0.05)
            self.carries(transport)
            self.assertFalse(RedisStore(url, self.path("a"), "t").keeps_well())
        transport.send("node.1", "lost")
        self.assertIsNone(transport.receive("node.1", 0.05))

    def test_keeps_well(self) -> None:
        with support.redis_server(self.room, "--appendonly", "yes", "--appendfsync", "always") as url:
            self.assertTrue(RedisStore(url, self.path("a"), "t").keeps_well())

    @unittest.skipUnless(support.has("casync"), support.needs("casync"))
    def test_contents(self) -> None:
        with support.redis_server(self.room) as url:
            one, other = (RedisStore(url, self.path(name), "t") for name in "ab")
            self.write("tree/f", "text" * 1000)
            index, digest = support.kept(one, self.path("tree"))
            name = f"t:chunk:{chunk_names(index)[0]}"
            sealed = one.server.call("GET", name)
            for bad in (sealed[:-1] + bytes([sealed[-1] ^ 1]), b"", b"x" * 500):
                one.server.call("SET", name, bad)
                with self.assertRaisesRegex(ChunksMissing, "1 chunks of a version"):
                    trees.extract(other, index, self.path("out"))
            one.server.call("SET", name, b"s" * 32 + sealed)  # as older agents wrote it
            trees.extract(RedisStore(url, self.path("later"), "t"), index, self.path("later-out"))
            one.server.call("SET", f"t:index:{digest}", "x")
            self.assertIsNone(other.index(digest))
            self.assertEqual((other.offer(digest), one.offer(digest)), (False, True))
            self.assertEqual(other.index(digest), index)
            trees.extract(other, index, self.path("out"))
            self.assertEqual(self.read("out/f"), "text" * 1000)
            self.assertIsNone(other.index("0" * 64))
            found = other.fetch

            def fetch(index: bytes) -> None:
                """Another process, which knows nothing of it, forgets a chunk as soon as it is here."""
                found(index)
                if not os.path.exists(self.path("forgotten")):
                    os.rename(chunk_path(other.chunks, chunk_names(index)[0]), self.path("forgotten"))

            with mock.patch.object(other, "fetch", fetch):
                trees.extract_whole(other, index, self.path("again"))
            self.assertEqual(self.read("again/f"), "text" * 1000)
            self.assertTrue(os.path.exists(self.path("forgotten")))

    @unittest.skipUnless(support.has("casync"), support.needs("casync"))
    def test_compared(self) -> None:
        """A chunk that is in the store already isn't believed: a commit that relies on it is readable when its maker is gone."""
        with support.redis_server(self.room) as url:
            self.write("tree/f", "text" * 1000)
            index, _ = support.kept(RedisStore(url, self.path("before"), "t"), self.path("tree"))
            name = f"t:chunk:{chunk_names(index)[0]}"
            for number, bad in enumerate((b"", b"\0" * 300, b"\x28\xb5\x2f\xfd" + b"x" * 300, packed(b"another chunk"))):
                maker = RedisStore(url, self.path(f"maker{number}"), "t")
                maker.server.call("SET", name, bad)
                self.assertEqual(support.kept(maker, self.path("tree"))[0], index)
                shutil.rmtree(self.path(f"maker{number}"))
                trees.extract(RedisStore(url, self.path(f"reader{number}"), "t"), index, self.path(f"out{number}"))
                self.assertEqual(self.read(f"out{number}/f"), "text" * 1000)

    @unittest.skipUnless(support.has("casync"), support.needs("casync"))
    def test_away(self) -> None:
        """What a command made isn't lost with a server that is away when it is to be kept. What a server refuses is told at once."""
        with support.redis_server(self.room) as url:
            store = RedisStore(url, self.path("a"), "t")
            self.write("tree/f", "text" * 1000)
            index, digest = support.kept(store, self.path("tree"))
            store.server.call("CONFIG", "SET", "maxmemory", "1")
            with self.assertRaisesRegex(FarmFault, "took no contents: .*maxmemory"):
                store.publish(index)
        words = ["redis-server", "--port", url.rpartition(":")[2], "--bind", "127.0.0.1", "--save", "", "--logfile", self.path("log")]
        back: list[subprocess.Popen[bytes]] = []
        threading.Timer(1.5, lambda: back.append(subprocess.Popen(words))).start()
        try:
            self.assertEqual(store.publish(index), digest)
            self.assertEqual(RedisStore(url, self.path("b"), "t").index(digest), index)
        finally:
            for server in back:
                server.terminate()
                server.wait()

    def test_away_late(self) -> None:
        """A server that goes away late in a long sending is waited for as well. One that never gets further isn't, for ever."""
        now, calls, faults, away = [0.0], list[str](), dict[int, int](), list[str]()

        def call(commands: list[list[str]], most: int = 0) -> list[int]:
            if commands[0][1] == HOLD:
                return [1]
            now[0] += 50
            calls.append(commands[0][3])
            if faults.get(at := int(calls[-1][-1]), 0):
                faults[at] -= 1
                raise RedisAway("away")
            return [1] * len(commands)

        store = RedisStore.__new__(RedisStore)
        store.server, store.farm, store.lock, store.compared = mock.Mock(calls=call), "t", threading.Lock(), {}
        store.owner = store.own = ""
        module = "agent.store.redis"
        with (
            mock.patch(f"{module}.time.monotonic", lambda: now[0]), mock.patch(f"{module}.time.sleep"), mock.patch(f"{module}.AT_ONCE", 1),
            mock.patch(f"{module}.chunk_names", lambda index: list("01234567") if index else []), mock.patch.object(store, "_packed", str.encode),
        ):
            faults[6] = 1
            store._send("8", b"i", away.append)
            self.assertEqual("".join(name[-1] for name in calls), "0123456012345678")
            self.assertEqual(away, ["waiting for the store over Redis, which takes no contents: away"])
            faults[6] = 1
            with self.assertRaises(ClientGone):  # who hears of it may give up
                store._send("8", b"i", mock.Mock(side_effect=ClientGone))
            faults[6] = 99
            with self.assertRaisesRegex(FarmFault, "took no contents: away"):
                store._send("8", b"i", away.append)
            self.assertLess(len(calls), 60)

    @unittest.skipUnless(support.has("casync"), support.needs("casync"))
    def test_forget(self) -> None:
        with support.redis_server(self.room) as url:
            store = RedisStore(url, self.path("a"), "t")
            self.write("one/f", "a" * 300_000)
            self.write("one/g", "c" * 300_000)
            self.write("two/f", "b" * 300_000)
            _, one = support.kept(store, self.path("one"))
            _, two = support.kept(store, self.path("two"))
            self.assertEqual(store.forget(lambda: {one}, 3600), (0, 0))  # all is young
            store.server.call("ZADD", "t:given", 5, f"t:index:{two}")
            store.server.call("SET", "t:chunk:" + "0" * 64, "of an agent that was killed")
            indexes, chunks = store.forget(lambda: {one}, 3600)  # what only that index named is young, but the chunk whose time nobody set
            self.assertEqual((indexes, chunks), (1, 1))
            self.assertGreaterEqual(store.forget(lambda: {one}, 0)[1], 1)
            fresh = RedisStore(url, self.path("b"), "t")
            self.assertIsNone(fresh.index(two))
            trees.extract(fresh, fresh.index(one) or b"", self.path("out"))
            self.assertEqual(self.read("out/f"), "a" * 300_000)
            chunk = chunk_names(fresh.index(one) or b"")[0]
            self.assertEqual(store.publish(store.folder.index(two) or b""), two)  # what is here and was forgotten there is given anew
            trees.extract(fresh, fresh.index(two) or b"", self.path("out2"))
            store.server.call("SET", f"t:index:{one}", "x")
            lone = RedisStore(url, self.path("c"), "t")
            heard = list[str]()
            self.assertEqual((lone.forget(lambda: {one}, 0, heard.append)[1], heard), (0, [one]))
            self.assertEqual(store.server.call("EXISTS", f"t:chunk:{chunk}"), 1)

    @unittest.skipUnless(support.has("casync"), support.needs("casync"))
    def test_held(self) -> None:
        """What a commit under way names stays in Redis, whatever its clock says: from before its chunks are looked for until it is answered."""
        with support.redis_server(self.room) as url:
            self.write("one/f", "a" * 300_000)
            maker, other = RedisStore(url, self.path("a"), "t", "1"), RedisStore(url, self.path("b"), "t")
            with maker.making():
                index = make_whole(maker, self.path("one"))
                digest = maker.publish(index)
            self.assertEqual(other.forget(set, -(10**9)), (0, 0))
            other.server.call("SET", f"t:chunk:{'0' * 64}", "of an agent that was killed")
            asked = list[int]()

            def ask() -> set[str]:
                asked.append(0)
                if len(asked) == 1:  # a commit begins behind what was asked
                    maker.release(digest)
                    RedisStore(url, self.path("a"), "t", "2").publish(index)
                return set()

            self.assertEqual((other.forget(ask, -(10**9)), len(asked)), ((0, 1), 2))
            later = RedisStore(url, self.path("a"), "t", "2")  # the agent of that commit was killed, and its next one has one answered
            with later.making():
                later.publish(index)
            later.release(digest)
            self.assertEqual(later.server.call("HLEN", "t:held"), 0)
            self.assertEqual(other.forget(set, -(10**9))[0], 1)

    @unittest.skipUnless(support.has("casync"), support.needs("casync"))
    def test_busy(self) -> None:
        """Where commits come all the time it forgets all the same, and nothing of what they name."""
        with support.redis_server(self.room) as url:
            maker, other = RedisStore(url, self.path("a"), "t", "1"), RedisStore(url, self.path("b"), "t")
            for name in "abc":
                self.write(f"{name}/f", name * 300_000)
            made = [support.kept(maker, self.path(name)) for name in "abc"]
            kept, begun, told = other._kept, list[str](), list[str]()

            def busy(kind: str) -> list[str]:
                names = kept(kind)
                begun.append(kind)
                maker.server.call("INCR", "t:holds")  # a commit of something else
                if kind == "chunk":
                    maker.publish(made[1][0])
                    maker.server.call("DEL", f"t:index:{made[1][1]}")  # as before it is given: what is held says its chunks
                return names

            with mock.patch.object(other, "_kept", busy):
                indexes, chunks = other.forget(set, -(10**9), told.append)
            self.assertEqual((indexes, begun, told), (3, ["index", "chunk"], []))
            self.assertEqual(chunks, len({name for at in (0, 2) for name in chunk_names(made[at][0])} - set(chunk_names(made[1][0]))))
            trees.extract(RedisStore(url, self.path("c"), "t"), made[1][0], self.path("out"))
            self.assertEqual(self.read("out/f"), "b" * 300_000)

    def test_password(self) -> None:
        with support.redis_server(self.room, "--requirepass", "a b") as url:
            with self.assertRaisesRegex(Missing, "the Redis server at redis://127.0.0.1:[0-9]+ refuses: NOAUTH"):
                Redis(url)
            with self.assertRaisesRegex(Missing, "refuses: WRONGPASS"):
                Redis(url.replace("//", "//:wrong@"))
            Redis(url.replace("//", "//:a%20b@") + "/3").call("SET", "x", 5)
            self.assertEqual(Redis(url.replace("//", "//default:a%20b@") + "/3").call("GET", "x"), b"5")
        with self.assertRaisesRegex(Missing, "no Redis server answers at redis://127.0.0.1:1: Connection refused"):
            Redis("redis://127.0.0.1:1")
        for bad in ("http://127.0.0.1:1", "what"):
            with self.assertRaisesRegex(UsageFault, "redis://HOST"):
                Redis(bad)


def server_of(port: int) -> Redis:
    server = Redis.__new__(Redis)
    server.url, server.idle, server.lock = urllib.parse.urlsplit(f"redis://127.0.0.1:{port}"), [], threading.Lock()
    return server


class Servers(unittest.TestCase):
    """Servers of the tests' own."""

    def test_strange_servers(self) -> None:
        """What no server of Redis says is a fault, and nothing else."""
        for said in (b"", b"+OK\r\n$99999999999\r\n", b"*9999999\r\n", b"*1\r\n" * 20, b"what\r\n", b"$5\r\nab", b":x\r\n", b"-no\r\n", b"x" * 100_000):
            with socket.create_server(("127.0.0.1", 0)) as server:
                def answers() -> None:
                    link, _ = server.accept()
                    with link:
                        link.recv(1000)
                        link.sendall(said)

                thread = threading.Thread(target=answers)
                thread.start()
                with self.assertRaises(RedisFault, msg=said):
                    server_of(server.getsockname()[1]).calls([("PING",), ("PING",)])
                thread.join()

    def test_strange_store(self) -> None:
        """What a server of Redis says and a store doesn't expect is a fault, and nothing else."""
        strange: list[Any] = [None, 7, b"x", [], [[b"x"], [7, None]], [b"x", 7], [b"0", [7, None, [b"x"]]], [b"x"] * 3]
        for said in strange:
            store = RedisStore.__new__(RedisStore)
            store.server, store.farm, store.folder, store.lock = mock.Mock(), "t", mock.Mock(index=lambda digest: None), threading.Lock()
            store.server.call = lambda *words, most=0: said
            store.server.calls = lambda commands, most=0: [said] * len(commands)
            self.assertFalse(store.keeps_well())
            with contextlib.suppress(FarmFault):
                self.assertEqual(store.forget(lambda: set(), 0), (0, 0))
            self.assertIsNone(store.index("0" * 64))

    def test_bounded(self) -> None:
        """A reply is bounded by what was asked for: what is longer is a fault before it is taken."""
        with socket.create_server(("127.0.0.1", 0)) as server:
            def answers() -> None:
                for _ in range(2):
                    link, _ = server.accept()
                    with link, contextlib.suppress(OSError):
                        link.recv(1000)
                        link.sendall(b"$3000000\r\n" + bytes(3_000_000) + b"\r\n")

            thread = threading.Thread(target=answers)
            thread.start()
            with self.assertRaisesRegex(RedisFault, "too long"):
                server_of(server.getsockname()[1]).call("GET", "x")
            self.assertEqual(len(server_of(server.getsockname()[1]).call("GET", "x", most=3_000_000)), 3_000_000)
            thread.join()

    def test_loads(self) -> None:
        """A server that still loads its data is waited for."""
        with socket.create_server(("127.0.0.1", 0)) as server:
            def answers() -> None:
                link, _ = server.accept()
                with link:
                    for said in (b"-LOADING Redis is loading the dataset in memory\r\n", b"+PONG\r\n"):
                        link.recv(1000)
                        link.sendall(said)

            thread = threading.Thread(target=answers)
            thread.start()
            Redis(f"redis://127.0.0.1:{server.getsockname()[1]}")
            thread.join()

    def test_ended_connection(self) -> None:
        """A connection that the server ended while it idled is made anew."""
        with socket.create_server(("127.0.0.1", 0)) as server:
            def answers() -> None:
                for _ in range(2):
                    link, _ = server.accept()
                    with link:
                        link.recv(1000)
                        link.sendall(b"+PONG\r\n")

            thread = threading.Thread(target=answers)
            thread.start()
            client = Redis(f"redis://127.0.0.1:{server.getsockname()[1]}")
            self.assertEqual(client.call("PING"), b"PONG")
            thread.join()
            with self.assertRaises(Missing) as told:
                Redis("redis://:SECRET@127.0.0.1:1")
            self.assertNotIn("SECRET", str(told.exception))


class Sealed(support.RoomTest):
    def test_hints(self) -> None:
        key = make_key(self.path("farm/key"))
        self.assertEqual(make_key(key), key)
        self.assertEqual(os.stat(key).st_mode & 0o777, 0o600)
        farm, other = FarmKey(key), FarmKey(make_key(self.path("other/key")))
        hints = farm.of_node(1).hints()
        line = hints.seal("here 1 5")
        self.assertEqual((hints.open(line), farm.hints().open(line)), (["here", "1", "5"],) * 2)
        self.assertEqual([farm.of_node(2).hints().open(line), other.of_node(1).hints().open(line), other.hints().open(line)], [None] * 3)
        for bad in (line.replace("5", "6", 1), line[:-1] + ("0" if line[-1] != "0" else "1"), "here 1 5", line[5:], "", "hint x é", "hint here 9999 x"):
            self.assertIsNone(hints.open(bad), bad)
            self.assertIsNone(farm.hints().open(bad), bad)
        self.assertNotEqual(farm.names, other.names)

    def test_keys(self) -> None:
        """A node's key is that of HMAC-SHA256 over its name. It speaks for no other node, and not as the farm; its file says whose it is."""
        self.write("key", "k" * 32 + "\n")
        farm = FarmKey(self.path("key"))
        key = farm.of_node(7)
        self.assertEqual(key.digits, hmac.new(b"k" * 32, b"key of node 7 in epoch 0", "sha256").hexdigest())
        self.write("node.key", key.text())
        self.assertEqual(node_key(self.path("node.key")), key)
        with self.assertRaisesRegex(UsageFault, "is that of node 7: node 8 has its own"):
            key.of_node(8)
        forged = key.hints().seal("here 8 5")  # about another node
        said = farm.hints().own.seal("coordinator x stands")
        self.assertEqual((farm.hints().open(forged), key.hints().open(said), farm.hints().open(key.hints().seal("coordinator x stands"))), (None,) * 3)
        self.assertEqual([from_nodes(line) for line in (to_nodes("lacks 2 aa"), "hint ended 5 1 -", "hint lacks -", said)], [["lacks", "2", "aa"], None, None, None])
        renew_key(self.path("key"))
        again = FarmKey(self.path("key"))
        self.assertEqual((again.names.farm, again.names.generation == farm.names.generation), (farm.names.farm, False))
        for text in ("", key.digits, key.text() + "\n", key.text().replace("node 7", "node 70000")):
            self.write("node.key", text)
            with self.assertRaises(UsageFault):
                node_key(self.path("node.key"))


if __name__ == "__main__":
    unittest.main()
