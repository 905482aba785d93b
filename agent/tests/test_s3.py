"""Contents in an object store: Debian's swift by its S3 layer, and a farm over it."""
from __future__ import annotations

import contextlib
import os
import shutil
import subprocess
import sys
import tempfile
import unittest
from unittest import mock

from agent.faults import ClientGone, FarmFault, Missing, UsageFault
from agent.folders import trees
from agent.folders.index import make_whole
from agent.store import bucket, s3
from agent.store.bucket import Bucket, place_of
from agent.store.chunks import chunk_names
from agent.store.folder import ChunksMissing
from agent.store.packing import packed
from agent.store.s3 import S3Store
from agent.trials.s3 import Endpoint, is_here, server

from agent.tests import support

EVER = -(10**9)  # a grace by which everything is old


def are_contents(keys: list[str]) -> bool:
    return any(not key.startswith("forgets/") for key in keys)


class Named(unittest.TestCase):
    def test_places(self) -> None:
        rows = [("s3://abc", ("abc", "")), ("s3://a.b-c/", ("a.b-c", "")), ("s3://abc/d/e/", ("abc", "d/e/")), ("s3://abc/d", ("abc", "d/"))]
        for url, wanted in rows:
            self.assertEqual(place_of(url), wanted)
        for url in ("s3://", "s3://ab", "s3://ABC/d", "s3://abc/d//e", "s3://abc/../e", "s3://abc/d e", "s3://key:secret@abc/d", "s3://abc/d?x"):
            with self.assertRaisesRegex(UsageFault, "s3://BUCKET/PREFIX", msg=url):
                place_of(url)

    def test_missing(self) -> None:
        """What isn't installed is told with what installs it."""
        with mock.patch.object(bucket, "DEBIAN", "/nowhere"), mock.patch.dict(sys.modules, {"boto3.session": None}), mock.patch.object(sys, "path", []):
            with self.assertRaisesRegex(Missing, "apt-get install python3-boto3"):
                Bucket("s3://abc/d")

    def test_not_loaded(self) -> None:
        """No command that only asks reads any of it."""
        code = "import sys; from agent.commands import main, ask, care, run; import agent.service.serving; print([m for m in sys.modules if 'boto' in m or m == 'agent.store.s3'])"
        done = subprocess.run([sys.executable, "-S", "-c", code], cwd=support.TOP, capture_output=True, text=True)
        self.assertEqual(done.stdout, "[]\n", done.stderr)


@unittest.skipUnless(support.has("casync"), support.needs("casync"))
@unittest.skipUnless(is_here(), support.needs("python3-boto3 or python3-swift"))
class Over(support.FarmTest):
    """One object store serves all tests, each under a place of its own."""

    place: Endpoint
    count = 0

    @classmethod
    def setUpClass(cls) -> None:
        room = cls.enterClassContext(tempfile.TemporaryDirectory())
        cls.place = cls.enterClassContext(server(f"{room}/swift"))
        cls.enterClassContext(mock.patch.dict(os.environ, cls.place.env))

    def setUp(self) -> None:
        super().setUp()
        Over.count += 1
        self.url = f"{self.place.url}/{self.count}"
        self.write("tree/f", "text" * 1000)

    def store(self, name: str, owner: str = "") -> S3Store:
        store = S3Store(self.url, self.path(name), "t", owner)
        self.addCleanup(store.bucket.client.close)
        return store

    def test_spoilt(self) -> None:
        """What is there isn't believed: a commit that relies on it is readable when its maker is gone. What is lost comes from who has it."""
        one, other = self.store("a"), self.store("b")
        index, digest = support.kept(one, self.path("tree"))
        key = f"chunk/{chunk_names(index)[0]}"
        right = one.bucket.get(key, 10_000) or b""
        for number, bad in enumerate((b"", right[:-1] + b"x", packed(b"another chunk"), b"x" * 9_999)):
            one.bucket.put(key, bad)
            with self.assertRaisesRegex(ChunksMissing, "1 chunks of a version"):
                trees.extract(other, index, self.path("out"))
            with mock.patch.object(s3, "tell_people") as told:
                support.kept(self.store(f"maker{number}"), self.path("tree"))
            self.assertRegex(told.call_args[0][0], f"had 1 spoilt objects, {key} among them")
            trees.extract(self.store(f"reader{number}"), index, self.path(f"out{number}"))
            self.assertEqual(self.read(f"out{number}/f"), "text" * 1000)
        one.bucket.delete([key])
        one.bucket.put(f"index/{digest}", b"x")
        self.assertIsNone(other.index(digest))
        with mock.patch.object(s3, "tell_people"):
            self.assertEqual((other.offer(digest), one.offer(digest)), (False, True))
        trees.extract(other, other.index(digest) or b"", self.path("out"))
        self.assertEqual(self.read("out/f"), "text" * 1000)
        with mock.patch.object(one.bucket, "tag", lambda key: "0" * 32), mock.patch.object(one.bucket, "put") as put:
            one.offer(digest)  # its ETags say nothing, as where the store has keys of its own: what is right there stays
        put.assert_not_called()

    def test_many(self) -> None:
        """Where much is to be given, what is there is listed, if that takes fewer requests than to ask for each; else each is asked for."""
        for k in range(8):
            self.write(f"tree/{k}", str(k) * 70_000)
        support.kept(self.store("a"), self.path("tree"))
        store = self.store("b")
        for number, (keys, is_each_asked) in enumerate(((1000, False), (1, True))):
            self.write("tree/new", os.urandom(100_000).hex())
            index, _ = support.kept(maker := self.store(f"c{number}"), self.path("tree"))
            names = chunk_names(index)
            store.bucket.delete([f"chunk/{name}" for name in names[:2]])
            store.bucket.put(f"chunk/{names[2]}", b"spoilt")
            maker.compared.clear()
            list_objects = store.bucket.client.list_objects_v2
            with (
                mock.patch.multiple(s3, LISTED_FROM=4, AT_ONCE=2, tell_people=mock.Mock()), mock.patch.object(maker.bucket, "tag", wraps=maker.bucket.tag) as asked,
                mock.patch.object(maker.bucket.client, "list_objects_v2", lambda **words: list_objects(**words, MaxKeys=keys)),
            ):
                with maker.making():
                    maker.publish(index)
            self.assertEqual(asked.call_count, len(names) + 1 if is_each_asked else 1)
            reader = self.store(f"d{number}")
            trees.extract(reader, index, self.path(f"many{number}"))
            self.assertEqual(self.read(f"many{number}/f"), "text" * 1000)

    def test_refused(self) -> None:
        self.store("a")
        with self.assertRaisesRegex(UsageFault, "the contents of another farm"):
            S3Store(self.url, self.path("b"), "another")
        with self.assertRaisesRegex(FarmFault, "nobuckethere can't be used: NoSuchBucket"):
            S3Store("s3://nobuckethere", self.path("b"), "t")
        with mock.patch.dict(os.environ, {"AWS_SECRET_ACCESS_KEY": "wrong"}), self.assertRaisesRegex(FarmFault, "can't be used: (SignatureDoesNotMatch|AccessDenied)"):
            self.store("b")
        with mock.patch.dict(os.environ, {"AWS_ENDPOINT_URL": "http://127.0.0.1:1"}), self.assertRaisesRegex(FarmFault, "Could not connect"):
            self.store("b")

    def test_away(self) -> None:
        """A store that is busy is waited for, and what it took isn't given again. Who hears of it may give up, and then nothing is left waiting."""
        store = self.store("a")
        self.write("tree/g", "other" * 100_000)
        with store.making():
            index = make_whole(store, self.path("tree"))
            said, fault = list[str](), contextlib.ExitStack()
            fault.enter_context(self.place.faulty("503"))

            def away(why: str) -> None:
                said.append(why)
                fault.close()

            digest = store.publish(index, away)
            self.assertRegex(said[0], f"waiting for the store {self.url}, which takes no contents: SlowDown")
            self.assertEqual(self.store("b").index(digest), index)
            with self.place.faulty("slow 0.5"):
                trees.extract(self.store("c"), index, self.path("out"))
            with self.place.faulty("503"), self.assertRaises(ClientGone):
                store.publish(index, mock.Mock(side_effect=ClientGone))

    def test_forget(self) -> None:
        for name in ("one", "two"):
            self.write(f"{name}/f", name * 100_000)
        store, other = self.store("a", "1"), self.store("b")
        index, one = support.kept(store, self.path("one"))
        _, two = support.kept(store, self.path("two"))
        self.assertEqual(other.forget(lambda: {one}, 3600), (0, 0))  # all is young
        with mock.patch.object(bucket, "DELETED_AT_ONCE", 2), mock.patch.object(s3, "CONDEMNED_MOST", 3):
            self.assertEqual(other.forget(lambda: {one}, EVER)[0], 1)
        self.assertEqual({key.rpartition("/")[2] for key in self.keys(store, "chunk/")}, set(chunk_names(index)))
        self.assertIsNone(self.store("c").index(two))
        self.assertEqual(support.kept(store, self.path("two"))[1], two)  # what was compared is looked for again
        trees.extract(self.store("d"), self.store("d").index(two) or b"", self.path("out"))
        self.assertEqual(self.read("out/f"), "two" * 100_000)
        store.bucket.put(f"index/{one}", b"x")
        heard = list[str]()
        self.assertEqual((self.store("e").forget(lambda: {one, two}, EVER, heard.append), heard), ((0, 0), [one]))

    def keys(self, store: S3Store, front: str) -> list[str]:
        return [each.key for each in store.bucket.listed(front)[1]]

    def commit(self, store: S3Store, index: bytes) -> None:
        with store.making():
            make_whole(store, self.path("tree"))
            store.publish(index)

    def check_readable(self, name: str, digest: str) -> None:
        store = self.store(name)
        trees.extract(store, store.index(digest) or b"", self.path(f"{name}-out"))
        self.assertEqual(self.read(f"{name}-out/f"), "text" * 1000)

    def test_held(self) -> None:
        """Nothing of a commit under way is forgotten, whatever the clock says, at whatever moment it begins."""
        maker, other = self.store("a", "1"), self.store("b")
        index, digest = support.kept(maker, self.path("tree"))
        self.commit(maker, index)
        self.assertEqual(other.forget(set, EVER), (0, 0))
        maker.release(digest)
        self.assertEqual(self.keys(maker, "held/"), [])
        put, deletes = other.bucket.put, other.bucket.delete

        def before_told(key: str, data: bytes) -> None:
            if data:
                self.commit(maker, index)
            put(key, data)

        def after_looked(keys: list[str]) -> None:
            if are_contents(keys):
                self.commit(late, index)
            deletes(keys)

        with mock.patch.object(other.bucket, "put", before_told):  # it begins before what is to go is told
            self.assertEqual(other.forget(set, EVER), (0, 0))
        self.check_readable("c", digest)
        maker.release(digest)
        late = self.store("late", "2")
        with mock.patch.object(other.bucket, "delete", after_looked):  # it begins when what is to go is told, and what is held was read
            self.assertEqual(other.forget(set, EVER), (1, 1))
        self.check_readable("d", digest)
        self.assertEqual(other.forget(set, EVER), (0, 0))

    def test_killed_forgetter(self) -> None:
        """What a killed one was about to delete may be deleted yet: no commit relies on it, and it is told as long as another one forgets."""
        maker, other = self.store("a", "1"), self.store("b")
        index, digest = support.kept(maker, self.path("tree"))
        self.commit(maker, index)
        maker.release(digest)
        about, deletes = list[str](), other.bucket.delete

        def killed(keys: list[str]) -> None:
            if are_contents(keys):
                about.extend(keys)
                raise KeyboardInterrupt
            deletes(keys)

        def after_killed(keys: list[str]) -> None:
            if are_contents(keys):
                self.assertLess(set(about), other._forgetters().keys)
                deletes(about)
            deletes(keys)

        with mock.patch.object(other.bucket, "delete", killed), self.assertRaises(KeyboardInterrupt):
            other.forget(set, EVER)
        self.commit(self.store("late", "2"), index)
        again = self.store("late", "2")  # of the process before nothing is held once a commit of this one was answered
        self.commit(again, index)
        again.release(digest)
        self.assertEqual(self.keys(maker, "held/"), [])
        self.commit(again, index)
        other.bucket.put(f"chunk/{'0' * 64}", b"of an agent that was killed")
        with mock.patch.object(other.bucket, "delete", after_killed):
            self.assertEqual(other.forget(set, EVER), (0, 1))
        self.check_readable("e", digest)
        again.release(digest)
        other.forget(set, EVER)
        self.assertEqual([self.keys(maker, kind) for kind in ("chunk/", "index/")], [[], []])

    def test_late(self) -> None:
        """What the store was asked to delete it may delete after its asker has given up, or was killed: after a commit that needs it too."""
        for number, fault in enumerate((OSError("no answer"), KeyboardInterrupt())):
            self.url = f"{self.place.url}/late{number}"
            maker, other = self.store(f"maker{number}", "1"), self.store(f"other{number}")
            index, digest = support.kept(maker, self.path("tree"))
            late, delete = list[dict[str, object]](), other.bucket.client.delete_objects

            def unanswered(**words: dict[str, list[dict[str, str]]]) -> object:
                if late or not any("/chunk/" in each["Key"] for each in words["Delete"]["Objects"]):
                    return delete(**words)
                late.append(dict(words))
                raise fault

            with mock.patch.object(other.bucket.client, "delete_objects", unanswered), contextlib.suppress(KeyboardInterrupt):
                other.forget(set, EVER)
            other.forget(set, EVER)
            with maker.making():
                maker.publish(make_whole(maker, self.path("tree")))
            delete(**late[0])
            reader = self.store(f"reader{number}")
            trees.extract(reader, reader.index(digest) or b"", self.path(f"late{number}"))
            self.assertEqual(self.read(f"late{number}/f"), "text" * 1000)
            with mock.patch.object(s3, "LATE", EVER):  # then nothing is deleted late any more
                other.forget(lambda: {digest}, EVER)
            self.assertEqual(other._condemned()[1], {})
            other.bucket.put("forgets/hostile", b"\xff\nchunk/x " + b"9" * 5000 + b"\nchunk/y 7")
            self.assertEqual({"chunk/x", "chunk/y"} - other._forgetters().keys, set())

    @unittest.skipUnless(support.has("redis-server"), support.needs("redis-server"))
    def test_farm(self) -> None:
        """Two nodes with homes of their own. What the agents sign with no command sees."""
        with support.redis_server(self.room, "--appendonly", "yes", "--appendfsync", "always") as url:
            self.addCleanup(self.end)
            words = ["--broker", url, "--nodes", "2", "--contents", self.url]
            self.up("coordinator", *words)
            for node in ("1", "2"):
                self.asked("key", node, self.path(f"n{node}/node.key"))
                self.up("node", node, "--home", self.path(f"n{node}"), *words)
            for name in self.place.env:
                del self.env[name]

            def run(node: int, command: str) -> str:
                done = self.farm("run", "--home", self.path(f"n{node}"), "--folder", f"locked:c=w{node}", "--", "sh", "-c", command)
                return done.stdout + done.stderr

            said = run(1, "head -c 300000 /dev/urandom > w1/f; env; cat /proc/1/environ | tr '\\0' '\\n'")
            for name, value in self.place.env.items():
                self.assertNotIn(f"{name}={value}\n", said)
            self.assertIn("f\n", run(2, "ls w2; echo >> w2/g"))
            with mock.patch.dict(os.environ, self.place.env):
                store = Bucket(self.url)
                self.addCleanup(store.client.close)
                chunks = [each.key for each in store.listed("")[1] if "/chunk/" in each.key]
                store.delete(chunks)
                shutil.rmtree(self.path("w1"))
                shutil.rmtree(self.path("n1/contents/chunks"))
                said = run(1, "ls w1")
                self.assertRegex(said, f"waiting for locked:c version 2: [0-9]+ chunks .* in the store {self.url}, and the other nodes are asked for them")
                self.assertIn("f\ng\n", said)
                with self.place.faulty("503"):
                    late = self.begin("run", "--home", self.path("n1"), "--folder", "locked:c=w1", "--", "sh", "-c", "echo > w1/h")
                    self.hear(late, f"waiting for the store {self.url}, which takes no contents: SlowDown")
                said = late.communicate(timeout=support.PATIENCE)[1]
                self.assertEqual((late.returncode, "committed" in said), (0, True), said)
                self.env.update(self.place.env)
                self.assertRegex(self.asked("gc", "--grace", "0"), f"{self.url} forgot [0-9]+ indexes and [0-9]+ chunks")
                self.assertIn("f\ng\nh\n", run(2, "ls w2"))
                self.assertIn(f"well: the store {self.url}", self.asked("doctor"))
                self.env["AWS_ENDPOINT_URL"] = "http://127.0.0.1:1"
                self.assertIn(f"WRONG: the store {self.url}: can't be used: Could not connect", self.asked("doctor", status=70))
