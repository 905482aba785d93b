"""Folders as contents, and back; what a store forgets."""
from __future__ import annotations

import errno
import json
import mmap
import os
import shutil
import subprocess
import sys
import tempfile
import unittest
from typing import Callable, Iterator
from unittest import mock

from agent.folders import claims, trees
from agent.store.chunks import chunk_names, chunk_path
from agent.faults import FarmFault
from agent.transport.keys import make_key
from agent.folders.places import Places, Trash, check_apart, path_order, place_of
from agent.folders.held import Held
from agent.folders.listing import walk
from agent.folders.index import make_whole
from agent.folders.standing import identity, is_trusted
from agent.store.folder import FolderStore
from agent.store.lasting import put_file
from agent.store.packing import packed
from agent.words import EMPTY

from agent.tests import support


def told(path: str) -> list[tuple[object, ...]]:
    """What is to be the same of a tree."""
    found: list[tuple[object, ...]] = []
    for folder, folders, files in os.walk(path):
        for name in (".", *folders, *files):
            at = os.path.join(folder, name)
            here = os.lstat(at)
            text: object = os.readlink(at) if os.path.islink(at) else None
            if os.path.isfile(at) and not os.path.islink(at):
                with open(at, "rb") as file:
                    text = file.read()
            found.append((os.path.relpath(at, path), here.st_mode, here.st_uid, here.st_mtime_ns, text))
    return sorted(found, key=lambda row: str(row[0]))


@unittest.skipUnless(support.has("casync"), support.needs("casync"))
class Trees(support.RoomTest):
    def setUp(self) -> None:
        super().setUp()
        self.store = FolderStore(self.path("store"))

    def tree(self) -> str:
        self.write("tree/a/file", "x" * 200_000)
        self.write("tree/a/.caexclude", "*\n")
        self.write("tree/a/.caexclude%", "second\n")
        self.write("tree/b/tool", "#!/bin/sh\n")
        os.chmod(self.path("tree/b/tool"), 0o4755)
        os.symlink("../a/nowhere", self.path("tree/b/link"))
        os.mkfifo(self.path("tree/b/pipe"))
        os.makedirs(self.path("tree/empty"))
        os.utime(self.path("tree/a/file"), ns=(5, 1_234_567_890_123_456_789))
        if support.is_root:
            os.chown(self.path("tree/b/tool"), 1000, 1001)
            os.chmod(self.path("tree/b/tool"), 0o4755)
        os.chmod(self.path("tree"), 0o750)
        os.utime(self.path("tree"), ns=(5, 1_000_000_000_000_000_001))
        return self.path("tree")

    def test_there_and_back(self) -> None:
        tree = self.tree()
        before = told(tree)
        index, digest = support.kept(self.store, tree)
        self.assertEqual(told(tree), before)
        self.assertEqual(self.store.index(digest), index)
        trees.extract(self.store, index, self.path("out"))
        self.assertEqual(told(self.path("out")), before)
        self.assertEqual(support.kept(self.store, self.path("out")), (index, digest))

    def test_kept_or_refused(self) -> None:
        """What couldn't be brought back isn't kept."""
        self.write(f"tree/{'d' * 255}/{'f' * 237}", "x")
        os.symlink("x", self.path(f"tree/{'é' * 118}"))
        index, _ = support.kept(self.store, self.path("tree"))
        trees.extract(self.store, index, self.path("out"))
        self.assertEqual(told(self.path("out")), told(self.path("tree")))
        for name, said in (("f" * 238, "237 bytes"), ("é" * 119, "237 bytes"), ("old", "before 1970")):
            path = self.write(f"bad/{name}", "x")
            os.utime(path, (0, -1 if name == "old" else 0))
            with self.assertRaisesRegex(FarmFault, said):
                support.kept(self.store, self.path("bad"))
            os.unlink(path)
        os.symlink("x", self.path(f"bad/{'l' * 238}"))
        with self.assertRaisesRegex(FarmFault, "237 bytes"):
            support.kept(self.store, self.path("bad"))
        os.unlink(self.path(f"bad/{'l' * 238}"))
        os.utime(self.path("bad"), (0, -1))
        with self.assertRaisesRegex(FarmFault, "before 1970"):
            support.kept(self.store, self.path("bad"))

    def test_flag_nodump(self) -> None:
        self.write("tree/kept", "x")
        if not support.has("chattr") or subprocess.run(["chattr", "+d", self.path("tree/kept")], capture_output=True).returncode:
            self.skipTest("this file system has no attribute d")
        index, _ = support.kept(self.store, self.path("tree"))
        trees.extract(self.store, index, self.path("out"))
        self.assertEqual(self.read("out/kept"), "x")

    def test_empty(self) -> None:
        self.assertEqual(self.store.index(EMPTY), b"")
        trees.extract(self.store, b"", self.path("out"))
        self.assertEqual(os.listdir(self.path("out")), [])
        os.makedirs(self.path("none"))
        index, _ = support.kept(self.store, self.path("none"))
        trees.extract(self.store, index, self.path("out"))
        self.assertEqual(os.listdir(self.path("out")), [])

    def test_killed(self) -> None:
        """Of a casync that was killed, and so said nothing, the status is told."""
        index, _ = support.kept(self.store, self.tree())
        self.write("bin/casync", "#!/bin/sh\nkill -9 $$\n")
        os.chmod(self.path("bin/casync"), 0o755)
        with mock.patch.dict("os.environ", {"PATH": f"{self.path('bin')}:{os.environ['PATH']}"}):
            with self.assertRaisesRegex(FarmFault, r"\Acasync extract /[^ ]+: it ended with status -9\Z"):
                trees.extract(self.store, index, self.path("out"))

    def test_in_the_way(self) -> None:
        """What is at a path already stays, whatever the content."""
        self.write("mine/f", "x")
        os.symlink("nowhere", self.path("link"))
        for name in ("mine", "mine/f", "link"):
            for index in (b"", b"no index"):
                with self.assertRaisesRegex(FarmFault, f"{name} is there: name a path"):
                    trees.extract_whole(self.store, index, self.path(name))
        self.assertEqual((self.read("mine/f"), os.listdir(self.path("mine"))), ("x", ["f"]))

    def test_lost_and_damaged(self) -> None:
        index, digest = support.kept(self.store, self.tree())
        with self.assertRaises(FarmFault):
            chunk_names(index[:-1])
        with self.assertRaises(FarmFault):
            chunk_names(b"x" * 200)
        chunk = chunk_path(self.store.chunks, chunk_names(index)[0])
        data = b""
        with open(chunk, "rb") as file:
            data = file.read()
        with open(chunk, "wb") as file:
            file.write(data[:-3] + b"abc")
        with self.assertRaises(FarmFault):
            trees.extract(self.store, index, self.path("out"))
        os.unlink(chunk)
        with self.assertRaisesRegex(FarmFault, "1 chunks of a version"):
            trees.extract(self.store, index, self.path("out2"))
        with self.assertRaises(FarmFault):
            self.store.publish(index)
        put_file(f"{self.store.indexes}/{digest}", b"damaged")
        self.assertIsNone(self.store.index(digest))
        self.assertIsNone(self.store.index("../key"))

    def test_deep(self) -> None:
        """More folders within folders than are kept, and than can be walked."""
        self.write(f"tree/{'d/' * 62}f", "x")
        index, _ = support.kept(self.store, self.path("tree"))
        trees.extract(self.store, index, self.path("out"))
        self.assertEqual(told(self.path("out")), told(self.path("tree")))
        for name in ("b/c", "b/f"):
            self.write(f"tree/{'d/' * 62}{name}", "x")
            with self.assertRaisesRegex(FarmFault, "more than 63 names deep"):
                support.kept(self.store, self.path("tree"))
        subprocess.run([sys.executable, "-c", "import os\nfor i in range(1200): os.mkdir('a'); os.chdir('a')"], cwd=self.path("tree"), check=True)
        with self.assertRaisesRegex(FarmFault, "more than 63 names deep"):
            support.kept(self.store, self.path("tree"))
        Trash(self.path("home")).take(self.path("tree"))
        support.until(lambda: not os.listdir(self.path("home/trash")), "it is still in the trash")

    def test_hollow(self) -> None:
        """What a power failure left of chunks that nobody had synced is made anew."""
        tree = self.tree()
        index = make_whole(self.store, tree)
        for name in chunk_names(index):
            with open(chunk_path(self.store.chunks, name), "wb"):
                pass
        with self.assertRaisesRegex(FarmFault, "aren't in"):
            self.store.fetch(index)
        self.assertEqual(support.kept(self.store, tree)[0], index)
        trees.extract(self.store, index, self.path("out"))
        self.assertEqual(told(self.path("out")), told(tree))

    def test_cut_short(self) -> None:
        """So is what it left of chunks that were half written. What is spoilt otherwise is found where it is looked for."""
        tree = self.tree()
        index = make_whole(self.store, tree)
        paths = [chunk_path(self.store.chunks, name) for name in chunk_names(index)]
        for rest in (1, 3, 4, 20, -1):
            for path in paths:
                with open(path, "rb+") as file:
                    file.truncate(rest if rest > 0 else os.path.getsize(path) + rest)
            self.assertEqual(support.kept(self.store, tree)[0], index, rest)
            self.assertEqual(self.store.spoilt(index), [])
        with open(paths[0], "rb+") as file:
            file.seek(10)
            file.write(b"spoilt")
        with self.assertRaisesRegex(FarmFault, "1 chunks of a version aren't in"):
            trees.extract_whole(self.store, index, self.path("out2"))
        self.assertFalse(os.path.exists(self.path("out2")))
        support.kept(self.store, tree)
        self.assertFalse(self.store.mend(index))

    def test_spoilt(self) -> None:
        """A chunk counts if its bytes unpack to what its name says: one that is spoilt is replaced before a commit relies on it."""
        tree = self.tree()
        self.write("tree/other", "y" * 200_000)
        index = support.kept(self.store, tree)[0]
        names = chunk_names(index)
        with open(chunk_path(self.store.chunks, names[1]), "rb") as file:
            other = file.read()
        path = chunk_path(self.store.chunks, names[0])
        rows = (b"\0" * os.path.getsize(path), b"", b"xz head, and what follows", other, b"\x28\xb5\x2f\xfd" + b"\0" * 40, packed(b"x" * 50_000_000))
        for number, bad in enumerate(rows):
            os.unlink(path)
            with open(path, "wb") as file:
                file.write(bad)
            with self.assertRaisesRegex(FarmFault, f"1 chunks of a version aren't in .*{names[0]}"):
                self.store.publish(index)
            self.assertEqual(support.kept(self.store, tree)[0], index)
            trees.extract(self.store, index, self.path(f"out{number}"))
            self.assertEqual(told(self.path(f"out{number}")), told(tree))

    def test_too_large(self) -> None:
        """A content that no line carries is refused by name, before it is finished."""
        index = support.kept(self.store, self.tree())[0]
        with mock.patch("agent.store.folder.LARGEST_CONTENT", len(index) - 1), self.assertRaisesRegex(FarmFault, "TooLarge: the content has .* several folders"):
            self.store.publish(index)
        support.kept(self.store, self.path("tree"))

    def test_synced_first(self) -> None:
        """No chunk has its name before its bytes are on the device, and its folder is before the index is."""
        done = list[str]()
        fsync, rename = os.fsync, os.rename

        def synced(handle: int) -> None:
            fsync(handle)
            done.append(os.readlink(f"/proc/self/fd/{handle}"))

        def renamed(one: str, other: str) -> None:
            rename(one, other)
            done.append(f"{one} {other}")

        tree = self.tree()
        with mock.patch("os.fsync", synced), mock.patch("os.rename", renamed):
            index, digest = support.kept(self.store, tree)
        named = next(place for place, each in enumerate(done) if each.endswith(f" {self.store.indexes}/{digest}"))
        for name in chunk_names(index):
            path = chunk_path(self.store.chunks, name)
            place = next(place for place, each in enumerate(done) if each.endswith(f" {path}"))
            self.assertIn(done[place].split(" ")[0], done[:place])
            self.assertIn(os.path.dirname(path), done[place:named])

    def test_forget_meanwhile(self) -> None:
        """What gets its whole name, or is forgotten by another one, while it is looked for is no fault."""
        with mock.patch("os.walk", return_value=[(self.store.chunks, [], [".new-x"])]), mock.patch("os.listdir", return_value=["0" * 64]):
            self.assertEqual(self.store.forget(lambda: set(), -10), (0, 0))

    def test_forget_damaged(self) -> None:
        """Chunks of a content that is needed stay, though its index can't be read: a filter may have it."""
        index, digest = support.kept(self.store, self.tree())
        put_file(f"{self.store.indexes}/{digest}", b"damaged")
        heard = list[str]()
        self.assertEqual((self.store.forget(lambda: {digest}, -1, heard.append)[1], heard), (0, [digest]))
        trees.extract(self.store, index, self.path("out"))

    def test_held(self) -> None:
        """What is held isn't forgotten, however old its files are; of a process that ended amid a commit it is for the grace, by no clock of day."""
        self.write("one/f", "a" * 300_000)
        with self.store.making():
            digest = self.store.publish(make_whole(self.store, self.path("one")))
        self.assertEqual(self.store.forget(set, -1), (0, 0))
        trees.extract(self.store, self.store.index(digest) or b"", self.path("out"))
        self.store.release(digest, is_answered=False)
        for folder, _, names in os.walk(self.path("store")):
            for name in names:
                os.utime(f"{folder}/{name}", (1, 1))
        self.assertEqual(FolderStore(self.path("store")).forget(set, 3600), (0, 0))
        indexes, chunks = FolderStore(self.path("store")).forget(set, -1)
        self.assertEqual((indexes, bool(chunks), os.listdir(self.path("store/holds"))), (1, True, []))

    def test_answered_meanwhile(self) -> None:
        """A commit that is answered while gc goes on is needed: holds are looked at first, and what is needed is asked then."""
        self.write("one/f", "a" * 300_000)
        with self.store.making():
            digest = self.store.publish(make_whole(self.store, self.path("one")))

        asked = list[int]()

        def ask() -> set[str]:
            asked.append(0)
            if asked[1:]:  # the first one only tells what to read before commits are held up
                self.store.release(digest)  # it is answered just behind what the coordinator told
            return set()

        self.assertEqual((self.store.forget(ask, -1), len(asked)), ((0, 0), 2))

    def test_forget_turns(self) -> None:
        """Between two turns of a long forgetting commits go on, and what they name stays."""
        self.write("one/f", os.urandom(900_000).hex())
        index, digest = support.kept(self.store, self.path("one"))
        again = list[str]()

        def walk(folder: str) -> Iterator[tuple[str, list[str], list[str]]]:
            found = list(walked(folder))
            again.append(self.store.publish(index))  # chunks that nothing named when that was looked at
            yield from found

        walked = os.walk
        with mock.patch("os.walk", walk), mock.patch("agent.store.folder.FORGOTTEN_AT_ONCE", 1):
            self.assertEqual(self.store.forget(set, -1), (1, 0))
        self.assertEqual(again, [digest])
        trees.extract(self.store, index, self.path("out"))

    def test_forget(self) -> None:
        self.write("one/f", "a" * 300_000)
        self.write("two/f", "b" * 300_000)
        one, digest = support.kept(self.store, self.path("one"))
        _, other = support.kept(self.store, self.path("two"))
        self.write(f"store/chunks/0000/{'0' * 64}.tmp", "left by a killed casync")
        self.assertEqual(self.store.forget(lambda: {digest}, 3600), (0, 0))
        indexes, chunks = self.store.forget(lambda: {digest}, -1)
        self.assertEqual(indexes, 1)
        self.assertGreaterEqual(chunks, 2)
        self.assertIsNone(self.store.index(other))
        self.assertFalse(os.path.exists(self.path(f"store/chunks/0000/{'0' * 64}.tmp")))
        trees.extract(self.store, one, self.path("out"))
        self.assertEqual(self.read("out/f"), "a" * 300_000)


class Standing(support.RoomTest):
    """What is taken for unchanged."""

    def change(self, does: Callable[[str], object]) -> None:
        """Changes a file, and sets its times back."""
        path = self.path("w/a/f")
        here = os.stat(path)
        does(path)
        os.utime(self.path("w/a/f"), ns=(here.st_atime_ns, here.st_mtime_ns))

    def test_look(self) -> None:
        """After any change a folder isn't taken for what it was, and of one that nobody changed no file is read."""
        self.write("w/a/f", "text")
        os.symlink("a", self.path("w/link"))
        if not is_trusted(self.path("w")):
            self.skipTest("no file system here whose times are trusted")

        def another(path: str) -> None:
            os.rename(path, f"{path}2")
            self.write("w/a/f", "tent")

        def link(path: str) -> None:
            os.unlink(self.path("w/link"))
            os.symlink("b", self.path("w/link"))

        def mapped(path: str) -> None:
            with open(path, "r+b") as file, mmap.mmap(file.fileno(), 0) as mapped:
                mapped[0:1] = bytes([mapped[0] ^ 1])
                mapped.flush()

        rows: list[Callable[[str], object]] = [
            lambda path: self.write("w/a/f", "tent"), lambda path: os.chmod(path, 0o600), another, lambda path: os.unlink(f"{path}2"), link, mapped,
        ]
        held = Held(self.path("w"), self.path("note"))
        held.look()
        for number, row in enumerate(rows):
            held.settle()
            held.save()
            with mock.patch("hashlib.file_digest", side_effect=AssertionError):
                self.assertEqual([each.look() for each in (held, Held(self.path("w"), self.path("note")))], [False, False], number)
            self.change(row)
            self.assertTrue(held.look(), number)
            self.assertEqual(held.entries, walk(self.path("w"), {}, {}).entries)
        again = Held(self.path("w"), self.path("note"))
        os.rename(self.path("w"), self.path("old"))
        shutil.copytree(self.path("old"), self.path("w"), symlinks=True)
        self.assertTrue(again.entries)
        self.assertFalse(Held(self.path("w"), self.path("note")).entries, "it is another folder")

    @unittest.skipUnless(os.path.isdir("/dev/shm"), "there is no tmpfs at /dev/shm")
    def test_not_trusted(self) -> None:
        """On a tmpfs a write through a mapping may leave a file's times as they were."""
        with tempfile.TemporaryDirectory(dir="/dev/shm") as room:
            self.assertFalse(is_trusted(room))

    @unittest.skipUnless(support.has("casync"), support.needs("casync"))
    def test_places(self) -> None:
        store, places, path = FolderStore(self.path("store")), Places(self.path("home")), self.path("w")
        places.clear(path)
        self.write("w/f", "one")
        index, digest = places.keep(store, path)
        if not is_trusted(path):
            self.skipTest("no file system here whose times are trusted")
        number = os.stat(self.path("w/f")).st_ino
        with mock.patch("hashlib.file_digest", side_effect=AssertionError), mock.patch("agent.folders.trees.extract", side_effect=AssertionError):
            places.fill(store, index, path)
            self.assertEqual(places.keep(store, path), (index, digest))
            again = Places(self.path("home"))
            again.fill(store, index, path)
            self.assertEqual(again.keep(store, path), (index, digest))
        self.assertEqual(os.stat(self.path("w/f")).st_ino, number)
        self.write("w/f", "two")
        other, _ = places.keep(store, path)
        self.assertNotEqual(other, index)
        places.fill(store, index, path)
        self.assertEqual(self.read("w/f"), "one")
        os.unlink(self.path("w/f"))
        places.fill(store, index, path)
        self.assertEqual(self.read("w/f"), "one")
        os.link(self.path("w/f"), self.path("w/g"))
        index, _ = places.keep(store, path)
        places.fill(store, index, path)
        self.assertEqual(os.stat(self.path("w/g")).st_nlink, 1)  # as it would be elsewhere


class Paths(support.RoomTest):
    def test_places(self) -> None:
        places = Places(self.path("home"))
        path = self.path("work/cache")
        with places.held(path):
            places.clear(path)
        self.write("work/cache/f", "x")
        with places.held(path):
            places.clear(path)
        self.assertEqual(os.listdir(path), [])
        self.write("work/mine/f", "x")
        with self.assertRaisesRegex(FarmFault, "wasn't made by this node"):
            places.clear(self.path("work/mine"))
        self.assertEqual(self.read("work/mine/f"), "x")
        with self.assertRaisesRegex(FarmFault, "is no folder"):
            places.clear(self.path("work/mine/f"))
        os.makedirs(self.path("work/new"))
        places.clear(self.path("work/new"))
        os.symlink("work", self.path("link"))
        places.clear(self.path("workshop"))
        places.forget_within(self.path("link"))
        self.assertEqual([json.loads(self.read(f"home/places/{name}"))[0] for name in os.listdir(places.home)], [self.path("workshop")])

    def test_gone(self) -> None:
        """What is known of paths that are gone is forgotten, but of those that a command has, or whose file system isn't there."""
        places = Places(self.path("home"))
        paths = [self.path(name) for name in ("jobs/1/w", "jobs/2/w", "held", "elsewhere", "stays")]
        for path in paths:
            places.clear(path)
        shutil.rmtree(self.path("jobs"))
        for path in paths[2:4]:
            os.rmdir(path)
        (mark,) = [f"{places.home}/{name}" for name in os.listdir(places.home) if "elsewhere" in self.read(f"home/places/{name}")]
        with open(mark) as file:
            known = json.load(file)
        with open(mark, "w") as file:
            json.dump([known[0], known[1] + 1, *known[2:]], file)
        with places.held(self.path("held")):
            places.forget_gone()
        left = {json.loads(self.read(f"home/places/{name}"))[0] for name in os.listdir(places.home)}
        self.assertEqual(left, set(paths[2:]))
        places.forget_gone()
        self.assertEqual(len(os.listdir(places.home)), 2)

    @unittest.skipUnless(support.is_root, "only root can mount")
    def test_mounted(self) -> None:
        """What others have mounted within a folder isn't removed with it."""
        places, mounted = Places(self.path("home")), self.path("w/a \\ b")
        places.clear(self.path("w"))
        self.write("mine/f", "x")
        os.makedirs(mounted)
        if subprocess.run(["mount", "--bind", self.path("mine"), mounted], capture_output=True).returncode:
            self.skipTest("nothing can be mounted here")
        self.addCleanup(lambda: subprocess.run(["umount", mounted], stderr=subprocess.DEVNULL))
        with self.assertRaisesRegex(FarmFault, "is mounted within"):
            places.clear(self.path("w"))
        subprocess.run(["umount", mounted], check=True)
        places.clear(self.path("w"))
        self.assertEqual((os.listdir(self.path("w")), self.read("mine/f")), ([], "x"))

    def is_free(self, places: Places, path: str) -> bool:
        def check() -> None:
            raise FarmFault("it isn't free")

        try:
            with places.held(path, check):
                return True
        except FarmFault:
            return False

    def test_apart(self) -> None:
        """What one command has no other one has, nor what is within it or around it, on whichever node."""
        one, two = Places(self.path("home1")), Places(self.path("home2"))
        with one.held(self.path("w/a")):
            for places in (one, two):
                free = [self.is_free(places, self.path(name)) for name in ("w/a", "w/a/b", "w", "w/ab", "x")]
                self.assertEqual(free, [False, False, False, True, True])
        self.assertTrue(self.is_free(two, self.path("w/a")))
        self.assertEqual(sorted(["/a-b", "/a/c", "/a"], key=path_order), ["/a", "/a/c", "/a-b"])

    def test_copied_home(self) -> None:
        """Agents of two homes, one a copy of the other, give no path to two commands."""
        Places(self.path("home")).clear(self.path("w"))
        shutil.copytree(self.path("home"), self.path("copy"))
        text = (
            f"import sys, time; sys.path.insert(0, {support.TOP!r})\n"
            "from agent.folders.places import Places\n"
            f"with Places({self.path('home')!r}).held({self.path('w')!r}):\n"
            "    print('held', flush=True); time.sleep(600)\n"
        )
        other = subprocess.Popen([sys.executable, "-c", text], stdout=subprocess.PIPE, text=True)
        assert other.stdout
        other.stdout.readline()
        copied = Places(self.path("copy"))
        deep = "w/" + "/".join("abcdefghijkl")
        names = ["w", deep, f"{deep}/x", "wx", "wx/w"]
        self.assertEqual([self.is_free(copied, self.path(name)) for name in names], [False, False, False, True, True])
        self.assertEqual(os.listdir(self.path("w")), [])  # nothing is made within what another one has
        other.kill()
        other.communicate()
        self.assertTrue(self.is_free(copied, self.path("w")))

    @unittest.skipUnless(support.is_root and support.has("unshare"), "it needs root")
    def test_across_namespaces(self) -> None:
        """A path is held against agents in other network namespaces, and nobody else can take the place of who holds it."""
        if subprocess.run(["unshare", "-n", "true"], capture_output=True).returncode:
            self.skipTest("the kernel gives no network namespace")
        text = (
            f"import sys, time; sys.path.insert(0, {support.TOP!r})\n"
            "from agent.folders.places import Places\n"
            f"with Places({self.path('home')!r}).held({self.path('w/a')!r}):\n"
            "    print('held', flush=True); time.sleep(600)\n"
        )
        other = subprocess.Popen(["unshare", "-n", sys.executable, "-c", text], stdout=subprocess.PIPE, text=True)
        assert other.stdout
        other.stdout.readline()
        free = [self.is_free(Places(self.path("home2")), self.path(name)) for name in ("w", "w/a", "w/a/b", "w/b")]
        other.kill()
        other.communicate()
        self.assertEqual(free, [False, False, False, True])
        self.assertEqual(os.stat(claims.place()).st_mode & 0o777, 0o700)

    @unittest.skipUnless(support.is_root, "it needs root")
    def test_of_another_user(self) -> None:
        """An empty folder that another user made is owned anew."""
        os.mkdir(self.path("w"))
        os.chmod(self.path("w"), 0o777)
        os.chown(self.path("w"), 12345, 12345)
        Places(self.path("home")).clear(self.path("w"))
        here = os.stat(self.path("w"))
        self.assertEqual((here.st_uid, here.st_mode & 0o022), (0, 0))
        with mock.patch("os.rmdir", side_effect=PermissionError), mock.patch("os.geteuid", return_value=1):
            with self.assertRaisesRegex(FarmFault, "another user's folder"):
                Places(self.path("home3")).clear(self.path("w"))

    def test_held_within(self) -> None:
        """A path is held also against agents of other homes that want what is around it, however deep it lies."""
        text = (
            f"import sys, time; sys.path.insert(0, {support.TOP!r})\n"
            "from agent.folders.places import Places\n"
            f"with Places({self.path('home')!r}).held({self.path('w/' + '/'.join('abcdefghijklmnopqrstuvwxyz'))!r}):\n"
            "    print('held', flush=True); time.sleep(600)\n"
        )
        other = subprocess.Popen([sys.executable, "-c", text], stdout=subprocess.PIPE, text=True)
        assert other.stdout
        other.stdout.readline()
        free = [self.is_free(Places(self.path("home2")), self.path(name)) for name in ("w", "w/a", "w/a/b/c/d/e/f/g/h/i/j/k", "w/b")]
        other.kill()
        other.communicate()
        self.assertEqual(free, [False, False, False, True])

    def test_filled_by_another(self) -> None:
        """What a killed agent fills no command has before casync has ended."""
        self.write("bin/casync", f"#!/bin/sh\necho $$ > {self.path('pid')}.new; mv {self.path('pid')}.new {self.path('pid')}; exec sleep 600\n")
        os.chmod(self.path("bin/casync"), 0o755)
        text = (
            f"import sys; sys.path.insert(0, {support.TOP!r})\n"
            "from unittest import mock\n"
            "from agent.folders.places import Places\n"
            f"places = Places({self.path('home')!r})\n"
            f"with places.held({self.path('w')!r}):\n"
            f"    places.fill(mock.Mock(), b'index', {self.path('w')!r})\n"
        )
        agent = subprocess.Popen([sys.executable, "-c", text], env=os.environ | {"PATH": f"{self.path('bin')}:{os.environ['PATH']}"})
        support.until(lambda: os.path.exists(self.path("pid")))
        agent.kill()
        agent.wait()
        places = Places(self.path("home"))
        self.assertFalse(self.is_free(places, self.path("w")))
        os.kill(int(self.read("pid")), 9)
        with places.held(self.path("w")):
            pass

    @unittest.skipUnless(support.has("casync"), support.needs("casync"))
    def test_no_folder(self) -> None:
        """What a command put in its folder's place is kept only where it is a folder."""
        store, places, path = FolderStore(self.path("store")), Places(self.path("home")), self.path("w")
        self.write("mine/f", "x")

        def replaced(does: Callable[[str], object]) -> None:
            places.clear(path)
            os.rmdir(path)
            does(path)
            places.left(path)

        rows: list[Callable[[str], object]] = [lambda path: os.symlink("mine", path), os.mkfifo, lambda path: self.write("w", "x"), lambda path: None]
        for does in rows:
            replaced(does)
            with self.assertRaisesRegex(FarmFault, "is no folder any more"):
                places.keep(store, path)
            if os.path.lexists(path):
                with self.assertRaisesRegex(FarmFault, "is no folder"):
                    places.clear(path)
                os.unlink(path)
        places.clear(path)
        os.rename(path, self.path("old"))
        shutil.copytree(self.path("mine"), path)
        places.left(path)
        places.clear(path)
        self.assertEqual((os.listdir(path), self.read("mine/f")), ([], "x"))

    def test_left_early(self) -> None:
        """What nobody waits for any more isn't kept, and the folder isn't taken for a version."""
        store, places, path = FolderStore(self.path("store")), Places(self.path("home")), self.path("w")

        def gone() -> None:
            raise FarmFault("nobody waits")

        places.clear(path)
        self.write("w/f", "x")
        with self.assertRaisesRegex(FarmFault, "nobody waits"):
            places.keep(store, path, check=gone)
        self.assertEqual(os.listdir(store.indexes), [])
        self.assertEqual(places.keep(store, path), support.kept(store, path))

    @unittest.skipUnless(support.has("casync"), support.needs("casync"))
    def test_own_disk(self) -> None:
        """A node makes nothing where the system has files that aren't kept: what it leaves there when it is killed nobody removes."""
        store, places, path = FolderStore(self.path("store")), Places(self.path("home")), self.path("w")
        with mock.patch("tempfile.tempdir", "/nowhere"):
            places.clear(path)
            self.write("w/f", "x")
            index, _ = places.keep(store, path)
            shutil.rmtree(path)
            places.fill(store, index, path)
        self.assertEqual(self.read("w/f"), "x")

    @unittest.skipUnless(support.has("casync"), support.needs("casync"))
    @unittest.skipUnless(support.is_root, "only root can mount")
    def test_half(self) -> None:
        """Of a folder for which there isn't room nothing stays, and its path is told."""
        store, places, path = FolderStore(self.path("store")), Places(self.path("home")), self.path("small/w")
        self.write("big/f", "".join(map(str, range(300_000))))
        index, _ = support.kept(store, self.path("big"))
        os.mkdir(self.path("small"))
        if subprocess.run(["mount", "-t", "tmpfs", "-o", "size=1m", "tmpfs", self.path("small")], capture_output=True).returncode:
            self.skipTest("nothing can be mounted here")
        self.addCleanup(lambda: subprocess.run(["umount", self.path("small")], check=True))
        with self.assertRaisesRegex(FarmFault, f"casync extract {path}: .*No space left"):
            places.fill(store, index, path)
        self.assertEqual(os.listdir(path), [])

    @unittest.skipUnless(os.path.exists("/dev/full"), "there is no /dev/full")
    def test_full(self) -> None:
        """What a full disk refuses is told with the file's name, and nothing of it stays."""
        with mock.patch("os.fsync", side_effect=OSError(errno.ENOSPC, "No space")), self.assertRaisesRegex(OSError, f"No space.*{self.room}/key"):
            make_key(self.path("key"))
        with mock.patch("os.fdopen", lambda handle, how: open("/dev/full", how)), self.assertRaisesRegex(OSError, f"No space.*{self.room}/f"):
            put_file(self.path("f"), b"x")
        self.assertEqual(os.listdir(self.room), [])

    @unittest.skipUnless(support.is_root, "only root can become another user")
    def test_nobody_may_write(self) -> None:
        """What its owner may not write is removed all the same where the agent is its owner and not root. What it may not read is named."""
        os.chmod(self.room, 0o777)
        child = os.fork()
        if child == 0:
            try:
                os.setresuid(65534, 65534, 65534)
                places, path = Places(self.path("home")), self.path("w")
                for top in (0o555, 0o755):  # the first one can't be moved away
                    places.clear(path)
                    self.write("w/a/b/f", "x")
                    os.symlink("/", self.path("w/link"))
                    for folder, mode in (("w/a/b", 0), ("w/a", 0o555), ("w", top)):
                        os.chmod(self.path(folder), mode)
                    places.clear(path)
                    self.assertEqual(os.listdir(path), [])
                support.until(lambda: not os.listdir(places.trash.home))
                os.chmod(self.write("w/a/secret", "x"), 0)
                with self.assertRaisesRegex(FarmFault, "w/a/secret can't be kept: the agent may not read it"):
                    places.keep(FolderStore(self.path("store")), path)
                os._exit(0)
            finally:
                os._exit(1)
        self.assertEqual(os.waitpid(child, 0)[1], 0)

    def test_made_anew(self) -> None:
        places = Places(self.path("home"))
        places.clear(self.path("w"))
        os.rename(self.path("w"), self.path("kept"))
        self.write("w/f", "another's")
        with self.assertRaisesRegex(FarmFault, "wasn't made by this node"):
            places.clear(self.path("w"))

    def test_number_given_again(self) -> None:
        """A folder that somebody makes where the node's own was may get its number: it isn't the node's."""
        places, path = Places(self.path("home")), self.path("w")
        for _ in range(100):
            places.clear(path)
            number, born = identity(path)
            os.rmdir(path)
            os.mkdir(path)
            if os.stat(path).st_ino == number and born is not None:
                break
            os.rmdir(path)
        else:
            self.skipTest("this file system gives no number again, or doesn't tell when a folder was made")
        self.write("w/f", "another's")
        with self.assertRaisesRegex(FarmFault, "wasn't made by this node"):
            places.clear(path)
        self.assertEqual(self.read("w/f"), "another's")

    def test_rooms(self) -> None:
        """What a killed process left goes with the next one that needs a room; what another one has stays."""
        home = self.path("home")
        text = (
            f"import sys, time; sys.path.insert(0, {support.TOP!r})\n"
            "from agent.folders.places import Places\n"
            f"with Places({home!r}).rooms.room() as room:\n"
            "    print(room, flush=True); time.sleep(600)\n"
        )
        other = subprocess.Popen([sys.executable, "-c", text], stdout=subprocess.PIPE, text=True)
        assert other.stdout
        left = other.stdout.readline().rstrip("\n")
        with Places(home).rooms.room() as own:
            self.assertTrue(os.path.isdir(left) and os.path.isdir(own))
        self.assertFalse(os.path.exists(own))
        other.kill()
        other.communicate()
        self.write("home/places/.new-x", "half written")
        Places(home).sweep()
        self.assertFalse(os.path.exists(left) or os.path.exists(self.path("home/places/.new-x")))

    def test_names(self) -> None:
        os.makedirs(self.path("real"))
        os.symlink("real", self.path("link"))
        room = os.path.realpath(self.room)
        self.assertEqual(place_of("link/../link/x", self.room), f"{room}/real/x")
        with self.assertRaisesRegex(FarmFault, "is a link"):
            place_of("link", self.room)
        with self.assertRaisesRegex(FarmFault, "/x/x/x.. is too long: a path has at most 4095 bytes"):
            place_of("/x" * 39 + "/" + "x" * 4020, self.room)
        check_apart(["/a/b", "/a/bc", "/c"])
        for paths in (["/a", "/a/b"], ["/a", "/" + "a"]):
            with self.assertRaises(FarmFault):
                check_apart(paths)


if __name__ == "__main__":
    unittest.main()
