"""Folders by difference, and merged folders."""
from __future__ import annotations

import os
import random
import re
import shutil
import signal
import sqlite3
import subprocess
import tempfile
import time
import unittest
from concurrent.futures import ThreadPoolExecutor
from unittest import mock

from agent.faults import FarmFault
from agent.folders import index, merging, trees
from agent.folders.held import Held
from agent.folders.listing import Entry, Listing, entry_text, escaped, text_of, walk
from agent.folders.versions import none, read
from agent.runs import merged
from agent.runs.executions import can_have_namespaces
from agent.store.chunks import chunk_path
from agent.store.folder import FolderStore
from agent.tests import merging_model, support
from agent.tests.test_trees import told

NAMES = ("a", "a-b", "b", ".caexclude", ".caexclude%", ".caexclude#", "é", "\udce9", "c d", "x=y", "%41")


def change(dice: random.Random, top: str) -> None:
    """Makes, changes or removes something within a folder."""
    folders = [folder for folder, _, _ in os.walk(top)]
    path = f"{dice.choice(folders)}/{dice.choice(NAMES)}"
    if os.path.lexists(path) and dice.random() < 0.4:
        return trees.remove(path)
    if os.path.islink(path) or not os.path.lexists(path):
        trees.remove(path)
        kind = dice.choice(["file", "file", "large", "folder", "folder", "link", "pipe", "many"])
        if kind in ("file", "large"):
            with open(path, "wb") as file:
                file.write(dice.randbytes(dice.choice([0, 1, 20_000, 70_000]) if kind == "file" else 900_000))
        elif kind == "link":
            os.symlink(dice.choice(NAMES), path)
        elif kind == "pipe":
            os.mkfifo(path)
        else:
            os.mkdir(path)
            for number in range(200 if kind == "many" else 0):
                with open(f"{path}/{number}", "w") as file:
                    file.write(str(number))
    elif os.path.isfile(path) and dice.random() < 0.6:
        with open(path, "r+b") as file:
            data = file.read()
            at = dice.randrange(len(data) + 1)
            file.seek(at)
            file.write(dice.randbytes(5) + data[at:])
    elif dice.random() < 0.5:
        os.chmod(path, dice.choice([0o700, 0o4755, 0o644]))
    else:
        os.utime(path, ns=(5, dice.randrange(10**18)))
        if support.is_root:
            os.chown(path, dice.randrange(3), dice.randrange(3))


@unittest.skipUnless(support.has("casync"), support.needs("casync"))
class Difference(support.RoomTest):
    def test_random(self) -> None:
        """After any changes an index by difference is that of the whole; casync makes the folder of it; it is read by difference; and a folder
        that held another version becomes it."""
        dice, store = random.Random(7), FolderStore(self.path("store"))
        for path in ("mine", "other"):
            os.mkdir(self.path(path))
        mine, other = Held(self.path("mine"), self.path("mine.note")), Held(self.path("other"), self.path("other.note"))
        mine.look()
        old = known = none(store.chunks)
        for turn in range(25):
            for _ in range(dice.choice([1, 3, 20])):
                change(dice, mine.path)
                mine.settle()
            mine.look()
            version = index.make(mine, old, store.chunks)
            self.assertEqual(version.index, index.make_whole(store, mine.path), turn)
            self.assertEqual(read(store.chunks, version.index, known).listing, walk(mine.path, {}, {}).entries, turn)
            if turn % 6 == 5:
                trees.extract(store, version.index, self.path(f"out{turn}"))
                self.assertEqual(told(self.path(f"out{turn}")), told(mine.path), turn)
            if turn % 2:
                change(dice, other.path)
                if not os.path.lexists(f"{other.path}/hard"):
                    os.link(self.write("linked", "x"), f"{other.path}/hard")
                other.settle()
                other.look()
                reader = version.reader()
                other.bring(version.listing, lambda path, version=version, reader=reader: version.pieces(path, reader))  # type: ignore[misc]
                self.assertEqual(told(other.path), told(mine.path), turn)
                self.assertFalse(other.look(), turn)
                known = version
            old = version

    def test_shared_chunks(self) -> None:
        """What is equal in two folders has equal chunks: a large file whose front is another one, one with another name, and files in the
        middle of others."""
        dice, store = random.Random(3), FolderStore(self.path("store"))
        data = dice.randbytes(3_000_000)

        def names(folder: str, files: dict[str, bytes]) -> set[str]:
            for name, content in files.items():
                os.makedirs(os.path.dirname(self.path(f"{folder}/{name}")), exist_ok=True)
                with open(self.path(f"{folder}/{name}"), "wb") as file:
                    file.write(content)
                os.utime(self.path(f"{folder}/{name}"), (0, 0))
            held = Held(self.path(folder), os.devnull)
            held.look()
            return set(index.make(held, none(store.chunks), store.chunks).names)

        small = {f"s/{number:03}": dice.randbytes(6_000) for number in range(300)}
        before = names("one", small | {"large": data})
        for number, files in enumerate((small | {"large": b"front" + data}, small | {"other": data}, small | {"s/150x": b"new", "large": data})):
            after = names(f"two{number}", files)
            self.assertLess(len(after - before), 8, number)
        self.assertEqual(list(index.ends_in([bytes(300_000)])), [262144, 300000])

    def test_not_brought(self) -> None:
        """A folder whose new bytes can't be had is as it was, and is brought later."""
        self.write("w/a/f", "old")
        self.write("w/gone", "x")
        self.write("target/a/f", "new")
        self.write("target/b/g", "new too")
        held, before = Held(self.path("w"), self.path("note")), told(self.path("w"))
        wanted = walk(self.path("target"), {}, {}).entries
        held.look()

        def pieces(path: str) -> list[bytes]:
            if path == "b/g":
                raise FarmFault("it isn't there")
            return [b"new"]

        with self.assertRaisesRegex(FarmFault, "it isn't there"):
            held.bring(wanted, pieces)
        self.assertEqual(told(self.path("w")), before)
        self.assertFalse(held.look())
        held.bring(wanted, lambda path: [b"new" if path == "a/f" else b"new too"])
        self.assertEqual(told(self.path("w")), told(self.path("target")))

    def test_spoilt(self) -> None:
        """A chunk that isn't what its name says is no version's."""
        store = FolderStore(self.path("store"))
        self.write("tree/f", "x" * 1000)
        made, _ = support.kept(store, self.path("tree"))
        version = read(store.chunks, made, none(store.chunks))
        shutil.copy(chunk_path(store.chunks, version.names[0]), self.path("kept"))
        for spoilt in (b"", b"x", self.path("kept").encode(), None):
            path = chunk_path(store.chunks, version.names[0])
            os.unlink(path)
            if spoilt is not None:
                with open(path, "wb") as file:
                    file.write(spoilt)
            with self.assertRaisesRegex(FarmFault, "the chunk [0-9a-f]{64} "):
                read(store.chunks, made, none(store.chunks))
            shutil.copy(self.path("kept"), path)
        self.assertEqual(read(store.chunks, made, none(store.chunks)).listing, version.listing)


TRIPLES = int(os.environ.get("TRIPLES", 6000))  # random trees that are merged


def tree(dice: random.Random) -> Listing:
    """A small tree of few names."""
    made: Listing = {"": Entry("d", dice.choice([0o755, 0o700]), 0, 0, dice.randrange(3))}
    for depth in range(3):
        for folder in [path for path, entry in made.items() if entry.kind == "d" and len(path.split("/")) - (not path) == depth]:
            for name in dice.sample(("a", "b", "a-b"), dice.randrange(3)):
                path = f"{folder}/{name}".lstrip("/")
                kind = dice.choice("ddffl")
                time = dice.randrange(3)
                made[path] = (
                    Entry("d", dice.choice([0o755, 0o700]), 0, 0, time) if kind == "d" else Entry(kind, 0o644, 0, 0, time, 1, dice.choice("xyz"))
                )
    return made


class Merges(unittest.TestCase):
    def model(self, base: Listing, mine: Listing, theirs: Listing, rule: str) -> tuple[dict[str, str], set[str]]:
        sides = [{escaped(path): entry_text(entry) for path, entry in listing.items() if path} for listing in (base, mine, theirs)]
        stands, conflicts = merging_model.merge(sides[0], sides[1], sides[2], rule)
        return {path: entry for path, (_, entry) in stands.items()}, set(conflicts)

    def test_random(self) -> None:
        """What the agent makes of the answer for the few paths that it asks of is what the slow model makes of all."""
        def decided(_program: str, _room: str, listings: tuple[Listing, Listing, Listing], paths: set[str], rule: str) -> str:
            base, mine, theirs = (merging_model.read(text_of({p: each[p] for p in paths & each.keys()})) for each in listings)
            stands, conflicts = merging_model.merge(base, mine, theirs, rule)
            return "".join(f"{side} {path} {entry}\n" for path, (side, entry) in stands.items()) + "".join(f"conflict {path}\n" for path in conflicts)

        dice, contested = random.Random(1), 0
        with mock.patch("agent.folders.merging._decided", decided):
            for turn in range(TRIPLES):
                base, mine, theirs = tree(dice), tree(dice), tree(dice)
                if dice.random() < 0.7:  # most of it as it was
                    mine, theirs = (
                        {path: entry for path, entry in ({**base, **side} if dice.random() < 0.5 else side).items()} for side in (mine, theirs)
                    )
                    mine, theirs = fitted(mine), fitted(theirs)
                rule = dice.choice(merging.RULES)
                done = merging.merge("", "", base, mine, theirs, rule)
                stands, conflicts = self.model(base, mine, theirs, rule)
                found = {escaped(path): entry_text(entry) for path, entry in done.listing.items() if path}
                self.assertEqual((found, set(map(escaped, done.conflicts))), (stands, conflicts), (turn, base, mine, theirs))
                self.assertEqual(fitted(done.listing), done.listing)
                again = merging.merge("", "", theirs, done.listing, theirs, rule)
                self.assertEqual({p: entry_text(e) for p, e in again.listing.items()}, {p: entry_text(e) for p, e in done.listing.items()})
                contested += bool(conflicts)
        self.assertGreater(contested, TRIPLES // 6)

    def test_program(self) -> None:
        """The program itself, over strange names."""
        base: Listing = {"": Entry("d", 0o755, 0, 0, 0), "é \udce9%": Entry("f", 0o644, 0, 0, 5, 1, "0" * 64), "d": Entry("d", 0o755, 0, 0, 9)}
        mine = base | {"d": Entry("d", 0o755, 0, 0, 11), "d/new": Entry("l", 0o777, 0, 0, 3, 0, "a b\n")}
        theirs = {"": base[""], "é \udce9%": Entry("f", 0o600, 0, 0, 6, 1, "1" * 64), "d": Entry("d", 0o755, 0, 0, 10), "d/b": Entry("p", 0o644, 1, 2, 3)}
        program = os.environ.get("FARMCTL") or support.PRACTICE
        with tempfile.TemporaryDirectory() as room:
            done = merging.merge(program, room, base, mine, theirs, "newer")
            self.assertEqual(done.listing, theirs | {"d": mine["d"], "d/new": mine["d/new"]})
            self.assertEqual(done.conflicts, ())
            mine["é \udce9%"] = Entry("f", 0o644, 0, 0, 7, 1, "2" * 64)
            for rule, entry in (("newer", mine), ("mine", mine), ("theirs", theirs)):
                done = merging.merge(program, room, base, mine, theirs, rule)
                self.assertEqual((done.listing["é \udce9%"], done.conflicts), (entry["é \udce9%"], ("é \udce9%",)))
            with self.assertRaisesRegex(FarmFault, "merge: "):
                merging.merge("/bin/false", room, base, mine, theirs, "newer")


def fitted(listing: Listing) -> Listing:
    """What of a listing has folders around it."""
    kept: Listing = {}
    for path in sorted(listing):
        above = path.rpartition("/")[0]
        if not path or not above or above in kept and kept[above].kind == "d":
            kept[path] = listing[path]
    return kept


class Apart(support.RoomTest):
    def test_begin_at_once(self) -> None:
        """Commands that begin at once have folders of their own, however long each takes to be made."""
        def slow(path: str, exist_ok: bool = False) -> None:
            time.sleep(0.2 if path[-1].isdigit() else 0.0)
            make(path, exist_ok=exist_ok)

        make, folders = os.makedirs, merged.MergedFolders(mock.MagicMock(home=self.room))
        with mock.patch("os.makedirs", slow), ThreadPoolExecutor(4) as pool:
            taken = list(pool.map(lambda _: folders._take("locked:a", none("")).path, range(4)))
        self.assertEqual(len(set(taken)), 4, taken)


@unittest.skipUnless(support.has("casync"), support.needs("casync"))
@unittest.skipUnless(support.is_root and can_have_namespaces(), "merged folders are bound in mount namespaces")
class MergedFolders(support.FarmTest):
    def setUp(self) -> None:
        super().setUp()
        self.up("up", "--nodes", "2")

    def merged(self, script: str, *words: str, use: str = "merged", status: int = 0) -> str:
        """What a command on the folder says, at one path."""
        done = self.farm("run", *words, "--folder", f"{use}:c=w", "--", "sh", "-c", f"cd w; {script}", status=status)
        return done.stdout + done.stderr

    def begin_merged(self, script: str, *words: str) -> subprocess.Popen[str]:
        return self.begin("run", *words, "--folder", "merged:c=w", "--", "sh", "-c", f"cd w; {script}")

    def pause(self, name: str) -> str:
        """What a command does that says that it runs, and waits for a sign."""
        return f"touch {self.path(f'begun{name}')}; until [ -e {self.path(f'go{name}')} ]; do sleep 0.05; done"

    def ended(self, run: subprocess.Popen[str]) -> str:
        return run.communicate(timeout=support.PATIENCE)[1]

    def test_at_once(self) -> None:
        """Commands of two nodes have one path at once, and what each left is there; what changes nothing makes no version."""
        self.merged("touch old gone")
        runs = [self.begin_merged(f"echo {n} > f{n}; {'rm gone' if n == 1 else ':'}; ls > {self.path(f'saw{n}')}; {self.pause(f'{n}')}",
                                  "--node", str(n % 2 + 1)) for n in range(4)]
        for n in range(4):
            self.wait_for(self.path(f"begun{n}"))
        support.until(lambda: self.asked("status").count("runs a command on locked:c version 1 for ") == 4)
        for n in range(4):
            self.write(f"go{n}", "")
        said = [self.ended(run) for run in runs]
        self.assertEqual([run.returncode for run in runs], [0] * 4, said)
        self.assertEqual([self.read(f"saw{n}").split() for n in range(4)], [[f"f{n}", *["gone"] * (n != 1), "old"] for n in range(4)])
        self.assertIn("f0\nf1\nf2\nf3\nold\n", self.merged("ls"))
        self.assertIn("changed nothing", self.merged("ls; touch ."))
        support.until(lambda: len(re.findall(r" merged 1 path\n| merged 1 path, removed 1\n", self.asked("log", "locked:c"))) == 4)
        self.assertEqual(len(self.asked("log", "locked:c").splitlines()), 5)
        self.assertIn("nothing of it is kept", self.merged("touch bad; exit 7", status=7))
        self.assertIn("Read-only", self.merged("touch bad; ls", use="ro=merged"))
        self.assertIn("f0\nf1\nf2\nf3\nold\n", self.merged("ls", use="locked"))

    def test_conflicts(self) -> None:
        """Whose a path is that two changed, by the rule of who comes last; databases are warned of."""
        rows = [("newer", "first", 0), ("theirs", "second", 0), ("mine", "first", 0), ("fail", "second", 75)]
        for number, (rule, text, status) in enumerate(rows):
            first = self.begin_merged(f"{self.pause(str(number))}; echo first > f; touch own{number}", "--on-conflict", rule, "--verbose")
            self.wait_for(self.path(f"begun{number}"))
            self.merged(f"echo second > f; touch -d @{number} f")
            self.write(f"go{number}", "")
            said = self.ended(first)
            self.assertEqual(first.returncode, status, said)
            self.assertIn("changed by others too, f among them" if status else "conflict locked:c f", said)
            self.assertIn(f"{text}\n", self.merged("cat f"))
            self.assertEqual(f"own{number}" in self.merged("ls"), not status)
        for name in ("one", "two"):
            with sqlite3.connect(self.path(f"{name}.db")) as base:
                base.execute(f"create table {name}(a)")
        run = self.begin_merged(f"{self.pause('9')}; cp {self.path('one.db')} db")
        self.wait_for(self.path("begun9"))
        self.merged(f"cp {self.path('two.db')} db")
        self.write("go9", "")
        self.assertIn("warning: db of locked:c is a database of SQLite", self.ended(run))

    def test_waits(self) -> None:
        """The commit waits for who has the line locked, as long as the caller says, and goes on without one that leaves."""
        holder = self.begin("run", "--node", "2", "--folder", "locked:c=v", "--", "sh", "-c", f"touch v/held; {self.pause('')}")
        self.wait_for(self.path("begun"))
        self.assertIn("the agent goes on with that", self.merged("touch one", "--wait", "1"))
        self.assertIn("the agent goes on with that", self.merged("touch two", "--wait", "1", "--must-commit", status=75))
        left = self.begin_merged("touch three")
        self.hear(left, "waiting for locked:c: node 2 has locked:c")
        left.send_signal(signal.SIGTERM)
        self.assertIn("the agent goes on with that", self.ended(left))
        self.assertEqual(left.returncode, 75)
        self.write("go", "")
        holder.communicate(timeout=support.PATIENCE)
        support.until(lambda: len(self.asked("log", "locked:c").splitlines()) == 4)
        self.assertIn("held\none\nthree\ntwo\n", self.merged("ls"))

    def test_mixed(self) -> None:
        """A command has merged and leased folders: what it left counts in both, or in none; and one line in one way."""
        both = ["--folder", "locked:k=k", "--folder", "merged:c=w", "--"]
        self.farm("run", *both, "sh", "-c", "touch k/f w/f")
        self.farm("run", *both, "sh", "-c", "touch k/g w/g; exit 3", status=3)
        run = self.begin("run", "--must-commit", *both, "sh", "-c", f"touch k/h w/h; {self.pause('')}")
        self.wait_for(self.path("begun"))
        ticket = self.asked("status").split("ticket ")[1].split()[0]
        self.asked("withdraw", ticket)
        self.write("go", "")
        self.assertIn("fenced", self.ended(run))
        self.assertEqual(run.returncode, 75)
        self.assertEqual(self.farm("run", *both, "ls", "k", "w").stdout, "k:\nf\n\nw:\nf\n")
        self.assertIn("named twice", self.asked("run", "--folder", "locked:c=w", "--folder", "merged:c=v", "--", "true", status=64))
        self.assertEqual(self.asked("log", "merged:c"), self.asked("log", "locked:c"))

    def test_warm(self) -> None:
        """A new PRIVATE folder begins as the last version of any, where that is asked for."""
        holders = []
        for n, script in enumerate(("touch p0/one", "touch p1/two")):  # each has an instance of its own
            self.farm("run", "--folder", f"private:p=p{n}", "--", "sh", "-c", script)
            holders.append(self.begin("run", "--folder", f"private:p=p{n}", "--", "sh", "-c", self.pause(str(n))))
            self.wait_for(self.path(f"begun{n}"))
        self.assertEqual(self.farm("run", "--folder", "private:p=q", "--", "sh", "-c", "ls q; exit 1", status=1).stdout, "")
        warm = self.farm("run", "--warm", "--folder", "private:p=q", "--", "ls", "q")
        self.assertEqual(warm.stdout, "two\n")
        self.assertIn("private:p#3 begins as a version of another one", warm.stderr)
        for n, run in enumerate(holders):
            self.write(f"go{n}", "")
            run.communicate(timeout=support.PATIENCE)

    def test_given_up(self) -> None:
        """Copies that nobody uses are kept warm, and not more than some."""
        home = f"{self.home}/node1/merged"
        runs = [self.begin_merged(f"touch f{n}; {self.pause(str(n))}", "--node", "1") for n in range(7)]
        for n in range(7):
            self.wait_for(self.path(f"begun{n}"))
        for n, run in enumerate(runs):
            self.write(f"go{n}", "")
            self.ended(run)
        (slot,) = os.listdir(home)
        self.assertEqual(len([name for name in os.listdir(f"{home}/{slot}") if name.isdigit()]), 4)
        self.assertEqual(self.merged("ls | wc -l").split("\n")[0], "7")


if __name__ == "__main__":
    unittest.main()
