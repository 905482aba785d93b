"""Which program runs, in a checkout of its own: a release, spoilt bytes, changed sources, what was built here; what older releases kept."""
from __future__ import annotations

import hashlib
import hmac
import json
import os
import re
import shutil
import stat
import subprocess
import sys
import unittest
from typing import Callable, Iterable
from unittest import mock

from agent.tests import support
from agent.transport.keys import digits_of
from release import choice, manifest, sources

NAMES = ("farmd", "farmctl")
ENV = {"PATH": os.defpath}  # without the kit


class Releases(support.RoomTest):
    """A small checkout with a release of its own."""

    def setUp(self) -> None:
        super().setUp()
        self.top = self.path("top")
        for name in NAMES:
            self.source(f"top/crates/{name}/src/main.rt", f"fn main {name}")
            self.source(f"top/crates/{name}/proofs/Main.antt", "proof")
        self.source("top/crates/low/src/lib.rt", "fn low")
        self.source("top/crates.txt", "farmd: low std_io\nfarmctl: low\nlow:\n")
        self.source("top/HANDLES", "Handles allowed: none.\n")
        self.source("top/VERSION", "0.1.0\n")
        for name in ("farmctl", "release"):
            subprocess.run(["cp", "-R", f"{support.TOP}/{name}", f"{self.top}/{name}"], check=True)
        os.symlink("farmctl", f"{self.top}/farmd")
        for name in NAMES:
            self.program(f"top/release/{name}", "released")
        self.make()

    def source(self, name: str, text: str) -> None:
        self.write(name, text)

    def program(self, name: str, says: str) -> None:
        os.chmod(self.write(name, f"#!/bin/sh\necho {says} $*\n"), 0o755)

    def make(self) -> None:
        programs = {
            name: manifest.Program(os.path.getsize(f"{self.top}/release/{name}"), sources.digest_of(f"{self.top}/release/{name}")) for name in NAMES
        }
        sources.standing.cache_clear()
        made = manifest.Manifest(
            version="0.1.0", kit="kit", handles=sources.digest_of(f"{self.top}/HANDLES"), crates=sources.standing(NAMES, self.top), programs=programs
        )
        self.write("top/release/MANIFEST", str(made))

    def call(self, *words: str, status: int = 0, name: str = "farmd", **env: str) -> str:
        done = subprocess.run(
            [sys.executable, "-IS", f"{self.top}/{name}", *words], env=ENV | env, capture_output=True, text=True, timeout=support.PATIENCE
        )
        self.assertEqual(done.returncode, status, done.stdout + done.stderr)
        return done.stdout + done.stderr

    def test_runs(self) -> None:
        self.assertEqual(self.call("x", "y"), "released x y\n")
        digest = sources.digest_of(f"{self.top}/release/farmd")
        self.assertEqual(self.call("--version"), f"farmd 0.1.0, the release, sha256:{digest}\n")
        self.assertIn("checked only with the Rattle kit", self.call("--verify", status=3))
        self.assertIn("whose command rt isn't here", self.call("--build", status=69))
        for folder, _, _ in list(os.walk(self.top, topdown=False)):
            os.chmod(folder, 0o555)
        self.assertEqual(self.call("x", name="farmctl"), "released x\n")
        for folder, _, _ in os.walk(self.top):
            os.chmod(folder, 0o755)

    def test_refused(self) -> None:
        """What was changed is told in one sentence, and none of it runs."""
        def append(name: str) -> Callable[[], object]:
            return lambda: self.source(name, self.read(name) + "#")

        rows: list[tuple[str, Callable[[], object], int, str]] = [
            ("a byte of the program", append("top/release/farmd"), 70, "isn't the file that MANIFEST names"),
            ("a byte of the manifest", append("top/release/MANIFEST"), 70, "MANIFEST is spoilt"),
            ("a source", append("top/crates/low/src/lib.rt"), 69, "built from other sources of low."),
            ("a line's ends", lambda: self.source("top/crates/low/src/lib.rt", "fn low\r\n"), 69, "other sources of low."),
            ("a missing source", lambda: os.unlink(self.path("top/crates/farmd/src/main.rt")), 69, "other sources of farmd."),
            ("one source more", lambda: self.source("top/crates/low/src/lib.rt~", ""), 69, "other sources of low."),
            ("a line of crates.txt", lambda: self.source("top/crates.txt", "farmd: low\nfarmctl: low\nlow:\n"), 69, "other sources of farmd."),
            ("the handles", append("top/HANDLES"), 69, "other sources of HANDLES."),
            ("no release", lambda: os.unlink(self.path("top/release/MANIFEST")), 69, "other sources of"),
        ]
        for what, change, status, said in rows[:-1]:
            kept = self.path("kept")
            shutil.copytree(self.top, kept, symlinks=True)
            with self.subTest(what):
                change()
                told = self.call("x", status=status)
                self.assertIn(said, told)
                self.assertNotIn("released", told)
                self.assertIn(said, self.call("--verify", status=status))
                self.assertEqual(self.call("x", FARMCTL=f"{kept}/release/farmctl"), "released x\n")  # who names a program gets it
            shutil.rmtree(self.top)
            os.rename(kept, self.top)

    def test_proofs(self) -> None:
        """Where proofs alone changed the program's bytes stay, so it runs; --verify says it."""
        self.source("top/crates/farmd/proofs/Main.antt", "another")
        self.assertEqual(self.call("x"), "released x\n")
        self.assertIn("what is proved of them changed since in farmd", self.call("--verify", status=3))

    def test_built(self) -> None:
        """What was built here runs before the release, and only where its stamp says these sources and these bytes."""
        self.program("top/crates/farmd/out/farmd", "built")
        self.assertEqual(self.call("x"), "released x\n")
        self.write("top/crates/farmd/out/farmd.sources", f"{sources.stamp('farmd', self.top)} {sources.digest_of(f'{self.top}/crates/farmd/out/farmd')}\n")
        self.assertEqual(self.call("x"), "built x\n")
        self.program("top/crates/farmd/out/farmd", "spoilt")
        self.assertEqual(self.call("x"), "released x\n")
        self.program("top/crates/farmd/out/farmd", "built")
        self.source("top/crates/low/src/lib.rt", "fn other")
        self.assertIn("other sources of low", self.call("x", status=69))

    def test_trial(self) -> None:
        """A trial, of which nothing is proved, never runs in place of a release of the same sources; where there is none it does."""
        self.program("top/crates/farmd/out/trial", "trial")
        trial = f"{self.top}/crates/farmd/out/trial"
        self.write("top/crates/farmd/out/trial.sources", f"{sources.stamp('farmd', self.top)} {sources.digest_of(trial)}\n")
        self.assertEqual(self.call("x"), "released x\n")
        os.unlink(self.path("top/release/MANIFEST"))
        self.assertEqual(self.call("x"), "trial x\n")
        self.assertIn("of which nothing is proved", self.call("--version"))

    def test_filters(self) -> None:
        """The agent takes farmd before farmctl, and says why where it takes none."""
        with mock.patch.object(choice, "TOP", self.top), mock.patch.object(manifest, "PATH", f"{self.top}/release/MANIFEST"):
            with mock.patch.dict("os.environ"):
                os.environ.pop("FARMCTL", None)
                self.assertEqual(choice.chosen_filter(), choice.Choice(f"{self.top}/release/farmd", "the release"))
                sources.standing.cache_clear()
                self.source("top/crates/farmd/src/main.rt", "another")
                self.assertEqual(choice.chosen_filter(), choice.Choice(f"{self.top}/release/farmctl", "the release"))


class Manifests(unittest.TestCase):
    def test_texts(self) -> None:
        """A manifest is read as it is written, and nothing else is."""
        made = manifest.Manifest("0.1.0", "kit logic", "h", {"a": sources.Digests("c", "p")}, {"farmd": manifest.Program(3, "d")})
        text = str(made)
        self.assertEqual(manifest.parsed(text), made)
        for wrong in ("", text[:-1], text + "\n", text.replace("farmd 3", "farmd +3"), text.replace("release 1", "release 2"), text.replace("\n", "\r\n")):
            with self.subTest(wrong), self.assertRaises(manifest.BadManifest):
                manifest.parsed(wrong)


class Checkout(unittest.TestCase):
    def test_release(self) -> None:
        """The release of this checkout is whole, and can be run by everybody."""
        if not os.path.exists(manifest.PATH):
            self.skipTest("there is no release here")
        found = manifest.read()
        for name, program in found.programs.items():
            path = f"{sources.TOP}/release/{name}"
            self.assertEqual((os.path.getsize(path), sources.digest_of(path)), program)
            self.assertTrue(os.stat(path).st_mode & stat.S_IXOTH)


class Older(support.RoomTest):
    """What an earlier release kept, as far as the checkout's history has its program, the present one goes on with."""

    def git(self, *words: str) -> bytes:
        return subprocess.run(["git", "-C", support.TOP, *words], capture_output=True).stdout

    def talk(self, program: str, *words: str, given: Iterable[str] = ()) -> str:
        lines = "".join(f"{line}\n" for line in given)
        call = [program, *words, "--key", self.path("key")]
        return subprocess.run(call, input=lines, capture_output=True, text=True, check=True, timeout=support.PATIENCE).stdout

    def test_kept(self) -> None:
        which = subprocess.run([f"{support.TOP}/farmd", "--which"], capture_output=True, text=True)
        commits = self.git("log", "--format=%H", "--", "release/farmd").decode().split()[1:]
        if which.returncode or not commits:
            self.skipTest("no program runs here, or this checkout has no history of releases")
        self.write("key", "a" * 64)
        for number, commit in enumerate(commits):
            old = self.path(f"farmd{number}")
            with open(os.open(old, os.O_WRONLY | os.O_CREAT, 0o700), "wb") as file:
                file.write(self.git("show", f"{commit}:release/farmd"))
            has_one_key = b"version 0.1." in self.git("show", f"{commit}:release/MANIFEST")
            with self.subTest(commit):
                self.upgraded(old, which.stdout.strip(), self.path(f"{number}"), has_one_key)

    def upgraded(self, old: str, now: str, kept: str, has_one_key: bool) -> None:
        """A version of a LOCKED folder, a PRIVATE lease and a node's life outlast the change of programs. Until 0.2 all had the farm's key."""
        os.mkdir(kept)
        node_key, content = digits_of(b"a" * 64, 1), "b" * 64

        def sealed(key: str, text: str) -> str:
            return f"m {text} {hmac.new(key.encode(), text.encode(), hashlib.sha256).hexdigest()}"

        lines = ("hello 1 1", "acquire 1 1 1 locked:a", f"commit 1 1 1 locked:a={content}", "acquire 1 1 2 private:p")
        coordinator, node = ("coordinator", "--record", f"{kept}/record"), ("node", "--node", "1", "--nodes", "2", "--store", f"{kept}/store")
        said = self.talk(old, *coordinator, given=[sealed("a" * 64 if has_one_key else node_key, line) for line in lines])
        self.assertRegex(said, rf"(?s)committed 1 1 1 locked:a=1:{content}.* granted 1 1 2 2 plain private:p#1=0:")
        said = self.talk(now, *coordinator, given=["line locked:a", "status", sealed(node_key, "acquire 1 1 3 locked:a")])
        for wanted in (f": 1 1 {content}\n", ": lease 2 1 1 2 plain private:p#1\n", f"plain locked:a=1:{content} "):
            self.assertIn(wanted, said)
        self.assertGreater(int(re.findall(r"granted 1 1 3 ([0-9]+) ", said)[0]), 2)
        lives = [int(self.talk(program, *node).rpartition("= life ")[2]) for program in (old, now)]
        self.assertGreater(lives[1], lives[0])


@unittest.skipUnless(support.has("casync") and support.has("git"), support.needs("casync and git"))
class OlderAgents(support.FarmTest):
    """An upgrade goes one process at a time: commands of this version ask agents of earlier ones, and those of the last release this one's."""

    def older(self, commit: str) -> list[str]:
        """The words of that commit's `farm`."""
        top = self.path(f"top{commit}")
        os.mkdir(top)
        archive = subprocess.run(["git", "-C", support.TOP, "archive", commit, "agent", "farm", "farmctl", "release"], capture_output=True, check=True)
        subprocess.run(["tar", "-x", "-C", top], input=archive.stdout, check=True)
        return [sys.executable, "-IS", f"{top}/farm"]

    def test_upgrade(self) -> None:
        commits = subprocess.run(["git", "-C", support.TOP, "log", "--format=%h", "--", "release/farmd"], capture_output=True, text=True).stdout.split()
        if not commits:
            self.skipTest("this checkout has no history of releases")
        present = self.env["FARMCTL"]
        for commit in reversed(commits):
            self.env |= {"FARM_HOME": self.path(f"home{commit}"), "FARMCTL": f"{self.path(f'top{commit}')}/release/farmd"}
            with self.subTest(commit), mock.patch.object(support, "FARM", older := self.older(commit)):
                self.up("up", "--nodes", "1")
                self.farm("run", "--folder", f"locked:c=w{commit}", "--", "touch", f"w{commit}/f")
                status, log = (json.loads(self.asked(*words)) for words in (["status", "--json"], ["log", "--json", "locked:c"]))
                self.assertEqual((status["folders"][0]["version"], [each["version"] for each in log["locked:c"]]), (1, [1]))
                self.assertIn("locked:c is at version 1", self.asked("status"))
                self.end()
                self.ups = []
        self.env |= {"FARM_HOME": self.home, "FARMCTL": present}
        self.up("up", "--nodes", "1")
        self.farm("run", "--folder", "locked:c=v", "--", "sh", "-c", "echo >>v/f")
        for words in (["status", "--json"], ["status"], ["log", "locked:c"], ["history"]):
            done = subprocess.run([*older, *words], env=self.env, capture_output=True, text=True, timeout=support.PATIENCE)
            self.assertEqual((done.returncode, done.stderr), (0, ""), words)


if __name__ == "__main__":
    unittest.main()
