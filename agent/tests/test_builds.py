"""Builds of Dockerfiles, with buildah; and what is refused before it is called."""
from __future__ import annotations

import hashlib
import json
import os
import shutil
import signal
import socket
import subprocess
import unittest
from unittest import mock

from agent.build.buildah import Buildah
from agent.build.builder import Image, check_tag
from agent.build.isolation import Isolation, found
from agent.runs.executions import can_have_namespaces
from agent.faults import FarmFault
from agent.service.requests import BuildOptions
from agent.words import short_name

from agent.tests import support

DOCKERFILE = """FROM scratch AS unused
RUN --mount=type=cache,target=/nobody,sharing=locked false
FROM scratch
COPY busybox /bin/busybox
ARG WHO
RUN --mount=type=cache,id=../../x,sharing=locked,target=/l --mount=type=cache,target=/s ["/bin/busybox", "sh", "/work"]
"""
GOOD_TAGS = ("a", "a/b:1.2-x_Y", "Foo.com/bar", "localhost:5000/a__b/c--d", "x:" + "a" * 128, "a" * 245, "a:5/c", "1.2.3.4:5/x", "0123456789abcdef" * 4)
BAD_TAGS = ("", "App", "Foo/bar", "a b", "a..b", "a_.b", "a-", "a/", "/a", "a//b", "a:b/c", ":x", "x:1:2", "x:-1", "x:" + "a" * 129, "a" * 246, "docker://x",
            "sha256:aa", "a@sha256:" + "a" * 64, "é", "a.b/C", "--all", "a\n")
SCRIPT = "cat /l/f /s/f; echo l $WHO >> /l/f; echo s $WHO >> /s/f; [ $WHO != old ] || touch -d @-9 /l/f; [ $WHO != bad ]\n"


@unittest.skipUnless(support.has("casync"), support.needs("casync"))
class Builds(support.FarmTest):
    def setUp(self) -> None:
        super().setUp()
        self.write("context/Dockerfile", DOCKERFILE.replace("ARG WHO", "COPY work /work\nARG WHO"))
        self.write("context/work", SCRIPT)

    @unittest.skipUnless(support.has("buildah"), support.needs("buildah"))
    @unittest.skipUnless(support.has("busybox"), "busybox-static isn't installed")
    @unittest.skipUnless(support.is_root and can_have_namespaces(), "buildah's chroot isolation is tried as root, with namespaces")
    def test_build(self) -> None:
        shutil.copy(shutil.which("busybox") or "", self.path("context/busybox"))
        first = self.farm("build", "--build-arg", "WHO=one", "-t", "app", "context")
        self.assertIn("is tagged app", first.stderr)
        self.assertIn("committed 2 locked:../../x version 1", first.stderr)
        bad = self.farm("build", "--build-arg", "WHO=bad", "context", status=1)
        self.assertIn("the build failed", bad.stderr)
        self.assertEqual([line for line in bad.stdout.splitlines() if line[:2] in ("l ", "s ")], ["l one", "s one"])
        self.assertFalse(os.path.exists(f"{self.home}/node1/x"))
        self.asked("get", "locked:../../x", self.path("got"))
        self.asked("get", "shared:/s", self.path("shared"))
        self.assertEqual((self.read("got/f"), self.read("shared/f")), ("l one\n", "s one\ns bad\n"))
        self.assertEqual(os.listdir(self.path("got")), ["f"])
        self.farm("build", "--build-arg", "WHO=two", "context")
        for who in ("three", "four"):
            self.assertNotIn("lost its name", self.farm("build", "--build-arg", f"WHO={who}", "-t", "app", "context").stderr)
        names = Buildah(f"{self.home}/node1/containers")._images("--all").values()
        self.assertEqual(sorted(names, key=len), [set(), {"localhost/app:latest"}])  # the one without a name was built without one
        self.tags()
        unkept = self.farm("build", "--build-arg", "WHO=old", "-t", "app", "context", status=70).stderr
        self.assertRegex(unkept, "farm: image sha256:[0-9a-f]{64} is built, and isn't tagged\nfarm: /[^ ]+/f can't be kept: its time is before 1970\n")

    @unittest.skipUnless(support.has("buildah"), support.needs("buildah"))
    @unittest.skipUnless(support.has("busybox"), "busybox-static isn't installed")
    @unittest.skipUnless(support.is_root and can_have_namespaces(), "buildah's chroot isolation is tried as root, with namespaces")
    def test_merged(self) -> None:
        """Builds whose SHARED mounts are merged run at once, and each finds what those before it left; buildah's own file isn't merged."""
        shutil.copy(shutil.which("busybox") or "", self.path("context/busybox"))
        self.write("context/work", "echo x > /m/$WHO; /bin/busybox sleep 2; /bin/busybox ls /m\n")
        self.write("context/Dockerfile", """FROM scratch
COPY busybox /bin/busybox
COPY work /work
ARG WHO
RUN --mount=type=cache,id=m,target=/m,mode=0711 ["/bin/busybox", "sh", "/work"]
""")
        words = ["build", "--shared-as", "shared", "--shared-as", "m=merged"]
        self.farm(*words, "--build-arg", "WHO=zero", "context")
        runs = [self.begin(*words, "--build-arg", f"WHO={who}", "-t", who, "context") for who in ("one", "two")]
        ends = [(run.communicate(timeout=support.PATIENCE), run.returncode) for run in runs]
        self.assertEqual([status for _, status in ends], [0, 0], ends)
        for (out, said), who in zip((end for end, _ in ends), ("one", "two")):
            self.assertEqual([line for line in out.splitlines() if line in ("zero", "one", "two")], sorted(["zero", who], key=["one", "two", "zero"].index), said)
            self.assertRegex(said, f"merged 1 path into locked:m version [23]\n(.*\n)*farm: image sha256:[0-9a-f]+ is tagged {who}")
        self.asked("get", "locked:m", self.path("m"))
        self.assertEqual((sorted(os.listdir(self.path("m"))), os.stat(self.path("m")).st_mode & 0o777), (["one", "two", "zero"], 0o711))

    @unittest.skipUnless(support.has("buildah"), support.needs("buildah"))
    @unittest.skipUnless(support.has("busybox"), "busybox-static isn't installed")
    @unittest.skipUnless(support.is_root and can_have_namespaces(), "buildah's chroot isolation is tried as root, with namespaces")
    def test_must_commit(self) -> None:
        """What a build left in a SHARED folder that another one still uses counts later, or never; with --must-commit it waits for that."""
        shutil.copy(shutil.which("busybox") or "", self.path("context/busybox"))
        self.write("context/work", "touch /s/$WHO; [ ${WHO%?} != long ] || until [ -e /s/go ]; do /bin/busybox sleep 0.1; done; rm -f /s/go\n")
        self.write("context/Dockerfile", """FROM scratch
COPY busybox /bin/busybox
COPY work /work
ARG WHO
RUN --mount=type=cache,target=/s ["/bin/busybox", "sh", "/work"]
""")
        agent, home = self.up("up", "--nodes", "1"), f"{self.home}/node1/shared/{short_name('shared:/s')}"
        for turn, status in (("1", 0), ("2", 75)):
            held = self.begin("build", "--build-arg", f"WHO=long{turn}", "context")
            self.wait_for(f"{home}/long{turn}")
            self.assertIn("is committed after them", self.farm("build", "--build-arg", f"WHO=plain{turn}", "context").stderr)
            waits = self.begin("build", "--must-commit", "--build-arg", f"WHO=waits{turn}", "-t", f"app{turn}", "context")
            self.hear(waits, "waiting for shared:/s: others use it here")
            if status:
                agent.kill()
            else:
                self.write(f"home/node1/shared/{os.path.basename(home)}/go", "")
            said = waits.communicate(timeout=support.PATIENCE)[1]
            held.communicate(timeout=support.PATIENCE)
            self.assertEqual((waits.returncode, held.returncode, f"is tagged app{turn}" in said), (status, status, not status), said)
        agent.wait()
        self.up("up", "--nodes", "1")
        self.asked("get", "shared:/s", self.path("got"))
        self.assertEqual(sorted(os.listdir(self.path("got"))), ["long1", "plain1", "waits1"])

    @unittest.skipUnless(support.has("buildah"), support.needs("buildah"))
    @unittest.skipUnless(support.has("busybox"), "busybox-static isn't installed")
    @unittest.skipUnless(support.is_root and can_have_namespaces() and found().is_wall, "no OCI runtime works here")
    def test_wall(self) -> None:
        """A step can't read the farm's key, by whatever path, and a mount's target behind a link is made within the image alone."""
        shutil.copy(shutil.which("busybox") or "", self.path("context/busybox"))
        os.mkdir(self.path("outside"))
        self.write("context/work", f"for root in '' /proc/1/root /proc/*/root/; do cat $root{self.home}/key; done\n/bin/busybox ps -o args; echo kept > /l/k/x/f\n")
        self.write("context/Dockerfile", f"""FROM scratch
COPY busybox /bin/busybox
COPY work /work
RUN ["/bin/busybox", "mkdir", "/l"]
RUN ["/bin/busybox", "ln", "-s", "{self.path('outside')}", "/l/k"]
RUN --mount=type=cache,id=w,sharing=locked,target=/l/k/x ["/bin/busybox", "sh", "/work"]
""")
        done = self.farm("build", "context")
        self.assertNotIn(self.read("home/key").strip(), done.stdout)
        self.assertNotRegex(done.stdout, "(?m)^(buildah|python3|.*farmd) ")
        self.assertEqual(os.listdir(self.path("outside")), [])
        self.asked("get", "locked:w", self.path("w"))
        self.assertEqual(self.read("w/f"), "kept\n")

    @unittest.skipUnless(support.has("buildah"), support.needs("buildah"))
    @unittest.skipUnless(support.has("busybox"), "busybox-static isn't installed")
    @unittest.skipUnless(support.is_root and can_have_namespaces(), "buildah's chroot isolation is tried as root, with namespaces")
    def test_layers(self) -> None:
        """Instructions are cached up to a RUN with a cache mount, which runs each time, also after a build that failed behind it."""
        shutil.copy(shutil.which("busybox") or "", self.path("context/busybox"))
        self.write("context/work", "cat /l/f; echo line >> /l/f\n")
        self.write("context/Dockerfile", """FROM scratch AS before
COPY busybox /bin/busybox
RUN ["/bin/busybox", "touch", "/plain"]
FROM before
COPY work /work
RUN --mount=type=cache,id=l,sharing=locked,target=/l ["/bin/busybox", "sh", "/work"]
ARG WHO
RUN --mount=type=cache,id=l,sharing=locked,target=/l,ro ["/bin/busybox", "sh", "-c", "[ $WHO != bad ]"]
""")
        rows: list[tuple[list[str], str, int, int, int]] = [  # words, who, status, cached instructions, lines found
            (["--layers"], "one", 0, 0, 0), (["--layers"], "bad", 1, 3, 1), (["--layers"], "one", 0, 3, 1), (["--layers", "--no-cache"], "one", 0, 0, 2),
        ]
        for words, who, status, cached, lines in rows:
            done = self.farm("build", *words, "--build-arg", f"WHO={who}", "-t", "app", "context", status=status)
            found = (done.stdout + done.stderr).count("Using cache"), done.stdout.splitlines().count("line")
            self.assertEqual(found, (cached, lines), f"{words} {who}: {done.stdout}{done.stderr}")
            self.assertNotIn("lost its name", done.stderr)
        self.asked("get", "locked:l", self.path("got"))
        self.assertEqual(self.read("got/f"), "line\n" * 3)
        self.assertIn("caches instructions by itself", self.asked("build", "--layers", "--builder", "docker", "context", status=64))

    def test_slow_runtime(self) -> None:
        """A runtime that is slow isn't one that doesn't work: no build runs without a wall for that."""
        program = self.write("crun", "#!/bin/sh\nsleep 5\n")
        os.chmod(program, 0o755)
        with mock.patch("agent.build.isolation.PATIENCE", 0.3), mock.patch.dict(os.environ, {"PATH": f"{self.room}:{os.environ['PATH']}"}):
            with self.assertRaisesRegex(FarmFault, "ran no container within 0 seconds: try again"):
                found()

    def test_networks(self) -> None:
        """A step has a network of its own where either of the programs that make one is there, and the machine's only where none is."""
        rows = [("/usr/lib/cni/bridge", []), ("/usr/lib/podman/netavark", []), ("/nowhere", ["--network=host"])]
        for there, wanted in rows:
            with mock.patch("os.path.exists", lambda path: path == there):
                words = Isolation("/bin/crun").words("/room", None)
            self.assertEqual([word for word in words if word.startswith("--network")], wanted, there)

    def tags(self) -> None:
        """buildah takes the names that are taken here, and no other ones."""
        storage = Buildah(f"{self.home}/node1/containers").storage
        for tags in (GOOD_TAGS, *((tag,) for tag in BAD_TAGS[::4])):
            done = subprocess.run(["buildah", *storage, "tag", "app", "--", *tags], capture_output=True, text=True)
            self.assertEqual(done.returncode == 0, tags == GOOD_TAGS, f"{tags}: {done.stderr}")


@unittest.skipUnless(support.has("buildah"), support.needs("buildah"))
@unittest.skipUnless(support.is_root, "builds need root")
class Unnamed(support.RoomTest):
    """Images that lose their last name to another one go, and no other ones."""

    def setUp(self) -> None:
        super().setUp()
        self.builder = Buildah(self.path("containers"))

    def image(self, begins: str = "scratch") -> str:
        """An image that begins with another one."""
        self.write("Dockerfile", f"FROM {begins}\nCOPY f /f{begins[:4]}\n")
        self.write("f", os.urandom(8).hex())
        words = ["buildah", *self.builder.storage, "bud", "--iidfile", self.path("id"), "-f", self.path("Dockerfile"), self.room]
        subprocess.run(words, check=True, capture_output=True)
        return self.read("id")

    def tagged(self, *tags: str, begins: str = "scratch") -> str:
        image = self.image(begins)
        for tag in tags:
            self.builder.tag(image, tag)
        return image

    def left(self) -> set[str]:
        return set(self.builder._images("--all"))

    def test_replaced(self) -> None:
        nameless, twice = self.image(), self.tagged("app", "app:old")
        self.tagged("base")
        self.tagged("on", begins="base")
        self.assertEqual(self.builder.unnamed, set())
        kept = {nameless, twice, self.tagged("app"), self.tagged("base"), self.tagged("on", begins="base")}
        self.builder.tag(twice, "app:old")
        self.assertEqual((len(self.builder.unnamed), self.builder.drop_unnamed(), self.left()), (2, [], kept))
        old = self.tagged("app:old")
        self.builder.tag(twice, "new")  # meanwhile it has a name again
        self.assertEqual((self.builder.drop_unnamed(), self.left()), ([], kept | {old}))

    def test_built_from_nameless(self) -> None:
        """What an image was built from stays, though it never had a name, and buildah would remove it too."""
        below = self.image()
        first = self.tagged("app", begins=below.removeprefix("sha256:"))
        kept = {below, first, self.tagged("app")}
        self.assertRegex(" ".join(self.builder.drop_unnamed()), f"{first} buildah would remove {below}")
        self.assertEqual((self.builder.drop_unnamed(), self.left()), ([], kept))

    def test_killed(self) -> None:
        """What a killed build made of its stages goes with its containers. What it began with stays, also where that has no name."""
        user = self.image()
        self.write("f", "")
        with socket.create_server(("127.0.0.1", 0)) as server:
            add = f"ADD http://127.0.0.1:{server.getsockname()[1]}/x /x\n"  # it is asked, and never answers
            for text in ("FROM scratch AS a\nCOPY f /f\nFROM a AS b\nCOPY f /g\nFROM b\n", f"FROM {user.removeprefix('sha256:')}\n"):
                words, env = self.builder.command(Image(context=self.room, dockerfile=self.write("Dockerfile", text + add), room=self.room))
                build = subprocess.Popen(words, env=env, stdout=subprocess.DEVNULL, stderr=subprocess.DEVNULL)
                server.settimeout(support.PATIENCE)
                link, _ = server.accept()
                build.kill()
                build.wait()
                link.close()
        subprocess.run(["buildah", *self.builder.storage, "from", "--name", "user", user], check=True, capture_output=True)
        self.assertEqual(len(self.left()), 3)
        self.builder.sweep([])
        self.assertEqual((self.builder.drop_unnamed(), self.left()), ([], {user}))
        self.assertEqual([each["containername"] for each in json.loads(self.builder._said("containers", "--json"))], ["user"])

    def test_killed_before_its_tag(self) -> None:
        """The image of a build that was killed before its tag goes; one that has its tag stays, and so do others."""
        user, rooms = self.image(), [self.path("empty"), self.path("one"), self.path("two")]
        for room in rooms[1:]:
            self.write("f", room)
            words, env = self.builder.command(Image(context=self.room, dockerfile=self.write("Dockerfile", "FROM scratch\nCOPY f /g\n"), room=room))
            subprocess.run(words, env=env, check=True, capture_output=True)
        tagged = self.read("two/image")
        self.builder.tag(tagged, "app")
        self.assertEqual(len(self.left()), 3)
        self.builder.sweep(rooms)
        self.assertEqual((self.builder.drop_unnamed(), self.left()), ([], {user, tagged}))

    def test_not_cleaned(self) -> None:
        """That images can't be removed is told, and they go another time."""
        old = self.tagged("app")
        subprocess.run(["buildah", *self.builder.storage, "from", "--name", "user", "app"], check=True, capture_output=True)
        new = self.tagged("app")
        self.assertRegex(" ".join(self.builder.drop_unnamed()), r"\Aan image that lost its name may stay: buildah rmi: [^\n]*in use by a container[^\n]*\Z")
        subprocess.run(["buildah", *self.builder.storage, "rm", "user"], check=True, capture_output=True)
        self.write("bin/buildah", f'#!/bin/sh\n[ $7 != images ] || exit 9\nexec {shutil.which("buildah")} "$@"\n')
        os.chmod(self.path("bin/buildah"), 0o755)
        with mock.patch.dict("os.environ", {"PATH": f"{self.path('bin')}:{os.environ['PATH']}"}):
            self.builder.tag(old, "app")
            self.builder.tag(new, "app")
            self.assertEqual(self.builder.drop_unnamed(), ["an image that lost its name may stay: buildah images: it ended with status 9"])
        self.assertEqual((self.builder.drop_unnamed(), self.left()), ([], {new}))


class Caches(support.RoomTest):
    def test_places(self) -> None:
        """The mounts lie where this version of buildah looks for them; where that can't be told nothing is built."""
        rows: list[tuple[str, str, str]] = [  # its version, the folder that it makes of the id `farm-probe`, and where it has another id
            ("1.28.2", "nowhere", "buildah-cache/{id}"), ("1.33.7", "buildah-cache-0/farm-probe", "buildah-cache-0/{id}"),
            ("1.39.3", "buildah-cache-0/2befea2b5e29ff66", "buildah-cache-0/{digest}"), ("2.0", "elsewhere", ""),
        ]
        os.mkdir(self.path("bin"))
        for version, made, place in rows:
            self.write("bin/buildah", f'#!/bin/sh\nfor word; do [ $word != --version ] || exec echo buildah version {version}; done\nmkdir -p $TMPDIR/{made}; exit 1\n')
            os.chmod(self.path("bin/buildah"), 0o755)
            with self.subTest(version), mock.patch("os.geteuid", return_value=0):
                with mock.patch.dict("os.environ", {"PATH": f"{self.path('bin')}:{os.environ['PATH']}"}):
                    builder = Buildah(self.path("containers"))
                    if not place:
                        with self.assertRaisesRegex(FarmFault, "this buildah keeps cache mounts where no leased folder can be"):
                            builder.enter(self.room, ["locked:a"], lambda: None)
                        continue
                    mount = builder.enter(self.room, ["locked:a"], lambda: None)[0]
                digest = hashlib.sha256(mount.id.encode()).hexdigest()[:16]
                self.assertEqual(mount.path, f"{self.room}/tmp/{place.format(id=mount.id, digest=digest)}")


@unittest.skipUnless(support.has("buildah"), support.needs("buildah"))
@unittest.skipUnless(support.is_root, "builds need root")
class Pulled(support.FarmTest):
    def test_left_early(self) -> None:
        """Who is told to end while an image is pulled ends, and so does the pull."""
        with socket.create_server(("127.0.0.1", 0)) as registry:
            self.write("context/Dockerfile", f"FROM 127.0.0.1:{registry.getsockname()[1]}/x\n")
            build = self.begin("build", "context")
            registry.settimeout(support.PATIENCE)
            link, _ = registry.accept()  # it is asked, and never answers
            build.send_signal(signal.SIGINT)
            self.assertIn("nobody waits", build.communicate(timeout=support.PATIENCE)[1])
            self.assertEqual(build.returncode, 75)
            with link:
                link.settimeout(support.PATIENCE)
                while link.recv(1 << 16):  # until who pulled has ended
                    pass


class Refused(support.FarmTest):
    def test_refused(self) -> None:
        self.write("context/Dockerfile", "FROM scratch\n")
        self.write("bad", "FROM scratch\n\nRUN --mount=type=cache,from=x,target=/c true\n")
        rows = [(["-f", self.path("bad")], "refused: line 3: .*from=x isn't carried out"), (["-f", "none"], "refused: there is no"),
                (["--target", "nowhere"], "refused: no stage is called nowhere")]
        for words, said in rows:
            self.assertRegex(self.asked("build", *words, self.path("context"), status=65), said)
        for context in (self.path("nowhere"), "https://github.com/x/y", self.path("bad")):
            self.assertIn("is no folder of this machine", self.asked("build", context, status=65))
        for tag in BAD_TAGS:
            self.assertIn("can't be an image's name", self.asked("build", f"--tag={tag}", self.path("context"), status=64), tag)
        for tag in GOOD_TAGS:
            check_tag(tag)
        with mock.patch("os.geteuid", return_value=1), self.assertRaisesRegex(FarmFault, "as root"):
            Buildah(self.home).base_of("x", BuildOptions(), lambda: None)


if __name__ == "__main__":
    unittest.main()
