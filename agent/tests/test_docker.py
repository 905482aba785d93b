"""Dockerfiles as BuildKit reads them, and what Docker's builder refuses; without a daemon."""
from __future__ import annotations

import base64
import json
import os
import re
import shutil
import subprocess
import unittest
from typing import TextIO
from unittest import mock

from agent.build import isolation
from agent.build.buildah import Buildah
from agent.build.builder import CacheMount
from agent.build.cacheids import CacheIds
from agent.build.docker import Docker, cli
from agent.build.dockerfile import Base, Plan, Reader, plan
from agent.build.dockertext import BadDockerfile
from agent.build.engine import host_path
from agent.commands import build as words
from agent.faults import FarmFault, UsageFault
from agent.service.requests import BuildOptions
from agent.tests import support
from agent.tests.test_dockerfile import base
from agent.trials.docker import Daemon

T = "--mount=type=cache"
OLD, NEW = Reader(True), Reader(True, True)  # Docker 20.10 and 23.0


def planned(text: str, target: str | None = None, reader: Reader = NEW, **args: str) -> Plan:
    return plan(text, args, target, base, reader=reader)


def read(made: Plan) -> str:
    """What BuildKit gets to read."""
    return made.text(lambda mount: f"<{mount.folder}>")


# A Dockerfile, and the ids that its lease wants, where BuildKit reads it otherwise than buildah.
KIT: dict[str, tuple[str, list[str]]] = {
    "the last of ENV and ARG": (
        f"FROM box\nENV V=env\nARG V=arg\nRUN {T},id=$V,target=/a true\nENV V=new\nRUN {T},id=$V,target=/a true\n", ["arg", "new"],
    ),
    "ARG of a stage before": (f"FROM box AS one\nARG I=up J=arg\nENV J=env\nFROM one\nRUN {T},id=$I$J,target=/a true\n", ["upenv"]),
    "a later stage": (f"FROM box AS a\nFROM box AS last\nCOPY --from=late /x /x\nFROM box AS late\nRUN {T},id=l,target=/a true\nFROM last\n", ["l"]),
    "escape after syntax": (f"# syntax=docker/dockerfile:1\n# escape=`\nFROM box\nRUN {T},id=e,`\ntarget=/a true\n", ["e"]),
    "escape after a comment": ("# x\n# escape=`\nFROM box\nRUN echo `\nRUN echo\n", []),
    "COPY of a here-document": (f"FROM box\nCOPY <<EOF /x\nRUN {T[:8]} x\nEOF\nRUN {T},target=/a true\n", ["/a"]),
    "other flags": (f"FROM box\nCOPY --link --from=box /x /y\nRUN --network=none --security=sandbox {T},target=/a true\n", ["/a"]),
    "another script": (f"FROM box\nRUN {T},target=/a <<EOF\n#!/bin/sh\ntrue\nEOF\n", ["/a"]),
    "comments": (f"FROM box\n# RUN {T},target=/no true\nRUN true \\\n  # {T}\n  && true\n", []),
    "a variable in an id": (f"FROM box AS one\nRUN {T},target=/a true\nFROM box\nARG V=v\nRUN {T},id=$V,target=/b true\n", ["v"]),
    "variables elsewhere": ("FROM box\nARG D=/t\nRUN --mount=type=tmpfs,target=$D true\n", []),
    # What BuildKit 0.8 wrote of these was that.
    "odd ids": (
        f"FROM box\nRUN {T},target=/1,id=a@b true\nRUN {T},target=/2,id=a#1,sharing=private true\nRUN {T},target=/3,id=100%,sharing=locked true\n"
        f"RUN {T},target=/5,id=a&b=c;d\\e true\nRUN {T},target=/6/../6b,id=. true\nRUN {T},target=/7/,sharing=locked true\n",
        ["a@b", "a#1", "100%", "a&b=c;de", ".", "/7"],
    ),
}
REFUSED = [
    ("FROM box\nRUN echo \\\\\nRUN true\n", NEW, r"line 2: it ends with \\\\: BuildKit's versions differ"),
    ("FROM box\nCOPY <<EOF /x\na\nEOF\n", OLD, "line 2: here-documents of COPY: this daemon's BuildKit has none"),
    ("FROM box\nFROM 0\n", NEW, "line 2: FROM 0: builders differ"),
    ("MAINTAINER x\nFROM box\n", NEW, "line 1: MAINTAINER stands before the first FROM"),
    ("{\"syntax\": \"x\"}\nFROM box\n", NEW, "line 1: .* stands before the first FROM"),
    (f"FROM box\nRUN echo {T},target=/no\n", NEW, "line 2: `type=cache` stands where no cache mount"),
    (f"FROM box\nRUN echo x {T[:12]}\\\n# c\n{T[12:]},target=/no\n", NEW, "`type=cache` stands where no cache mount"),
    ("FROM box\nARG M=type=cache,id=m,target=/m\nRUN --mount=$M true\n", NEW, "line 2: `type=cache` stands"),
    (f"FROM box AS a\nONBUILD RUN {T},target=/c true\nFROM a\nRUN true\n", NEW, "line 3: a has `ONBUILD RUN .*`: its cache can't be leased"),
    ("FROM box AS a\nONBUILD COPY --from=b /x /x\nFROM a\n", NEW, "line 3: a has `ONBUILD COPY .*`: the stage that it names"),
    (f"FROM box\nARG A=1 B=$A\nRUN {T},id=$B,target=/c true\n", NEW, "variable B"),
    ("FROM box\nARG Q=a,type=x\nRUN --mount=type=bind,source=$Q,target=/c true\n", NEW, "no one reading"),
    ("FROM box\nARG Q=a\\ b\nRUN --mount=type=bind,source=$Q,target=/c true\n", NEW, "no one reading"),
]


class Reading(unittest.TestCase):
    def test_ids(self) -> None:
        for name, (text, wanted) in KIT.items():
            with self.subTest(name):
                made = planned(text)
                self.assertEqual([mount.id for mount in made.mounts], wanted)
                self.assertEqual(read(made).count("<"), len(wanted) + made.text(lambda mount: "").count("<"))

    def test_refused(self) -> None:
        for text, reader, why in REFUSED:
            with self.subTest(text[:60]), self.assertRaisesRegex(BadDockerfile, why):
                planned(text, reader=reader)

    def test_text(self) -> None:
        """All but the mounts stays as it is, unless the daemon's BuildKit has no here-documents."""
        text = f"FROM box\nRUN {T},target=/a cat <<EOF\nx\nEOF\nRUN --mount=type=bind,source=$PATH,target=/b true\n"
        made = text.replace("--mount=type=bind,source=$PATH", "--mount=type=bind,source=/bin")
        self.assertEqual(read(planned(text)), made.replace(f"{T},target=/a", "<shared:/a>"))
        firsts = planned("FROM box\nRUN  --network=none \\\n true\nRUN\\\n true\n").text(str, "<1> ")
        self.assertEqual(firsts, "FROM box\nRUN  <1> --network=none \\\n true\nRUN\\\n <1> true\n")
        self.assertIn('RUN <shared:/a> ["/bin/sh", "-c", "cat <<EOF\\nx\\nEOF\\n"]\n', read(planned(text, reader=OLD)))

    def test_real(self) -> None:
        """What BuildKit wrote of this Dockerfile are these mounts."""
        with open(f"{support.TOP}/examples/df-multistage.Dockerfile") as file:
            made = plan(file.read(), {}, None, lambda name: Base({}), reader=NEW)
        with open(f"{support.TOP}/examples/df-multistage.printed") as file:
            wrote = re.findall(r"shared:team-a/(\S+)", file.read())
        self.assertEqual(sorted(mount.folder for mount in made.mounts), sorted(f"shared:{each}" for each in wrote))

    def test_platform(self) -> None:
        made = planned(f"FROM --platform=$BUILDPLATFORM box\nARG TARGETARCH TARGETVARIANT\nRUN {T},id=$TARGETARCH$TARGETVARIANT,target=/a true\n",
                       reader=Reader(True, True, "linux/arm/v7"))
        self.assertEqual([mount.id for mount in made.mounts], ["armv7"])


class Ids(support.RoomTest):
    """An id whose lease didn't end well is never used again."""

    def test_ids(self) -> None:
        ids = CacheIds(self.path("mounts"))
        seen: set[str] = set()
        for ended_well in (True, True, False, True, None, True):
            mounts = ids.take(["locked:a", "locked:b"])
            taken = {mount.slot: mount.id for mount in mounts}
            self.assertEqual(bool(mounts[0].path), mounts[0].id in seen)
            ids.found(CacheMount("locked:a", taken["locked:a"], f"/d/{len(seen)}"))
            if ended_well is None:  # its agent was killed
                ids = CacheIds(self.path("mounts"))
            else:
                ids.leave("locked:a", taken["locked:a"], ended_well)
                ids.leave("locked:b", taken["locked:b"], True)
            seen.add(taken["locked:a"])
        self.assertEqual(len(seen), 3)
        old = ids.old(ids.slots())
        self.assertEqual([(slot, path) for slot, _, path in old if slot == "locked:a"], [("locked:a", "/d/1"), ("locked:a", "/d/2")])
        self.assertLess({each for slot, each, _ in old if slot == "locked:a"}, seen)
        ids.dropped(*old[0][:2])
        self.assertEqual(ids.old(ids.slots()), old[1:])

    def test_withdrawn(self) -> None:
        """A build whose lease was withdrawn goes on with its own id: that of the next one isn't its to say of."""
        ids = CacheIds(self.path("mounts"))
        first = ids.take(["locked:a"])[0].id
        with mock.patch("agent.build.cacheids.ENDING", 0.0):
            second = ids.take(["locked:a"])[0].id
        self.assertEqual(ids.old(["locked:a"]), [])  # it still runs
        ids.leave("locked:a", first, True)
        self.assertEqual([each[1] for each in ids.old(["locked:a"])], [first])
        ids.leave("locked:a", second, True)
        self.assertEqual(ids.take(["locked:a"]), [CacheMount("locked:a", second, "")])
        ids.found(CacheMount("locked:a", second, "/d"), "daemon")
        ids.leave("locked:a", second, True)
        self.assertEqual([ids.take(["locked:a"], daemon)[0].path for daemon in ("daemon", "other")], ["/d", ""])


class Refusing(support.FarmTest):
    def docker(self, host: str) -> Docker:
        return Docker(self.path("docker"), host, lambda: mock.MagicMock())

    def test_platforms(self) -> None:
        """A base that is here for another platform alone is got before anything is leased, and not amid the build."""
        here = {"Os": "linux", "Architecture": "arm64", "Variant": "v8", "Config": {}}
        rows = [(None, 0), ("linux/arm64", 0), ("linux/arm64/v8", 0), ("linux/amd64", 1), ("linux/arm64/v7", 1), ("windows/arm64", 1)]
        for platform, pulls in rows:
            docker = self.docker("unix:///x.sock")
            with mock.patch.object(docker.engine, "ask", return_value=here), mock.patch.object(docker, "_done") as done:
                docker.base_of("box", BuildOptions(platform=platform), lambda: None)
            self.assertEqual([call.args[1:4] for call in done.mock_calls], [("pull", f"--platform={platform}", "box")] * pulls)
            buildah = Buildah(self.path("buildah"))
            told = json.dumps({"OCIv1": {"os": "linux", "architecture": "arm64", "variant": "v8"}})
            with mock.patch.object(buildah, "_call", return_value=subprocess.CompletedProcess([], 0, told, "")) as call:
                buildah.base_of("box", BuildOptions(platform=platform), lambda: None)
            self.assertEqual(sum(each.args[0] == "pull" for each in call.mock_calls), pulls)

    def test_check(self) -> None:
        builder = self.docker("unix:///x.sock")
        with mock.patch("os.geteuid", return_value=0), mock.patch.object(builder, "_check_daemon"):
            rows: list[tuple[str, dict[str, str], str]] = [
                ("# syntax=x/y\nFROM box\n", {}, "line 1: syntax=x/y"), ("\ufeff#  Syntax = docker/dockerfile:2\n", {}, "docker/dockerfile:2"),
                ("FROM box\n", {"BUILDKIT_CACHE_MOUNT_NS": "x"}, "BUILDKIT_CACHE_MOUNT_NS isn't carried out"),
                ("FROM box\n", {"BUILDKIT_SYNTAX": "x"}, "BUILDKIT_SYNTAX"), ("# x\n//syntax=docker/dockerfile-upstream:1\n", {}, "line 2"),
            ]
            for text, args, why in rows:
                with self.subTest(text), self.assertRaisesRegex(BadDockerfile, why):
                    builder.check(text, args, BuildOptions())
            for text in ("FROM box\n# syntax=x\n", "# syntax=docker/dockerfile:1.4\nFROM box\n", "# syntax=docker/dockerfile:1-labs\n", "#x\n"):
                self.assertEqual(builder.check(text, {}, BuildOptions()), Reader(True, "syntax=docker" in text), text)
            with self.assertRaisesRegex(UsageFault, "tcp://10.0.0.1:2375 may be another machine's daemon"):
                self.docker("tcp://10.0.0.1:2375").check("", {}, BuildOptions())

    def test_words(self) -> None:
        """No word of the owner: BuildKit would make another directory; and the id stands in the step's key."""
        held = CacheMount("locked:a", "farm-1", "/d")
        made = planned(f"FROM box\nRUN {T},target=/a,sharing=private,uid=5,gid=6,mode=0700 {T},target=/b,ro true").mounts
        self.assertEqual([self.docker("").word(mount, held) for mount in made], [
            "--mount=type=cache,id=farm-1,target=/a,sharing=locked --mount=type=tmpfs,target=/dev/farm-1",
            "--mount=type=cache,id=farm-1,target=/b,sharing=shared,readonly --mount=type=tmpfs,target=/dev/farm-1",
        ])

    @unittest.skipUnless(support.is_root, "builds need root")
    def test_no_daemon(self) -> None:
        """It is told before anything is leased."""
        self.write("context/Dockerfile", f"FROM scratch\nRUN {T},target=/a true\n")
        self.env |= {"DOCKER_HOST": f"unix://{self.room}/no.sock", "BUILDX_BUILDER": ""}
        said = self.asked("build", "--builder", "docker", self.path("context"), status=70)
        self.assertIn(f"no Docker daemon answers at unix://{self.room}/no.sock: No such file", said)
        self.assertNotIn("ticket", said)
        rows = [(["--cache-from", "x"], "goes with"), (["--builder", "docker", "--format", "oci"], "buildah's"), (["--push"], "wants the name"),
                (["--platform", "a/b,c/d"], "one platform")]
        rows += [] if isolation.found().is_wall else [(["--network", "none"], "this machine's network")]
        for row, why in rows:
            self.assertIn(why, self.asked("build", *row, self.path("context"), status=64))

    def test_daemon(self) -> None:
        """The daemon is the one that `docker build` would ask; a builder with a BuildKit of its own is refused."""
        home = self.path("config")
        name = "2c26b46b68ffc68ff99b453c1d30413413422d706483bfa0f98a5e886266e7ae"  # the digest of `foo`
        self.write(f"config/contexts/meta/{name}/meta.json", '{"Name": "foo", "Endpoints": {"docker": {"Host": "unix:///foo.sock"}}}')
        self.write("config/buildx/instances/own", '{"Name": "own", "Driver": "docker-container"}')
        rows: list[tuple[dict[str, str], str]] = [
            ({}, f"unix://{os.path.realpath('/var/run/docker.sock')}"), ({"DOCKER_CONTEXT": "foo"}, "unix:///foo.sock"),
            ({"DOCKER_HOST": "unix:///a", "DOCKER_CONTEXT": "foo"}, "unix:///a"),
        ]
        for env, wanted in rows:
            with mock.patch.dict(os.environ, {"DOCKER_CONFIG": home} | env, clear=True):
                self.assertEqual(words.daemon(), wanted)
        for env, why in (({"DOCKER_CONTEXT": "bar"}, "context bar isn't in"), ({"BUILDX_BUILDER": "own"}, "own is of docker-container")):
            with mock.patch.dict(os.environ, {"DOCKER_CONFIG": home} | env, clear=True), self.assertRaisesRegex(UsageFault, why):
                words.daemon()
        self.write("config/config.json", '{"auths": {"r.io": {"auth": "eDp5"}}, "currentContext": "foo", "proxies": {}}')
        with mock.patch.dict(os.environ, {"DOCKER_CONFIG": home}, clear=True):
            self.assertEqual((words.daemon(), words.logins(True)), ("unix:///foo.sock", '{"auths": {"r.io": {"auth": "eDp5"}}}'))

    def test_directory(self) -> None:
        """A directory counts only where it is the one that the step saw."""
        here = os.lstat(self.room)
        mark = f"{os.major(here.st_dev)}:{os.minor(here.st_dev)}"
        with open("/proc/self/mountinfo") as file:
            rows = [row.split(" ") for row in file]
        above = max((row for row in rows if row[2] == mark and (self.room + "/").startswith(row[4].rstrip("/") + "/")), key=lambda row: len(row[4]))
        root = above[3].rstrip("/") + self.room[len(above[4].rstrip("/")) :]
        self.assertEqual(os.path.realpath(host_path(mark, root, here.st_dev, here.st_ino)), os.path.realpath(self.room))
        for number, place in ((here.st_ino + 1, root), (here.st_ino, root + "/no")):
            with self.assertRaisesRegex(FarmFault, "isn't on this machine"):
                host_path(mark, place, here.st_dev, number)


REGISTRY = """version: 0.1
storage: {{filesystem: {{rootdirectory: {room}/registry}}}}
http: {{addr: "127.0.0.1:{port}"}}
auth: {{htpasswd: {{realm: farm, path: {room}/users}}}}
"""
USER, PASSWORD = "farm-user", "hidden-word"
HASHED = "$2b$04$Jx.HJj0Rh/3YLO8ciD7rAORd6jUv6JN8djjpbkU69y0.krLcTdRPC"
BASE = 'FROM scratch\nCOPY busybox /bin/busybox\nRUN ["/bin/busybox", "--install", "/bin"]\nENV PATH=/bin\n'
ALL = """FROM {base} AS wanted
ARG GIVEN OWN TARGETARCH
RUN --mount=type=secret,id=file --mount=type=secret,id=word --mount=type=ssh --mount=type=cache,target=/c,sharing=locked \\
  echo found $GIVEN $OWN $TARGETARCH $(grep -c 'of.a.file' /run/secrets/file) $(grep -c 'of.a.word' /run/secrets/word) \\
  $([ -S $SSH_AUTH_SOCK ] && echo ssh) $(ls /sys/class/net | wc -l) | tee /c/found
FROM {base}
RUN false
"""


@unittest.skipUnless(all(map(support.has, ("casync", "busybox", "docker-registry", "ssh-agent"))) and support.is_root, "a tool isn't installed, or it isn't root")
class Options(support.FarmTest):
    """What a build leaves to its builder, with a registry that wants a login."""

    def setUp(self) -> None:
        super().setUp()
        port = support.free_port()
        self.base = f"127.0.0.1:{port}/base"
        self.write("registry.yml", REGISTRY.format(room=self.room, port=port))
        self.write("users", f"{USER}:{HASHED}\n")
        with open(self.path("log"), "w") as log:
            self.start("docker-registry", "serve", self.path("registry.yml"), log=log)
            self.start("ssh-agent", "-D", "-a", self.path("ssh"), log=log)
        support.wait_port(port)
        login = base64.b64encode(f"{USER}:{PASSWORD}".encode()).decode()
        self.write("logins/config.json", json.dumps({"auths": {f"127.0.0.1:{port}": {"auth": login}}}))
        self.write("nobody/config.json", "{}")
        for place in ("", "node1/containers/"):  # what a machine's /etc/containers says to buildah
            self.write(f"home/{place}.config/containers/registries.conf", f'[[registry]]\nlocation = "127.0.0.1:{port}"\ninsecure = true\n')
        os.makedirs(self.path("context"))
        shutil.copy(shutil.which("busybox") or "", self.path("context/busybox"))
        self.write("context/first", BASE)
        self.write("context/Dockerfile", ALL.format(base=f"{self.base}:1"))
        self.write("secret", "of a file\n")
        self.env |= {"SSH_AUTH_SOCK": self.path("ssh"), "WORD": "of a word", "OWN": "own", "DOCKER_CONFIG": self.path("logins")}
        os.chmod(self.home, 0o700)

    def start(self, *words: str, log: TextIO) -> subprocess.Popen[bytes]:
        process = subprocess.Popen(words, stdin=subprocess.DEVNULL, stdout=log, stderr=log)
        self.addCleanup(process.wait)
        self.addCleanup(process.terminate)
        return process

    def tried(self, *builder: str, forget: list[str]) -> None:
        build = ["build", *builder, "--network", "none"]
        pushed = self.farm(*build, "-q", "--iidfile", self.path("id"), "-t", f"{self.base}:1", "-t", f"{self.base}:2", "--push", "-f", "first", "context")
        self.assertEqual(pushed.stdout.strip().removeprefix("sha256:"), self.read("id").removeprefix("sha256:"))
        self.assertIn(f"is pushed to {self.base}:2", pushed.stderr)
        self.env["DOCKER_CONFIG"] = self.path("nobody")
        self.assertRegex(self.farm(*build, "-t", f"{self.base}:3", "--push", "-f", "first", "context", status=70).stderr, "base:3 can't be pushed: ")
        subprocess.run([*forget, f"{self.base}:1", f"{self.base}:2", f"{self.base}:3"], check=True, capture_output=True, env=self.env)
        words = ["--secret", f"id=file,src={self.path('secret')}", "--secret", "id=word,env=WORD", "--ssh", "default", "--target", "wanted"]
        words += ["--build-arg", "GIVEN=given", "--build-arg", "OWN", "--platform", "linux/amd64", "--pull", "context"]
        self.assertIn("can't be pulled", self.farm(*build, *words, status=65).stderr)
        self.env["DOCKER_CONFIG"] = self.path("logins")
        self.farm(*build, *words)
        self.asked("get", "locked:/c", self.path("got"))
        self.assertEqual(self.read("got/found"), "found given own amd64 1 1 ssh 1\n")
        for found in (PASSWORD, json.loads(self.read("logins/config.json"))["auths"], "of a file", "of a word"):
            word = found if isinstance(found, str) else next(iter(found.values()))["auth"]
            left = subprocess.run(["grep", "-rl", "-e", word, self.home], capture_output=True, text=True).stdout
            self.assertEqual(left, "", f"{word} is left in the node's home")

    @unittest.skipUnless(support.has("buildah") and isolation.found().is_wall, "buildah or an OCI runtime isn't installed")
    def test_buildah(self) -> None:
        self.tried(forget=["buildah", *Buildah(f"{self.home}/node1/containers").storage, "rmi", "--force"])

    @unittest.skipUnless(support.has("dockerd") and support.has("docker"), support.needs("docker"))
    def test_docker(self) -> None:
        daemon = Daemon(self.path("daemon"), False)
        self.addCleanup(daemon.stop)
        daemon.start()
        self.env["DOCKER_HOST"] = daemon.host
        self.tried("--builder", "docker", forget=[cli(), "image", "rm", "--force"])
        self.write("steps", f"FROM {self.base}:1\nRUN echo one\nRUN {T},id=s,target=/s echo two | tee /s/f\n")
        seen = [self.farm("build", "--builder", "docker", "--progress", "plain", "--network", "none", "-f", "steps", ".").stderr for _ in range(2)]
        self.assertTrue(all(re.search(r"(?m)^#[0-9]+ \[stage-0 [23]/3\] RUN ", each) for each in seen), seen)
        found = [event["hits"] for line in self.asked("history", "--json").splitlines() if "hits" in (event := json.loads(line))]
        self.assertEqual(found[-2:], [{"steps": [0, 2]}, {"steps": [2, 2]}])


if __name__ == "__main__":
    unittest.main()
