"""The cache mounts of Dockerfiles, and what the builder gets to read."""
from __future__ import annotations

import re
import unittest

from agent.build.buildah import Buildah
from agent.build.builder import CacheMount
from agent.build.dockerfile import Base, Plan, plan
from agent.build.dockertext import BadDockerfile, instructions
from agent.build.mounts import Mount
from agent.words import short_name

T = "--mount=type=cache"
PLACE = re.compile(r"id=farm-[0-9a-f]{32},target=/")


def base(name: str) -> Base:
    if name == "box":
        return Base({"PATH": "/bin"})
    if name == "trigger":
        return Base({"BASEVAR": "b"}, ["RUN --mount=type=cache,target=/c true"])
    return Base({"BASEVAR": "b"}, [], ["/bin/bash", "-ec"])


def planned(text: str, target: str | None = None, shared_as: tuple[str, ...] = (), **args: str) -> Plan:
    return plan(text, args, target, base, shared_as)


def word(mount: Mount) -> str:
    return Buildah("").word(mount, CacheMount(mount.folder, short_name(mount.folder), ""))


def read(made: Plan) -> str:
    """What buildah gets to read."""
    return made.text(word)


# A Dockerfile, and the ids that its lease wants. What buildah 1.28 makes of the originals is the same.
SAME: dict[str, tuple[str, list[str]]] = {
    "continuations": (f"FROM box\nRUN {T},\\\nid=a,\\\n  # no\n\ntarget=/c\\\n {T},target=/d \\  \n true\n", ["a", "/d"]),
    "flags": (f"FROM box\nRUN {T},target=/a --mount=type=tmpfs,target=/t {T},target=/b true {T},target=/no\n", ["/a", "/b"]),
    "case": (f"from box\nrun {T},target=/a true\n", ["/a"]),
    "comments": (f"FROM box\n# RUN {T},target=/no true\nRUN echo '# x' {T},target=/no\n  # RUN {T},target=/no true\n", []),
    "quotes": ("FROM box\nRUN --mount='type=cache',id=r\\s,target=/b true\n", ["rs"]),
    "spaces in an id": (f'FROM box\nRUN {T},"id=q r",target=/a true\n', ["q r"]),
    "variables": (
        f'ARG G=1\nFROM box\nARG G\nARG H=$G-2\nARG I=no\nENV J="j j" K=k$H\nENV L l $K\nRUN {T},id=$H-$K,target=/a {T},id=${{L}},target=/b true\n',
        ["1-2-k1-2", "l k1-2"],
    ),
    "ENV wins": (f"FROM box\nARG V=arg\nENV V=env\nRUN {T},id=$V,target=/a true\n", ["env"]),
    "ENV of its own line": (f"FROM box\nENV A=1\nENV A=2 B=$A\nRUN {T},id=$B,target=/a true\n", ["1"]),
    "defaults": (f"FROM box\nARG U\nENV S=set\nRUN {T},id=${{U:-u}}${{S:-no}}${{S:+yes}}${{N:+no}},target=/a true\n", ["usetyes"]),
    "single quotes": (f"FROM box\nENV A=a B='$A' C=\\$A\nRUN {T},id=x$B$C,target=/a true\n", ["x$A$A"]),
    "a whole mount": ("FROM box\nARG M=type=cache,id=m,target=/m\nRUN --mount=$M true\n", ["m"]),
    "platform": (f"FROM box\nARG TARGETARCH\nRUN {T},id=apt-$TARGETARCH,target=/a true\n", ["apt-amd64"]),
    "the image's ENV": (f"FROM other\nRUN {T},id=x$BASEVAR,target=/a true\n", ["xb"]),
    "stages": (
        f"FROM box AS one\nENV A=1\nARG B=2\nRUN {T},id=s$A$B,target=/a true\nFROM one\nENV C=3\nRUN {T},id=t$A$C,target=/a true\n",
        ["s12", "t13"],
    ),
    "JSON": (f'FROM box\nRUN {T},target=/a ["/bin/sh", "-c", "true {T},target=/no"]\n', ["/a"]),
    "CRLF": (f"FROM box\r\nRUN {T},target=/a \\\r\n  true\r\n", ["/a"]),
    "double backslash": (f"FROM box\nRUN echo \\\\\nRUN {T},target=/no true\n", []),
    "escape": (f"# escape=`\nFROM box\nRUN {T},id=e,`\ntarget=/a true\n", ["e"]),
    "no end of a here-document": (f"FROM box\nRUN echo $((1 <<3)) > /x || true\nRUN {T},target=/a true\n", ["/a"]),
    "quoted <<": (f"FROM box\nRUN echo '<<EOF' \"<<E\" 2\nRUN {T},target=/a true\n", ["/a"]),
    "a here-document": (f"FROM box\nRUN cat <<EOF\nRUN {T},target=/no true\nEOF\nRUN {T},target=/a true\n", ["/a"]),
    "ONBUILD": (f"FROM box\nONBUILD RUN {T},target=/no true\nRUN {T},target=/a true\n", ["/a"]),
    "Unicode's line ends": (f"FROM box\nRUN echo '\u2028' '\x0c'; true\nRUN {T},target=/a true\n", ["/a"]),
    "cleaned target": (f"FROM box\nRUN {T},dst=/a/../b true\n", ["/b"]),
    "no line feed at the end": (f"FROM box\nRUN {T},target=/a true", ["/a"]),
    "empty id": (f"FROM box\nRUN {T},id=,target=/a true\n", ["/a"]),
    "other mounts": ("FROM box AS a\nFROM box\nRUN --mount=from=a,target=/a --mount=type=secret,id=k true\n", []),
}

REFUSED = [  # a Dockerfile, and words of why
    (f"FROM box AS a\nRUN {T},from=a,target=/c true", "line 2: .*from=a isn't carried out"),
    (f"FROM box\nRUN true\nRUN {T},source=x,target=/c true", "line 3: .*source=x isn't carried out"),
    (f"FROM box\nRUN {T} true", "it has no target"),
    (f"FROM box AS a\nONBUILD RUN {T},target=/c true\nFROM a\nRUN true", "has `ONBUILD RUN .*`: its cache can't be leased"),
    ("FROM box\nSHELL 5\nRUN true", "line 2: SHELL wants a list of texts"),
    ("FROM box\nSHELL \"abc\"\nRUN true", "line 2: SHELL wants a list of texts"),
    (f"FROM box\nRUN {T},target=c true", "relative"),
    (f"FROM box\nRUN {T},target=/ true", "hides the image"),
    (f"FROM box\nRUN {T},target=/a/.. true", "hides the image"),
    (f"FROM box\nRUN {T},sharing=none,target=/c true", "sharing=none"),
    (f"FROM box\nRUN {T},target=/c,mode=9 true", "mode=9"),
    (f"FROM box\nRUN {T},target=/c\udcff true", "what isn't UTF-8"),
    (f"FROM box\nRUN {T},target=/c,uid=x true", "uid=x"),
    (f"FROM box\nRUN {T},target=/c,size=1 true", "size"),
    (f"FROM box\nRUN {T},target=/c,dst=/d true", "twice"),
    (f"FROM box\nRUN {T},id=a,target=/c,id=b true", "id is said twice"),
    (f"FROM box\nRUN {T},target=/c,ro,rw true", "read-only and not"),
    (f"FROM box\nRUN {T},id=$NOBODY,target=/c true", "variable NOBODY"),
    (f"FROM box\nRUN {T},id=${{A%b}},target=/c true", "variable"),
    (f"FROM box\nRUN {T},id=a,target=/c true\nRUN {T},id=a,target=/c,sharing=locked true", "line 3: .*locked, and shared in line 2"),
    ("FROM trigger\nRUN true", "ONBUILD"),
    ("FROM box\nCOPY <<EOF /x\na\nEOF\n", "here-documents of COPY"),
    ("FROM box\nRUN <<EOF\n#!/bin/sh\nEOF\n", "begins with #!"),
    ("# syntax=x\n# escape=`\nFROM box\n", "first line"),
    (f"FROM box\nRUN {T},id=a\\\\b,target=/c true", "quotes and backslashes"),
    ("FROM $NO\n", "variable NO"),
    ("RUN true\n", "no FROM"),
    ("FROM box\n" + "".join(f"RUN {T},target=/c{n} true\n" for n in range(17)), "17 cache folders"),
]


class Dockerfiles(unittest.TestCase):
    def test_ids(self) -> None:
        for name, (text, wanted) in SAME.items():
            with self.subTest(name):
                made = planned(text)
                self.assertEqual([mount.id for mount in made.mounts], wanted)
                self.assertEqual(len(PLACE.findall(read(made))), len(wanted))
                again = planned(read(made))
                self.assertEqual([mount.id for mount in again.mounts], [short_name(mount.folder) for mount in made.mounts])

    def test_refused(self) -> None:
        for text, why in REFUSED:
            with self.subTest(text[:60]), self.assertRaisesRegex(BadDockerfile, why):
                planned(text)

    def test_nothing_else_changes(self) -> None:
        text = f"FROM box\n# c\nRUN  {T},target=/a   echo '{T},target=/b'  \\\n && true\nCOPY a b\n"
        made = planned(text)
        self.assertEqual(read(made), text.replace(f"{T},target=/a", word(made.mounts[0]), 1))

    def test_modes(self) -> None:
        made = planned(f"FROM box\nRUN {T},target=/a {T},target=/b,sharing=locked,ro {T},target=/c,sharing=private,uid=5,gid=6,mode=0700 true")
        self.assertEqual([m.folder for m in made.mounts], ["shared:/a", "locked:/b", "private:/c"])
        self.assertEqual([m.writable for m in made.mounts], [True, False, True])
        self.assertEqual((made.mounts[2].uid, made.mounts[2].gid, made.mounts[2].mode), (5, 6, 0o700))
        self.assertTrue(word(made.mounts[1]).endswith(",readonly"))
        self.assertNotIn("sharing", read(made))
        for readonly, writable in (("ro", False), ("readonly=false", True), ("rw=false", False), ("rw", True), ("ro=true,rw=0", False)):
            self.assertEqual(planned(f"FROM box\nRUN {T},target=/a,{readonly} true").mounts[0].writable, writable, readonly)

    def test_shared_as(self) -> None:
        text = f"FROM box\nRUN {T},target=/a {T},target=/b,sharing=private true"
        self.assertEqual([m.folder for m in planned(text, shared_as=("locked",)).mounts], ["locked:/a", "private:/b"])
        self.assertEqual([m.folder for m in planned(text, shared_as=("locked", "/a=merged")).mounts], ["merged:/a", "private:/b"])
        self.assertEqual([m.folder for m in planned(text, shared_as=("/b=merged",)).mounts], ["shared:/a", "private:/b"])

    def test_hostile_ids(self) -> None:
        for identifier in ("../../../etc", "/etc/passwd", "..", ".", "a/b", "x" * 4000, "a%0Ab", "é" * 2000, "a;b", "-rf"):
            made = planned(f"FROM box\nARG I\nRUN {T},id=$I,target=/c true", I=identifier)
            self.assertEqual(made.mounts[0].id, identifier)
            self.assertRegex(short_name(made.mounts[0].folder), r"\Afarm-[0-9a-f]{32}\Z")
            self.assertNotIn(identifier if len(identifier) > 2 else "id=" + identifier, read(made))
            self.assertRegex(made.mounts[0].folder, r"\Ashared:[!-~]*\Z")
        made = planned(f"FROM box\nARG I\nRUN {T},id=$I,target=/c true", I="two\nlines")
        self.assertEqual(made.mounts[0].folder, "shared:two%0Alines")
        with self.assertRaises(BadDockerfile):
            planned(f"FROM box\nARG I\nRUN {T},id=$I,target=/c true", I='a",target=/etc')
        made = planned("FROM box\nARG I\nRUN --mount=$I true", I="type=cache,target=/a")
        self.assertEqual(made.mounts[0].target, "/a")

    def test_needed_stages(self) -> None:
        text = (
            f"FROM box AS one\nRUN {T},id=one,target=/c true\n"
            f"FROM box AS two\nRUN {T},id=two,from=one,\\\ntarget=/c true\nCOPY <<EOF /x\nhere\nEOF\n"
            f"FROM $NOBODY\nRUN {T},id=three,target=/c true\n"
            f"FROM box AS last\nRUN {T},id=last,target=/c true\nCOPY --from=one /x /y\n"
            f"FROM box\nRUN {T},id=end,target=/c true\n"
        )
        rows: list[tuple[str | None, list[str]]] = [(None, ["end"]), ("last", ["one", "last"]), ("0", ["one"]), ("3", ["one", "last"])]
        for target, wanted in rows:
            made = planned(text, target)
            self.assertEqual([mount.id for mount in made.mounts], wanted, target)
            self.assertEqual(len(re.findall(r"--mount", read(made))), len(wanted))
            self.assertEqual(read(made).count("FROM"), 5)
        self.assertEqual([i.line for i in instructions(read(planned(text)))][-2:], [14, 15])
        for target in ("two", "2"):
            with self.assertRaises(BadDockerfile):
                planned(text, target)
        with self.assertRaisesRegex(BadDockerfile, "line 11: the stage last is also called LAST"):
            planned(text, "LAST")
        self.assertEqual((planned(text).target, planned(text, "3").target), ("4", "last"))
        with self.assertRaisesRegex(BadDockerfile, "no stage is called nowhere"):
            planned(text, "nowhere")

    def test_sources_of_stages(self) -> None:
        front = f"FROM box AS one\nRUN {T},id=one,target=/c true\nFROM box\n"
        rows = [("COPY --from=one a b", True), ("COPY --from=0 a b", True), ("ADD --from=one a b", True), ("COPY a b", False),
                ("RUN --mount=type=bind,from=one,target=/x true", True), ("ARG S=one\nRUN --mount=type=bind,from=$S,target=/x true", True),
                ("ONBUILD COPY --from=one a b", True), ("COPY --from=box a b", False), ("RUN echo --from=one", False)]
        for line, is_needed in rows:
            self.assertEqual(len(planned(front + line + "\n").mounts), int(is_needed), line)

    def test_here_documents(self) -> None:
        rows = [
            ("RUN <<EOF\necho a $W\necho 'b \"c\" \\d'\nEOF\n", r'''RUN ["/bin/sh", "-c", "echo a $W\necho 'b \"c\" \\d'\n"]'''),
            ("RUN <<-EOF\n\techo a\n\tEOF\n", r'RUN ["/bin/sh", "-c", "echo a\n"]'),
            ("RUN cat <<A ; cat <<B\na\nA\nb\nB\n", r'RUN ["/bin/sh", "-c", "cat <<A ; cat <<B\na\nA\nb\nB\n"]'),
            ('SHELL ["/bin/sh", "-xc"]\nRUN <<EOF\na\nEOF\n', 'SHELL ["/bin/sh", "-xc"]\nRUN ["/bin/sh", "-xc", "a\\n"]'),
        ]
        for text, wanted in rows:
            self.assertEqual(read(planned(f"FROM box\n{text}RUN b\n")), f"FROM box\n{wanted}\nRUN b\n")
        made = planned(f"FROM other\nRUN {T},target=/c <<EOF\nls\nEOF\n")
        self.assertEqual(read(made), f'FROM other\nRUN {word(made.mounts[0])} ["/bin/bash", "-ec", "ls\\n"]\n')


if __name__ == "__main__":
    unittest.main()
