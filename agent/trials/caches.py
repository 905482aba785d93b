#!/usr/bin/env python3
"""Tries which caches bear to be merged: mixes of jobs of a tool run at once on two nodes, on one merged folder, over a registry that this
trial makes and serves on loopback. None may fail, and none may give another result than with a cache of its own that begins empty.

usage: agent/trials/caches.py [--mixes N] [KIND..]
"""
from __future__ import annotations

import argparse
import base64
import contextlib
import functools
import hashlib
import http.server
import io
import json
import os
import random
import re
import shutil
import subprocess
import sys
import tarfile
import tempfile
import threading
import zipfile
from dataclasses import dataclass, field
from pathlib import Path
from typing import Callable, Iterator

sys.dont_write_bytecode = True
sys.path.insert(0, str(Path(__file__).resolve().parents[2]))

from agent.trials.farms import PYTHON_FARM  # noqa: E402
from agent.trials.gate import farm_up  # noqa: E402

COUNT, AT_ONCE, EACH = 8, 4, 3  # packages; jobs at once; packages of one job


class Served(http.server.SimpleHTTPRequestHandler):
    """A registry, whose answers may be kept for a while."""

    def end_headers(self) -> None:
        self.send_header("Cache-Control", "max-age=600")
        super().end_headers()

    def log_message(self, format: str, *words: object) -> None:
        pass


@contextlib.contextmanager
def served(folder: str) -> Iterator[str]:
    server = http.server.ThreadingHTTPServer(("127.0.0.1", 0), functools.partial(Served, directory=folder))
    threading.Thread(target=server.serve_forever, daemon=True).start()
    try:
        yield f"http://127.0.0.1:{server.server_address[1]}"
    finally:
        server.shutdown()


def write(path: str, text: str | bytes) -> None:
    os.makedirs(os.path.dirname(path), exist_ok=True)
    with open(path, "wb") as file:
        file.write(text.encode() if isinstance(text, str) else text)


def archive(files: dict[str, str]) -> bytes:
    """A tar.gz of these files."""
    data = io.BytesIO()
    with tarfile.open(fileobj=data, mode="w:gz") as made:
        for name, text in files.items():
            entry = tarfile.TarInfo(name)
            entry.size = len(text)
            made.addfile(entry, io.BytesIO(text.encode()))
    return data.getvalue()


def zipped(files: dict[str, str]) -> bytes:
    data = io.BytesIO()
    with zipfile.ZipFile(data, "w", zipfile.ZIP_DEFLATED) as made:
        for name, text in files.items():
            made.writestr(zipfile.ZipInfo(name), text)
    return data.getvalue()


@dataclass(frozen=True)
class Kind:
    """A tool: what it needs, what the registry has, and what a job does in its own folder with packages (`$C` is the cache, `$U` the registry;
    its result is what it prints last)."""

    tools: tuple[str, ...]
    fill: Callable[[str], None]
    job: Callable[[list[int]], str]
    env: dict[str, str] = field(default_factory=dict)


def text_of(number: int) -> str:
    return "".join(f"int f{number}_{k}(int a) {{ return a * {k} + {number}; }}\n" for k in range(300))


def ccache_job(packages: list[int]) -> str:
    files = "".join(f"cat > p{n}.c <<'X'\n{text_of(n)}X\nccache gcc -O1 -c p{n}.c -o p{n}.o\n" for n in packages)
    return f"export CCACHE_DIR=$C CCACHE_NOHASHDIR=1 CCACHE_MAXSIZE=400k\n{files}cat *.o | sha256sum"


def go_job(packages: list[int]) -> str:
    code = "".join(f"func f{n}() int {{ return {n} }}\n" for n in packages)
    calls = " + ".join(f"f{n}()" for n in packages)
    return (
        "export GOCACHE=$C GOPROXY=off GOFLAGS=-trimpath HOME=$PWD\n"
        "printf 'module m\\ngo 1.19\\n' > go.mod\n"
        f"cat > main.go <<'X'\npackage main\n{code}func main() {{ println({calls}) }}\nX\n"
        f"cat > main_test.go <<'X'\npackage main\nimport \"testing\"\nfunc TestX(t *testing.T) {{ if {calls} < 0 {{ t.Fatal() }} }}\nX\n"
        "go build -o out . && go test . | cut -c1-2 && sha256sum out"
    )


def fill_gomod(folder: str) -> None:
    for n in range(COUNT):
        at, name = f"{folder}/x.test/p{n}/@v", f"x.test/p{n}"
        write(f"{at}/list", "v1.0.0\n")
        write(f"{at}/v1.0.0.info", json.dumps({"Version": "v1.0.0", "Time": "2020-01-01T00:00:00Z"}))
        write(f"{at}/v1.0.0.mod", f"module {name}\n")
        write(f"{at}/v1.0.0.zip", zipped({f"{name}@v1.0.0/go.mod": f"module {name}\n", f"{name}@v1.0.0/p.go": f"package p{n}\nconst N = {n}\n"}))


def gomod_job(packages: list[int]) -> str:
    needs = "".join(f"require x.test/p{n} v1.0.0\\n" for n in packages)
    files = " ".join(f"$C/x.test/p{n}@v1.0.0/p.go" for n in packages)
    return (
        "export GOMODCACHE=$C GOPROXY=$U GOSUMDB=off GOFLAGS=-mod=mod HOME=$PWD\n"
        f"printf 'module m\\ngo 1.19\\n{needs}' > go.mod\n"
        f"go mod download >/dev/null && go mod verify && cat {files} | sha256sum"
    )


def fill_pip(folder: str) -> None:
    for n in range(COUNT):
        name = f"p{n}-1.0-py3-none-any.whl"
        meta = f"Metadata-Version: 2.1\nName: p{n}\nVersion: 1.0\n"
        files = {f"p{n}.py": text_of(n), f"p{n}-1.0.dist-info/METADATA": meta, f"p{n}-1.0.dist-info/WHEEL": "Wheel-Version: 1.0\nTag: py3-none-any\n"}
        write(f"{folder}/simple/p{n}/{name}", zipped(files | {f"p{n}-1.0.dist-info/RECORD": "".join(f"{each},,\n" for each in files)}))
        write(f"{folder}/simple/p{n}/index.html", f'<a href="{name}">{name}</a>')


def pip_job(packages: list[int]) -> str:
    names = " ".join(f"p{n}" for n in packages)
    return f"{sys.executable} -m pip -q --cache-dir $C --disable-pip-version-check install --no-deps -t t --trusted-host 127.0.0.1 --index-url $U/simple/ {names} 2>/dev/null; cat t/*.py | sha256sum"


def fill_npm(folder: str) -> None:
    for n in range(COUNT):
        data = archive({"package/package.json": json.dumps({"name": f"p{n}", "version": "1.0.0"}), "package/index.js": f"// {text_of(n)}"})
        write(f"{folder}/p{n}-1.0.0.tgz", data)
        integrity = f"sha512-{base64.b64encode(hashlib.sha512(data).digest()).decode()}"
        dist = {"tarball": f"@U@/p{n}-1.0.0.tgz", "integrity": integrity}
        told = {"name": f"p{n}", "dist-tags": {"latest": "1.0.0"}, "versions": {"1.0.0": {"name": f"p{n}", "version": "1.0.0", "dist": dist}}}
        write(f"{folder}/p{n}", json.dumps(told))


def npm_job(packages: list[int]) -> str:
    names = " ".join(f"p{n}" for n in packages)
    return (
        "export HOME=$PWD; echo '{\"name\":\"m\",\"version\":\"1.0.0\"}' > package.json\n"
        f"npm --silent --registry $U --cache $C install --no-audit --no-fund {names} && cat node_modules/p*/index.js | sha256sum"
    )


def fill_apt(folder: str) -> None:
    for n in range(COUNT):
        with tempfile.TemporaryDirectory() as room:
            write(f"{room}/DEBIAN/control", f"Package: p{n}\nVersion: 1.0\nArchitecture: all\nMaintainer: x <x@x.test>\nDescription: x\n")
            write(f"{room}/usr/share/p{n}", text_of(n))
            os.makedirs(f"{folder}/a", exist_ok=True)
            subprocess.run(["dpkg-deb", "--root-owner-group", "-b", room, f"{folder}/a/p{n}_1.0_all.deb"], check=True, stdout=subprocess.DEVNULL)
    found = subprocess.run(["apt-ftparchive", "packages", "a"], cwd=folder, capture_output=True, check=True).stdout
    write(f"{folder}/Packages", found)
    write(f"{folder}/Release", subprocess.run(["apt-ftparchive", "release", "."], cwd=folder, capture_output=True, check=True).stdout)


def apt_job(packages: list[int]) -> str:
    options = "-o Dir::Cache=$C/cache -o Dir::State::Lists=$C/lists -o APT::Sandbox::User=root -o Dir::Etc::SourceList=$PWD/sources -o Dir::Etc::SourceParts=/none"
    names = " ".join(f"p{n}" for n in packages)
    files = " ".join(f"$C/cache/archives/p{n}_1.0_all.deb" for n in packages)
    return (
        "mkdir -p $C/cache/archives/partial $C/lists/partial; echo \"deb [trusted=yes] $U ./\" > sources\n"
        f"apt-get -qq {options} update >&2 && apt-get -qq {options} -o Debug::NoLocking=1 install -y --download-only {names} >&2 && cat {files} | sha256sum"
    )


def fill_cargo(folder: str) -> None:
    write(f"{folder}/index/config.json", json.dumps({"dl": "@U@/crates/{crate}-{version}.crate"}))
    for n in range(COUNT):
        name = f"pk{n}"
        front = f"{name}-1.0.0"
        files = {f"{front}/Cargo.toml": f'[package]\nname = "{name}"\nversion = "1.0.0"\nedition = "2021"\n', f"{front}/src/lib.rs": f"pub fn n() -> u64 {{ {n} }}\n"}
        data = archive(files)
        write(f"{folder}/crates/{front}.crate", data)
        line = {"name": name, "vers": "1.0.0", "deps": [], "cksum": hashlib.sha256(data).hexdigest(), "features": {}, "yanked": False}
        write(f"{folder}/index/3/p/{name}", json.dumps(line) + "\n")


def cargo_job(packages: list[int], folder: str = "$C") -> str:
    needs = "".join(f'pk{n} = {{ version = "1", registry = "own" }}\n' for n in packages)
    calls = " + ".join(f"pk{n}::n()" for n in packages)
    return (
        f"export RUSTUP_HOME={os.environ.get('RUSTUP_HOME', os.path.expanduser('~/.rustup'))} CARGO_HOME={folder} HOME=$PWD CARGO_REGISTRIES_OWN_INDEX=sparse+$U/index/; mkdir -p src\n"
        f"cat > Cargo.toml <<'X'\n[package]\nname = \"m\"\nversion = \"1.0.0\"\nedition = \"2021\"\n[dependencies]\n{needs}X\n"
        f"cat > src/main.rs <<'X'\nfn main() {{ println!(\"{{}}\", {calls}); }}\nX\n"
        "cargo -q run 2>&1"
    )


def cargo_registry_job(packages: list[int]) -> str:
    return "mkdir -p home; ln -s $C home/registry\n" + cargo_job(packages, "$PWD/home")


def sqlite_job(packages: list[int]) -> str:
    rows = "; ".join(f"d.execute('insert or ignore into t values ({n})')" for n in packages)
    return f"{sys.executable} -c \"import sqlite3; d = sqlite3.connect('$C/db'); d.execute('create table if not exists t(a unique)'); {rows}; d.commit()\"; echo done"


def maven_job(packages: list[int]) -> str:
    """Maven's layout by a script: an artefact and its notes, written as Maven writes them."""
    parts = "".join(
        f"d=$C/x/p{n}/1.0; [ -e $d/p{n}-1.0.jar ] || {{ mkdir -p $d; curl -s $U/p{n} > $d/p{n}-1.0.jar.part; mv $d/p{n}-1.0.jar.part $d/p{n}-1.0.jar; "
        f"date > $d/_remote.repositories; date > $d/p{n}-1.0.pom.lastUpdated; }}; date > $C/x/p{n}/maven-metadata-own.xml\n" for n in packages
    )
    return parts + "cat " + " ".join(f"$C/x/p{n}/1.0/p{n}-1.0.jar" for n in packages) + " | sha256sum"


def fill_maven(folder: str) -> None:
    for n in range(COUNT):
        write(f"{folder}/p{n}", text_of(n))


def sccache_job(packages: list[int]) -> str:
    """The layout of sccache's folder by a script: a file an object below two letters of its key, written beside it and renamed."""
    parts = "".join(
        f"k=$(echo p{n} | sha256sum | cut -c1-64); d=$C/$(echo $k | cut -c1)/$(echo $k | cut -c2); f=$d/$k\n"
        f"if [ -e $f ]; then touch $f; else mkdir -p $d; t=$(mktemp $C/.sccachetmpXXXXXX); curl -s $U/p{n} > $t; mv $t $f; fi; cat $f >> out\n" for n in packages
    )
    return parts + "sha256sum < out"


KINDS = {
    "ccache": Kind(("ccache", "gcc"), lambda folder: None, ccache_job),
    "go-build": Kind(("go",), lambda folder: None, go_job),
    "go-mod": Kind(("go",), fill_gomod, gomod_job),
    "pip": Kind((), fill_pip, pip_job),
    "npm": Kind(("npm",), fill_npm, npm_job),
    "apt": Kind(("apt-get", "apt-ftparchive", "dpkg-deb"), fill_apt, apt_job),
    "cargo-home": Kind(("cargo",), fill_cargo, cargo_job),
    "cargo-registry": Kind(("cargo",), fill_cargo, cargo_registry_job),
    "maven-layout": Kind(("curl",), fill_maven, maven_job),
    "sccache-layout": Kind(("curl",), fill_maven, sccache_job),
    "sqlite": Kind((), lambda folder: None, sqlite_job),
}


class Trial:
    def __init__(self, kind: Kind, room: str, home: str, url: str) -> None:
        self.kind, self.room, self.home, self.url = kind, room, home, url
        self.wanted: dict[tuple[int, ...], str] = {}
        self.conflicts = self.jobs = self.warnings = 0
        self.wrong: list[str] = []
        self.lock = threading.Lock()

    def script(self, packages: list[int], cache: str) -> str:
        work = tempfile.mkdtemp(dir=self.room)
        return f"set -e; cd {work}; C={cache}; U={self.url}; export C U\n{self.kind.job(packages)}"

    def result(self, packages: tuple[int, ...]) -> str:
        """What a job gives with a cache of its own."""
        if packages not in self.wanted:
            cache = tempfile.mkdtemp(dir=self.room)
            done = subprocess.run(["sh", "-c", self.script(list(packages), cache)], stdin=subprocess.DEVNULL, capture_output=True, text=True)
            if done.returncode:
                raise SystemExit(f"the job doesn't work without a farm: {(done.stdout + done.stderr)[-600:]}")
            self.wanted[packages] = done.stdout
        return self.wanted[packages]

    def one(self, number: int, packages: tuple[int, ...]) -> None:
        cache = f"{self.room}/cache"
        words = [*PYTHON_FARM, "run", "--home", self.home, "--node", str(number % 2 + 1), "--must-commit", "--folder", f"merged:cache={cache}"]
        done = subprocess.run([*words, "--", "sh", "-c", self.script(list(packages), cache)], stdin=subprocess.DEVNULL, capture_output=True, text=True)
        with self.lock:
            self.jobs += 1
            self.conflicts += sum(map(int, re.findall(r"(\d+) conflict", done.stderr)))
            self.warnings += done.stderr.count("warning: ")
            if done.returncode or done.stdout != self.wanted[packages]:
                self.wrong.append(f"status {done.returncode}: {done.stdout[-200:]!r} for {self.wanted[packages][-200:]!r}: {done.stderr[-300:]!r}")

    def run(self, mixes: int) -> None:
        dice = random.Random(5)
        for _ in range(mixes):
            chosen = [tuple(sorted(dice.sample(range(COUNT), EACH))) for _ in range(AT_ONCE)]
            for packages in chosen:
                self.result(packages)
            threads = [threading.Thread(target=self.one, args=(number, packages)) for number, packages in enumerate(chosen)]
            for thread in threads:
                thread.start()
            for thread in threads:
                thread.join()


def attempt(name: str, mixes: int) -> bool:
    kind = KINDS[name]
    lacking = [tool for tool in kind.tools if not shutil.which(tool)]
    if lacking:
        print(f"{name}: skipped: {', '.join(lacking)} isn't installed", flush=True)
        return True
    with tempfile.TemporaryDirectory(prefix="farm-caches-") as room, served(f"{room}/registry") as url:
        os.makedirs(f"{room}/registry")
        kind.fill(f"{room}/registry")
        for folder, _, files in os.walk(f"{room}/registry"):
            for path in (f"{folder}/{file}" for file in files):
                data = Path(path).read_bytes()
                if b"@U@" in data:
                    Path(path).write_bytes(data.replace(b"@U@", url.encode()))
        with farm_up(room, 2) as home:
            trial = Trial(kind, room, home, url)
            trial.run(mixes)
    print(f"{name}: {trial.jobs} jobs, {trial.conflicts} conflicts, {trial.warnings} warnings, {len(trial.wrong)} wrong", flush=True)
    for each in trial.wrong[:3]:
        print(f"  {each}", flush=True)
    return not trial.wrong


def main() -> int:
    made = argparse.ArgumentParser(description=__doc__, formatter_class=argparse.RawDescriptionHelpFormatter)
    made.add_argument("--mixes", type=int, default=50)
    made.add_argument("kinds", nargs="*", metavar="KIND", help=", ".join(KINDS))
    args = made.parse_args()
    return 0 if all([attempt(name, args.mixes) for name in args.kinds or KINDS]) else 1


if __name__ == "__main__":
    sys.exit(main())
