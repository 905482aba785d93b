#!/usr/bin/python3 -I
"""An object store of this machine's own on loopback: Debian's swift with its S3 layer, all four servers in one process, on a folder.

usage: agent/trials/s3.py ROOM    says `up PORT`, and serves until its standard input ends

What the file ROOM/fault has is done to each request as long as it is there: `503` refuses it, `slow SECONDS` lets it wait, also where its asker
gives up meanwhile, `repeated` carries it out twice; `lost` and `unanswered` close the connections of half of them, before or after they are
carried out.
"""
from __future__ import annotations

import array
import contextlib
import importlib
import io
import json
import math
import os
import random
import socket
import subprocess
import sys
from time import time as clock
from typing import Any, Iterable, Iterator, NamedTuple

PYTHON = "/usr/bin/python3"  # swift is Debian's
USER, SECRET, BUCKET = "farm:tester", "testing", "contents"
BACK = ("object", "container", "account")
COMMON = """[DEFAULT]
swift_dir = {room}
devices = {room}/devices
mount_check = false
log_address = {room}/nowhere
conn_timeout = 30
node_timeout = 60
container_update_timeout = 60
fallocate_reserve = 0
"""
FRONT = f"""[pipeline:main]
pipeline = catch_errors gatekeeper listing_formats s3api tempauth copy dlo versioned_writes proxy-server
[app:proxy-server]
use = egg:swift#proxy
account_autocreate = true
[filter:tempauth]
use = egg:swift#tempauth
user_{USER.replace(":", "_")} = {SECRET} .admin
[filter:s3api]
use = egg:swift#s3api
location = us-east-1
allow_multipart_uploads = false
""" + "".join(f"[filter:{name}]\nuse = egg:swift#{name}\n" for name in ("catch_errors", "gatekeeper", "listing_formats", "copy", "dlo", "versioned_writes"))


class Endpoint(NamedTuple):
    """A store of objects that stands, with a bucket."""

    url: str  # of `--contents`
    env: dict[str, str]
    fault: str  # a file

    @contextlib.contextmanager
    def faulty(self, what: str) -> Iterator[None]:
        with open(f"{self.fault}.new", "w") as file:
            file.write(what)
        os.rename(f"{self.fault}.new", self.fault)
        try:
            yield
        finally:
            os.unlink(self.fault)


def is_here() -> bool:
    """Whether all that is served and asked here is installed."""
    return all(os.path.isdir(f"/usr/lib/python3/dist-packages/{name}") for name in ("boto3", "swift"))


@contextlib.contextmanager
def server(room: str) -> Iterator[Endpoint]:
    """One that ends with this."""
    os.makedirs(room)
    with open(f"{room}/log", "w") as log:
        process = subprocess.Popen([PYTHON, "-I", __file__, room], stdin=subprocess.PIPE, stdout=subprocess.PIPE, stderr=log, text=True)
    with process:
        assert process.stdin and process.stdout
        try:
            word, _, port = process.stdout.readline().strip().partition(" ")
            if word != "up":
                with open(f"{room}/log") as said:
                    raise RuntimeError(f"swift didn't begin: {said.read()[-2000:]}")
            env = {
                "AWS_ENDPOINT_URL": f"http://127.0.0.1:{port}", "AWS_ACCESS_KEY_ID": USER, "AWS_SECRET_ACCESS_KEY": SECRET,
                "AWS_DEFAULT_REGION": "us-east-1", "AWS_EC2_METADATA_DISABLED": "true",
            }
            yield Endpoint(f"s3://{BUCKET}/some/place", env, f"{room}/fault")
        finally:
            process.stdin.close()


def write(path: str, text: str) -> str:
    with open(path, "w") as file:
        file.write(text)
    return path


class Memory:
    """What swift keeps in memcached: without it each request asks for the account and the bucket."""

    def __init__(self) -> None:
        self.kept: dict[str, tuple[str, float]] = {}

    def get(self, key: str, **_words: object) -> Any:
        text, end = self.kept.get(key, ("null", 0.0))
        return json.loads(text) if clock() < end else None

    def set(self, key: str, value: Any, time: float = 0, **_words: object) -> None:
        self.kept[key] = json.dumps(value), clock() + time if time else math.inf

    def delete(self, key: str, **_words: object) -> None:
        self.kept.pop(key, None)


class Faulty:
    """Answers as `fault` has it, else as the application does."""

    def __init__(self, room: str, app: Any, eventlet: Any) -> None:
        self.room, self.app, self.eventlet = room, app, eventlet
        self.memory = Memory()

    def __call__(self, environ: Any, begin: Any) -> Iterable[bytes]:
        environ["swift.cache"] = self.memory
        words = list[str]()
        with contextlib.suppress(OSError), open(f"{self.room}/fault") as file:
            words = file.read().split()
        if words and words[0] in ("503", "lost", "unanswered", "repeated"):
            environ["wsgi.input"] = io.BytesIO(environ["wsgi.input"].read(int(environ.get("CONTENT_LENGTH") or 0)))
        if words[:1] == ["503"]:
            begin("503 Slow Down", [("Content-Type", "application/xml")])
            return [b"<Error><Code>SlowDown</Code><Message>Please reduce your request rate.</Message></Error>"]
        if words[:1] == ["slow"]:
            self.eventlet.sleep(float(words[1]))
        elif words[:1] == ["repeated"]:
            self._carry_out(environ)
        elif words and random.random() < 0.5:
            if words[:1] == ["unanswered"]:
                self._carry_out(environ)
            environ["eventlet.input"]._sock.shutdown(socket.SHUT_RDWR)
            begin("500 Cut", [])
            return []
        return self.app(environ, begin)  # type: ignore[no-any-return]

    def _carry_out(self, environ: Any) -> None:
        """Does what is asked, and answers nobody."""
        answer = self.app({**environ, "wsgi.input": io.BytesIO(environ["wsgi.input"].getvalue())}, lambda *_words: None)
        for _ in answer:
            pass
        if hasattr(answer, "close"):
            answer.close()


def serve(room: str) -> None:
    swift: Any = {name: importlib.import_module(f"swift.common.{name}") for name in ("utils", "wsgi")}
    ring: Any = importlib.import_module("swift.common.ring.ring")
    eventlet: Any = importlib.import_module("eventlet")
    for name in ("wsgi", "tpool"):
        importlib.import_module(f"eventlet.{name}")
    eventlet.hubs.use_hub(swift["utils"].get_hub())
    swift["utils"].eventlet_monkey_patch()
    os.makedirs(f"{room}/devices/d1")
    write(f"{room}/swift.conf", "[swift-hash]\nswift_hash_path_prefix = a\nswift_hash_path_suffix = b\n")
    swift["utils"].set_swift_dir(room)
    sockets = {name: eventlet.listen(("127.0.0.1", 0)) for name in (*BACK, "proxy")}
    for name in BACK:
        place = {"ip": "127.0.0.1", "port": sockets[name].getsockname()[1], "device": "d1"}
        device = place | {"id": 0, "region": 1, "zone": 1, "weight": 1.0, "meta": "", "replication_ip": place["ip"], "replication_port": place["port"]}
        ring.RingData([array.array("H", [0] * 4)], [device], 30).save(f"{room}/{name}.ring.gz")
    for name, listens in sockets.items():
        text = FRONT if name == "proxy" else f"[pipeline:main]\npipeline = {name}-server\n[app:{name}-server]\nuse = egg:swift#{name}\n"
        app = swift["wsgi"].loadapp(write(f"{room}/{name}-server.conf", COMMON.format(room=room) + text), global_conf={})
        if name == "proxy":
            app = Faulty(room, app, eventlet)
        protocol = swift["wsgi"].SwiftHttpProtocol
        eventlet.spawn(eventlet.wsgi.server, listens, app, log=open(os.devnull, "w"), log_output=False, protocol=protocol, keepalive=True)
    eventlet.spawn(_begin, eventlet, sockets["proxy"].getsockname()[1])
    while eventlet.tpool.execute(os.read, 0, 1):
        pass


def _begin(eventlet: Any, port: int) -> None:
    """Makes the bucket, and says that all stands."""
    made = subprocess.Popen([PYTHON, "-I", "-c", f"""
import boto3
boto3.client("s3", endpoint_url="http://127.0.0.1:{port}", aws_access_key_id="{USER}", aws_secret_access_key="{SECRET}",
    region_name="us-east-1").create_bucket(Bucket="{BUCKET}")
print("up", {port}, flush=True)"""])
    eventlet.tpool.execute(made.wait)


if __name__ == "__main__":
    serve(sys.argv[1])
