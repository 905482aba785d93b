"""What a Docker daemon of this machine tells, and where the kernel has what its steps mount.

Owes the filters that a directory is told only where it is the one that a step saw: by its device and number.
"""
from __future__ import annotations

import contextlib
import http.client
import json
import os
import signal
import socket
from typing import Any, Iterator
from urllib.parse import quote, urlencode

from agent.build.builder import is_for
from agent.faults import FarmFault

UNIX = "unix://"
SHORTEST = 20  # characters of what the kernel calls a mount's root, if it is a directory of BuildKit's


class _Link(http.client.HTTPConnection):
    def __init__(self, path: str) -> None:
        super().__init__("docker", timeout=20.0)
        self.path = path

    def connect(self) -> None:
        self.sock = socket.socket(socket.AF_UNIX)
        self.sock.settimeout(self.timeout)
        self.sock.connect(self.path)


class Engine:
    """The daemon behind a socket."""

    def __init__(self, host: str) -> None:
        self.host = host

    def ask(self, path: str, method: str = "GET") -> Any:
        """What the daemon has at a path of its API, or makes of it; none where it has nothing there."""
        link = _Link(self.host.removeprefix(UNIX))
        try:
            link.request(method, path)
            answer = link.getresponse()
            told = json.loads(answer.read() or "{}")
        except (OSError, http.client.HTTPException, ValueError) as fault:
            raise FarmFault(f"no Docker daemon answers at {self.host}: {getattr(fault, 'strerror', None) or fault}") from None
        finally:
            link.close()
        if answer.status == 404:
            return None
        if answer.status not in (200, 201):
            raise FarmFault(f"the Docker daemon at {self.host} refused {path}: {told.get('message', answer.status)}")
        return told

    def version(self) -> tuple[int, str]:
        told = str(self.ask("/version")["Version"])
        front = told.partition(".")[0]
        return (int(front) if front.isdigit() else 0), told

    def is_named(self, image: str) -> bool:
        """Whether an image has a tag."""
        return bool((self.ask(f"/images/{quote(image, safe='/:@')}/json") or {}).get("RepoTags"))

    def tag(self, image: str, tag: str) -> None:
        name, _, version = tag.rpartition(":")
        if not name or "/" in version:  # it is a registry's port
            name, version = tag, "latest"
        if self.ask(f"/images/{quote(image, safe='/:@')}/tag?{urlencode({'repo': name, 'tag': version})}", "POST") is None:
            raise FarmFault(f"the image {image} can't be tagged {tag}: it is gone")

    def config_of(self, image: str, platform: str | None = None) -> dict[str, Any] | None:
        """What an image that the daemon has, for this platform, says of its containers."""
        told = self.ask(f"/images/{quote(image, safe='/:@')}/json") or {}
        if not told or not is_for(platform, *(told.get(key) or "" for key in ("Os", "Architecture", "Variant"))):
            return None
        return dict(told.get("Config") or {})

    def records_of(self, identifier: str) -> list[str]:
        """The records of a cache mount, where the daemon tells ids (since 23.0)."""
        told = self.ask("/system/df?type=build-cache").get("BuildCache") or []
        return [str(each["ID"]) for each in told if each.get("Type") == "exec.cachemount" and identifier in str(each.get("Description"))]


def host_path(mark: str, root: str, device: int, number: int) -> str:
    """Where this machine has what the kernel calls `root` of a file system. The same file, or the daemon isn't of this machine."""
    with open("/proc/self/mountinfo") as file:
        rows = [line.split(" ") for line in file]
    for row in rows:
        above = row[3].rstrip("/")
        if row[2] == mark and (root + "/").startswith(above + "/"):
            path = row[4].rstrip("/") + root[len(above) :]
            with contextlib.suppress(OSError):
                here = os.lstat(path)
                if (here.st_dev, here.st_ino) == (device, number):
                    return path
    raise FarmFault(f"{root} of device {mark}, where the Docker daemon keeps a cache mount, isn't on this machine: builds want a daemon of its own")


def users_of(paths: list[str]) -> Iterator[int]:
    """The processes that have one of these directories mounted in a mount namespace of their own, as build steps do."""
    has: dict[str, bool] = {os.readlink("/proc/self/ns/mnt"): False}
    for name in filter(str.isdigit, os.listdir("/proc")):
        with contextlib.suppress(OSError):
            space = os.readlink(f"/proc/{name}/ns/mnt")
            if space not in has:
                with open(f"/proc/{name}/mountinfo") as file:
                    roots = [row.split(" ")[3] for row in file]
                has[space] = any(len(root) > SHORTEST and path.endswith(root) for root in roots for path in paths)
            if has[space]:
                yield int(name)


def end_users(paths: list[str]) -> None:
    """Kills what still runs on directories that no build has."""
    for pid in users_of([path for path in paths if path]):
        with contextlib.suppress(OSError):
            os.kill(pid, signal.SIGKILL)
