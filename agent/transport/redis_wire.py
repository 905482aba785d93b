"""A client of Redis, as much of its protocol (RESP2) as the agent needs: words go out, replies come back.

Owes the filters nothing. It takes what any server answers in bounded memory: a broker needs no trust.
"""
from __future__ import annotations

import socket
import ssl
import threading
import time
import urllib.parse
from typing import Any, Sequence

from agent.faults import Missing, UsageFault

SMALL = 1 << 20  # bytes of all values that come together, where nobody asked for more
ITEM = 64  # bytes that an item of a list counts for
DEPTH = 8  # of lists within lists
PATIENCE = 8.0  # seconds in which some byte has to come
LOADS = 60.0  # seconds that a server which was started just now may take to load its data

Word = str | bytes | int
Reply = Any  # bytes, int, None, or a list of replies


class RedisFault(Exception):
    """The server can't be reached, or refuses."""


class RedisRefuses(RedisFault):
    """The server is there, and lets nobody in by these words."""


class RedisAway(RedisFault):
    """The server can't be reached."""


class RedisLate(RedisAway):
    """The server doesn't answer in time."""


def is_away(fault: Exception) -> bool:
    """Whether a server that can't do anything now may do it later."""
    return isinstance(fault, RedisAway) or str(fault).startswith("LOADING")


def signed_in(url: str, password: str) -> str:
    """A server's address with this password, where it names a user without one."""
    try:
        parts = urllib.parse.urlsplit(url)
    except ValueError:  # it is refused where it is used
        return url
    if not parts.username or parts.password:
        return url
    return parts._replace(netloc=f"{parts.username}:{password}@{parts.netloc.rpartition('@')[2]}").geturl()


class Link:
    """One connection. After a fault on the line it is of no use."""

    def __init__(self, url: urllib.parse.SplitResult, patience: float) -> None:
        host = url.hostname or "127.0.0.1"
        made = socket.create_connection((host, url.port or 6379), patience)
        made.setsockopt(socket.IPPROTO_TCP, socket.TCP_NODELAY, 1)
        if url.scheme == "rediss":
            made = ssl.create_default_context().wrap_socket(made, server_hostname=host)
        self.socket = made
        self.stream = made.makefile("rb")
        self.left = SMALL  # bytes that may come yet
        first: list[Sequence[Word]] = []
        if url.password:
            user = [urllib.parse.unquote(url.username)] if url.username else []
            first.append(["AUTH", *user, urllib.parse.unquote(url.password)])
        if url.path.strip("/"):
            first.append(["SELECT", url.path.strip("/")])
        try:
            for reply in self.calls(first):
                if isinstance(reply, RedisFault):
                    raise RedisRefuses(str(reply))
        except BaseException:
            self.close()
            raise

    def calls(self, commands: Sequence[Sequence[Word]], most: int = SMALL) -> list[Reply]:
        """Sends commands together, and gives the reply to each, which together have at most so many bytes. One that was refused has a fault in its
        place."""
        self.socket.sendall(b"".join(spelled(command) for command in commands))
        self.left = most
        return [self._reply(DEPTH) for _ in commands]

    def _line(self) -> bytes:
        line = self.stream.readline(1 << 16)
        if not line.endswith(b"\r\n"):
            raise RedisFault("the connection ended, or what came is no reply")
        return line[:-2]

    def _reply(self, depth: int) -> Reply:
        line = self._line()
        kind, rest = line[:1], line[1:]
        if kind == b"+":
            return rest
        if kind == b"-":
            return RedisFault(rest.decode(errors="replace"))
        if kind not in (b":", b"$", b"*"):
            raise RedisFault("what came is no reply")
        number = int(rest)
        if kind == b":":
            return number
        if number < 0:
            return None
        self.left -= number * (ITEM if kind == b"*" else 1)
        if self.left < 0 or depth == 0:
            raise RedisFault("a reply is too long")
        if kind == b"*":
            return [self._reply(depth - 1) for _ in range(number)]
        data = self.stream.read(number + 2)
        if len(data) < number + 2:
            raise RedisFault("the connection ended within a reply")
        return data[:-2]

    def close(self) -> None:
        self.stream.close()
        self.socket.close()


def spelled(command: Sequence[Word]) -> bytes:
    """A command as bytes."""
    words = [word if isinstance(word, bytes) else str(word).encode() for word in command]
    return b"*%d\r\n" % len(words) + b"".join(b"$%d\r\n%s\r\n" % (len(word), word) for word in words)


class Redis:
    """A server, for any number of threads: each call has a connection of its own while it lasts. `lock` has what idles, and `breaks`."""

    patience = PATIENCE
    breaks = 0  # connections that ended: each time the server may have lost what it had

    def __init__(self, url: str, must_answer: bool = True, patience: float = PATIENCE) -> None:
        """Tries the server once, and again while it says that it loads its data; or not at all. With less patience nothing is asked again that
        wasn't answered in time."""
        self.idle: list[Link] = []
        self.lock = threading.Lock()
        self.patience = patience
        try:
            self.url = urllib.parse.urlsplit(url)
            _ = self.url.port  # it is read only now
        except ValueError:  # which may show the password
            raise UsageFault("the broker's URL can't be read: it is redis://[USER:PASSWORD@]HOST[:PORT], with %23 for a # and the like") from None
        if self.url.scheme not in ("redis", "rediss"):
            raise UsageFault("a broker is named as redis://HOST or rediss://HOST")
        self.where = f"{self.url.scheme}://{self.url.netloc.rpartition('@')[2]}"  # without the password
        if must_answer:
            self.greet()

    def greet(self) -> None:
        try:
            self._greet(time.monotonic() + LOADS)
        except RedisFault as why:
            if isinstance(why, RedisAway):
                raise Missing(f"no Redis server answers at {self.where}: {why}") from None
            raise Missing(f"the Redis server at {self.where} refuses: {why}") from None

    def _greet(self, late: float) -> None:
        while True:
            try:
                self.call("PING")
                return
            except RedisFault as why:
                if not str(why).startswith("LOADING") or time.monotonic() > late:
                    raise
            time.sleep(0.1)

    def calls(self, commands: Sequence[Sequence[Word]], most: int = SMALL) -> list[Reply]:
        """The replies to commands that are sent together, maybe twice. The first that was refused is a fault. More bytes than were asked for are
        one too."""
        with self.lock:
            idle = self.idle.pop() if self.idle else None
        try:
            replies = self._exchange(idle, commands, most)
        except RedisFault as fault:
            if idle is None or isinstance(fault, RedisLate) and self.patience < PATIENCE:
                raise
            replies = self._exchange(None, commands, most)  # the server may have ended what idled
        for reply in replies:
            if isinstance(reply, RedisFault):
                raise reply
        return replies

    def _exchange(self, link: Link | None, commands: Sequence[Sequence[Word]], most: int) -> list[Reply]:
        """The replies over a link, a new one where none is given."""
        try:
            link = link or Link(self.url, self.patience)
            replies = link.calls(commands, most)
        except RedisRefuses:
            self._drop(link)
            raise
        except (OSError, ValueError, RedisFault) as why:
            self._drop(link)
            kind = RedisLate if isinstance(why, TimeoutError) else RedisAway
            raise kind(getattr(why, "strerror", None) or str(why) or type(why).__name__) from None
        except BaseException:
            self._drop(link)
            raise
        with self.lock:
            self.idle.append(link)
        return replies

    def __del__(self) -> None:
        for link in self.idle:
            link.close()

    def _drop(self, link: Link | None) -> None:
        """Closes a connection that failed, and those that idle beside it: the server may have been started anew."""
        with self.lock:
            old, self.idle = self.idle, []
            self.breaks += 1
        for each in [*old, *([link] if link else [])]:
            each.close()

    def call(self, *words: Word, most: int = SMALL) -> Reply:
        return self.calls([words], most)[0]
