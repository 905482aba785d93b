"""A bucket of an object store, by Debian's boto3, which finds its endpoint, region and credentials as it always does.

boto3 has no types: what it gives is `Any`, in this module alone. It is read where a bucket is opened, since that takes a second.
Owes the filters nothing.
"""
from __future__ import annotations

import base64
import contextlib
import email.utils
import functools
import hashlib
import importlib
import os
import random
import re
import sys
import threading
import time
from typing import Any, Callable, Iterator, NamedTuple, Sequence, TypeVar

from agent.faults import FarmFault, Missing, UsageFault

DEBIAN = "/usr/lib/python3/dist-packages"  # `farm` begins without what the distribution adds
AT_ONCE = 16  # requests
DELETED_AT_ONCE = 1000  # keys of one request, as S3 bounds it
TRIES, PAUSE = 4, 0.2  # of a request; seconds before the second one, and twice as long before each that follows
PATIENCE = 10.0  # seconds after whose end none is tried again
CONNECTS, ANSWERS = 5, 10  # seconds for which a server may say nothing
ABSENT = ("404", "NoSuchKey", "NotFound")
BUSY = ("SlowDown", "ServiceUnavailable", "InternalError", "RequestTimeout", "RequestTimeoutException", "Throttling", "ThrottlingException")
PLACE = re.compile(r"[a-z0-9][a-z0-9.-]{1,61}[a-z0-9]((/[A-Za-z0-9!_.*'()-]+)*)/?", re.ASCII)

T = TypeVar("T")


class BucketFault(FarmFault):
    """What the object store refused."""


class BucketAway(BucketFault):
    """The object store can't be reached, is slow, or has too much to do."""


class Entry(NamedTuple):
    """What a listing says of a key."""

    key: str
    size: int
    put: float  # when, by the store's clock
    tag: str  # the ETag


def place_of(url: str) -> tuple[str, str]:
    """The bucket of s3://BUCKET/PREFIX, and what its keys begin with."""
    bucket, _, prefix = url.removeprefix("s3://").partition("/")
    if not PLACE.fullmatch(url.removeprefix("s3://")) or any(set(part) == {"."} for part in prefix.split("/") if part):
        raise UsageFault(f"a store of objects is named s3://BUCKET/PREFIX, and not {url}")
    return bucket, f"{prefix.strip('/')}/".lstrip("/")


def tag_of(data: bytes) -> str:
    """The ETag of what was put whole, where the store's ETags are digests."""
    return hashlib.md5(data, usedforsecurity=False).hexdigest()


def bare(said: dict[str, Any]) -> str:
    """The ETag that an answer tells."""
    return str(said.get("ETag", "")).strip('"')


def md5_of(data: bytes) -> str:
    """As a header has it."""
    return base64.b64encode(bytes.fromhex(tag_of(data))).decode()


def _module(name: str) -> Any:
    try:
        return importlib.import_module(name)
    except ModuleNotFoundError:
        if DEBIAN not in sys.path:
            sys.path.append(DEBIAN)
    try:
        return importlib.import_module(name)
    except ModuleNotFoundError as fault:
        raise Missing(f"{fault.name} isn't installed, which a store of objects needs: apt-get install python3-boto3") from None


def _add_digest(request: Any, **_words: object) -> None:
    """Others than Amazon's want it of a request that deletes, and boto3 since 1.36 puts another one."""
    if "Content-MD5" not in request.headers:
        request.headers["Content-MD5"] = md5_of(bytes(request.body))


def _client() -> Any:
    session, config = _module("boto3.session").Session(), _module("botocore.config").Config
    words: dict[str, Any] = {
        "connect_timeout": CONNECTS, "read_timeout": ANSWERS, "max_pool_connections": AT_ONCE, "retries": {"total_max_attempts": 1},
    }
    with contextlib.suppress(TypeError):  # boto3 before 1.36 has no such words, and puts no digests but those that are asked for
        words["config"] = config(**words, request_checksum_calculation="when_required", response_checksum_validation="when_required")
    endpoint = os.environ.get("AWS_ENDPOINT_URL_S3") or os.environ.get("AWS_ENDPOINT_URL")  # boto3 before 1.28 doesn't read them
    client = session.client("s3", config=words.pop("config", None) or config(**words), endpoint_url=endpoint)
    client.meta.events.register("before-sign.s3.DeleteObjects", _add_digest)
    return client


class Bucket:
    """One client serves all threads, of which `AT_ONCE` have a request under way."""

    def __init__(self, url: str) -> None:
        self.name, self.front = place_of(url)
        self.turns = threading.Semaphore(AT_ONCE)
        self.errors: Any = _module("botocore.exceptions")
        try:
            self.client = _client()
        except (self.errors.BotoCoreError, ValueError) as fault:
            raise UsageFault(f"{url}: {fault}") from None

    def _fault(self, fault: Exception) -> BucketFault:
        """What a fault of boto3 is to the agent."""
        if isinstance(fault, self.errors.ClientError):
            said: Any = fault.response
            code, status = str(said.get("Error", {}).get("Code", "")), said.get("ResponseMetadata", {}).get("HTTPStatusCode", 0)
            text = f"{code} {said.get('Error', {}).get('Message', '')}".strip()
            return BucketAway(text) if status >= 500 or status == 429 or code in BUSY else BucketFault(text)
        names = ("ConnectionError", "HTTPClientError", "IncompleteReadError", "ResponseStreamingError")
        passing = tuple(kind for name in names if (kind := getattr(self.errors, name, None)))
        is_passing = isinstance(fault, (*passing, OSError)) or type(fault).__module__.startswith("urllib3")
        return (BucketAway if is_passing else BucketFault)(" ".join(str(fault).split()) or type(fault).__name__)

    def _tried(self, does: Callable[[], T], tries: int = TRIES) -> T:
        """What a request gives. What may pass is tried again, after ever longer pauses."""
        begun = time.monotonic()
        for turn in range(tries):
            if turn:
                time.sleep(PAUSE * 2 ** (turn - 1) * random.uniform(0.5, 1))
            try:
                with self.turns:
                    return does()
            except BucketFault as known:
                fault = known
            except Exception as other:  # those of boto3 and of what it stands on have no common kind
                fault = self._fault(other)
            if not isinstance(fault, BucketAway) or time.monotonic() - begun > PATIENCE:
                break
        raise fault from None

    def _or_none(self, does: Callable[[], Any]) -> Any:
        """None where there is no such key."""
        try:
            return does()
        except self.errors.ClientError as fault:
            if str(fault.response.get("Error", {}).get("Code")) in ABSENT:
                return None
            raise

    def put(self, key: str, data: bytes) -> None:
        """Puts a whole object, whose digest the store compares."""
        words = {"Bucket": self.name, "Key": self.front + key, "Body": data, "ContentMD5": md5_of(data)}
        self._tried(functools.partial(self.client.put_object, **words))

    def tag(self, key: str) -> str | None:
        """The ETag of a key."""
        said: Any = self._tried(functools.partial(self._or_none, functools.partial(self.client.head_object, Bucket=self.name, Key=self.front + key)))
        return None if said is None else bare(said)

    def get(self, key: str, most: int, tries: int = TRIES) -> bytes | None:
        """What a key has. None where it isn't there, or has more bytes than it can have."""
        def read() -> bytes | None:
            said = self._or_none(functools.partial(self.client.get_object, Bucket=self.name, Key=self.front + key))
            if said is None:
                return None
            with contextlib.closing(said["Body"]) as body:
                data = bytes(body.read(most + 1))
            if len(data) > most:
                return None
            if len(data) != said["ContentLength"]:
                raise BucketAway("an answer was cut short")
            return data

        return self._tried(read, tries)

    def pages(self, front: str, tries: int = TRIES) -> Iterator[tuple[float, list[Entry]]]:
        """All keys that begin so, a thousand at a time, and what the store's clock was."""
        place = dict[str, str]()
        while True:
            words = {"Bucket": self.name, "Prefix": self.front + front, **place}
            said: Any = self._tried(functools.partial(self.client.list_objects_v2, **words), tries)
            yield email.utils.parsedate_to_datetime(said["ResponseMetadata"]["HTTPHeaders"]["date"]).timestamp(), [
                Entry(each["Key"][len(self.front) :], each["Size"], each["LastModified"].timestamp(), bare(each)) for each in said.get("Contents", ())
            ]
            if not said.get("IsTruncated"):
                return
            place = {"ContinuationToken": said["NextContinuationToken"]}

    def listed(self, front: str, tries: int = TRIES) -> tuple[float, list[Entry]]:
        """What the store's clock was at first, and all keys that begin so."""
        times, entries = zip(*self.pages(front, tries))
        return times[0], [each for page in entries for each in page]

    def delete(self, keys: Sequence[str], tries: int = TRIES) -> bool:
        """Deletes keys, of which some may be gone. Whether the store answered at once: what it didn't answer it may do later."""
        asked = 0

        def ask(some: object) -> Any:
            nonlocal asked
            asked += 1
            return self.client.delete_objects(Bucket=self.name, Delete=some)

        turns = range(0, len(keys), DELETED_AT_ONCE)
        for at in turns:
            some = {"Objects": [{"Key": self.front + key} for key in keys[at : at + DELETED_AT_ONCE]], "Quiet": True}
            said: Any = self._tried(functools.partial(ask, some), tries)
            for each in said.get("Errors", ()):
                if each.get("Code") not in ABSENT:
                    raise BucketFault(f"{each.get('Key')} wasn't deleted: {each.get('Code')} {each.get('Message')}")
        return asked == len(turns)
