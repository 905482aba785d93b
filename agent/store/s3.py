"""A store that several machines share in a bucket of an object store, which has to show at once what it took, as S3 does.

Owes the filters what `shared` says, and that nothing of a commit under way is forgotten, whatever any clock says. Such a store deletes
without conditions, so both sides say what they are about before they look at what the other one says:

- who commits puts what it holds, the index, and then reads which keys somebody is about to delete: of these it relies on none, and puts
  what it needs under keys that never were, KEY.RANDOM, which who misses KEY finds by its front;
- who forgets puts which keys it is about to delete, and then reads what is held, asks what is needed, and leaves all of that alone.

So one of the two has seen the other. One alone forgets, on the coordinator's machine, under a lock of that machine. What was about to be
deleted stays told until the store has answered; where it didn't, or the one that forgot was killed, as long as it may do it yet.
"""
from __future__ import annotations

import contextlib
import fcntl
import hashlib
import re
import secrets
import time
from concurrent.futures import ThreadPoolExecutor
from typing import Callable, Iterable, Iterator, NamedTuple, TypeVar

from agent.faults import FarmFault, UsageFault, tell as tell_people
from agent.store.bucket import AT_ONCE, TRIES, Bucket, BucketAway, BucketFault, Entry, tag_of
from agent.store.chunks import chunk_names, chunk_sizes
from agent.store.folder import LARGEST_CONTENT, ChunksMissing, Kept, Tally
from agent.store.packing import unpacked_of
from agent.store.shared import AWAY, SharedStore, most_packed

PAUSE_LEAST, PAUSE_MOST = 0.5, 5.0  # seconds before a store that was away is tried again
CONDEMNED_MOST = 10_000  # keys that are about to be deleted at once
LATE = 3600.0  # seconds for which a store may do what it was asked: S3 refuses what comes later than a quarter of an hour
LISTED_FROM = 1_000  # chunks: what is there of as many is listed, where that takes fewer requests than to ask for each
ITEMS_MOST = 1_024  # of what is done at once
TOLD_MOST = 100_000  # keys that may be deleted late
LOOKED_FOR = 2  # times that an index is asked for: a node hears nothing else meanwhile, and the other nodes may have it
LIST_MOST = 16 << 20  # bytes of a list of such keys
MARK_MOST = 1 << 10  # bytes

HEX, TIME = re.compile("[0-9a-f]{4}"), re.compile("[0-9]{1,12}")

T = TypeVar("T")
U = TypeVar("U")


class Forgetters(NamedTuple):
    """Who forgot or forgets, and which keys are about to be deleted."""

    names: frozenset[str]
    keys: frozenset[str]


NOBODY = Forgetters(frozenset(), frozenset())


def at_once(does: Callable[[T], U], items: Iterable[T]) -> list[U]:
    """Does something for each, several at once. With the first fault what wasn't begun is left."""
    pool, left, done = ThreadPoolExecutor(AT_ONCE), list(items), list[U]()
    try:
        for at in range(0, len(left), ITEMS_MOST):  # what waits for its turn takes two kilobytes each
            done += pool.map(does, left[at : at + ITEMS_MOST])
        return done
    finally:
        pool.shutdown(cancel_futures=True)


class S3Store(SharedStore):
    """`lock` has what is held and compared too."""

    def __init__(self, url: str, root: str, farm: str, owner: str = "") -> None:
        self.name = f"the store {url}"
        self.bucket = Bucket(url)
        self._claim(url, farm)
        self.bucket.front += f"{farm}/"
        super().__init__(root, owner)
        self.holding: dict[str, list[str]] = {}  # of a digest: the keys of what is held
        self.over: list[str] = []  # keys of what isn't held any more, and wasn't deleted yet
        self.forgetters = NOBODY.names  # those that were there when what is `compared` was: what they were about to delete isn't among it

    def _claim(self, url: str, farm: str) -> None:
        """Marks a place as this farm's, or refuses that of another one."""
        try:
            if self.bucket.get("farm", MARK_MOST) is None and self.bucket.tag("farm") is None:
                self.bucket.put("farm", farm.encode())
            if self.bucket.get("farm", MARK_MOST) != farm.encode():
                mark = f"{url.rstrip('/')}/farm"
                raise UsageFault(f"{url} has the contents of another farm: name another --contents. If that farm is gone, delete {mark}")
        except BucketFault as fault:
            raise FarmFault(f"{self.name} can't be used: {fault}") from None

    # What is given.

    def _send(self, digest: str, index: bytes, away: Callable[[str], None] | None = None, base: bytes = b"") -> None:
        """What was given isn't given again after a fault. That it gets further renews its time."""
        sending = _Sending(self, digest, index, is_anew=away is None)
        pause, left, end = PAUSE_LEAST, sending.left(), time.monotonic() + AWAY
        while True:
            try:
                return sending.go_on()
            except BucketFault as fault:
                if sending.left() < left:
                    pause, left, end = PAUSE_LEAST, sending.left(), time.monotonic() + AWAY
                if not isinstance(fault, BucketAway) or away is None or time.monotonic() > end:
                    raise FarmFault(f"{self.name} took no contents: {fault}") from None
                away(f"waiting for {self.name}, which takes no contents: {fault}")
            time.sleep(pause)
            pause = min(pause * 2, PAUSE_MOST)

    def _hold(self, digest: str) -> str:
        """The key of what is held from now on, once it is put."""
        key = f"held/{self.owner}.{self.own}.{digest}.{secrets.token_hex(4)}"
        with self.lock:
            self.holding.setdefault(digest, []).append(key)
        return key

    def release(self, digest: str, is_answered: bool = True) -> None:
        """With the first commit that is answered what this agent's processes before this one held is let go: their commits are decided."""
        super().release(digest, is_answered)
        with self.lock:
            keys = self.holding.get(digest, [])
            if key := keys.pop() if keys else "":
                self.over += [key] if is_answered else []
            if not keys:
                self.holding.pop(digest, None)
            over, self.over = self.over, []
        try:
            if is_answered and self.owner and not self.is_followed:
                front = f"held/{self.owner}."
                over += [each.key for each in self.bucket.listed(front)[1] if not each.key.startswith(f"{front}{self.own}.")]
                self.is_followed = True
            self.bucket.delete(over, tries=1)
        except BucketFault:  # the next commit's release does it
            with self.lock:
                self.over += over

    def _forgetters(self) -> Forgetters:
        """Hold what you are about to rely on before. What was compared before others forgot is compared again."""
        names, keys = self._condemned()
        there = frozenset(names)
        with self.lock:
            if self.forgetters != there:
                self.forgetters = there
                self.compared.clear()
        return Forgetters(there, frozenset(keys))

    def _condemned(self) -> tuple[list[str], dict[str, float]]:
        """Where it stands who forgot or forgets, and the keys that are about to be deleted, since when by the store's clock."""
        there, keys = self.bucket.listed("forgets/")[1], dict[str, float]()
        if any(each.size > LIST_MOST for each in there):
            raise BucketFault(f"below forgets/ it has more than {LIST_MOST} bytes at once")
        for each in there:
            text = self.bucket.get(each.key, LIST_MOST) if each.size else None
            for line in (text or b"").decode(errors="replace").splitlines():
                key, _, since = line.partition(" ")
                keys[key] = int(since) if TIME.fullmatch(since) else each.put
        return [each.key for each in there], keys

    # What is got.

    def _index_there(self, digest: str) -> object:
        with contextlib.suppress(BucketFault):
            return self._found(f"index/{digest}", LARGEST_CONTENT, lambda data: hashlib.sha256(data).hexdigest() == digest, LOOKED_FOR)
        return None

    def _packed_there(self, names: list[str], sizes: dict[str, int]) -> list[object]:
        def found(name: str) -> object:
            return self._found(f"chunk/{name}", most_packed(sizes[name]), lambda data: unpacked_of(name, data, sizes[name]) is not None)

        try:
            return at_once(found, names)
        except BucketFault as fault:
            raise ChunksMissing(f"{self.name} gave no contents: {fault}") from None

    def _found(self, key: str, most: int, is_right: Callable[[bytes], bool], tries: int = TRIES) -> bytes | None:
        """What is right of what a key has, and those that begin with it."""
        data = self.bucket.get(key, most, tries)
        if data is not None and is_right(data):
            return data
        others = (self.bucket.get(each.key, most, tries) for each in self.bucket.listed(f"{key}.", tries)[1])
        return next((data for data in others if data is not None and is_right(data)), None)

    # What is forgotten.

    def forget(self, ask: Callable[[], set[str]], grace: float, tell: Callable[[str], None] = lambda digest: None) -> tuple[int, int]:
        forgetting = _Forgetting(self, ask)
        try:
            with self._alone():
                forgetting.run(grace, tell)
        except BucketFault as fault:
            raise FarmFault(f"{self.name} forgot nothing more: {fault}") from None
        return forgetting.indexes, forgetting.chunks

    def tally(self) -> Tally:
        """What stands under several keys counts under one name with the youngest's age and all bytes."""
        indexes, chunks = dict[str, Kept](), dict[str, int]()
        try:
            now, entries = self.bucket.listed("index/")
            for each in entries:
                before = indexes.get(digest_of(each), Kept(now - each.put, 0))
                indexes[digest_of(each)] = Kept(min(before.age, now - each.put), before.size + each.size)
            for each in self.bucket.listed("chunk/")[1]:
                chunks[digest_of(each)] = chunks.get(digest_of(each), 0) + each.size
        except BucketFault as fault:
            raise FarmFault(f"{self.name} doesn't say what it has: {fault}") from None
        return Tally(indexes, chunks)

    @contextlib.contextmanager
    def _alone(self) -> Iterator[None]:
        """Nobody else of this machine forgets meanwhile."""
        with open(f"{self.folder.root}/forgets", "w") as lock:
            fcntl.flock(lock, fcntl.LOCK_EX)
            yield

    def _held(self) -> tuple[set[str], set[str]]:
        """The digests and chunks that are held."""
        digests, names = set[str](), set[str]()
        for each in self.bucket.listed("held/")[1]:
            index = self.bucket.get(each.key, LARGEST_CONTENT)
            if index is None:
                continue  # it was answered just now: what is asked behind this has it
            digests.add(each.key.rpartition(".")[0].rpartition(".")[2])
            with contextlib.suppress(FarmFault):  # a hold that somebody spoilt
                names.update(chunk_names(index))
        return digests, names


class _Sending:
    """One content on its way."""

    def __init__(self, store: S3Store, digest: str, index: bytes, is_anew: bool) -> None:
        self.store, self.digest, self.index, self.is_anew = store, digest, index, is_anew
        self.sizes = chunk_sizes(index)
        self.held = "" if is_anew else store._hold(digest)
        self.missing: dict[str, None] | None = None  # chunks that aren't known to be there; none until that was looked for
        self.forgetters = NOBODY
        self.tags: dict[str, str] | None = None  # of the keys of chunks that are there; none where each is asked for
        self.spoilt = list[str]()  # what was replaced

    def left(self) -> int:
        return len(self.sizes) if self.missing is None else len(self.missing)

    def go_on(self) -> None:
        store = self.store
        if self.missing is None:
            if self.held:
                store.bucket.put(self.held, self.index)
            self.forgetters = store._forgetters()
            with store.lock:
                self.missing = {name: None for name in self.sizes if self.is_anew or name not in store.compared}
            self.tags = self._listed({f"chunk/{name}" for name in self.missing})
        try:
            at_once(self._give_chunk, list(self.missing))
            self._give(f"index/{self.digest}", self.index, lambda data: data == self.index)
        finally:
            if self.spoilt:
                tell_people(f"{store.name} had {len(self.spoilt)} spoilt objects, {self.spoilt[0]} among them: they are replaced by what they name")
                self.spoilt.clear()

    def _listed(self, keys: set[str]) -> dict[str, str] | None:
        """The ETags of those of these keys that are there. None where listings take too many requests, as the first ones tell: names are digests."""
        tags = dict[str, str]()
        if len(keys) < LISTED_FROM:
            return None
        for number, (_, entries) in enumerate(self.store.bucket.pages("chunk/"), 1):
            tags.update((each.key, each.tag) for each in entries if each.key in keys)
            if entries and number > how_far(entries[-1]) * len(keys) / AT_ONCE:
                return None
        return tags

    def _give_chunk(self, name: str) -> None:
        assert self.missing is not None
        size, key, packed = self.sizes[name], f"chunk/{name}", self.store._packed(name)
        if self._give(key, packed, lambda data: unpacked_of(name, data, size) is not None):
            self.store._moved("given", [packed])
        with self.store.lock:
            self.missing.pop(name)
            if self.store.forgetters == self.forgetters.names and key not in self.forgetters.keys:
                self.store._take_compared([name])

    def _give(self, key: str, data: bytes, is_right: Callable[[bytes], bool]) -> bool:
        """Sees to it that the store has an object, and that nobody is about to delete it: whether it was put. An ETag that isn't its digest says
        nothing: it is read."""
        bucket = self.store.bucket
        if key in self.forgetters.keys:
            bucket.put(f"{key}.{secrets.token_hex(8)}", data)
            return True
        tag = bucket.tag(key) if self.tags is None or not key.startswith("chunk/") else self.tags.get(key)
        if tag == tag_of(data):
            return False
        if tag is not None:
            there = bucket.get(key, len(data) + most_packed(len(data)))
            if there is not None and is_right(there):
                return False
            self.spoilt.append(key)
        bucket.put(key, data)
        return True


class _Forgetting:
    """One going through what the store has."""

    def __init__(self, store: S3Store, ask: Callable[[], set[str]]) -> None:
        self.store, self.bucket, self.ask = store, store.bucket, ask
        self.indexes, self.chunks = 0, 0
        self.needed, self.used = set[str](), set[str]()  # digests; chunks

    def run(self, grace: float, tell: Callable[[str], None]) -> None:
        before, told = self.store._condemned()
        self._look()
        now, entries = self.bucket.listed("index/")
        gone = [each for each in entries if digest_of(each) not in self.needed and each.put <= now - grace]
        is_whole = self._use({*map(digest_of, entries), *self.needed} - set(map(digest_of, gone)), tell)
        had = {name for each in gone for name in chunk_names(self.store.index(digest_of(each)) or b"")} if not is_whole else None
        chunks = self.bucket.listed("chunk/")[1]
        unused = [each for each in chunks if digest_of(each) not in self.used and each.put <= now - grace and (had is None or digest_of(each) in had)]
        keys = [each.key for each in gone + unused]
        for at in range(0, len(keys) or bool(told), CONDEMNED_MOST):
            told = {key: since for key, since in told.items() if since > now - LATE}
            before, told = self._delete(dict.fromkeys(keys[at : at + CONDEMNED_MOST], now), told, before)

    def _look(self) -> set[str]:
        """Learns what is held and needed. The digests that are needed now, and weren't."""
        digests, names = self.store._held()  # before it is asked: what is answered meanwhile is needed then
        new = (self.ask() | digests) - self.needed
        self.needed |= new
        self.used |= names
        return new

    def _use(self, digests: set[str], tell: Callable[[str], None]) -> bool:
        """Takes what these have as used. Whether all that is needed could be read."""
        is_whole = True
        for digest, index in zip(digests, at_once(self.store.index, digests)):
            self.used.update(chunk_names(index or b""))
            if index is None and digest in self.needed:
                tell(digest)
                is_whole = False
        return is_whole

    def _delete(self, keys: dict[str, float], told: dict[str, float], before: list[str]) -> tuple[list[str], dict[str, float]]:
        """Deletes what isn't needed of these, in the place of those that forgot before. Where it says so, and what it still says then."""
        if len(told) > TOLD_MOST:
            raise FarmFault(f"{self.store.name} forgot nothing more: it may delete {len(told)} objects late, which it was asked to, and didn't answer")
        own = f"forgets/{secrets.token_hex(8)}"
        self.bucket.put(own, told_text(told | keys))
        self.bucket.delete(before)
        if not self._use(self._look(), lambda digest: None):
            raise FarmFault(f"{self.store.name} forgot nothing more: a commit came meanwhile that can't be read. Begin it anew")
        gone = [key for key in keys if part_of(key) not in self.needed and part_of(key) not in self.used]
        told = told if self.bucket.delete(gone) else told | keys
        self.indexes += sum(key.startswith("index/") for key in gone)
        self.chunks += sum(key.startswith("chunk/") for key in gone)
        self.bucket.put(own, told_text(told))
        return [own], told


def told_text(keys: dict[str, float]) -> bytes:
    return "".join(f"{key} {since:.0f}\n" for key, since in keys.items()).encode()


def part_of(key: str) -> str:
    """The digest, or the chunk's name, of a key."""
    return key.partition("/")[2].partition(".")[0]


def how_far(entry: Entry) -> float:
    """Which share of all names comes up to this one's, in order."""
    digits = digest_of(entry)[:4]
    return (int(digits, 16) + 1) / 0x10000 if HEX.fullmatch(digits) else 0.0


def digest_of(entry: Entry) -> str:
    return part_of(entry.key)
