"""A store that several machines share over Redis.

Owes the filters what `shared` says. Redis keeps what it is given as well as it is set up to: with `appendfsync always` a content is on
its device before it answers, else a crash of its machine can lose contents that only the makers' machines have then.
"""
from __future__ import annotations

import contextlib
import hashlib
import time
from typing import Callable, Iterator, Sequence

from agent.faults import FarmFault
from agent.store.chunks import chunk_names
from agent.store.folder import LARGEST_CONTENT, ChunksMissing, Kept, Tally
from agent.store.shared import AT_ONCE, AWAY, SharedStore, most_packed
from agent.transport.redis_wire import Redis, RedisFault, Word, is_away

HELD_MOST = 1 << 28  # bytes of all that is being made at once
TALLIED_AT_ONCE = 1_000  # keys
VAIN_MOST = 100  # looks one after the other behind which something was held before anything was forgotten

# Redis keeps beside all keys when each was last given or found there: what is young isn't forgotten, since a commit of it may be under way.
# What is being made stands in a hash beside, with its index, until its commit is answered, and nothing is forgotten while that has changed.
# Each script is carried out whole: no key is found by one who gives a content, and forgotten before its time is set.
GIVE = "redis.call('SET', KEYS[1], ARGV[1]) redis.call('ZADD', KEYS[2], redis.call('TIME')[1], KEYS[1]) return 1"
FIND = """if redis.call('EXISTS', KEYS[1]) == 0 then return 0 end
if ARGV[1] ~= '' and redis.sha1hex(redis.call('GET', KEYS[1])) ~= ARGV[1] then return 0 end
redis.call('ZADD', KEYS[2], redis.call('TIME')[1], KEYS[1]) return 1"""
HOLD = "redis.call('HSET', KEYS[1], ARGV[1], ARGV[2]) redis.call('INCR', KEYS[2]) return 1"
FORGET = """if (redis.call('GET', KEYS[3]) or '0') ~= ARGV[2] then return -1 end
local given = redis.call('ZSCORE', KEYS[2], KEYS[1])
if given and redis.call('TIME')[1] - given < tonumber(ARGV[1]) then return 0 end
redis.call('DEL', KEYS[1]) redis.call('ZREM', KEYS[2], KEYS[1]) return 1"""


class Progress:
    """How far a sending came, and how long it is tried yet: that it gets further renews its time."""

    def __init__(self, patience: float) -> None:
        self.patience, self.furthest = patience, 0
        self.end = time.monotonic() + patience

    def got(self, at: int) -> None:
        """The chunks from there on are given, as many as go at once."""
        if at >= self.furthest:
            self.furthest, self.end = at + AT_ONCE, time.monotonic() + self.patience

    def is_over(self) -> bool:
        return time.monotonic() > self.end


class RedisStore(SharedStore):
    name = "the store over Redis"

    def __init__(self, server: str | Redis, root: str, farm: str, owner: str = "") -> None:
        self.server = Redis(server) if isinstance(server, str) else server
        self.farm = farm
        super().__init__(root, owner)

    def keeps_well(self) -> bool:
        """Whether the server says that what it was given is on its device."""
        try:
            said = self.server.call("CONFIG", "GET", "append*")
        except RedisFault as fault:
            return str(fault).startswith("NOPERM")  # a node's user may not ask: the coordinator's agent does
        pairs = list(zip(said[::2], said[1::2])) if isinstance(said, list) else []
        return (b"appendonly", b"yes") in pairs and (b"appendfsync", b"always") in pairs

    def _name(self, kind: str, digest: str) -> str:
        return f"{self.farm}:{kind}:{digest}"

    def _script(self, script: str, key: str, *words: Word) -> list[Word]:
        """The command of a script on a key."""
        return ["EVAL", script, 2, key, f"{self.farm}:given", *words]

    def release(self, digest: str, is_answered: bool = True) -> None:
        """With the first commit that is answered what this agent's processes before this one held is let go: their commits are decided."""
        super().release(digest, is_answered)
        if is_answered:
            with contextlib.suppress(RedisFault):
                self._let_go(self._field(digest))

    def _field(self, digest: str) -> str:
        """What a content is held as."""
        return f"{self.owner}.{self.own}.{digest}"

    def _let_go(self, field: str, is_answered: bool = True) -> None:
        fields = [field]
        if is_answered and not self.is_followed:
            held = self.server.call("HKEYS", f"{self.farm}:held")
            fields += [name.decode() for name in held if self._is_before(name.decode())]
        self.server.call("HDEL", f"{self.farm}:held", *fields)
        self.is_followed = self.is_followed or is_answered

    def _is_before(self, field: str) -> bool:
        owner, _, rest = field.partition(".")
        return bool(self.owner) and owner == self.owner and not rest.startswith(f"{self.own}.")

    def _held(self) -> tuple[bytes, dict[str, bool], set[str]]:
        """How often something was held, the digests that are, each with whether its index stands there, and the chunks that are held."""
        count, held = self.server.calls([("GET", f"{self.farm}:holds"), ("HGETALL", f"{self.farm}:held")], HELD_MOST)
        digests, names = dict[str, bool](), set[str]()
        for field, index in zip(held[::2], held[1::2]) if isinstance(held, list) else ():
            with contextlib.suppress(FarmFault, AttributeError, TypeError):  # a hold that somebody spoilt
                digest = field.decode(errors="replace").rpartition(".")[2]
                digests.setdefault(digest, False)
                names.update(chunk_names(index))
                digests[digest] |= hashlib.sha256(index).hexdigest() == digest
        return count if isinstance(count, bytes) else b"0", digests, names

    def _send(self, digest: str, index: bytes, away: Callable[[str], None] | None = None, base: bytes = b"") -> None:
        """Begins again after each fault, since a server that was away may have lost what it took. That it gets further renews its time. Where
        nobody hears that it is away all is sent, and once."""
        names, progress = self._to_look_for(index, base), Progress(AWAY if away else 0.0)
        while True:
            try:
                return self._give(digest, index, names, self._field(digest) if away else "", progress)
            except RedisFault as fault:
                if not is_away(fault) or away is None or progress.is_over():
                    raise FarmFault(f"{self.name} took no contents: {fault}") from None
                away(f"waiting for {self.name}, which takes no contents: {fault}")
            time.sleep(0.5)

    def _give(self, digest: str, index: bytes, names: list[str], field: str, progress: Progress) -> None:
        """Holds a content in this field, looks for its chunks, and gives what isn't there. Without a field it gives all."""
        if field:
            self.server.calls([("EVAL", HOLD, 2, f"{self.farm}:held", f"{self.farm}:holds", field, index)])
        for at in range(0, len(names), AT_ONCE):
            self._send_chunks(names[at : at + AT_ONCE], not field)
            progress.got(at)
        self._put("index", {digest: index})

    def _put(self, kind: str, some: dict[str, bytes]) -> None:
        self.server.calls([self._script(GIVE, self._name(kind, name), data) for name, data in some.items()])

    def _to_look_for(self, index: bytes, base: bytes) -> list[str]:
        known = set(chunk_names(base))
        with self.lock:
            return [name for name in chunk_names(index) if name not in known or name not in self.compared]

    def _send_chunks(self, names: list[str], anew: bool) -> None:
        """Gives the server what it hasn't, or hasn't as it is here: what was compared once is only looked for."""
        with self.lock:
            known = set(names) & self.compared.keys()
        digests = ["" if name in known else hashlib.sha1(self._packed(name)).hexdigest() for name in names] if not anew else []
        commands = [self._script(FIND, self._name("chunk", name), digest) for name, digest in zip(names, digests)]
        there = self.server.calls(commands) if commands else [0] * len(names)
        chunks = [(name, self._packed(name)) for name, is_there in zip(names, there) if not is_there]
        if chunks:
            self._put("chunk", dict(chunks))
            self._moved("given", [packed for _, packed in chunks])
        with self.lock:
            self._take_compared(names)

    def _index_there(self, digest: str) -> object:
        with contextlib.suppress(RedisFault):
            return self._got_index(digest)
        return None

    def _got_index(self, digest: str) -> object:
        return self.server.call("GET", self._name("index", digest), most=LARGEST_CONTENT)

    def _packed_there(self, names: list[str], sizes: dict[str, int]) -> list[object]:
        try:
            return self._got_chunks(names, sizes)
        except RedisFault as fault:
            raise ChunksMissing(f"{self.name} gave no contents: {fault}") from None

    def _got_chunks(self, names: list[str], sizes: dict[str, int]) -> list[object]:
        most = sum(most_packed(sizes[name]) for name in names)
        return list(self.server.calls([("GET", self._name("chunk", name)) for name in names], most))

    def forget(self, ask: Callable[[], set[str]], grace: float, tell: Callable[[str], None] = lambda digest: None) -> tuple[int, int]:
        """Removes from Redis what is removed from a folder."""
        try:
            return Passing([self], self.index, ask, grace).run(tell)
        except RedisFault as fault:
            raise FarmFault(f"the store over Redis forgot nothing more: {fault}") from None

    def _forget(self, kind: str, names: list[str], grace: float, count: bytes) -> list[object]:
        """Of each whether it is gone, 1, or is young, 0; or -1 where something was held since it was counted."""
        return list(self.server.calls([
            ("EVAL", FORGET, 3, self._name(kind, name), f"{self.farm}:given", f"{self.farm}:holds", int(grace), count) for name in names
        ]))

    def _young(self, kind: str, names: list[str], grace: float) -> set[str]:
        """Those that were given here within the grace."""
        now, *given = self.server.calls([("TIME",), *(("ZSCORE", f"{self.farm}:given", self._name(kind, name)) for name in names)])
        return {name for name, at in zip(names, given) if at is not None and int(now[0]) - float(at) < int(grace)}


    def tally(self) -> Tally:
        """Sizes are of the values: what Redis needs beside them it says itself (`INFO memory`)."""
        try:
            now = int(self.server.call("TIME")[0])
            indexes, chunks = ({digest: (size, given) for digest, size, given in self._sizes(kind)} for kind in ("index", "chunk"))
        except (RedisFault, ValueError, TypeError, IndexError) as fault:
            raise FarmFault(f"{self.name} doesn't say what it has: {fault}") from None
        return Tally({digest: Kept(now - given, size) for digest, (size, given) in indexes.items()}, {name: size for name, (size, _) in chunks.items()})

    def _sizes(self, kind: str) -> Iterator[tuple[str, int, float]]:
        """Of each key of a kind its bytes, and when it was given."""
        names = self._kept(kind)
        for at in range(0, len(names), TALLIED_AT_ONCE):
            keys = [self._name(kind, name) for name in names[at : at + TALLIED_AT_ONCE]]
            told = self.server.calls([command for key in keys for command in (("STRLEN", key), ("ZSCORE", f"{self.farm}:given", key))])
            yield from ((name, int(size), float(given or 0)) for name, size, given in zip(names[at:], told[::2], told[1::2]))

    def _kept(self, kind: str) -> list[str]:
        """The names of the keys of a kind."""
        front = self._name(kind, "")
        found: dict[str, None] = {}
        place: Word = b"0"
        while True:
            said = self.server.call("SCAN", place, "MATCH", f"{front}*", "COUNT", 1000)
            if not isinstance(said, list) or [type(each) for each in said] != [bytes, list]:
                raise RedisFault("what came isn't the answer to SCAN")
            place, keys = said
            found.update((key.decode(errors="replace").removeprefix(front), None) for key in keys if isinstance(key, bytes))
            if place == b"0":
                return list(found)


class Passing:
    """One going through what Redis has, or several that were given the same: what one of them would keep all keep, but what isn't there. It goes
    on while commits come: what nothing needs is forgotten only as long as nothing was held since it was looked what is held and needed, and after
    that it is looked anew, which is short, since what was read of indexes stays right."""

    def __init__(self, stores: Sequence[RedisStore], index: Callable[[str], bytes | None], ask: Callable[[], set[str]], grace: float) -> None:
        self.stores, self.index, self.ask, self.grace = stores, index, ask, grace
        self.indexes, self.chunks = 0, 0
        self.needed, self.used = set[str](), set[str]()  # digests and chunks: those that something needed since it began
        self.counted = set[str]()  # digests whose chunks are among the used ones
        self.unreadable = set[str]()
        self.is_whole = True  # whether all that the farm has were asked
        self._look()

    def _look(self) -> None:
        """What is held, and behind that what is needed, so that what is answered meanwhile is."""
        held = [store._held() for store in self.stores]
        self.counts = [count for count, _, _ in held]
        self.needed |= self.ask()
        for _, digests, names in held:
            self.needed |= digests.keys()
            self.used |= names
            self.counted |= {digest for digest, is_there in digests.items() if is_there}
        self._use(self.needed)

    def _use(self, digests: set[str]) -> None:
        for digest in digests - self.counted:
            index = self.index(digest)
            if index is not None:
                self.counted.add(digest)
                self.unreadable.discard(digest)
                self.used.update(chunk_names(index))
            elif digest in self.needed:
                self.unreadable.add(digest)

    def run(self, tell: Callable[[str], None]) -> tuple[int, int]:
        """How many indexes and chunks went. What is needed and can't be read is told."""
        digests = self._kept("index")
        had = {digest: self.index(digest) or b"" for digest in digests if digest not in self.needed}
        gone = self._forget("index", list(had), lambda digest: digest not in self.needed)
        self._use(set(digests) - gone)
        free = {name for digest in gone if self.is_whole for name in chunk_names(had[digest])}
        self._forget("chunk", self._kept("chunk"), lambda name: name not in self.used and (not self.unreadable or name in free))
        for digest in self.unreadable:
            tell(digest)
        return self.indexes, self.chunks

    def _kept(self, kind: str) -> list[str]:
        return list(dict.fromkeys(name for store in self.stores for name in store._kept(kind)))

    def _forget(self, kind: str, names: list[str], may_go: Callable[[str], bool]) -> set[str]:
        """Those that went from all."""
        gone, at, vain = set[str](), 0, 0
        while at < len(names):
            some = self._old(kind, [name for name in names[at : at + AT_ONCE] if may_go(name) and name not in gone])
            went = [store._forget(kind, some, self.grace, count) for store, count in zip(self.stores, self.counts)]
            more = {name for name, each in zip(some, zip(*went)) if all(one == 1 for one in each)}
            gone |= more
            if kind == "index":
                self.indexes = len(gone)
            else:
                self.chunks = len(gone)
            if not any(-1 in each for each in went):
                at, vain = at + AT_ONCE, 0
                continue
            vain = 0 if more else vain + 1
            if vain > VAIN_MOST:
                raise FarmFault("commits came again and again, and the store over Redis forgot nothing more: begin it anew")
            self._look()
        return gone

    def _old(self, kind: str, names: list[str]) -> list[str]:
        """Those that are young nowhere. One store alone says so where it forgets them."""
        young = set[str]().union(*(store._young(kind, names, self.grace) for store in self.stores)) if len(self.stores) > 1 else ()
        return [name for name in names if name not in young]
