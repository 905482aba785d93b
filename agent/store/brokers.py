"""A store over the Redis of several brokers, each of which has all contents but those that came while it was away.

Owes the filters what `shared` says: a content is kept once one broker has all of it, checked, held and on its device as that keeps it; the
others are given it as far as they answer. It is read from any, chunk by chunk, each checked by its name; what one lacks or has spoilt, and
another one has, it is given again. A broker that fails is left alone until it answers a PING: a thread of its own looks.

What one broker has and holds is its own affair, as where there is one alone: nobody relies on anything there that isn't held there first, or
is needed. So one that was away, or comes back empty, forgets nothing that counts.
"""
from __future__ import annotations

import secrets
import threading
import time
from typing import Callable, Iterator, Sequence, TypeVar

from agent.faults import FarmFault, tell as tell_people
from agent.logs import NOTICE, WARNING
from agent.store.folder import ChunksMissing, Kept, Tally
from agent.store.packing import Fresh
from agent.store.redis import Passing, Progress, RedisStore
from agent.store.shared import AWAY, SharedStore, is_content
from agent.transport.brokers import answering
from agent.transport.redis_wire import Redis, RedisAway, RedisFault, is_away

LATE = 2.0  # seconds: for so long a broker that says nothing is waited for, and one that is slow, once another one has a content
LOOK_EVERY = 0.5  # seconds from one look whether a broker is back to the next
BEHIND_MOST = 8  # contents that are on their way to a slow broker while their commits go on: it does without others
TRIES = 3  # of a sending, or a forgetting, during which brokers ended connections
MENDED_AT_ONCE = 4

T = TypeVar("T")


class Part(RedisStore):
    """The Redis of one broker. `guard` has why it is away, what it still holds in vain, and how many contents it is behind."""

    def __init__(self, whole: BrokersStore, server: Redis, farm: str) -> None:
        super().__init__(server, whole.folder.root, farm, whole.owner)
        self.name, self.whole, self.own = f"the store at {server.where}", whole, whole.own
        self.seen = server.breaks  # when `compared` was begun
        self.guard = threading.Lock()
        self.why = ""
        self.over: list[tuple[str, bool]] = []  # fields, and whether the commit was answered
        self.behind = 0

    def _moved(self, way: str, chunks: list[bytes]) -> None:
        self.whole._moved(way, chunks)

    def _is_before(self, field: str) -> bool:
        """This process has a word of its own for each sending behind its own name."""
        owner, _, rest = field.partition(".")
        return bool(self.owner) and owner == self.owner and not rest.startswith(self.own)

    def _to_look_for(self, index: bytes, base: bytes) -> list[str]:
        """A server that ended a connection may have come back empty."""
        with self.lock:
            if self.seen != self.server.breaks:
                self.seen = self.server.breaks
                self.compared.clear()
        return super()._to_look_for(index, base)

    def give(self, digest: str, index: bytes, base: bytes, field: str, progress: Progress) -> None:
        for _ in range(TRIES):
            breaks = self.server.breaks
            self._give(digest, index, self._to_look_for(index, base), field, progress)
            if self.server.breaks == breaks:
                return
        raise RedisAway("it ends connections again and again")

    def failed(self, fault: RedisFault) -> None:
        """Leaves it alone from now on, where it is away, until it answers."""
        self.whole.told(self, str(fault))
        with self.guard:
            if self.why or not is_away(fault):
                return
            self.why = str(fault)
        threading.Thread(target=self._look, daemon=True).start()

    def answers(self) -> bool:
        try:
            self.server.call("PING")
        except RedisFault as fault:
            self.failed(fault)
            return False
        return True

    def _look(self) -> None:
        """Waits until it answers."""
        while True:
            try:
                self.server.call("PING")
                break
            except RedisFault:
                time.sleep(LOOK_EVERY)
        with self.guard:
            self.why = ""
        self.whole.told(self)
        self._settle()

    def let_go(self, field: str, is_answered: bool) -> None:
        """A content isn't held any more. Nobody waits for that."""
        with self.guard:
            self.over.append((field, is_answered))
        threading.Thread(target=self._settle, daemon=True).start()

    def _settle(self) -> None:
        while True:
            with self.guard:
                if self.why or not self.over:
                    return
                field, is_answered = self.over.pop()
            try:
                self._let_go(field, is_answered)
            except RedisFault as fault:
                with self.guard:
                    self.over.append((field, is_answered))
                if not is_away(fault):
                    return
                self.failed(fault)

    def may_be_sent(self) -> bool:
        return not self.why and self.behind < BEHIND_MOST


class BrokersStore(SharedStore):
    """`lock` has what is held, too."""

    name = "the store over Redis"

    def __init__(self, urls: Sequence[str], root: str, farm: str, owner: str = "") -> None:
        super().__init__(root, owner)
        self.holding: dict[str, list[tuple[str, list[Part]]]] = {}  # of a digest: fields, and where they are
        self.mending = threading.Semaphore(MENDED_AT_ONCE)
        servers = answering(urls, LATE)
        self.parts = [Part(self, server, farm) for server, _ in servers]
        for part, (_, why) in zip(self.parts, servers):
            if why:
                part.failed(RedisAway(why))

    def told(self, part: Part, why: str = "") -> None:
        if said := self.counts.reached(part.name, why):
            self.log(said, WARNING if why else NOTICE)

    def keeps_well(self) -> bool:
        return all(part.keeps_well() for part in self.parts if not part.why)

    # What is given.

    def _send(self, digest: str, index: bytes, away: Callable[[str], None] | None = None, base: bytes = b"") -> None:
        field = f"{self.owner}.{self.own}-{secrets.token_hex(4)}.{digest}" if away else ""
        done = _Sending(self, digest, index, base, field).run(away)
        if field:
            with self.lock:
                self.holding.setdefault(digest, []).append((field, done))

    def release(self, digest: str, is_answered: bool = True) -> None:
        super().release(digest, is_answered)
        with self.lock:
            held = self.holding.get(digest, [])
            field, parts = held.pop() if held else ("", [])
            if not held:
                self.holding.pop(digest, None)
        for part in parts if is_answered else ():
            part.let_go(field, is_answered=True)

    # What is read.

    def _asked(self, does: Callable[[Part], T]) -> Iterator[tuple[Part, T]]:
        """What each broker answers, one after the other; those that are away only where all are."""
        for part in [part for part in self.parts if not part.why] or self.parts:
            try:
                yield part, does(part)
            except RedisFault as fault:
                part.failed(fault)

    def _look_for(self, digest: str) -> tuple[bytes | None, list[Part]]:
        """An index, and who lacks it."""
        lacking = list[Part]()
        for part, data in self._asked(lambda part: part._got_index(digest)):
            if is_content(data, digest):
                return data, lacking
            lacking.append(part)
        return None, lacking

    def _index_there(self, digest: str) -> object:
        found, lacking = self._look_for(digest)
        for part in lacking if found else ():
            self._mend(part, "index", {digest: found or b""})
        return found

    def _get(self, fresh: Fresh, names: list[str], sizes: dict[str, int]) -> list[str]:
        left, lacked = names, list[tuple[Part, set[str]]]()
        with self.counts.timed(self.name, "get", self.log):
            for part, there in self._asked(lambda part: (left, part._got_chunks(left, sizes))):
                data = dict(zip(*there))
                left = [name for name in data if not self._take(fresh, name, data[name], sizes[name])]
                for other, some in lacked:
                    self._mend(other, "chunk", {name: data[name] for name in data if name in some and name not in left})
                lacked.append((part, set(left)))
                if not left:
                    break
            if not lacked:
                raise ChunksMissing(f"{self.name} gave no contents: no broker answers")
        return left

    def _packed_there(self, names: list[str], sizes: dict[str, int]) -> list[object]:
        raise NotImplementedError  # `_get` asks the brokers

    def _mend(self, part: Part, kind: str, some: dict[str, object]) -> None:
        """Gives a broker what it lacks, and another one has. Nobody waits for that, and what it doesn't get now it gets another time."""
        right = {name: data for name, data in some.items() if isinstance(data, bytes)}
        if right and self.mending.acquire(blocking=False):
            threading.Thread(target=self._put, args=(part, kind, right), daemon=True).start()

    def _put(self, part: Part, kind: str, some: dict[str, bytes]) -> None:
        try:
            part._put(kind, some)
        except RedisFault as fault:
            part.failed(fault)
        finally:
            self.mending.release()

    # What is forgotten.

    def _there(self) -> list[Part]:
        parts = [part for part in self.parts if part.answers()]
        if not parts:
            raise FarmFault(f"{self.name} can't be reached: no broker answers")
        return parts

    def _passing(self, ask: Callable[[], set[str]], grace: float) -> Passing:
        parts = self._there()
        made = Passing(parts, lambda digest: self.folder.index(digest) or self._look_for(digest)[0], ask, grace)
        made.is_whole = len(parts) == len(self.parts)
        return made

    def forget(self, ask: Callable[[], set[str]], grace: float, tell: Callable[[str], None] = lambda digest: None) -> tuple[int, int]:
        """Removes from each broker that answers what all of these need no more. Where one goes away meanwhile it begins anew."""
        for left in range(TRIES, 0, -1):
            try:
                gone = self._passing(ask, grace).run(tell)
                break
            except RedisFault as fault:
                if left == 1 or not is_away(fault):
                    raise FarmFault(f"{self.name} forgot nothing more: {fault}") from None
        for part in self.parts:
            if part.why:
                tell_people(f"{part.name} doesn't answer, so it forgets nothing now")
        return gone

    def tally(self) -> Tally:
        """What stands in several brokers counts once, with the youngest's age."""
        indexes, chunks = dict[str, Kept](), dict[str, int]()
        for part in self._there():
            tally = part.tally()
            for digest, kept in tally.indexes.items():
                before = indexes.get(digest, kept)
                indexes[digest] = Kept(min(before.age, kept.age), max(before.size, kept.size))
            chunks.update((name, max(size, chunks.get(name, 0))) for name, size in tally.chunks.items())
        return Tally(indexes, chunks)


class _Sending:
    """One content on its way to each broker, by a thread each. `changed` has all of it, but what a thread says of its progress."""

    def __init__(self, whole: BrokersStore, digest: str, index: bytes, base: bytes, field: str) -> None:
        self.whole, self.digest, self.index, self.base, self.field = whole, digest, index, base, field
        self.progress = {part: Progress(AWAY if field else 0.0) for part in whole.parts}
        self.changed = threading.Condition()
        self.tried, self.under_way = set[Part](), set[Part]()
        self.done = list[Part]()
        self.faults: dict[Part, Exception] = {}
        self.is_over = False  # whether nobody waits any more

    def run(self, away: Callable[[str], None] | None) -> list[Part]:
        """Waits until one broker has it, and a little for the others. Those that have it."""
        try:
            while not self._is_done():
                why = "; ".join(f"{part.server.where}: {fault}" for part, fault in self.faults.items())
                if away is None or all(not is_away(fault) or self.progress[part].is_over() for part, fault in self.faults.items()):
                    raise FarmFault(f"{self.whole.name} took no contents: {why}")
                away(f"waiting for {self.whole.name}, which takes no contents: {why}")
                time.sleep(LOOK_EVERY)
            return self.done
        finally:
            self._leave()

    def _is_done(self) -> bool:
        """Tries those that have a chance, and waits until one has it; or until all failed."""
        with self.changed:
            self.faults = {part: RedisAway(part.why or "it is behind") for part in self.whole.parts if not part.may_be_sent()}
            for part in [part for part in self.whole.parts if part not in self.faults] or self.whole.parts:
                self.tried.add(part)
                self.under_way.add(part)
                threading.Thread(target=self._give, args=(part,), daemon=True).start()
            self.changed.wait_for(lambda: self.done or not self.under_way)
            self.changed.wait_for(lambda: not self.under_way, LATE)
            return bool(self.done)

    def _give(self, part: Part) -> None:
        fault: Exception | None = None
        try:
            part.give(self.digest, self.index, self.base, self.field, self.progress[part])
            self.whole.told(part)
        except RedisFault as found:
            part.failed(found)
            fault = found
        except Exception as found:  # as where the folder has forgotten it meanwhile
            fault = found
        with self.changed:
            self.under_way.discard(part)
            is_late = self.is_over
            if fault:
                self.faults[part] = fault
            elif not is_late:
                self.done.append(part)
            self.changed.notify_all()
        if is_late:
            self._end(part)

    def _leave(self) -> None:
        """Those that come too late, and those that failed, hold nothing for it."""
        with self.changed:
            self.is_over = True
            late, failed = set(self.under_way), self.tried - self.under_way - {*self.done}
        for part in late:
            with part.guard:
                part.behind += 1
        for part in failed if self.field else ():
            part.let_go(self.field, is_answered=False)

    def _end(self, part: Part) -> None:
        """It had it, or failed, when nobody waited any more."""
        with part.guard:
            part.behind -= 1
        if self.field:
            part.let_go(self.field, is_answered=False)
