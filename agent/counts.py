"""What an agent's process counted since it began: numbers that rise, numbers that are now, and how long things took.

Owes the filters nothing: nothing rests on a count.
"""
from __future__ import annotations

import bisect
import contextlib
import threading
import time
from typing import Callable, Iterator, NamedTuple

BOUNDS = (0.01, 0.1, 0.5, 1.0, 5.0, 15.0, 60.0, 300.0, 1800.0, 7200.0)  # seconds, of a histogram

Labels = tuple[tuple[str, str], ...]


class Sample(NamedTuple):
    """One number: of a histogram each bound has one, and the sum."""

    name: str
    labels: dict[str, str]
    value: float


class Counts:
    """One lock has it all. A number's labels are words, few of each."""

    def __init__(self) -> None:
        self.lock = threading.Lock()
        self.values: dict[tuple[str, Labels], float] = {}
        self.times: dict[tuple[str, Labels], list[float]] = {}  # how many ended within each bound but not the one before, those beyond all, the sum
        self.away: dict[str, str] = {}  # of what was asked last: why it failed, or no words

    def add(self, name: str, by: float = 1, **labels: str) -> None:
        with self.lock:
            key = (name, tuple(labels.items()))
            self.values[key] = self.values.get(key, 0) + by

    def set(self, name: str, value: float, **labels: str) -> None:
        with self.lock:
            self.values[(name, tuple(labels.items()))] = value

    def took(self, name: str, seconds: float, **labels: str) -> None:
        """Something of a histogram lasted so long."""
        with self.lock:
            row = self.times.setdefault((name, tuple(labels.items())), [0.0] * (len(BOUNDS) + 2))
            row[bisect.bisect_left(BOUNDS, seconds)] += 1
            row[-1] += seconds

    def reached(self, what: str, why: str = "") -> str:
        """Whether something did just now what it was asked; else why not. What is new of that, in words."""
        with self.lock:
            before, self.values[("reachable", (("what", what),))] = self.away.get(what, ""), float(not why)
            self.away[what] = why
        return f"{what} fails: {why}" if why and not before else f"{what} works again" if before and not why else ""

    def troubles(self, front: str) -> tuple[str, ...]:
        """Those of what begins so that failed when they were asked last, in words."""
        with self.lock:
            return tuple(f"{what} fails: {why}" for what, why in sorted(self.away.items()) if why and what.startswith(front))

    @contextlib.contextmanager
    def timed(self, what: str, does: str, log: Callable[[str, int], None]) -> Iterator[None]:
        """A request to a store: how long it took, or that it failed."""
        begun = time.monotonic()
        try:
            yield
        except Exception as fault:
            self.add("store_faults_total", does=does)
            if said := self.reached(what, " ".join(str(fault).split()) or type(fault).__name__):
                log(said, 4)
            raise
        self.took("store_seconds", time.monotonic() - begun, does=does)
        if said := self.reached(what):
            log(said, 5)

    def told(self) -> tuple[Sample, ...]:
        with self.lock:
            values, times = dict(self.values), {key: list(row) for key, row in self.times.items()}
        found = [Sample(name, dict(labels), value) for (name, labels), value in values.items()]
        for (name, labels), row in times.items():
            count = 0.0
            for bound, some in zip([*map("{:g}".format, BOUNDS), "+Inf"], row):
                count += some
                found.append(Sample(f"{name}_bucket", {**dict(labels), "le": bound}, count))
            found += [Sample(f"{name}_sum", dict(labels), row[-1]), Sample(f"{name}_count", dict(labels), count)]
        return tuple(sorted(found, key=lambda each: each.name.partition("_bucket")[0]))
