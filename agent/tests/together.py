#!/usr/bin/env python3
"""Runs the agent's tests class by class, as many at once as there are processors: most of them wait. A class that failed is tried once
more, alone, since its tests wait for real processes.

The last line is `N classes passed, M failed`, and the status is 1 where one failed twice.
"""
from __future__ import annotations

import os
import re
import subprocess
import sys
import time
import unittest
from concurrent.futures import ThreadPoolExecutor
from dataclasses import dataclass
from pathlib import Path
from typing import Iterator

sys.dont_write_bytecode = True
TOP = Path(__file__).resolve().parents[2]
FIRST = ("test_farm", "test_types", "test_builds", "test_s3", "test_merged", "test_release")  # the modules that take longest
MOST = 900.0  # seconds for a class


@dataclass(frozen=True)
class Ran:
    """What came of a class."""

    name: str
    said: str
    passed: bool
    seconds: float

    def line(self) -> str:
        skipped = re.search(r"skipped=(\d+)", self.said)
        left_out = f", {skipped[1]} tests skipped" if skipped else ""
        return f"{self.name}: {'passed' if self.passed else 'FAILED'}, {self.seconds:.1f} seconds{left_out}"


def cases(suite: unittest.TestSuite) -> Iterator[unittest.TestCase]:
    for each in suite:
        if isinstance(each, unittest.TestSuite):
            yield from cases(each)
        else:
            yield each


def classes() -> list[str]:
    """The classes with tests, the slowest modules first."""
    found = unittest.defaultTestLoader.discover(str(TOP / "agent/tests"), top_level_dir=str(TOP))
    names = sorted({f"{type(case).__module__}.{type(case).__qualname__}" for case in cases(found)})
    module = {name: name.split(".")[2] for name in names}
    return sorted(names, key=lambda name: FIRST.index(module[name]) if module[name] in FIRST else len(FIRST))


def ran(name: str) -> Ran:
    begun = time.monotonic()
    try:
        done = subprocess.run(
            [sys.executable, "-m", "unittest", name], cwd=TOP, stdin=subprocess.DEVNULL, stdout=subprocess.PIPE, stderr=subprocess.STDOUT, text=True,
            errors="replace", timeout=MOST,
        )
        said, passed = done.stdout, done.returncode == 0
    except subprocess.TimeoutExpired as late:
        said, passed = f"{late.output}\nit didn't end within {MOST:.0f} seconds", False
    return Ran(name.removeprefix("agent.tests."), said, passed, time.monotonic() - begun)


def told(each: Ran) -> Ran:
    print(each.line() if each.passed else f"{each.said}\n{each.line()}", flush=True)
    return each


def main() -> int:
    names = classes()
    with ThreadPoolExecutor(os.cpu_count()) as pool:
        first = list(pool.map(lambda name: told(ran(name)), names))
    again = [told(ran(f"agent.tests.{each.name}")) for each in first if not each.passed]
    failed = sum(not each.passed for each in again)
    print(f"{len(names) - failed} classes passed, {failed} failed")
    return 1 if failed or not names else 0


if __name__ == "__main__":
    sys.exit(main())
