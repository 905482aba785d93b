"""What can be said of the agent's code without running it."""
from __future__ import annotations

import glob
import shutil
import subprocess
import sys
import tempfile
import unittest

from agent.tests import support

PYTHONS = (sys.executable, "/usr/bin/python3")  # the second has what the distribution installs


SCRIPTS = (glob.glob("printed/*.py", root_dir=support.TOP), ["refused-memory/run.py"], [".ci/dearest"], ["farmctl"], ["release/make"], ["packaging/deb/texts.py"])


def python_with(module: str) -> str | None:
    """A Python that has a module."""
    calls = (subprocess.run([python, "-c", f"import {module}"], capture_output=True) for python in PYTHONS)
    return next((python for python, call in zip(PYTHONS, calls) if call.returncode == 0), None)


class Types(unittest.TestCase):
    def test_strict(self) -> None:
        python = python_with("mypy")
        if python is None:
            self.skipTest(support.needs("mypy"))
        cache = tempfile.TemporaryDirectory()
        self.addCleanup(cache.cleanup)
        words = [python, "-m", "mypy", "--strict", "--python-version", "3.11", "--cache-dir", cache.name]
        # apart, since two scripts are called `run`
        for files in (["agent", "release", "farm"], *SCRIPTS):
            done = subprocess.run([*words, *files], cwd=support.TOP, capture_output=True, text=True)
            self.assertEqual(done.returncode, 0, done.stdout + done.stderr)

    def test_lint(self) -> None:
        """By ruff, whose rules pyproject.toml has; where it isn't there pyflakes looks for names that are unknown or unused."""
        ruff, python = shutil.which("ruff"), python_with("pyflakes")
        if ruff is None and python is None:
            self.skipTest(support.needs("python3-pyflakes"))
        words = [ruff, "check"] if ruff else [str(python), "-m", "pyflakes"]
        files = ["agent", "release", "farm", *(file for files in SCRIPTS for file in files)]
        done = subprocess.run([*words, *files], cwd=support.TOP, capture_output=True, text=True)
        self.assertEqual(done.returncode, 0, done.stdout + done.stderr)


if __name__ == "__main__":
    unittest.main()
