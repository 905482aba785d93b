"""The programs that the agent calls: where they are, and what installs those that aren't there.

Owes the filters that the program it starts is the repository's own, built from the sources that stand here, unless FARMCTL names another.
"""
from __future__ import annotations

import os
import shutil
import signal
import subprocess
from typing import Callable

from agent.faults import FarmFault, Missing
from release import choice

PACKAGES = {"ip": "iproute2", "busybox": "busybox-static", "docker": "docker.io"}  # where a package has another name
TOP = os.path.dirname(os.path.dirname(os.path.abspath(__file__)))
LOOK = 0.2  # seconds after which it is seen that nobody waits any more


def need(tool: str) -> str:
    """The path of a program of the distribution."""
    found = shutil.which(tool)
    if not found:
        raise Missing(f"{tool} isn't installed: apt-get install {PACKAGES.get(tool, tool)}")
    return found


class Spoilt(FarmFault):
    """The released program isn't the file that was released."""


def farm_choice() -> choice.Choice:
    """The program whose processes decide, and what it is."""
    try:
        return choice.chosen_filter()
    except choice.NoProgram as fault:
        raise (Spoilt if fault.status == choice.SPOILT else Missing)(str(fault)) from None


def farm_program() -> str:
    """The path of the program whose processes decide."""
    return farm_choice().path


def why(done: subprocess.CompletedProcess[str]) -> str:
    """Why a program failed: its last words, or its status, where it had none, as one that was killed."""
    return " ".join(done.stderr.split())[-300:] or f"it ended with status {done.returncode}"


def whole(process: subprocess.Popen[str], check: Callable[[], None], ending: int = signal.SIGKILL) -> subprocess.CompletedProcess[str]:
    """What came of a program, once it has ended. Where `check` finds that nobody waits for it any more it is ended by this signal."""
    with process:
        try:
            while True:
                try:
                    said, errors = process.communicate(timeout=LOOK)
                    return subprocess.CompletedProcess(process.args, process.returncode, said, errors)
                except subprocess.TimeoutExpired:
                    check()
        except BaseException:
            process.send_signal(ending)
            process.wait()  # also after Ctrl-C, which Python waits for a moment only
            raise
