"""What keeps the steps of buildah's builds apart from the machine: an OCI runtime where one works here, else chroot, which is no wall.

Owes the filters nothing: a build's processes end with its pid namespace, whatever runs them.
"""
from __future__ import annotations

import contextlib
import glob
import json
import os
import shutil
import subprocess
import tempfile
from dataclasses import dataclass

from agent.faults import FarmFault, Missing

RUNTIMES = ("crun", "runc")
WAYS = ("oci", "chroot")
# What gives a step a network of its own: CNI's plugin, or Podman's program, which newer buildahs call. Without both it has the machine's.
BRIDGES = ("/usr/lib/cni/bridge", "/usr/lib/podman/netavark", "/usr/libexec/podman/netavark")
PATIENCE = 120.0  # seconds for a runtime that is tried
NO_WALL = "its steps can read what this machine's root can"


@dataclass(frozen=True)
class Isolation:
    runtime: str = ""  # the program's path; empty: by chroot
    why: str = ""  # what keeps from a runtime

    @property
    def is_wall(self) -> bool:
        return bool(self.runtime)

    def __str__(self) -> str:
        return f"steps run by {os.path.basename(self.runtime)}" if self.is_wall else f"steps run by chroot, which is no wall: {NO_WALL}. {self.why}"

    def words(self, room: str, network: str | None) -> list[str]:
        """The words of a build in this room: there the runtime keeps what it knows of the build's containers."""
        if not self.is_wall:
            return ["--isolation", "chroot"]
        network = network or (None if any(map(os.path.exists, BRIDGES)) else "host")
        return ["--isolation", "oci", "--runtime", self.runtime, "--runtime-flag", f"root={room}/runtime", *([f"--network={network}"] if network else [])]

    def forget(self, room: str) -> None:
        """Removes what a killed build in this room left of its containers outside of it: their cgroups, in which nothing runs."""
        for path in glob.glob(f"{glob.escape(room)}/runtime/*") if self.is_wall else ():
            words = [self.runtime, "--root", f"{room}/runtime", "delete", "--force", os.path.basename(path)]
            with contextlib.suppress(subprocess.TimeoutExpired):
                subprocess.run(words, stdin=subprocess.DEVNULL, stdout=subprocess.DEVNULL, stderr=subprocess.DEVNULL, timeout=PATIENCE)


def found(wanted: str | None = None) -> Isolation:
    """The isolation that is wanted, or the best that there is. Refused where a runtime is wanted and none works."""
    if wanted == "chroot":
        return Isolation("", "It is what the node was begun with.")
    reasons = []
    for name in RUNTIMES:
        runtime = shutil.which(name)
        trouble = fault_of(runtime) if runtime else "isn't installed"
        if runtime and not trouble:
            return Isolation(runtime)
        reasons.append(f"{name} {trouble}")
    why = f"No OCI runtime works here: {'; '.join(reasons)}."
    if wanted == "oci":
        raise Missing(f"{why} apt-get install runc, or begin the node with --isolation chroot, which is no wall: {NO_WALL}")
    return Isolation("", why)


def fault_of(runtime: str) -> str:
    """Why a runtime can't run a container here, by trying; empty where it can."""
    with tempfile.TemporaryDirectory(prefix="farm-isolation-") as room:
        os.mkdir(f"{room}/root")
        with open(f"{room}/config.json", "w") as file:
            json.dump(_container(), file)
        words = [runtime, "--root", f"{room}/runtime", "run", "--bundle", room, os.path.basename(room)]  # its cgroup has the name too
        try:
            done = subprocess.run(words, stdin=subprocess.DEVNULL, stdout=subprocess.DEVNULL, stderr=subprocess.PIPE, text=True, errors="replace", timeout=PATIENCE)
        except subprocess.TimeoutExpired:  # it may work, and a build without a wall isn't begun for that
            raise FarmFault(f"{runtime} ran no container within {PATIENCE:.0f} seconds: try again when this machine is less busy") from None
        except OSError as fault:
            return str(fault)
        return "" if done.returncode == 0 else f"says: {' '.join(done.stderr.split())[-200:] or done.returncode}"


def _container() -> dict[str, object]:
    """A container that ends well at once, as the runtimes' specification spells it: this machine's programs, read-only, in namespaces of its own."""
    folders = [path for path in ("/usr", "/bin", "/lib", "/lib64") if os.path.isdir(path)]
    mounts = [{"destination": path, "type": "bind", "source": os.path.realpath(path), "options": ["rbind", "ro"]} for path in folders]
    return {
        "ociVersion": "1.0.2",
        "process": {"user": {"uid": 0, "gid": 0}, "args": ["/usr/bin/true"], "cwd": "/", "env": []},
        "root": {"path": "root"},
        "mounts": [{"destination": "/proc", "type": "proc", "source": "proc"}, *mounts],
        "linux": {"namespaces": [{"type": kind} for kind in ("pid", "mount", "ipc", "uts", "network")]},
    }
