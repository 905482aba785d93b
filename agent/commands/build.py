"""What `farm build` asks a node: its words, and what of the caller's environment and files belongs to a build.

Owes the filters nothing. A caller's registry logins go with his build, and the agent keeps them no longer than that.
"""
from __future__ import annotations

import argparse
import contextlib
import hashlib
import json
import os
from typing import Any

from agent.build.builder import check_tag
from agent.commands.run import own_folder
from agent.faults import UsageFault
from agent.service.client import Asked
from agent.service.requests import BUILD_ENV, BuildOptions, BuildRequest, Built

LOGINS = ("auths", "credsStore", "credHelpers")  # of Docker's config.json
UNIX = "unix://"
OWN = f"{UNIX}/var/run/docker.sock"
OF_DOCKER = ("cache_from", "build_context", "progress")


def request_of(args: argparse.Namespace) -> BuildRequest:
    for tag in args.tag:
        check_tag(tag)
    is_docker = args.builder == "docker"
    for name in () if is_docker else OF_DOCKER:
        if getattr(args, name):
            raise UsageFault(f"--{name.replace('_', '-')} is Docker's: it goes with --builder docker")
    if args.platform and "," in args.platform:
        raise UsageFault(f"--platform {args.platform}: one lease builds for one platform")
    if is_docker and args.format:
        raise UsageFault("--format is buildah's: the Docker daemon chooses it")
    if is_docker and args.layers:
        raise UsageFault("--layers is buildah's: Docker's BuildKit caches instructions by itself")
    given = [word.partition("=") for word in args.build_arg]
    return BuildRequest(
        cwd=own_folder(), context=os.path.abspath(args.context), file=args.file, tags=tuple(args.tag), push=args.push, target=args.target,
        build_args={key: value if equals else os.environ[key] for key, equals, value in given if equals or key in os.environ},
        format=args.format, wait=args.wait, must_commit=args.must_commit, stops_when_lost=args.on_lost == "stop", shared_as=tuple(args.shared_as),
        keep_failed=args.keep_failed, tag_fenced=args.tag_fenced, env=passed_on(args),
        on_conflict=args.on_conflict, tells_conflicts=args.verbose, is_warm=args.warm, who=args.who or "",
        builder=args.builder, daemon=daemon() if is_docker else "", shares_daemon=args.shares_daemon,
        options=BuildOptions(
            network=args.network, progress=args.progress, platform=args.platform, quiet=args.quiet, layers=args.layers, no_cache=args.no_cache, pull=args.pull,
            secrets=tuple(args.secret), ssh=tuple(args.ssh), cache_from=tuple(args.cache_from), contexts=tuple(args.build_context),
            logins=logins(is_docker),
        ),
    )


def passed_on(args: argparse.Namespace) -> dict[str, str]:
    """What of the caller's environment a build gets: proxies, the agent of its SSH keys, and the secrets that lie there."""
    parts = [dict(part.partition("=")[::2] for part in word.split(",")) for word in args.secret]
    names = [*BUILD_ENV, *(["SSH_AUTH_SOCK"] if args.ssh else []), *(each.get("env") or each.get("id", "") for each in parts if "src" not in each)]
    return {name: os.environ[name] for name in names if name and name in os.environ}


def take_built(args: argparse.Namespace, asked: Asked) -> int:
    if args.iidfile and isinstance(asked.told, Built):
        with open(args.iidfile, "w") as file:
            file.write(asked.told.image)
    if args.quiet and args.builder == "buildah" and isinstance(asked.told, Built):
        print(asked.told.image)  # beside an iidfile, as the agent has it, buildah doesn't
    return asked.status


def config_home() -> str:
    return os.environ.get("DOCKER_CONFIG") or os.path.expanduser("~/.docker")


def object_in(path: str) -> dict[str, Any]:
    """The object that a file of JSON holds; an empty one where it holds none."""
    with contextlib.suppress(OSError, ValueError), open(path) as file:
        found = json.load(file)
        return found if isinstance(found, dict) else {}
    return {}


def logins(is_docker: bool) -> str | None:
    own = [os.environ.get("REGISTRY_AUTH_FILE"), f"{os.environ.get('XDG_RUNTIME_DIR') or f'/run/containers/{os.getuid()}'}/containers/auth.json"]
    for path in [*([] if is_docker else filter(None, own)), f"{config_home()}/config.json"]:
        found = {key: value for key, value in object_in(path).items() if key in LOGINS}
        if found:
            return json.dumps(found)
    return None


def daemon() -> str:
    """The address of the daemon that `docker build` would ask. A builder with a BuildKit of its own is none."""
    home = config_home()
    if os.environ.get("DOCKER_HOST"):
        host = os.environ["DOCKER_HOST"]
    else:
        context = os.environ.get("DOCKER_CONTEXT") or object_in(f"{home}/config.json").get("currentContext") or "default"
        meta = object_in(f"{home}/contexts/meta/{hashlib.sha256(context.encode()).hexdigest()}/meta.json")
        if context != "default" and not meta:
            raise UsageFault(f"Docker's context {context} isn't in {home}/contexts")
        host = str(meta.get("Endpoints", {}).get("docker", {}).get("Host") or OWN)
    chosen = os.environ.get("BUILDX_BUILDER") or object_in(f"{home}/buildx/current").get("Name") or "default"
    driver = object_in(f"{home}/buildx/instances/{chosen}").get("Driver", "docker")
    if driver != "docker":
        raise UsageFault(f"the builder {chosen} is of {driver}, and keeps its cache mounts where no farm can fill them: docker buildx use default")
    return UNIX + os.path.realpath(host.removeprefix(UNIX)) if host.startswith(UNIX) else host
