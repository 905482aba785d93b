"""Which folders a Dockerfile wants, and its text as the builder gets to read it.

Owes the filters that each cache mount of each stage that is built is on the list. Stages that the target doesn't need are emptied, so
that the builder can't run them. All other text the builder reads as its author wrote it, but for here-documents of RUN where the builder
has none: they become the JSON form. buildah 1.28 and BuildKit read some things otherwise, and a text is read as its builder will.
"""
from __future__ import annotations

import json
import os
import re
from dataclasses import dataclass, field
from typing import Callable, Iterable

from agent.build.dockertext import BadDockerfile, Flag, Instruction, Unknown, expanded, flags_of, instructions, pairs_of, raw_words
from agent.build.mounts import Mount, modes_of, mount_of
from agent.words import MOST_FOLDERS


@dataclass(frozen=True)
class Reader:
    """Who reads a Dockerfile."""

    is_buildkit: bool = False
    has_heredocs: bool = False
    platform: str | None = None  # that is built for, where that isn't this machine's


BUILDAH = Reader()
LEFT_OVER = re.compile(r"type=cache", re.IGNORECASE)


@dataclass
class Base:
    """What an image says of the builds that begin with it."""

    env: dict[str, str]
    onbuild: list[str] = field(default_factory=list)
    shell: list[str] | None = None


@dataclass(frozen=True)
class RunBegins:
    """Where the words of a RUN begin."""

    line: int


@dataclass
class Plan:
    pieces: list[str | Mount | RunBegins]  # the Dockerfile for the builder, with a hole for each cache mount, and before each RUN's words
    mounts: list[Mount]
    bases: list[str]
    target: str  # the stage that is built, by the name that the builder has for it

    def text(self, word: Callable[[Mount], str], first: str = "") -> str:
        """The Dockerfile with the builder's words of its mounts, and of each RUN the first ones."""
        return "".join(each if isinstance(each, str) else word(each) if isinstance(each, Mount) else first for each in self.pieces)

    def folders(self) -> dict[str, list[Mount]]:
        """The mounts by their folders."""
        found: dict[str, list[Mount]] = {}
        for mount in self.mounts:
            found.setdefault(mount.folder, []).append(mount)
        return dict(sorted(found.items()))


@dataclass
class Stage:
    place: int
    head: Instruction
    name: str  # empty where it has none
    base: Flag  # the word after FROM
    body: list[Instruction] = field(default_factory=list)
    env: dict[str, str] = field(default_factory=dict)
    args: dict[str, str] = field(default_factory=dict)
    said: dict[str, str] = field(default_factory=dict)  # by ARG or ENV, whichever came last
    shell: list[str] | None = None

    def begin(self, env: dict[str, str], said: dict[str, str], shell: list[str] | None) -> None:
        self.env, self.said, self.shell = dict(env), said | env, shell

    def values(self, reader: Reader) -> dict[str, str]:
        return self.said if reader.is_buildkit else self.args | self.env  # in buildah ENV wins

    def set_arg(self, key: str, value: str | None) -> None:
        for values in (self.args, self.said):
            _set(values, key, value)

    def set_env(self, key: str, value: str | None) -> None:
        for values in (self.env, self.said):
            _set(values, key, value)
        if value is None:
            self.args.pop(key, None)

    @property
    def builder_name(self) -> str:
        """buildah knows a stage by its name, and by its place only where it has none."""
        return self.name or str(self.place)

    def is_called(self, name: str) -> bool:
        if self.name and name != self.name and name.lower() == self.name.lower():
            raise BadDockerfile(self.head.line, f"the stage {self.name} is also called {name}: builders differ on whether that is the same")
        return name in (self.name, str(self.place))


def _set(values: dict[str, str], key: str, value: str | None) -> None:
    """Sets a variable; with none what it holds can't be told, which matters only where a mount uses it."""
    if value is None:
        values.pop(key, None)
    else:
        values[key] = value


def stage_of(place: int, head: Instruction) -> Stage:
    _, at = flags_of(head)
    words = head.text[at:].split()
    if not words:
        raise BadDockerfile(head.line, "FROM what?")
    name = words[2] if len(words) == 3 and words[1].upper() == "AS" else ""
    return Stage(place, head, name, Flag(words[0], at, at + len(words[0])))


def expand(line: int, word: str, values: dict[str, str], what: str, quotes: bool) -> str:
    try:
        return expanded(word, values, quotes)
    except Unknown as name:
        raise BadDockerfile(line, f"{what} `{word}` has the variable {name}, which no ARG or ENV before it sets") from None


class Planner:
    """Goes over one Dockerfile."""

    def __init__(self, text: str, build_args: dict[str, str], base_of: Callable[[str], Base], shared_as: Iterable[str], reader: Reader) -> None:
        self.text, self.base_of, self.modes, self.reader = text, base_of, modes_of(shared_as), reader
        arch = {"x86_64": "amd64", "aarch64": "arm64"}.get(os.uname().machine, os.uname().machine)
        own = platform_of("BUILD", f"linux/{arch}")
        self.platform = platform_of("TARGET", reader.platform or f"linux/{arch}") | own
        self.given = self.platform | build_args
        self.heading: dict[str, str] = {}
        self.stages: list[Stage] = []
        self.edits: list[tuple[int, int, list[str | Mount | RunBegins]]] = []
        self.mounts: list[Mount] = []
        self.bases: list[str] = []

    def plan(self, target: str | None) -> Plan:
        self._split()
        wanted = self._target(target)
        needed = self._needed(wanted)
        for stage in self.stages:
            if stage.place in needed:
                self._begin(stage)
                for instruction in stage.body:
                    self._read(stage, instruction)
            else:
                self._empty(stage)
        self._check_sharings()
        made = Plan(self._edited(), self.mounts, self.bases, wanted.builder_name)
        if self.reader.is_buildkit:
            check_unread(made)
        return made

    # Stages.

    def _split(self) -> None:
        for instruction in instructions(self.text, self.reader.is_buildkit):
            if instruction.keyword == "FROM":
                self.stages.append(stage_of(len(self.stages), instruction))
            elif self.stages:
                self.stages[-1].body.append(instruction)
            elif instruction.keyword == "ARG":
                for key, value in self._args(self.heading, instruction, {}).items():
                    _set(self.heading, key, value)
            elif self.reader.is_buildkit:
                raise BadDockerfile(instruction.line, f"{instruction.keyword[:40]} stands before the first FROM")
        if not self.stages:
            raise BadDockerfile(0, "the Dockerfile has no FROM")

    def _target(self, name: str | None) -> Stage:
        if name is None:
            return self.stages[-1]
        found = [stage for stage in self.stages if stage.is_called(name)]
        if not found:
            raise BadDockerfile(0, f"no stage is called {name}")
        return found[0]

    def _called(self, name: str, before: Stage) -> Stage | None:
        return next((stage for stage in reversed(self.stages[: before.place]) if stage.is_called(name)), None)

    def _base_name(self, stage: Stage) -> str:
        name = expand(stage.head.line, stage.base.word, self.platform | self.heading, "FROM", True)
        if self.reader.is_buildkit and name.isdigit():
            raise BadDockerfile(stage.head.line, f"FROM {name}: builders differ on whether that is a stage")
        return name

    def _needed(self, target: Stage) -> set[int]:
        """The places of the stages that a target comes from."""
        needed, new = {target.place}, [target]
        while new:
            stage = new.pop()
            base = self._called(self._base_name(stage), stage)
            found = [base, *(other for name in self._sources(stage) for other in self._copied(name, stage))]
            for other in found:
                if other and other.place not in needed:
                    needed.add(other.place)
                    new.append(other)
        return needed

    def _copied(self, name: str, stage: Stage) -> list[Stage | None]:
        """The stages that a source's name may mean. BuildKit finds later ones too."""
        if self.reader.is_buildkit:
            return [other for other in self.stages if "$" in name or other.is_called(name)]
        return [self._called(name, stage)] if "$" not in name else list(self.stages[: stage.place])

    def _sources(self, stage: Stage) -> list[str]:
        """The names that a stage copies and mounts from. An ONBUILD of it may name any."""
        names = []
        for instruction in stage.body:
            if instruction.keyword == "ONBUILD" and "from=" in instruction.text:
                names.append("$")
            for flag in flags_of(instruction)[0] if instruction.keyword in ("RUN", "COPY", "ADD") else []:
                if flag.word.startswith("--mount="):
                    names += self._mounted(flag.word.removeprefix("--mount="))
                elif flag.word.startswith("--from="):
                    names.append(flag.word[7:])
        return names

    def _mounted(self, value: str) -> list[str]:
        """The names that a mount says it is from. BuildKit expands the value of a key, which stays that key's."""
        parts = [part.partition("=") for part in value.split(",")]
        if any("$" in (key if self.reader.is_buildkit else key + text) for key, _, text in parts):
            return ["$"]
        return [text for key, _, text in parts if key.strip().lower() == "from"]

    def _empty(self, stage: Stage) -> None:
        """A stage that isn't needed keeps its name and place alone."""
        self._edit(stage.head, stage.base.begin, stage.base.end, "scratch")
        for instruction in stage.body:
            lines = self.text.count("\n", instruction.begin, instruction.end)
            self.edits.append((instruction.begin, instruction.end, ["\n" * lines]))

    def _begin(self, stage: Stage) -> None:
        name = self._base_name(stage)
        before = self._called(name, stage)
        if before:
            for instruction in before.body:
                if instruction.keyword == "ONBUILD":
                    self._check_trigger(stage, before.builder_name, instruction.rest)
            stage.begin(before.env, before.said, before.shell)
        elif name != "scratch":
            base = self.base_of(name)
            self.bases.append(name)
            for trigger in base.onbuild:
                self._check_trigger(stage, name, trigger)
            stage.begin(base.env, {}, base.shell)

    def _check_trigger(self, stage: Stage, name: str, trigger: str) -> None:
        for inner in instructions(trigger):
            if self.reader.is_buildkit and "from=" in trigger.lower():
                raise BadDockerfile(stage.head.line, f"{name} has `ONBUILD {trigger}`: the stage that it names may have cache mounts of its own")
            for flag in flags_of(inner)[0] if inner.keyword == "RUN" else []:
                if flag.word.startswith("--mount") and ("cache" in flag.word.lower() or "$" in flag.word):
                    raise BadDockerfile(stage.head.line, f"{name} has `ONBUILD {trigger}`: its cache can't be leased")

    # Instructions.

    def _read(self, stage: Stage, instruction: Instruction) -> None:
        keyword = instruction.keyword
        if keyword == "ARG":
            for key, value in self._args(stage.values(self.reader), instruction, self.heading).items():
                stage.set_arg(key, value)
        elif keyword == "ENV":
            self._env(stage, instruction)
        elif keyword == "SHELL":
            self._shell(stage, instruction)
        elif keyword == "RUN":
            self._run(stage, instruction)
        elif instruction.heredocs and not self.reader.has_heredocs:
            told = "this daemon's BuildKit has none: a first line `# syntax=docker/dockerfile:1` gets one that has" if self.reader.is_buildkit else (
                "buildah 1.28 has none, and nothing stands for them"
            )
            raise BadDockerfile(instruction.line, f"here-documents of {keyword}: {told}")

    def _args(self, values: dict[str, str], instruction: Instruction, heading: dict[str, str]) -> dict[str, str | None]:
        """What an ARG sets; none, where that can't be told. BuildKit's versions differ on whether one sees those of its own line."""
        pairs = pairs_of(instruction.rest, False)
        own = {key for key, _ in pairs} if self.reader.is_buildkit else set()
        found: dict[str, str | None] = {}
        for key, value in pairs:
            if key in self.given:
                found[key] = self.given[key]
            elif value is not None:
                seen = {name: text for name, text in (values | found).items() if text is not None and name not in own - {key}}
                try:
                    found[key] = expanded(value, seen)
                except Unknown:
                    found[key] = None
            elif key in heading:
                found[key] = heading[key]
        return found

    def _env(self, stage: Stage, instruction: Instruction) -> None:
        values = dict(stage.values(self.reader))
        for key, value in pairs_of(instruction.rest, True):
            try:
                stage.set_env(key, expanded(value or "", values))
            except Unknown:
                stage.set_env(key, None)

    def _shell(self, stage: Stage, instruction: Instruction) -> None:
        try:
            words = json.loads(instruction.rest)
        except ValueError:
            words = None
        if not isinstance(words, list) or not all(isinstance(word, str) for word in words):
            raise BadDockerfile(instruction.line, "SHELL wants a list of texts")
        stage.shell = words

    def _run(self, stage: Stage, instruction: Instruction) -> None:
        flags, at = flags_of(instruction)
        begins = RunBegins(instruction.line)
        words: list[str | Mount | RunBegins] = ["RUN ", begins]
        for flag in flags:
            word = instruction.text[flag.begin : flag.end]
            found = self._mount(stage, instruction, flag)
            if isinstance(found, Mount):
                self.mounts.append(found)
            words += [found or word, " "]
            if found and not (instruction.heredocs and not self.reader.has_heredocs):
                self._edit(instruction, flag.begin, flag.end, found)
        if instruction.heredocs and not self.reader.has_heredocs:
            script = script_of(instruction, instruction.text[at:].rstrip())
            words.append(json.dumps([*(stage.shell or ["/bin/sh", "-c"]), script]) + "\n")
            self.edits.append((instruction.begin, instruction.end, words))
        elif instruction.rest:
            at = instruction.chars[instruction.rest_at][1]
            self.edits.append((at, at, [begins]))

    def _mount(self, stage: Stage, instruction: Instruction, flag: Flag) -> Mount | str | None:
        """The cache mount of a flag; else its word, where BuildKit isn't to expand that once more; else none."""
        if not flag.word.startswith("--mount="):
            return None
        value, line = flag.word.removeprefix("--mount="), instruction.line
        if any(c in value for c in "\"'\\"):
            if "cache" in value.lower() or "$" in value:
                raise BadDockerfile(line, f"mount `{value[:200]}`: quotes and backslashes within it have no one reading")
            return None
        has_variables = "$" in value
        if has_variables:
            value = expand(line, value, stage.values(self.reader), "mount", False)
        mount = mount_of(line, value, self.modes)
        if mount or not (has_variables and self.reader.is_buildkit):
            return mount
        if value.count(",") != flag.word.count(",") or any(c.isspace() or c in "\"'\\$" for c in value):
            raise BadDockerfile(line, f"mount `{value[:200]}`: its variables' commas, spaces, quotes and $ have no one reading")
        return f"--mount={value}"

    # The text.

    def _edit(self, instruction: Instruction, begin: int, end: int, word: str | Mount) -> None:
        self.edits.append((instruction.chars[begin][1], instruction.chars[end - 1][1] + 1, [word]))

    def _edited(self) -> list[str | Mount | RunBegins]:
        pieces: list[str | Mount | RunBegins] = []
        at = 0
        for begin, end, words in sorted(self.edits, key=lambda edit: edit[:2]):
            pieces += [self.text[at:begin], *words]
            at = end
        return [*pieces, self.text[at:]]

    def _check_sharings(self) -> None:
        by_id: dict[str, Mount] = {}
        for mount in self.mounts:
            other = by_id.setdefault(mount.id, mount)
            if other.sharing != mount.sharing:
                raise BadDockerfile(
                    mount.line, f"the id {mount.id[:200]!r} is {mount.sharing}, and {other.sharing} in line {other.line}: they would be two folders"
                )
        if len(by_id) > MOST_FOLDERS:
            raise BadDockerfile(0, f"{len(by_id)} cache folders: one lease has at most {MOST_FOLDERS}")


def check_unread(plan: Plan) -> None:
    """Refuses what may be a cache mount to BuildKit, and was none to this reader: it would run outside of any lease."""
    lines = [(number, line) for number, line in enumerate(plan.text(lambda mount: "").split("\n"), 1) if not line.lstrip().startswith("#")]
    whole = "".join(f"{re.sub('[^ -~]', '', line)}\n" for _, line in lines)
    joined = re.sub(r"[\\`] *\n", "", whole)
    if LEFT_OVER.search(re.sub(r"[\"'\\` ]", "", joined)):
        line = next((number for number, line in lines if LEFT_OVER.search(line)), 0)
        raise BadDockerfile(line, "`type=cache` stands where no cache mount of a RUN is read, and BuildKit might find one there: spell it otherwise")


def platform_of(front: str, text: str) -> dict[str, str]:
    """The variables of a platform: OS/ARCHITECTURE[/VARIANT]."""
    system, arch, variant = (text.split("/") + ["", ""])[:3]
    return {f"{front}PLATFORM": text, f"{front}OS": system, f"{front}ARCH": arch, f"{front}VARIANT": variant}


def script_of(instruction: Instruction, rest: str) -> str:
    """The shell's text of a RUN with here-documents."""
    first = instruction.heredocs[0]
    if len(instruction.heredocs) == 1 and first.whole and len(raw_words(rest)) == 1:
        body = re.sub(r"(?m)^\t+", "", first.body) if first.chomp else first.body
        if body.startswith("#!"):
            raise BadDockerfile(instruction.line, "a here-document that begins with #! isn't carried out")
        return body
    return rest + "".join("\n" + heredoc.body + heredoc.name for heredoc in instruction.heredocs) + "\n"


def plan(
    text: str, build_args: dict[str, str], target: str | None, base_of: Callable[[str], Base], shared_as: Iterable[str] = (), reader: Reader = BUILDAH
) -> Plan:
    """What a Dockerfile wants, and what the builder gets to read."""
    return Planner(text, build_args, base_of, shared_as, reader).plan(target)
