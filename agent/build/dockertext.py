"""The text of a Dockerfile as instructions, each character with its place in the source.

Owes the filters nothing; owes the builder that lines, continuations, comments and quotes are read as buildah 1.28 reads them, or BuildKit
where that builds, and here-documents as BuildKit does. Where BuildKit's versions differ a text is refused.
"""
from __future__ import annotations

import re
from dataclasses import dataclass, field

HEREDOC = re.compile(r"^(\d*)<<(-?)([^<]*)$")
NAME = re.compile(r"[A-Za-z_][A-Za-z0-9_]*")
DIRECTIVES = ("syntax", "escape")  # any other line ends them, in each BuildKit
DIRECTIVE = re.compile(r"#\s*([A-Za-z][A-Za-z0-9]*)\s*=\s*(.+?)\s*$")


class BadDockerfile(Exception):
    """Why a Dockerfile can't be built under leases. Line 0 is none of its lines."""

    def __init__(self, line: int, why: str) -> None:
        super().__init__(f"line {line}: {why}" if line else why)


@dataclass
class Heredoc:
    name: str
    chomp: bool
    whole: bool  # its word has no descriptor before it
    body: str = ""


@dataclass
class Instruction:
    line: int
    chars: list[tuple[str, int]]
    end: int  # behind the last source line of it, here-documents included
    heredocs: list[Heredoc] = field(default_factory=list)

    @property
    def text(self) -> str:
        return "".join(c for c, _ in self.chars)

    @property
    def begin(self) -> int:
        return self.chars[0][1]

    @property
    def keyword(self) -> str:
        return self.text.split(None, 1)[0].upper()

    @property
    def rest_at(self) -> int:
        """Where the arguments begin."""
        found = re.match(r"\s*\S+\s*", self.text)
        assert found
        return found.end()

    @property
    def rest(self) -> str:
        return self.text[self.rest_at :]


@dataclass
class Flag:
    word: str  # without its quotes
    begin: int  # in the instruction
    end: int


class Unknown(Exception):
    """A variable that nothing sets."""


def raw_words(text: str) -> list[str]:
    """The words of a shell's line with their quotes."""
    words, word, quote, at = [], "", "", 0
    while at < len(text):
        c = text[at]
        at += 1
        if c == "\\" and quote != "'" and at < len(text):
            word += c + text[at]
            at += 1
        elif quote or not c.isspace():
            quote = ("" if c == quote else quote) if quote else (c if c in "'\"" else "")
            word += c
        elif word:
            words.append(word)
            word = ""
    return [*words, word] if word else words


def heredocs_of(text: str) -> list[Heredoc]:
    found = []
    for word in raw_words(text):
        match = HEREDOC.match(word)
        if match and match[3]:
            name = re.sub(r"""\\(.)|['"]""", lambda m: m[1] or "", match[3])
            found.append(Heredoc(name, bool(match[2]), not match[1]))
    return found


class _Reader:
    """Goes over the source's lines."""

    def __init__(self, text: str, is_buildkit: bool) -> None:
        self.length, self.is_buildkit = len(text), is_buildkit
        self.lines: list[tuple[int, str]] = []
        at = 0
        for raw in text.split("\n"):  # and at none of Unicode's other line ends
            self.lines.append((at, raw.removesuffix("\r")))
            at += len(raw) + 1
        self.next = 0
        self.escape = "\\"
        self.may_direct = True

    def _place(self, number: int) -> int:
        return self.lines[number][0] if number < len(self.lines) else self.length

    def instruction(self) -> Instruction | None:
        """The next instruction; none for a line that is empty or a comment."""
        first = self.next
        start, line = self.lines[first]
        self.next += 1
        skip = len(line) - len(line.lstrip())
        line, start = line[skip:], start + skip
        if first == 0 and line.startswith("\ufeff"):
            line, start = line[1:], start + 1
        if line.startswith("#"):
            self._direct(first, line)
            return None
        self.may_direct = False
        chars = self._joined(line, start) if line else []
        if not "".join(c for c, _ in chars).strip():
            return None
        made = Instruction(first + 1, chars, self._place(self.next))
        words = made.text.split()
        inner = words[1].upper() if made.keyword == "ONBUILD" and len(words) > 1 else made.keyword
        if inner in ("RUN", "COPY", "ADD"):
            self._take_heredocs(made)
            made.end = self._place(self.next)
        return made

    def _direct(self, number: int, line: str) -> None:
        match = DIRECTIVE.match(line)
        if self.may_direct and match and match[1].lower() == "escape":
            if match[2] not in ("\\", "`"):
                raise BadDockerfile(number + 1, f"escape character {match[2]}")
            if match[2] == "`" and number and not self.is_buildkit:
                raise BadDockerfile(number + 1, "`# escape=` has to be the first line: buildah doesn't see it elsewhere")
            self.escape = match[2]
        self.may_direct = self.may_direct and bool(match) and (not self.is_buildkit or match is not None and match[1].lower() in DIRECTIVES)

    def _joined(self, line: str, start: int) -> list[tuple[str, int]]:
        """A line and those that continue it. Comments and empty lines among these are no part of it."""
        mark = re.escape(self.escape)
        ends, ends_twice = re.compile(f"{mark}[ \\t]*$"), re.compile(f"{mark}{mark}[ \\t]*$")
        chars: list[tuple[str, int]] = []
        while True:
            if self.is_buildkit and ends_twice.search(line):
                raise BadDockerfile(self.next, f"it ends with {self.escape * 2}: BuildKit's versions differ on whether the next line belongs to it")
            found = ends.search(line)
            kept = line[: found.start()] if found else line
            chars += [(c, start + k) for k, c in enumerate(kept)]
            if not found:
                return chars
            while self.next < len(self.lines):
                start, line = self.lines[self.next]
                self.next += 1
                if line.strip() and not line.lstrip().startswith("#"):
                    break
            else:
                return chars

    def _take_heredocs(self, made: Instruction) -> None:
        for heredoc in heredocs_of(made.rest):
            body, after = [], self.next
            while after < len(self.lines):
                line = self.lines[after][1]
                after += 1
                if (line.lstrip("\t") if heredoc.chomp else line) == heredoc.name:
                    break
                body.append(line + "\n")
            else:
                return  # without its end it is no here-document
            heredoc.body = "".join(body)
            made.heredocs.append(heredoc)
            self.next = after


def instructions(text: str, is_buildkit: bool = False) -> list[Instruction]:
    reader = _Reader(text, is_buildkit)
    found = []
    while reader.next < len(reader.lines):
        made = reader.instruction()
        if made:
            found.append(made)
    return found


def flags_of(instruction: Instruction) -> tuple[list[Flag], int]:
    """The leading `--` words of an instruction, and where the rest begins."""
    text, at = instruction.text, instruction.rest_at
    flags: list[Flag] = []
    while True:
        while at < len(text) and text[at].isspace():
            at += 1
        if not text.startswith("--", at):
            return flags, at
        begin = at
        word, at = _unquoted(text, at)
        if word == "--":
            return flags, at
        flags.append(Flag(word, begin, at))


def _unquoted(text: str, at: int) -> tuple[str, int]:
    """A word without its quotes, and where it ends."""
    word, quote = "", ""
    while at < len(text) and (quote or not text[at].isspace()):
        c = text[at]
        if c == "\\":
            at += 1
            word += text[at : at + 1]
        elif quote:
            word, quote = (word, "") if c == quote else (word + c, quote)
        elif c in "'\"":
            quote = c
        else:
            word += c
        at += 1
    return word, min(at, len(text))


def expanded(word: str, values: dict[str, str], quotes: bool = True) -> str:
    """A word with its variables. A name that nothing sets is Unknown."""
    result, at, quote = "", 0, ""
    while at < len(word):
        c = word[at]
        if quotes and c == "\\" and quote != "'":
            result += word[at + 1 : at + 2]
            at += 2
        elif quotes and c in "'\"" and quote in ("", c):
            quote = "" if quote else c
            at += 1
        elif c == "$" and quote != "'":
            value, at = _variable(word, at, values)
            result += value
        else:
            result += c
            at += 1
    return result


def _variable(word: str, at: int, values: dict[str, str]) -> tuple[str, int]:
    """What the `$` at this place stands for, and where that ends."""
    plain = NAME.match(word, at + 1)
    if plain:
        if plain[0] not in values:
            raise Unknown(plain[0])
        return values[plain[0]], plain.end()
    if not word.startswith("{", at + 1):
        return "$", at + 1
    close = word.find("}", at)
    inner = re.fullmatch(r"([A-Za-z_][A-Za-z0-9_]*)(?:(:?[-+])([^${}]*))?", word[at + 2 : close]) if close > 0 else None
    if not inner:
        raise Unknown(word[at:])
    name, how, other = inner[1], inner[2] or "", inner[3] or ""
    has = bool(values.get(name)) if how.startswith(":") else name in values
    if how.endswith("+"):
        return other if has else "", close + 1
    if not has and not how:
        raise Unknown(name)
    return values[name] if has else other, close + 1


def pairs_of(text: str, legacy: bool) -> list[tuple[str, str | None]]:
    """`K=V K2="V 2"`, or with `legacy` also `K V`."""
    words = raw_words(text)
    if legacy and words and "=" not in words[0]:
        return [(words[0], text.strip()[len(words[0]) :].strip())]
    return [(word.partition("=")[0], word.partition("=")[2] if "=" in word else None) for word in words]
