"""The clauses of functions: which function has which, in which file, and what each says."""

from __future__ import annotations

import re
from dataclasses import dataclass
from pathlib import Path

FUNCTION = re.compile(r"^(\s*)(?:pub(?:\([a-z]+\))? )?(?:ghost )?(?:const )?fn (\w+)")
OWNER = re.compile(r"^(?:pub )?(?:unsafe )?(impl|trait)\b(.*)$")
CLAUSE = re.compile(r"^\s+(?:ensures|any_moment)\s+(?:(\w+) )?\{")
# What each type that has a trait must show once, as a law of it.
FACT = re.compile(r"^\s+ghost (\w+): \{")


@dataclass(frozen=True)
class Clause:
    """A clause: its file, the type or trait that its function belongs to, the function, its label, its first line, and what it says."""

    file: str
    owner: str
    function: str
    label: str
    line: int
    text: str

    def name(self) -> str:
        """The clause as the pages name it."""
        function = "::".join(part for part in (self.owner, self.function) if part)
        return f"{function}:{self.label}" if self.label else function


def without_comments(text: str) -> str:
    """The source with blanks in place of its comments, so that places stay."""
    return re.sub(r"//[^\n]*", lambda match: " " * len(match.group()), text)


def owner_of(line: str) -> str:
    """The type of an `impl` or the name of a `trait`, without what is generic."""
    match = OWNER.match(line)
    if not match:
        return ""
    rest: str = match.group(2)
    while "<" in rest:
        fewer = re.sub(r"<[^<>]*>", "", rest.replace("->", ""))
        if fewer == rest:
            break
        rest = fewer
    if match.group(1) == "impl" and " for " in rest:
        rest = rest.split(" for ", 1)[1]
    words: list[str] = re.findall(r"\w+", rest)
    return words[0] if words else ""


def braced(text: str, begin: int) -> str:
    """What stands between the brace at `begin` and its partner."""
    depth = 0
    for place in range(begin, len(text)):
        if text[place] == "{":
            depth += 1
        elif text[place] == "}":
            depth -= 1
            if depth == 0:
                return text[begin + 1:place]
    return text[begin + 1:]


def clauses_of(path: Path, file: str) -> tuple[list[Clause], list[tuple[str, str]]]:
    """The clauses of a source in their order, and its functions with the types that they belong to."""
    text = without_comments(path.read_text())
    found: list[Clause] = []
    functions: list[tuple[str, str]] = []
    owner = function = ""
    place = 0
    for number, line in enumerate(text.split("\n"), 1):
        if OWNER.match(line):
            # Its head may have several lines.
            owner = owner_of(" ".join(text[place:].split("{", 1)[0].split()))
        elif line.startswith("}"):
            owner = ""
        if match := FUNCTION.match(line):
            function = match.group(2)
            functions.append((owner, function))
        match = CLAUSE.match(line)
        if fact := FACT.match(line):
            match, function = fact, ""
        if match:
            found.append(Clause(file, owner, function, match.group(1) or "", number, braced(text, place + match.end() - 1)))
        place += len(line) + 1
    return found, functions


def sources(root: Path) -> list[Path]:
    """All files of code."""
    return sorted((root / "crates").glob("*/src/**/*.rt"))


def conclusion(text: str) -> str:
    """What a clause says where its premises hold: what stands behind the last arrow that no bracket encloses."""
    depth = 0
    last = 0
    for place, sign in enumerate(text):
        if sign in "({[":
            depth += 1
        elif sign in ")}]":
            depth -= 1
        elif sign == "→" and depth == 0:
            last = place + 1
    return text[last:]
