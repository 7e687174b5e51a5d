"""The mistakes of a crate, and which functions each of them changes, for tools/mistakes."""
import os
import re
from typing import Dict, FrozenSet, List, NamedTuple, Optional, Tuple

Texts = Dict[str, str]
ITEM = r"^((?:pub(?:\([a-z]+\))? )?(?:struct|enum) (\w+)|impl\b.*)"
FUNCTION = r"^( *)(?:pub(?:\([a-z]+\))? )?(?:const )?fn (\w+)"
MESSAGE = r"(?:so far: )?(?:note: )?(?:\./)?(\S+?):(\d+):\d+: (.*)"
# What is said of a name that a proof file has and that isn't there any more, and of what cites it. The record's fields, or its name, may
# be told in a further line.
NAMES = r"has no field|has no `|is not in scope|was not admitted|can be named from here|\(nearest: |error: (?:`[^`]*`: )?record `"
# What is said of an answer to a goal that asks nothing any more.
ASKS_NOTHING = r"the two types are `Unit \{0\}` \(expected\)|expected type `Unit \{0\}`"


class Function(NamedTuple):
    """A function: its path as `rt check` prints it, its file, and its first and last line, counted from 1. Its comment and its
    attributes, where some goals are told, are of it."""

    path: str
    file: str
    first: int
    last: int


class Edit(NamedTuple):
    """A mistake: what it puts in place of what, in which files, and the functions that it changes; none where it changes something else."""

    name: str
    pairs: Tuple[Tuple[str, str, str], ...]
    functions: FrozenSet[Function]

    def put_into(self, texts: Texts) -> Optional[Texts]:
        """The texts with the mistake in them, unless what it changes doesn't stand there once."""
        made = dict(texts)
        for file, old, new in self.pairs:
            if made.get(file, "").count(old) != 1:
                return None
            made[file] = made[file].replace(old, new)
        return made


def pairs_of(text: str) -> Tuple[Tuple[str, str, str], ...]:
    """The lines of a mistake's file: what stands in a file, and what is put in its place."""
    pairs, file, old = [], "", ""
    for line in text.split("\n"):
        word, _, rest = line.partition(":")
        rest = rest[1:] if rest.startswith(" ") else rest
        if word == "file":
            file = rest.strip()
        elif word == "old":
            old = rest
        elif word == "new":
            pairs.append((file, old, rest))
    return tuple(pairs)


def texts_of(folder: str) -> Texts:
    """The crate's code, by its path in the crate."""
    found = {}
    for at, _, names in os.walk(f"{folder}/src"):
        for name in names:
            with open(f"{at}/{name}", encoding="utf-8") as it:
                found[os.path.relpath(f"{at}/{name}", folder)] = it.read()
    return found


def module_of(file: str) -> str:
    """The module of a file, with `::` behind it, or nothing for the root."""
    parts = file[len("src/") : -len(".rt")].split("/")
    return "".join(f"{it}::" for it in parts if it not in ("lib", "main"))


def types_of(texts: Texts) -> Dict[str, str]:
    """The path of each type by its name. One of two types of one name is in doubt."""
    found: Dict[str, List[str]] = {}
    for file, text in texts.items():
        for it in re.finditer(ITEM, text, re.M):
            if it[2]:
                found.setdefault(it[2], []).append(f"{module_of(file)}{it[2]}::")
    return {name: paths[0] for name, paths in found.items() if len(paths) == 1}


def owner_of(line: str, types: Dict[str, str]) -> Optional[str]:
    """The front of the path of an impl's methods: its type's, with the trait's name behind it where there is one."""
    words = re.match(r"impl(?:<.*?>)? (?:([\w:]+)(?:<.*>)? for )?([\w:]+)", line)
    if not words or words[2] not in types:
        return None
    return types[words[2]] if not words[1] else types[words[2]][:-2] + words[1].split("::")[-1] + "::"


def functions_of(file: str, text: str, types: Dict[str, str]) -> List[Function]:
    """The functions of a file. One whose path is in doubt is left out."""
    found: List[Function] = []
    lines = text.split("\n")
    owner: Optional[str] = module_of(file)
    for at, line in enumerate(lines):
        if re.match(r"impl\b", line):
            owner = owner_of(line, types)
        elif line == "}":
            owner = module_of(file)
        begins = re.match(FUNCTION, line)
        if begins and owner is not None:
            last = next((n for n in range(at, len(lines)) if lines[n] == begins[1] + "}"), at)
            found.append(Function(owner + begins[2], file, head_of(lines, at) + 1, last + 1))
    return found


def head_of(lines: List[str], at: int) -> int:
    """The line at which what stands over a function begins: its comment and its attributes."""
    while at and lines[at - 1].lstrip().startswith(("//", "#[")):
        at -= 1
    return at


def changed_by(pairs: Tuple[Tuple[str, str, str], ...], texts: Texts, types: Dict[str, str]) -> FrozenSet[Function]:
    """The functions that a mistake changes; none where one of its places is outside of them, or stands there more than once."""
    found = set()
    for file, old, new in pairs:
        text = texts.get(file, "")
        if text.count(old) != 1:
            return frozenset()
        same = len(os.path.commonprefix([old, new]))
        line = text.count("\n", 0, text.index(old) + same) + 1
        inside = [it for it in functions_of(file, text, types) if it.first <= line <= it.last]
        if not inside:
            return frozenset()
        found.add(inside[-1])
    return frozenset(found)


def edits_of(folder: str, names: List[str], texts: Texts) -> List[Edit]:
    """The mistakes of these names in a folder of the crate whose code this is."""
    types, found = types_of(texts), []
    for name in names:
        with open(f"{folder}/{name}", encoding="utf-8", errors="replace") as it:
            pairs = pairs_of(it.read())
        found.append(Edit(name, pairs, changed_by(pairs, texts, types)))
    return found


def in_groups(edits: List[Edit], texts: Texts) -> List[Tuple[List[Edit], Texts]]:
    """The mistakes that change functions, in groups of which each changes others, with the texts that have them all."""
    groups: List[Tuple[List[Edit], Texts]] = []
    for edit in [it for it in edits if it.functions]:
        for number, (group, made) in enumerate(groups):
            both = None if any(it.functions & edit.functions for it in group) else edit.put_into(made)
            if both is not None:
                groups[number] = ([*group, edit], both)
                break
        else:
            made_alone = edit.put_into(texts)
            if made_alone is not None:
                groups.append(([edit], made_alone))
    return groups


def put_texts(folder: str, texts: Texts) -> None:
    """Puts these texts into the crate's folder."""
    for file, text in texts.items():
        with open(f"{folder}/{file}", "w", encoding="utf-8") as it:
            it.write(text)


def is_for_a_name(reason: str) -> bool:
    """Whether a refusal's reason is that a proof file names what isn't there any more, or answers a goal that asks nothing. Such a
    refusal judges no clause."""
    return bool(re.search(f"{NAMES}|{ASKS_NOTHING}", reason))


def refusal_of(crate: str, function: Function, said: str) -> str:
    """Why the prover refuses a changed function, in what a check of it and others printed: a goal at the function, or an error in its
    proofs. Nothing where it is proved, where a reason may be another function's, where there is no verdict, where a proof file only
    names or answers what isn't there any more, or where what is told is a note or a form that rattle doesn't cover."""
    row = re.search(rf"(?m)^fn {crate}::{re.escape(function.path)}: (not proved|no proof)\b(.*)$", said)
    own = function.path.replace("::", ".")
    if not row or "it calls " in row[2] or "stands on" in row[2] and f".proofs.{own}." not in row[2]:
        return ""
    place = function.path.replace("::", "/")
    for line in said.split("\n"):
        at = re.match(MESSAGE, line)
        if not at:
            continue
        is_goal = at[1] == function.file and function.first <= int(at[2]) <= function.last and "it is not proved" in at[3]
        is_error = at[1].startswith(f"proofs/{place}/") and at[3].startswith("error: ") and not is_for_a_name(at[3])
        if is_goal or is_error:
            return f"{at[1]}:{at[2]}: {at[3]}"[:160]
    return ""
