"""What a clause stands on: the definitions of what it says, and those of its premises."""

from __future__ import annotations

import re
from dataclasses import dataclass
from pathlib import Path

from reading.clauses import Clause, clauses_of, conclusion, sources
from reading.definitions import Definition, House, Source, imports_of

ROOT = Path(__file__).resolve().parent.parent.parent
# CRATE/FUNCTION:LABEL.FIELD, of which the function alone must be there.
WORD = re.compile(r"(\w+/)?([^\s:/]+(?:::\w+)?)(?::(\w+)((?:\.\w+)*))?")


@dataclass
class Ground:
    """What a clause stands on: the definitions of what it says, and all with its premises; and the types of the code."""

    title: str
    says: list[Definition]
    all: list[Definition]
    types: list[str]


class Unknown(Exception):
    """A name that isn't there, or is there more than once."""


def figures(definitions: list[Definition]) -> str:
    """How many lines in how many files."""
    files = len({one.file for one in definitions})
    return f"{sum(one.lines for one in definitions):,} lines in {files} file{'' if files == 1 else 's'}"


def all_clauses() -> list[Clause]:
    """The clauses of all crates."""
    return [clause for path in sources(ROOT) for clause in clauses_of(path, str(path.relative_to(ROOT / "crates")))[0]]


@dataclass
class Statement:
    """What is said at a place, by the names that its file imports or has itself; and the premises under which it stands there."""

    place: str
    text: str
    imports: dict[str, Source]
    own: dict[str, Definition]
    premises: list[Definition]


def field_of(house: House, said: Statement, name: str) -> Statement:
    """A field of a record that a statement concludes with. What stands before the conclusion is a premise of the field."""
    end = conclusion(said.text)
    before = house.cited(said.text.removesuffix(end), said.imports, said.own)[0]
    for record in house.cited(end, said.imports, said.own)[0]:
        for field, text in record.fields():
            if field == name:
                place = f"crates/{record.file}:{record.line}"
                return Statement(place, text, house.imports[record.file], house.by_file[record.file], said.premises + before)
    raise Unknown(f"{said.place}: no field is named {name}")


def ground_of_clause(house: House, clause: Clause, fields: list[str]) -> Ground:
    """What a clause stands on, or of the record with which it concludes one of these fields, by its path."""
    imports = imports_of((ROOT / "crates" / clause.file).read_text())
    said = Statement(f"crates/{clause.file}:{clause.line}", clause.text, imports, {}, [])
    for name in fields:
        said = field_of(house, said, name)
    says, _ = house.below(house.cited(conclusion(said.text), said.imports, said.own)[0])
    first, code = house.cited(said.text, said.imports, said.own)
    definitions, types = house.below(said.premises + first)
    title = f"{'.'.join([clause.name(), *fields])}    {said.place}"
    return Ground(title, says, definitions, sorted({*types, *code}))


def grounds(house: House, clauses: list[Clause], word: str) -> list[Ground]:
    """What a name of the command line stands for, one by one."""
    match = WORD.fullmatch(word)
    if not match:
        raise Unknown(f"{word} is no name of a clause")
    crate, function, label, path = match.groups(default="")
    chosen = [
        clause for clause in clauses
        if clause.file.startswith(crate)
        and function in (clause.function or clause.owner, f"{clause.owner}::{clause.function}", clause.owner)
        and label in ("", clause.label)
    ]
    places = sorted({(clause.file, clause.owner) for clause in chosen})
    if len(places) > 1:
        raise Unknown(f"{word} is there more than once: " + ", ".join(sorted({file for file, _ in places})))
    if chosen:
        return [ground_of_clause(house, clause, path.split(".")[1:]) for clause in chosen]
    named = [one for one in house.named(function) if one.file.startswith(crate) and not label]
    if len(named) != 1:
        places_of = ", ".join(one.file for one in named)
        raise Unknown(f"{word} is there more than once: {places_of}" if named else f"no clause and no definition is named {word}")
    definitions, types = house.below(named)
    return [Ground(f"{function}    crates/{named[0].file}:{named[0].line}", definitions, definitions, types)]


def told(ground: Ground) -> str:
    """How much must be believed of a clause, in a line."""
    return f"{ground.title.split()[0]}: {figures(ground.says)}; with its premises {figures(ground.all)}"
