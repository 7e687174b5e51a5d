"""The definitions of the folders `specs`: where each stands, what it cites, and what it stands on."""

from __future__ import annotations

import re
from dataclasses import dataclass
from pathlib import Path

HEADER = re.compile(r"^(?:abbrev |unfoldable |pub |rec )*(record |data )?([^\s:({]+)")
BEGINS = re.compile(r"(?:abbrev|unfoldable|record|data|pub (?!mod))\b|[\w-]+ : ")
USE = re.compile(r"^\s*(?:ghost )?use (Rattle\.[\w.]+?)(?:\.\{([^}]*)\}| as (\w+));?\s*$")
WORD = re.compile(r"[A-Za-z_][\w'-]*|[^\s\w(){}\[\],;.:=→×λ]+")
FIELD = re.compile(r"(?m)^  pub (\w+) : ((?:.*\n?(?!  pub ))*)")


@dataclass(frozen=True)
class Definition:
    """A definition: its file (as the crate names it), its name, its first line there, and how many lines it has."""

    file: str
    name: str
    line: int
    lines: int
    text: str

    def fields(self) -> list[tuple[str, str]]:
        """The fields of a record, each with its statement."""
        return FIELD.findall(self.text) if self.text.startswith(("pub record ", "record ")) else []


def uncommented(line: str) -> str:
    """The line without its comment."""
    return re.sub(r"(^|\s)--.*$", "", line).rstrip()


def spec_files(root: Path) -> list[Path]:
    """All files of definitions, by crate and name."""
    return sorted(path for path in (root / "crates").glob("*/specs/**/*.antt") if path.name != "Lib.antt")


def definitions_of(path: Path, file: str) -> list[Definition]:
    """The definitions of a file, in their order. Blank lines and comments aren't counted."""
    starts: list[tuple[str, int]] = []
    lines = [uncommented(line) for line in path.read_text().split("\n")]
    for number, line in enumerate(lines):
        if BEGINS.match(line) and (match := HEADER.match(line)):
            starts.append((match.group(2), number))
    found = []
    for (name, begin), (_, end) in zip(starts, starts[1:] + [("", len(lines))]):
        body = [line for line in lines[begin:end] if line]
        found.append(Definition(file, name, begin + 1, len(body), "\n".join(body)))
    return found


def module_file(module: str) -> str:
    """The file of a module of definitions: `Rattle.imap_model.specs.Ours` is `imap_model/specs/Ours.antt`. What the toolchain declares
    for a type of the code is that type's file: `Rattle.imap_model.specs.declared.deed.Deed` is `imap_model/src/deed.rt`."""
    parts = module.split(".")[1:]
    if "declared" in parts:
        at = parts.index("declared")
        inner = parts[at + 1:]
        words = [word for word in inner if word[:1].islower()]
        return f"{parts[0]}/src/{'/'.join(words)}.rt"
    return "/".join(parts) + ".antt"


@dataclass(frozen=True)
class Source:
    """Where an imported name comes from: a file and the name there. A type of the code has a file under `src`; a module that is imported
    as a whole has no name."""

    file: str
    name: str


def parts_of(names: str) -> list[tuple[str, str]]:
    """The names of a list of imports, each with the name that it gets here."""
    pairs = []
    for part in filter(None, (part.strip() for part in names.split(","))):
        there, _, here = part.partition(" as ")
        pairs.append((there.strip(), here.strip() or there.strip()))
    return pairs


def imports_of(text: str) -> dict[str, Source]:
    """Which file each imported name of a source comes from. The library's names are left out."""
    names: dict[str, Source] = {}
    for line in text.split("\n"):
        match = USE.match(line)
        if not match or match.group(1).startswith("Rattle.std"):
            continue
        module, several, alias = match.groups()
        words = module.split(".")
        types = [word for word in words[1:] if word[:1].isupper() and word != "TheVariants"]
        file = module_file(module)
        if "declared" in words:
            for there, here in parts_of(several) if several else [("", alias)]:
                names[here] = Source(file, types[-1] if types else there)
        elif several and len(types) > 1:
            # Constructors are imported from their type, and stand for it.
            for _, here in parts_of(several):
                names[here] = Source(module_file(module.rsplit(".", 1)[0]), types[-1])
        elif several:
            for there, here in parts_of(several):
                names[here] = Source(file, there)
        elif alias:
            names[alias] = Source(file, "")
    return names


def plain(name: str) -> str:
    """An operator's name as it is written between its arguments."""
    return name.strip("◌") if "◌" in name else name


class House:
    """All definitions of the repository, by file and name."""

    def __init__(self, root: Path) -> None:
        self.root = root
        self.by_file: dict[str, dict[str, Definition]] = {}
        self.imports: dict[str, dict[str, Source]] = {}
        for path in spec_files(root):
            file = str(path.relative_to(root / "crates"))
            self.by_file[file] = {found.name: found for found in definitions_of(path, file)}
            self.imports[file] = imports_of(path.read_text())

    def named(self, name: str) -> list[Definition]:
        """The definitions of this name."""
        return [found[name] for found in self.by_file.values() if name in found]

    def found(self, source: Source, name: str) -> Definition | None:
        """The definition of this name in an imported file, if that is one of definitions."""
        return self.by_file.get(source.file, {}).get(name)

    def cited(self, text: str, imports: dict[str, Source], own: dict[str, Definition]) -> tuple[list[Definition], list[str]]:
        """The definitions and the types of the code that a text cites, by the names that its file imports or has itself."""
        words = set(WORD.findall(text))
        definitions = [found for name, found in own.items() if plain(name) in words]
        types = []
        for here, source in imports.items():
            if plain(here) not in words:
                continue
            if "/src/" in source.file:
                types.append(f"{source.file} {source.name}")
                continue
            for name in [source.name] if source.name else re.findall(rf"\b{here}\.(\w+)", text):
                if found := self.found(source, name):
                    definitions.append(found)
        return definitions, types

    def below(self, first: list[Definition]) -> tuple[list[Definition], list[str]]:
        """These definitions and all that they stand on, and the types of the code that these cite."""
        seen: set[Definition] = set()
        types: set[str] = set()
        waiting = list(first)
        while waiting:
            one = waiting.pop()
            if one in seen:
                continue
            seen.add(one)
            further, code = self.cited(one.text, self.imports[one.file], self.by_file[one.file])
            waiting.extend(further)
            types.update(code)
        return sorted(seen, key=lambda one: (one.file, one.line)), sorted(types)

    def reading_order(self, definitions: list[Definition]) -> list[str]:
        """The files of these definitions, each behind those that it imports."""
        wanted = {one.file for one in definitions}
        order: list[str] = []
        entered: set[str] = set()

        def visit(file: str) -> None:
            if file in entered:
                return
            entered.add(file)
            for other in sorted({source.file for source in self.imports[file].values()}):
                if other in wanted:
                    visit(other)
            order.append(file)

        for file in sorted(wanted):
            visit(file)
        return order
