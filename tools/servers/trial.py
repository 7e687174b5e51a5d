"""The comparisons at one server, counted; and the front with what stands behind it, as it is installed."""
import pathlib
import shutil
from typing import Any, List, Optional

from .clients import Other, Program

BOXES = ("INBOX", "Archive", "Sent Items")
SMALL = ("Archive", "Sent Items")
PLAYED = ("played 0 conflicts 0\n", 0)


class Front:
    """The front with the program and the helpers behind it, as they are installed, so that it doesn't build anything."""

    def __init__(self, tree: pathlib.Path, source: pathlib.Path, program: pathlib.Path) -> None:
        (tree / "bin").mkdir(parents=True)
        self.path = tree / "bin/mowerbean"
        shutil.copy(source / "mowerbean", self.path)
        behind = tree / "libexec/mowerbean"
        if (source / "libexec").is_dir():
            shutil.copytree(source / "libexec", behind, ignore=shutil.ignore_patterns("test_*", "*cache*"))
        behind.mkdir(parents=True, exist_ok=True)
        shutil.copy(program, behind / "mowerbean")
        self.has_helper = (behind / "link").exists()


class Trial:
    """The comparisons at one server, counted."""

    def __init__(self, program: pathlib.Path, front: Front, home: pathlib.Path, port: int) -> None:
        self.program, self.front, self.home, self.port = program, front, home, port
        self.passed = self.failed = self.folders = 0

    def same(self, title: str, told: Any, wanted: Any) -> None:
        """Counts a case by whether two things are the same."""
        if told == wanted:
            self.passed += 1
            print(f"ok: {title}", flush=True)
            return
        self.failed += 1
        print(f"FAILED: {title}: {told!r} in place of {wanted!r}", flush=True)

    def same_rows(self, title: str, mine: Program, name: str) -> None:
        """Compares what `list` shows with the rows that the server has, and prints the first line that differs."""
        said, status = mine.say("list", name)
        told = said.splitlines()
        with Other(self.port) as other:
            wanted = other.rows(name)
        for place, (one, another) in enumerate(zip([*told, None], [*wanted, None])):
            if one != another:
                self.same(f"{title}: line {place + 1} of {len(told)}, where the server has {len(wanted)}", one, another)
                return
        self.same(f"{title}: {len(wanted)} rows of {name}", (len(told), status), (len(wanted), 0))

    def folder(self, home: Optional[pathlib.Path] = None) -> pathlib.Path:
        """A name for a new folder."""
        self.folders += 1
        return (home or self.home) / f"folder{self.folders}"

    def begin(self, *boxes: str, home: Optional[pathlib.Path] = None) -> Program:
        """The program with a new journal for these mailboxes."""
        mine = Program(self.program, self.folder(home), self.port)
        mine.say("init", *boxes)
        return mine

    def synchronise(self, title: str, mine: Program) -> None:
        """Plays, and compares each mailbox."""
        self.same(title, mine.say("play"), PLAYED)
        for name in BOXES:
            self.same_rows("  and then", mine, name)

    def listed(self, mine: Program, names: List[str]) -> List[List[str]]:
        """What `list` shows of these mailboxes."""
        return [mine.say("list", name)[0].splitlines() for name in names]
