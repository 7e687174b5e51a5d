"""What a mail reader does in the trial, whichever it is."""
import pathlib
import re
import stat
import time
from typing import Tuple

from . import terminal

TOP = pathlib.Path(__file__).resolve().parent.parent.parent
EDITOR = """#!/bin/sh
echo "written $(date +%s%N)" >>"$1"
echo "$1" >>"$HOME/edited"
"""
SENDER = """#!/bin/sh
cat >>"$HOME/sent-by-reader"
"""


def page_settings(name: str) -> str:
    """The settings that docs/QUICKSTART.md has for a reader: the block whose first line names their file."""
    page = (TOP / "docs/QUICKSTART.md").read_text(encoding="utf-8")
    found = re.search(rf"(?ms)^```\w+\n# ~/{re.escape(name)}\n(.*?)^```$", page)
    if not found:
        raise SystemExit(f"try-readers: docs/QUICKSTART.md has no settings for ~/{name}")
    return found[1]


def write_program(path: pathlib.Path, text: str) -> pathlib.Path:
    """Writes a script that may be run."""
    path.write_text(text, encoding="utf-8")
    path.chmod(path.stat().st_mode | stat.S_IXUSR)
    return path


class Reader:
    """A mail reader with a home of its own, in which Mail is the Maildir; mowerbean is in a folder of its path."""

    programs: Tuple[str, ...] = ()
    settings = ""

    def __init__(self, home: pathlib.Path, path: pathlib.Path) -> None:
        self.home, self.path = home, path
        write_program(home / "editor", EDITOR)
        sender = write_program(home / "sender", SENDER)
        file = home / self.settings
        file.parent.mkdir(parents=True, exist_ok=True)
        file.write_text(page_settings(self.settings) + self.own_settings(sender), encoding="utf-8")
        file.chmod(0o600)

    def open(self) -> None:
        """Starts it, at INBOX."""
        self.terminal = terminal.Terminal(self.home, terminal.environment_of(self.home, self.path), self.words())
        self.ready()

    def edits(self) -> int:
        """How often the editor was at work."""
        file = self.home / "edited"
        return len(file.read_text(encoding="utf-8").splitlines()) if file.exists() else 0

    def wait_for_edit(self, before: int) -> None:
        """Waits until the editor was at work once more, as a screen may look the same behind it."""
        ended = time.monotonic() + terminal.PATIENCE
        while self.edits() == before:
            if time.monotonic() > ended:
                raise terminal.Lost("no editor was started")
            time.sleep(terminal.LOOK)

    def words(self) -> list[str]:
        """Its command line."""
        raise NotImplementedError

    def ready(self) -> None:
        """Waits until it shows INBOX."""
        raise NotImplementedError

    def own_settings(self, sender: pathlib.Path) -> str:
        """What the trial adds to the page's settings."""
        raise NotImplementedError

    def change_to(self, box: str) -> None:
        """Opens another folder."""
        raise NotImplementedError

    def read(self, subject: str, words: str) -> str:
        """Shows a message of the folder, which has these words; what stands on the screen then."""
        raise NotImplementedError

    def flag(self, subject: str) -> None:
        """Flags it."""
        raise NotImplementedError

    def unread(self, subject: str) -> None:
        """Marks it as not read."""
        raise NotImplementedError

    def save(self, subject: str, box: str) -> None:
        """Moves it to another folder."""
        raise NotImplementedError

    def delete(self, subject: str) -> None:
        """Deletes it."""
        raise NotImplementedError

    def answer(self, subject: str) -> None:
        """Answers it; the letter is sent, and kept in Sent."""
        raise NotImplementedError

    def postpone(self, subject: str) -> None:
        """Writes a letter, and keeps it in Drafts."""
        raise NotImplementedError

    def recall(self, subject: str) -> None:
        """Takes that letter again, writes more, and sends it."""
        raise NotImplementedError

    def write_out(self) -> None:
        """Has what was done written into the Maildir."""
        raise NotImplementedError

    def sync(self) -> bool:
        """Has it sync by itself, and whether it can."""
        raise NotImplementedError

    def leave(self) -> None:
        """Ends it."""
        raise NotImplementedError
