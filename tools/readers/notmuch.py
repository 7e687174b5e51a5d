"""notmuch, as people use it: its commands, and `mv` for a message that is to stand elsewhere."""
import pathlib
import subprocess

from .reader import Reader
from .terminal import Lost, environment_of


class Notmuch(Reader):
    """notmuch over the Maildir that its settings name."""

    programs = ("notmuch",)
    settings = ".notmuch-config"
    folder = "INBOX"

    def __init__(self, home: pathlib.Path, path: pathlib.Path) -> None:
        super().__init__(home, path)
        file = home / self.settings
        file.write_text(file.read_text(encoding="utf-8").replace("/home/ann/Mail", f"{home}/Mail"), encoding="utf-8")

    def own_settings(self, sender: pathlib.Path) -> str:
        """None."""
        return ""

    def run(self, *words: str, given: str = "") -> str:
        """What notmuch prints."""
        line, environment = ["notmuch", *words], environment_of(self.home, self.path)
        done = subprocess.run(line, env=environment, input=given.encode(), stdout=subprocess.PIPE, stderr=subprocess.STDOUT, timeout=60, check=False)
        said = done.stdout.decode("utf-8", "replace")
        if done.returncode:
            raise Lost(f"notmuch {' '.join(words)} ended with {done.returncode}: {said}")
        return said

    def open(self) -> None:
        self.change_to("INBOX")
        said = self.run("new")
        if "Note:" in said:
            raise Lost(said)

    def change_to(self, box: str) -> None:
        self.folder = box

    def query(self, subject: str) -> list[str]:
        """What finds a message."""
        return ["--", f"subject:{subject}", f"folder:{self.folder}"]

    def file(self, subject: str) -> pathlib.Path:
        """A message's file."""
        return pathlib.Path(self.run("search", "--output=files", *self.query(subject)).splitlines()[0])

    def read(self, subject: str, words: str) -> str:
        shown = self.run("show", *self.query(subject))
        self.run("tag", "-unread", *self.query(subject))
        return shown

    def flag(self, subject: str) -> None:
        self.run("tag", "+flagged", *self.query(subject))

    def unread(self, subject: str) -> None:
        self.run("tag", "+unread", *self.query(subject))

    def save(self, subject: str, box: str) -> None:
        file = self.file(subject)
        file.rename(self.home / "Mail" / box / "cur" / file.name)
        self.run("new")

    def delete(self, subject: str) -> None:
        self.file(subject).unlink()
        self.run("new")

    def answer(self, subject: str) -> None:
        self.run("tag", "+replied", "-unread", *self.query(subject))
        self.put("Sent", f"Re: {subject}", "-unread")

    def put(self, box: str, subject: str, *tags: str) -> None:
        """Puts a letter into a folder."""
        ident = f"{subject.replace(' ', '')}-{box}@example.org"
        letter = f"From: Ann <ann@example.org>\nTo: ben@example.org\nMessage-ID: <{ident}>\nSubject: {subject}\n\nwritten\n"
        self.run("insert", f"--folder={box}", *tags, given=letter)

    def postpone(self, subject: str) -> None:
        self.put("Drafts", subject, "+draft")

    def recall(self, subject: str) -> None:
        self.change_to("Drafts")
        self.delete(subject)
        self.put("Sent", subject, "-unread")
        self.change_to("INBOX")

    def write_out(self) -> None:
        """It writes at once."""

    def sync(self) -> bool:
        return False

    def leave(self) -> None:
        self.run("new")
