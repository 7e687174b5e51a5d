"""aerc, as people use it."""
import pathlib
import re

from .reader import Reader
from .terminal import Lost

# After how many seconds a command that isn't on the screen was swallowed.
SWALLOWED = 20.0


class Aerc(Reader):
    """aerc, over the Maildir that its account names."""

    programs = ("aerc", "tmux")
    settings = ".config/aerc/accounts.conf"

    def words(self) -> list[str]:
        return ["aerc"]

    def ready(self) -> None:
        self.terminal.wait(r"(?m)^ *INBOX")
        self.terminal.wait(r"Connected")

    def own_settings(self, sender: pathlib.Path) -> str:
        """Another sender; of two lines with one name the last one counts."""
        return f"outgoing = {sender}\n"

    def ask(self, words: str) -> None:
        """A command. One that an editor which was about to end has swallowed is typed again."""
        self.terminal.type(f":{words}")
        try:
            self.terminal.wait(rf":{re.escape(words)} *$", SWALLOWED)
        except Lost:
            self.terminal.type(f":{words}")
            self.terminal.wait(rf":{re.escape(words)} *$")
        self.terminal.press("Enter")

    def go(self, subject: str) -> None:
        """Puts the cursor on a message, by its place on the screen."""
        rows = self.terminal.wait(re.escape(subject)).splitlines()[1:]
        place = next(number for number, row in enumerate(rows) if subject in row)
        self.ask(f"select {place}")

    def change_to(self, box: str) -> None:
        self.ask(f"cf {box}")
        self.terminal.wait(r"INBOX")

    def read(self, subject: str, words: str) -> str:
        self.go(subject)
        self.ask("view")
        shown = self.terminal.wait(rf"(?s)Subject: +{re.escape(subject)}.*{re.escape(words)}")
        self.ask("close")
        self.terminal.wait(r"(?m)^ *INBOX")
        return shown

    def flag(self, subject: str) -> None:
        self.go(subject)
        self.ask("flag")

    def unread(self, subject: str) -> None:
        self.go(subject)
        self.ask("unread")

    def save(self, subject: str, box: str) -> None:
        self.go(subject)
        self.ask(f"mv {box}")

    def delete(self, subject: str) -> None:
        self.go(subject)
        self.ask("delete")

    def answer(self, subject: str) -> None:
        self.go(subject)
        before = self.edits()
        self.ask("reply -q")
        self.wait_for_edit(before)
        self._send()

    def postpone(self, subject: str) -> None:
        before = self.edits()
        self.ask(f"compose -H To:ben@example.org -H Subject:{subject}")
        self.wait_for_edit(before)
        self.terminal.wait(r"Send this email")
        self.ask("postpone")
        self.terminal.wait(r"(?m)^ *INBOX")

    def recall(self, subject: str) -> None:
        self.change_to("Drafts")
        self.go(subject)
        self.ask("recall")
        self.terminal.wait(r"Send this email")
        before = self.edits()
        self.ask("edit")
        self.wait_for_edit(before)
        self._send()
        self.change_to("INBOX")

    def _send(self) -> None:
        """Sends what the editor has written."""
        self.terminal.wait(r"Send this email")
        self.ask("send")
        self.terminal.wait(r"(?m)^ *INBOX")

    def write_out(self) -> None:
        """It writes at once."""

    def sync(self) -> bool:
        self.ask("check-mail")
        return True

    def leave(self) -> None:
        self.ask("quit")
        self.terminal.end()
