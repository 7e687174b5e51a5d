"""mutt, as people use it."""
import pathlib
import re

from .reader import Reader


class Mutt(Reader):
    """mutt, over the Maildir that its settings name."""

    programs = ("mutt", "tmux")
    settings = ".muttrc"

    def words(self) -> list[str]:
        return ["mutt"]

    def ready(self) -> None:
        self.terminal.wait(r"-Mutt: =INBOX")

    def own_settings(self, sender: pathlib.Path) -> str:
        """Who writes, and no question that a person would answer as here."""
        lines = ["set from = ann@example.org", "set realname = Ann", f"set sendmail = {sender}", f"set editor = {self.home}/editor"]
        return "\n".join([*lines, "set fast_reply = yes", "set include = yes", "set postpone = yes", ""])

    def go(self, subject: str) -> None:
        """Puts the cursor on a message."""
        self.terminal.type("/")
        self.terminal.wait(r"Search for:")
        self.terminal.press("C-u")
        self.terminal.type(f'~s "{subject}"', "Enter")
        self.terminal.wait(r"-Mutt: ")

    def change_to(self, box: str) -> None:
        self.terminal.type("c")
        self.terminal.wait(r"Open mailbox")
        self.terminal.press("C-u")
        self.terminal.type(f"={box}", "Enter")
        self.terminal.wait(rf"-Mutt: ={box}")

    def read(self, subject: str, words: str) -> str:
        self.go(subject)
        self.terminal.press("Enter")
        shown = self.terminal.wait(rf"(?s)Subject: {re.escape(subject)}.*{re.escape(words)}")
        self.terminal.type("i")
        self.terminal.wait(r"-Mutt: ")
        return shown

    def flag(self, subject: str) -> None:
        self.go(subject)
        self.terminal.type("F")

    def unread(self, subject: str) -> None:
        self.go(subject)
        self.terminal.type("N")

    def save(self, subject: str, box: str) -> None:
        self.go(subject)
        self.terminal.type("s")
        self.terminal.wait(r"Save to mailbox")
        self.terminal.press("C-u")
        self.terminal.type(f"={box}", "Enter")
        self.terminal.wait(r"Del:[0-9]+")

    def delete(self, subject: str) -> None:
        self.go(subject)
        self.terminal.type("d")

    def answer(self, subject: str) -> None:
        self.go(subject)
        before = self.edits()
        self.terminal.type("r")
        self.wait_for_edit(before)
        self._send()

    def postpone(self, subject: str) -> None:
        self.terminal.type("m")
        self.terminal.wait(r"To:")
        self.terminal.type("ben@example.org", "Enter")
        self.terminal.wait(r"Subject:")
        self.terminal.type(subject, "Enter")
        self.terminal.wait(r"-- Mutt: Compose")
        self.terminal.type("P")
        self.terminal.wait(r"-Mutt: =")

    def recall(self, subject: str) -> None:
        self.terminal.type("R")
        self._send()

    def _send(self) -> None:
        """Sends what the editor has written."""
        self.terminal.wait(r"-- Mutt: Compose")
        self.terminal.type("y")
        self.terminal.wait(r"Mail sent")

    def write_out(self) -> None:
        self.terminal.type("$")
        self.terminal.wait(r"-Mutt: =(?!.*Del:)")

    def sync(self) -> bool:
        self.terminal.press("Escape", "y")
        self.terminal.wait(r"Press any key to continue")
        self.terminal.press("Enter")
        self.terminal.wait(r"-Mutt: =")
        return True

    def leave(self) -> None:
        self.terminal.type("q")
        self.terminal.end()
