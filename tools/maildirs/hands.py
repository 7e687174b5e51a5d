"""The hands on a Maildir and on a server: a reader that knows Maildirs alone, and another client of the same user."""
import contextlib
import imaplib
import os
import pathlib
import random
import re
from typing import Dict, List, NamedTuple, Optional, Tuple

from servers import kinds

from .model import LETTERS, Place

FLAGS = {"D": "\\Draft", "F": "\\Flagged", "R": "\\Answered", "S": "\\Seen", "T": "\\Deleted"}
TOKEN = re.compile(rb"token=(\w+)\.")
# What a letter's header may have. Mowerbean refuses the Message-IDs of the last line.
SUBJECTS = ("hello", "../../../etc/passwd", "=?utf-8?q?caf=C3=A9?=", "a\r\n\tfolded one", "\x1b[31m red", "x" * 900, "", ":2,S", "%2e%2e")
IDENTS = ("<{}@x>", "<../../{}@x>", '<"a_b\\c*%{}"@x>', "\r\n <folded{}@x>", "<{}:2,S@x>", "<cur/{}@x>")
REFUSED = ("{}", "<{} @x>", "<{}@x> <b@x>")


def token_of(text: bytes) -> str:
    """By what a message is known wherever it stands: a word of its text."""
    found = TOKEN.findall(text)
    return found[-1].decode() if found else ""


def letter(token: str, chance: random.Random, ident: Optional[str]) -> bytes:
    """A new letter, with a Message-ID of this form, or without any."""
    subject = chance.choice(SUBJECTS)
    head = [f"Message-ID: {ident.format(token)}"] if ident else []
    return "\r\n".join([*head, f"Subject: {subject}", "From: Ann <ann@x>", "", f"token={token}.", ""]).encode()


class Filed(NamedTuple):
    """A file of a Maildir: its mailbox, its path, its message and its letters."""

    box: str
    path: pathlib.Path
    token: str
    letters: str

    def is_alone(self) -> bool:
        """Whether its name says that the server doesn't have it."""
        return re.match(r"c[0-9]+\.", self.path.name) is not None


class Reader:
    """A mail reader: it renames files, and knows no name but those that it finds."""

    def __init__(self, root: pathlib.Path, boxes: Dict[str, str], chance: random.Random) -> None:
        self.root, self.folders, self.chance, self.made = root, boxes, chance, 0

    def files(self) -> List[Filed]:
        """The messages that it shows."""
        found = []
        for box, folder in self.folders.items():
            for path in sorted(path for part in ("cur", "new") for path in (self.root / folder / part).iterdir()):
                with contextlib.suppress(FileNotFoundError):
                    letters = "".join(sorted(set(path.name.partition(":2,")[2]) & set(LETTERS)))
                    found.append(Filed(box, path, token_of(path.read_bytes()), letters))
        return found

    def _name(self, letters: str) -> str:
        """A name of its own. At times it has keywords, which say something to the reader alone."""
        self.made += 1
        return f"{self.made}.R{os.getpid()}.host:2,{letters}{self.chance.choice(('', '', '', 'a', 'bz'))}"

    def put(self, box: str, text: bytes, letters: str) -> None:
        """A new letter."""
        folder = self.root / self.folders[box]
        name = self._name(letters)
        (folder / "tmp" / name).write_bytes(text)
        (folder / "tmp" / name).rename(folder / "cur" / name)

    def flag(self, file: Filed, letters: str) -> None:
        """Other flags, and the keywords as they were."""
        front, _, old = file.path.name.partition(":2,")
        file.path.rename(file.path.parent.parent / "cur" / f"{front}:2,{letters}{''.join(filter(str.islower, old))}")

    def move(self, file: Filed, box: str) -> None:
        """To another folder, under the same name, as aerc does."""
        file.path.rename(self.root / self.folders[box] / "cur" / file.path.name)

    def save(self, file: Filed, box: str) -> None:
        """To another folder, under a name of its own, as mutt does: a copy, with fields of its own and other ends of lines."""
        head, _, body = file.path.read_bytes().replace(b"\r\n", b"\n").partition(b"\n\n")
        self.put(box, b"%s\nContent-Length: %d\nLines: %d\n\n%s" % (head, len(body), body.count(b"\n"), body), file.letters)
        file.path.unlink()

    def rename(self, file: Filed) -> None:
        """Another name in the same folder."""
        file.path.rename(file.path.parent.parent / "cur" / self._name(file.letters))

    def delete(self, file: Filed) -> None:
        """Away."""
        file.path.unlink()


Row = Tuple[str, str, str]


class Other:
    """Another client of the same user."""

    def __init__(self, port: int) -> None:
        self.link = imaplib.IMAP4("127.0.0.1", port, timeout=120)
        self._done(self.link.login(kinds.USER, kinds.PASSWORD))

    @staticmethod
    def _done(reply: Tuple[object, object]) -> None:
        if reply[0] != "OK":
            raise RuntimeError(f"the server answered {reply}")

    def rows(self, box: str) -> List[Row]:
        """The messages of a mailbox: UID, token and letters."""
        self._done(self.link.select(f'"{box}"', readonly=True))
        found = []
        for part in self.link.uid("FETCH", "1:*", "(UID FLAGS BODY.PEEK[TEXT])")[1]:
            if isinstance(part, tuple):
                said = part[0].decode()
                flags = re.findall(r"FLAGS \(([^)]*)\)", said)[0].split()
                letters = "".join(letter for letter, flag in FLAGS.items() if flag in flags)
                found.append((re.findall(r"UID ([0-9]+)", said)[0], token_of(part[1]), letters))
        return found

    def find(self, token: str, boxes: List[str]) -> Optional[Tuple[str, str]]:
        """The mailbox and the UID of a message, once it is selected there."""
        for box in boxes:
            uids = [uid for uid, known, _ in self.rows(box) if known == token]
            if uids:
                self._done(self.link.select(f'"{box}"'))
                return box, uids[0]
        return None

    def put(self, box: str, text: bytes) -> None:
        """A new message."""
        self._done(self.link.append(f'"{box}"', None, None, text))  # type: ignore[arg-type]

    def change(self, uid: str, letter: str, is_on: bool) -> None:
        """A flag of a message of the selected mailbox."""
        self._done(self.link.uid("STORE", uid, "+FLAGS.SILENT" if is_on else "-FLAGS.SILENT", f"({FLAGS[letter]})"))

    def move(self, uid: str, box: str) -> None:
        """A message of the selected mailbox to another one."""
        self._done(self.link.uid("MOVE", uid, f'"{box}"'))

    def remove(self, uid: str) -> None:
        """A message of the selected mailbox away."""
        self.change(uid, "T", True)
        self._done(self.link.uid("EXPUNGE", uid))

    def next_uid(self, box: str) -> int:
        """The UID that the next message of a mailbox will get."""
        reply = self.link.status(f'"{box}"', "(UIDNEXT)")
        self._done(reply)
        return int(re.findall(rb"UIDNEXT ([0-9]+)", reply[1][0])[0])

    def renew(self, box: str) -> int:
        """A mailbox is made anew, with its messages, which get other UIDs. The UID that the next one would have got before."""
        self._done(self.link.rename(f'"{box}"', '"renewed"'))
        next_uid = self.next_uid("renewed")
        self._done(self.link.create(f'"{box}"'))
        self._done(self.link.select('"renewed"'))
        self.link.uid("MOVE", "1:*", f'"{box}"')
        self._done(self.link.close())
        self._done(self.link.delete('"renewed"'))
        return next_uid


def places(other: Other, boxes: List[str]) -> Dict[str, List[Place]]:
    """Where each message is on the server."""
    found: Dict[str, List[Place]] = {}
    for box in boxes:
        for _, token, letters in other.rows(box):
            found.setdefault(token, []).append(Place(box, letters))
    return found
