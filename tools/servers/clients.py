"""Who comes to a server: another client of the same user, the program, and a plain script of a play's commands."""
import base64
import contextlib
import imaplib
import os
import pathlib
import re
import socket
import subprocess
import sys
from types import TracebackType
from typing import Any, Dict, List, Optional, Sequence, Tuple, Type

from .kinds import PASSWORD, USER

Said = Tuple[str, Optional[int]]
Marks = Dict[str, Tuple[int, ...]]


def quoted(name: str) -> str:
    """A mailbox's name, as a command has it."""
    return f'"{name}"' if " " in name else name


class Other:
    """Another client of the same user."""

    def __init__(self, port: int, address: str = "127.0.0.1") -> None:
        self.link = imaplib.IMAP4(address, port, timeout=300)
        self.done(self.link.login(USER, PASSWORD))

    def __enter__(self) -> "Other":
        return self

    def __exit__(self, kind: Optional[Type[BaseException]], error: Optional[BaseException], trace: Optional[TracebackType]) -> None:
        with contextlib.suppress(imaplib.IMAP4.error, OSError):
            self.link.logout()

    @staticmethod
    def done(reply: Tuple[Any, Any]) -> Any:
        """What a reply tells, which has to be OK."""
        if reply[0] != "OK":
            sys.exit(f"the server answered {reply}")
        return reply[1]

    def select(self, name: str, readonly: bool = False) -> None:
        """Selects a mailbox."""
        self.done(self.link.select(quoted(name), readonly))

    def create(self, *names: str) -> None:
        """Makes mailboxes."""
        for name in names:
            self.done(self.link.create(quoted(name)))

    def put(self, name: str, text: bytes) -> None:
        """Puts a message into a mailbox."""
        # None: no flags and no date are given.
        self.done(self.link.append(quoted(name), None, None, text))  # type: ignore[arg-type]

    def put_exactly(self, name: str, text: bytes) -> bool:
        """Puts just these bytes into a mailbox (RFC 7888), which a server may refuse."""
        self.link.send(f"A1 APPEND {quoted(name)} {{{len(text)}+}}\r\n".encode() + text + b"\r\n")
        line = self.link.readline()
        while line and not line.startswith(b"A1 "):
            line = self.link.readline()
        return line.startswith(b"A1 OK")

    def text(self, name: str, uid: str) -> bytes:
        """The text of a message, as the server tells it."""
        self.select(name, readonly=True)
        found: bytes = self.uid("FETCH", uid, "(BODY.PEEK[])")[0][1]
        return found

    def having(self, name: str, ident: str) -> int:
        """How many messages of a mailbox have this Message-ID."""
        self.select(name, readonly=True)
        return len(self.uid("SEARCH", "HEADER", "Message-ID", ident)[0].split())

    def uid(self, *words: str) -> Any:
        """What a UID command tells."""
        return self.done(self.link.uid(*words))

    def mark(self, name: str) -> Tuple[int, ...]:
        """A mailbox's UIDVALIDITY and HIGHESTMODSEQ."""
        told = b" ".join(self.done(self.link.status(quoted(name), "(UIDVALIDITY HIGHESTMODSEQ)")))
        return tuple(int(found) for word in (b"UIDVALIDITY", b"HIGHESTMODSEQ") for found in re.findall(word + rb" (\d+)", told)[:1])

    def rows(self, name: str) -> List[str]:
        """The rows of a mailbox by UID, each as `list` shows it: UID, mod-sequence, and the flags by their keys."""
        self.select(name, readonly=True)
        rows = {}
        for told in self.uid("FETCH", "1:*", "(UID FLAGS MODSEQ)"):
            # A mailbox without messages tells no row.
            if told is None:
                continue
            forms = (rb"UID (\d+)", rb"MODSEQ \((\d+)\)", rb"FLAGS \(([^)]*)\)")
            uid, mark, flags = (re.findall(form, told)[0].decode() for form in forms)
            keys = sorted(set(flags.lower().split()) - {r"\recent"})
            rows[int(uid)] = " ".join([uid, mark, *keys])
        return [rows[uid] for uid in sorted(rows)]

    def fill(self, name: str, numbers: Sequence[int]) -> None:
        """Puts messages of these numbers into a mailbox, a hundred in one go (RFC 7888), with various flags."""
        for first in range(0, len(numbers), 100):
            self.put_all(name, numbers[first : first + 100])

    def put_all(self, name: str, numbers: Sequence[int]) -> None:
        """Puts messages of these numbers into a mailbox, in one go, and takes their answers."""
        tags = []
        for number in numbers:
            tags.append(b"A%d" % number)
            text = b"Message-ID: <m%d@x>\r\nSubject: message %d\r\n\r\nhello\r\n" % (number, number)
            flags = [flag for flag, each in ((r"\Seen", 2), (r"\Flagged", 5), ("$work", 7), ("Later", 11)) if number % each == 0]
            head = f"A{number} APPEND {quoted(name)} ({' '.join(flags)}) {{{len(text)}+}}\r\n"
            self.link.send(head.encode() + text + b"\r\n")
        while tags:
            line = self.link.readline()
            if not line or line.startswith(tags[0]):
                self.done(("OK" if line.startswith(tags.pop(0) + b" OK") else "NO", line))


class Program:
    """The program, or the front before it, with a folder of its own, at a server."""

    def __init__(self, program: pathlib.Path, folder: pathlib.Path, port: int) -> None:
        self.program = program
        folder.mkdir()
        self.environment = {**os.environ, "MAIL_DIR": str(folder), "MAIL_SERVER": f"127.0.0.1:{port}"}
        self.environment.update({"MAIL_USER": USER, "MAIL_PASSWORD": PASSWORD})

    def say(self, *words: str, under: Sequence[str] = (), given: bytes = b"") -> Said:
        """What the program prints for these words and this input, and its status. It may run under another one."""
        told, status = self.tell(*words, under=under, given=given)
        return told.decode(errors="replace"), status

    def tell(self, *words: str, under: Sequence[str] = (), given: bytes = b"") -> Tuple[bytes, Optional[int]]:
        """The same, byte for byte."""
        line = [*under, str(self.program), *words]
        try:
            ran = subprocess.run(line, env=self.environment, input=given, stdout=subprocess.PIPE, stderr=subprocess.DEVNULL, timeout=600)
        except subprocess.TimeoutExpired:
            return b"nothing in 600 seconds", None
        return ran.stdout, ran.returncode


class Alone:
    """The commands of a play and nothing else, over a connection of their own."""

    def __init__(self, port: int) -> None:
        self.link = socket.create_connection(("127.0.0.1", port), timeout=300)
        self.link.setsockopt(socket.IPPROTO_TCP, socket.TCP_NODELAY, 1)
        self.number = 0
        self.read(b"*")

    def read(self, front: bytes) -> bytes:
        """Reads to the end of the line that begins so."""
        told = b""
        while True:
            piece = self.link.recv(65_536)
            told += piece
            last = told.rfind(b"\n", 0, -1) + 1
            if not piece or (told.endswith(b"\r\n") and told.startswith(front, last)):
                return told

    def ask(self, text: str) -> bytes:
        """What is answered to a command."""
        self.number += 1
        self.link.sendall(b"C%d %s\r\n" % (self.number, text.encode()))
        return self.read(b"C%d " % self.number)

    def play(self, boxes: Sequence[str], marks: Marks) -> None:
        """A play of these mailboxes, with their marks if any are kept."""
        self.ask("CAPABILITY")
        self.number += 1
        self.link.sendall(b"C%d AUTHENTICATE PLAIN\r\n" % self.number)
        self.read(b"+")
        self.link.sendall(base64.b64encode(f"\0{USER}\0{PASSWORD}".encode()) + b"\r\n")
        self.read(b"C%d " % self.number)
        self.ask("CAPABILITY")
        self.ask("ENABLE QRESYNC")
        for name in boxes:
            if name in marks:
                validity, modseq = marks[name]
                self.ask(f"SELECT {quoted(name)} (QRESYNC ({validity} {modseq}))")
            elif b"* 0 EXISTS" not in self.ask(f"SELECT {quoted(name)}"):
                self.ask("UID FETCH 1:* (UID FLAGS MODSEQ)")
        self.ask("LOGOUT")
        self.link.close()
