"""Tries an account for `mowerbean account`: greeting, log-in, capabilities, and each mailbox. Nothing is changed on the server.

usage: try_account.py PORT USER [BOX ..] < PASSWORD

It speaks to the helper `link`, which waits at a port of this machine and speaks to the server. It prints a line for each thing that it
finds, and ends as a play would: 0 all is as a play needs it, 4 the connection was lost, 5 the server refused, 6 what came isn't IMAP, 7
the server or a mailbox lacks something.
"""
import base64
import re
import socket
import sys
from typing import List, NoReturn, Set, Tuple

PATIENCE = 60.0  # Seconds without a byte.
LONGEST = 1_048_576  # Octets of a line with its literals.
MOST_SHOWN = 40  # Names of mailboxes.
LINK, REFUSED, REPLY, LACKING = 4, 5, 6, 7
LITERAL = re.compile(rb"\{([0-9]{1,7})\}\r\n\Z")
CAPABILITIES = re.compile(rb"(?:\* CAPABILITY |.*\[CAPABILITY )([^\]\r\n]*)", re.IGNORECASE)
NAME = re.compile(rb'\* LIST \([^)]*\) (?:NIL|"(?:[^"\\]|\\.)*") (?:"((?:[^"\\]|\\.)*)"|\{[0-9]+\}\r\n(.*)|(\S+))\r\n\Z', re.IGNORECASE | re.DOTALL)


class Ended(Exception):
    """The trial ends here, with a status and a line for people, unless `link` has one: it says why a connection was lost."""

    def __init__(self, status: int, reason: str = "") -> None:
        super().__init__(reason)
        self.status, self.reason = status, reason


def printable(octets: bytes) -> str:
    """What may be shown of octets from outside."""
    return "".join(chr(octet) if 32 <= octet < 127 else "?" for octet in octets)[:200]


def quoted(text: str) -> bytes:
    """A quoted string (RFC 9051, section 4.3)."""
    return b'"' + text.encode().replace(b"\\", b"\\\\").replace(b'"', b'\\"') + b'"'


class Session:
    """A session with the server, command by command."""

    def __init__(self, port: int) -> None:
        self.link = socket.create_connection(("127.0.0.1", port), PATIENCE)
        self.lines = self.link.makefile("rb")
        self.count = 0
        self.capabilities: Set[bytes] = set()

    def line(self) -> bytes:
        """A line of the server, with its literals."""
        line = b""
        while True:
            piece = self.lines.readline(LONGEST)
            line += piece
            if not piece.endswith(b"\n"):
                raise Ended(LINK)
            header = LITERAL.search(piece)
            if not header or len(line) > LONGEST:
                return line
            line += self.lines.read(int(header[1]))

    def greet(self) -> None:
        """The server's greeting."""
        line = self.line()
        if line.upper().startswith(b"* BYE"):
            raise Ended(REFUSED, f"the server refused: {printable(line.strip())}")
        if not line.upper().startswith((b"* OK", b"* PREAUTH")):
            raise Ended(REPLY, f"this is no IMAP server: it greets with {printable(line.strip())}")
        self.see(line)

    def see(self, line: bytes) -> None:
        """Keeps the capabilities that a line tells."""
        if told := CAPABILITIES.match(line):
            self.capabilities = set(told[1].upper().split())

    def ask(self, command: bytes, more: bytes = b"") -> List[bytes]:
        """The lines that answer a command, of which the last one is its OK, NO or BAD. `more` goes out where the server asks for it."""
        self.count += 1
        tag = b"T%d" % self.count
        self.link.sendall(tag + b" " + command + b"\r\n")
        told: List[bytes] = []
        while True:
            line = self.line()
            self.see(line)
            if line.startswith(b"+"):
                self.link.sendall(more + b"\r\n")
                more = b"*"
                continue
            told.append(line)
            if line.startswith(tag + b" "):
                told[-1] = line[len(tag) + 1 :].strip()
                return told
            if line.upper().startswith(b"* BYE") and command != b"LOGOUT":
                raise Ended(REFUSED, f"the server refused: {printable(line.strip())}")

    def log_in(self, user: str, password: str) -> None:
        """Logs in, as a play does."""
        if not self.capabilities:
            self.ask(b"CAPABILITY")
        if b"AUTH=PLAIN" in self.capabilities:
            answer = self.ask(b"AUTHENTICATE PLAIN", base64.b64encode(f"\0{user}\0{password}".encode()))[-1]
        elif b"LOGINDISABLED" not in self.capabilities:
            answer = self.ask(b"LOGIN " + quoted(user) + b" " + quoted(password))[-1]
        else:
            raise Ended(LACKING, "the server allows no log-in: does it want TLS?")
        if not answer.upper().startswith(b"OK"):
            raise Ended(REFUSED, f"the server refused the log-in: {printable(answer)}")
        self.ask(b"CAPABILITY")

    def lacks(self) -> List[str]:
        """What the server lacks for a play."""
        wanted = [b"QRESYNC"]
        if b"IMAP4REV2" not in self.capabilities:
            wanted += [b"UIDPLUS", b"MOVE"]
        return [name.decode() for name in wanted if name not in self.capabilities]

    def look(self, box: str) -> Tuple[int, str]:
        """Whether a mailbox can be played: the status that a play would end with there, and what there is to say."""
        told = self.ask(b"EXAMINE " + quoted(box))
        if not told[-1].upper().startswith(b"OK"):
            return REFUSED, f"not there: {printable(told[-1])}"
        codes = b"".join(told).upper()
        if b"[NOMODSEQ]" in codes or b"[HIGHESTMODSEQ " not in codes:
            return LACKING, "it keeps no mod-sequences"
        if b"[UIDNOTSTICKY]" in codes:
            return LACKING, "its UIDs don't last"
        return 0, "there"

    def names(self) -> List[str]:
        """The mailboxes that the server has."""
        found = [NAME.match(line) for line in self.ask(b'LIST "" "*"')]
        return sorted(printable(name[1] or name[2] or name[3] or b"") for name in found if name)


def show(text: str) -> None:
    """Prints a line of what was found."""
    print(f"mowerbean: {text}", flush=True)


def tried(session: Session, user: str, password: str, boxes: List[str]) -> int:
    """Tries all; the status."""
    session.greet()
    session.log_in(user, password)
    show(f"logged in as {user}")
    lacking = session.lacks()
    for name in lacking:
        show(f"the server lacks {name}")
    if not lacking:
        session.ask(b"ENABLE QRESYNC")
    statuses = [LACKING if lacking else 0]
    for box in boxes:
        status, what = session.look(box)
        show(f"mailbox {box}: {what}")
        statuses.append(status)
    if REFUSED in statuses:
        names = session.names()
        show("the server has " + ", ".join(names[:MOST_SHOWN]) + (", .." if len(names) > MOST_SHOWN else ""))
    session.ask(b"LOGOUT")
    return max(statuses)


def main(given: List[str]) -> int:
    """Tries the account of these words."""
    port, user, *boxes = given
    try:
        return tried(Session(int(port)), user, sys.stdin.read(), boxes)
    except Ended as end:
        if end.reason:
            show(end.reason)
        return end.status
    except OSError:
        return LINK


def end() -> NoReturn:
    """Ends with the status."""
    sys.exit(main(sys.argv[1:]))


if __name__ == "__main__":
    end()
