"""Journals and mailboxes as a session begins with them, and the program over a journal."""
import copy
import functools
import os
import pathlib
import shutil
import socket
import subprocess
import threading
import time
from typing import Counter, Dict, List, NamedTuple, Tuple

from servers.plain import Box, Words, first_boxes

from .spoiling import HostileServer, Recorded, SpoiledLine, Step, Wire

BOXES = ("INBOX", "Archive")
LETTER_ID, MOVED_ID = b"<letter@x>", b"<moved@x>"
LETTER = b"Message-ID: %s\nSubject: hi\n\n%s" % (LETTER_ID, b"hello there\n" * 20)
MOVED = b"Message-ID: %s\r\n\r\nmove me\r\n" % MOVED_ID
# How long a session may last that isn't to wait for anything, on a machine that does other work too.
SECONDS = 90


class Said(NamedTuple):
    """What a run of the program printed, its status, how many kilobytes of memory it took, and how many seconds."""

    text: str
    status: int
    memory: int
    seconds: float

    @property
    def line(self) -> str:
        """Its line, where it is one."""
        return self.text.rstrip("\n")


class Program:
    """The program over the journal of a folder, at a server of this port."""

    def __init__(self, path: pathlib.Path, folder: pathlib.Path, port: int) -> None:
        self.path, self.folder = path, folder
        self.environment = {"PATH": os.environ["PATH"], "MAIL_DIR": str(folder), "MAIL_SERVER": f"127.0.0.1:{port}"}
        self.environment.update(MAIL_USER="ann", MAIL_PASSWORD="secret")

    def say(self, *words: str, given: bytes = b"", seconds: int = SECONDS) -> Said:
        """What it says to these words and this input. Its session may last as many seconds."""
        begins = time.monotonic()
        environment = {**self.environment, "MAIL_TIME": str(seconds)}
        pipe = subprocess.PIPE
        running = subprocess.Popen([str(self.path), *words], env=environment, stdin=pipe, stdout=pipe, stderr=subprocess.DEVNULL)
        assert running.stdin and running.stdout
        guard = threading.Timer(2 * SECONDS, running.kill)
        guard.start()
        with running.stdin, running.stdout:
            running.stdin.write(given)
            running.stdin.close()
            text = running.stdout.read().decode(errors="replace")
        _, status, used = os.wait4(running.pid, 0)
        guard.cancel()
        running.returncode = os.waitstatus_to_exitcode(status)
        return Said(text, running.returncode, used.ru_maxrss, time.monotonic() - begins)


class Session(NamedTuple):
    """How a session begins: a folder with a journal, the mailboxes and what was done so far; and where nothing is spoiled its steps and its bytes."""

    name: str
    words: Words
    folder: pathlib.Path
    boxes: Dict[str, Box]
    deeds: Counter[str]
    actions: int
    steps: List[Step]
    size: int

    def server(self) -> HostileServer:
        """A server with these mailboxes."""
        server = HostileServer(copy.deepcopy(self.boxes), self.words)
        server.deeds.update(self.deeds)
        return server

    def copied(self, folder: pathlib.Path) -> pathlib.Path:
        """A copy of the journal."""
        shutil.copytree(self.folder, folder)
        return folder


def ask_all(mine: Program) -> None:
    """Asks for a flag, a move and a letter."""
    mine.say("flag", "INBOX", "40", "+", r"\Flagged")
    mine.say("move", "INBOX", "42", "Archive")
    mine.say("append", "Archive", r"\Seen", given=LETTER)


def recorded(session: Session, program: pathlib.Path) -> Session:
    """The session with its steps and its bytes, for which it is played once to its end, over a copy."""
    sizes: List[int] = []
    server = session.server()
    server.wire = lambda link: Recorded(link, session.steps, sizes)
    folder = session.copied(session.folder.with_name(f"{session.folder.name}-once"))
    told = Program(program, folder, server.port).say("play")
    server.close()
    if told.status not in (0, 1):
        raise SystemExit(f"try-hostile: a clean play of the session {session.name} prints {told.line}, status {told.status}")
    return session._replace(size=sum(sizes))


def lost_at(steps: List[Step], tag: str) -> int:
    """The first line of the answer to an action's command that is told once the deed is done."""
    return next(step.number for step in steps if step.tag == tag and not step.line.startswith("+"))


def stopped(link: socket.socket, at: int) -> Wire:
    """A connection that ends before this line."""
    return SpoiledLine(link, at, lambda wire, step: wire.stop())


def begun(program: pathlib.Path, folder: pathlib.Path, words: Words) -> Tuple[HostileServer, Program]:
    """A server, and a new journal for it in this folder."""
    folder.mkdir(parents=True)
    boxes = first_boxes()
    boxes["INBOX"].rows[42].text = MOVED
    server = HostileServer(boxes, words)
    mine = Program(program, folder, server.port)
    mine.say("init", *BOXES)
    return server, mine


def session_of(name: str, mine: Program, server: HostileServer, actions: int) -> Session:
    """The session that begins with this journal at this server, which ends."""
    server.close()
    session = Session(name, server.words, mine.folder, server.boxes, server.deeds, actions, [], 0)
    return recorded(session, mine.path)


def sessions(program: pathlib.Path, home: pathlib.Path, words: Words) -> Dict[str, Session]:
    """The sessions by name: a first play with a letter; one with a flag, a move and a letter; and three in which the play before was lost behind the
    deed of one of these."""
    server, mine = begun(program, home / f"{words.name}-first", words)
    mine.say("append", "Archive", r"\Seen", given=LETTER)
    found = {"first": session_of("first", mine, server, 1)}
    for name, lost in (("actions", ""), ("lost P1", "P1"), ("lost P2", "P2"), ("lost P3", "P3")):
        server, mine = begun(program, home / f"{words.name}-{name.replace(' ', '-')}", words)
        mine.say("play")
        ask_all(mine)
        if lost:
            server.wire = functools.partial(stopped, at=lost_at(found["actions"].steps, lost))
            mine.say("play")
        found[name] = session_of(name, mine, server, 3)
    return found
