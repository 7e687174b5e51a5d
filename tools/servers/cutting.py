"""A relay between a mail client and its server that can cut the line at a chosen place: a way to see what a lost connection does.

A place is a command's tag (P3 is the command of the action 3), or `greeting`, with a way and where:

  out, before   nothing of the command reaches the server      in, before   the command's whole reply comes, and none of it is handed on
  out, inside   half of its last part does                     in, inside   half of the reply is handed on
  out, after    all of it does, and its reply isn't awaited    in, after    all of it is
"""
import contextlib
import re
import socket
import threading
from typing import Callable, List, Optional, Tuple

Address = Tuple[str, int]
Cut = Tuple[str, str, str]

PLACES = [(way, place) for way in ("out", "in") for place in ("before", "inside", "after")]
LITERAL = re.compile(rb"\{(\d+)\+?\}\r\n\Z")


class LineIsCut(Exception):
    """The line is cut here."""


class Pieces:
    """The lines and literals of a stream, in order. A literal may come in several pieces."""

    def __init__(self, link: socket.socket) -> None:
        self.link, self.buffer, self.left = link, b"", 0

    def take(self) -> Optional[Tuple[bytes, bool]]:
        """The next piece and whether it is of a literal; nothing at the stream's end."""
        while True:
            if self.left and self.buffer:
                piece = self.buffer[: self.left]
                self.buffer = self.buffer[len(piece) :]
                self.left -= len(piece)
                return piece, True
            end = self.buffer.find(b"\n") + 1
            if end and not self.left:
                line, self.buffer = self.buffer[:end], self.buffer[end:]
                if size := LITERAL.search(line):
                    self.left = int(size[1])
                return line, False
            more = self.link.recv(65_536)
            if not more:
                # What is no whole line goes on as it is.
                piece, self.buffer = self.buffer, b""
                return (piece, bool(self.left)) if piece else None
            self.buffer += more


class Session:
    """One connection of a client, and the one to the server that belongs to it."""

    def __init__(self, relay: "Relay", client: socket.socket, server: socket.socket) -> None:
        self.relay, self.client, self.server = relay, client, server
        # The command under way: its tag, its first word, and whether all of it has been handed on.
        self.tag, self.verb, self.whole = b"greeting", b"", True
        self.is_over = False

    def is_at(self, way: str, *places: str) -> bool:
        """Whether the line is to be cut in the command under way, in this direction and at one of these places."""
        cut = self.relay.cut
        return cut is not None and cut[0].encode() == self.tag and cut[1] == way and cut[2] in places

    def end(self) -> None:
        """Ends both connections."""
        for link in (self.client, self.server):
            with contextlib.suppress(OSError):
                link.shutdown(socket.SHUT_RDWR)

    def run(self, way: str) -> None:
        """Hands on what comes one way, to its end or the cut."""
        try:
            (self.outward if way == "out" else self.inward)()
        except LineIsCut:
            self.relay.cut = None
        except (OSError, ValueError):
            pass
        self.end()

    def outward(self) -> None:
        """From the client to the server."""
        pieces, size = Pieces(self.client), 0
        while taken := pieces.take():
            piece, is_literal = taken
            if self.is_over:
                return
            if is_literal:
                self.send_literal(piece, pieces, size)
                continue
            size = pieces.left
            self.send_line(piece, size > 0)

    def send_line(self, line: bytes, has_literal: bool) -> None:
        """Hands on a line of a command."""
        if self.whole:
            self.begin(line)
        # A line that ends with a literal's size isn't the command's last one, nor is AUTHENTICATE's first one.
        is_first_of_two = self.verb == b"AUTHENTICATE" and line.startswith(self.tag + b" ") and line.count(b" ") < 3
        goes_on = has_literal or is_first_of_two
        if not goes_on and self.is_at("out", "inside"):
            self.server.sendall(line[: len(line) // 2])
            raise LineIsCut
        self.whole = not goes_on
        self.server.sendall(line)
        if self.whole and self.is_at("out", "after"):
            raise LineIsCut

    def send_literal(self, piece: bytes, pieces: Pieces, size: int) -> None:
        """Hands on a part of a literal of so many bytes."""
        sent = size - pieces.left - len(piece)
        if self.is_at("out", "inside") and sent + len(piece) > size // 2:
            self.server.sendall(piece[: max(0, size // 2 - sent)])
            raise LineIsCut
        self.server.sendall(piece)

    def begin(self, line: bytes) -> None:
        """Takes the first line of a command."""
        words = line.rstrip(b"\r\n").split(b" ", 2)
        self.tag, self.verb = words[0], words[1].upper() if len(words) > 1 else b""
        self.relay.tags.append(self.tag.decode(errors="replace"))
        self.relay.before(self.relay.tags[-1])
        if self.is_at("out", "before"):
            raise LineIsCut

    def inward(self) -> None:
        """From the server to the client."""
        pieces, kept = Pieces(self.server), b""
        while taken := pieces.take():
            piece, is_literal = taken
            is_last = not is_literal and (piece.startswith(self.tag + b" ") or self.tag == b"greeting")
            # Also where the server doesn't ask for a literal.
            self.whole = self.whole or is_last
            if not self.whole or not self.is_at("in", "before", "inside"):
                # Known before the client can answer, so that nothing more of it is handed on.
                self.is_over = is_last and self.is_at("in", "after")
                self.client.sendall(piece)
                if self.is_over:
                    raise LineIsCut
                continue
            kept += piece
            if is_last:
                if self.is_at("in", "inside"):
                    self.client.sendall(kept[: len(kept) // 2])
                raise LineIsCut


class Relay:
    """A relay at a free port of this machine, and the tags of the commands that came through it."""

    def __init__(self, server: Address, cut: Optional[Cut] = None) -> None:
        self.server, self.cut = server, cut
        self.tags: List[str] = []
        # What happens before a command of this tag is handed on.
        self.before: Callable[[str], None] = lambda tag: None
        self.socket = socket.create_server(("127.0.0.1", 0))
        self.port: int = self.socket.getsockname()[1]

    def serve(self) -> None:
        """Takes connections until the socket is closed."""
        while True:
            try:
                client, _ = self.socket.accept()
            except OSError:
                return
            try:
                server = socket.create_connection(self.server, timeout=60)
            except OSError:
                client.close()
                continue
            server.settimeout(None)
            self.begin(Session(self, client, server))

    def begin(self, session: Session) -> None:
        """Goes between a client and the server, in both ways at once."""
        for link in (session.client, session.server):
            link.setsockopt(socket.IPPROTO_TCP, socket.TCP_NODELAY, 1)
        for way in ("out", "in"):
            threading.Thread(target=session.run, args=(way,), daemon=True).start()

    def start(self) -> "Relay":
        """Serves beside the caller, until close."""
        threading.Thread(target=self.serve, daemon=True).start()
        return self

    def close(self) -> None:
        """Takes no more connections."""
        with contextlib.suppress(OSError):
            self.socket.shutdown(socket.SHUT_RDWR)
        self.socket.close()
