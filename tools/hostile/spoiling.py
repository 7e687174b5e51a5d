"""A connection of the plain server in which one line is spoiled, or one byte. What stands before it is told as it is, and so is what comes after,
if the client still listens."""
import contextlib
import socket
import struct
import time
from typing import Callable, Dict, Iterator, List, NamedTuple, Optional

from servers.plain import Box, Server, Talk, Words

CRLF = b"\r\n"
# How many seconds a server waits for a client behind what it spoiled, and otherwise.
SHORT, LONG = 2.0, 60.0


class Step(NamedTuple):
    """A line that a server tells in a session: its number, the tag, the word and the whole of the command, and the line."""

    number: int
    tag: str
    verb: str
    command: str
    line: str

    @property
    def is_last(self) -> bool:
        """Whether it is the completion."""
        return bool(self.tag) and self.line.startswith(self.tag + " ")

    def __str__(self) -> str:
        return f"{self.number} ({f'{self.tag} {self.command[:40]}' if self.tag else 'greeting'}: {self.line.splitlines()[0][:60]})"


class Bounds(NamedTuple):
    """How many seconds a session may last, so that the program ends by itself, and how many kilobytes of memory it may take."""

    seconds: int = 20
    memory: int = 64_000


class Ended(ConnectionAbortedError):
    """The server ends the connection here."""


class Wire(Talk):
    """A connection whose lines go out one by one, so that something can be done to one of them."""

    def __init__(self, link: socket.socket) -> None:
        super().__init__(link)
        link.setsockopt(socket.IPPROTO_TCP, socket.TCP_NODELAY, 1)
        link.settimeout(LONG)
        self.number = 0
        self.waiting = b""
        self.is_reset = False
        # A line that is to come behind the next one.
        self.held = b""

    def tell(self, tag: str, lines: List[str]) -> None:
        for line in lines:
            held, self.held = self.held, b""
            self.line(Step(self.number, tag, self.verb, self.command, line))
            self.put(held)
            self.number += 1
        self.flush()

    def line(self, step: Step) -> None:
        """Tells a line as it is."""
        self.put(step.line.encode() + CRLF)

    def put(self, data: bytes) -> None:
        """Has bytes wait for the next flush."""
        self.waiting += data

    def flush(self) -> None:
        """Sends what waits."""
        waiting, self.waiting = self.waiting, b""
        self.send(waiting)

    def send(self, data: bytes) -> None:
        """Sends bytes at once."""
        self.link.sendall(data)

    def drip(self, data: bytes) -> None:
        """Sends bytes one by one."""
        self.flush()
        for byte in data:
            self.send(bytes([byte]))
            time.sleep(0.001)

    def stop(self, is_reset: bool = False) -> None:
        """Sends what waits, and ends the connection."""
        self.flush()
        self.is_reset = is_reset
        raise Ended

    def pour(self, pieces: Iterator[bytes]) -> None:
        """Sends what waits, and pieces, to a client that may take its time over them."""
        self.flush()
        self.link.settimeout(LONG)
        for piece in pieces:
            self.send(piece)

    def say_nothing(self) -> None:
        """Sends what waits, and nothing more until the client leaves."""
        self.flush()
        self.link.settimeout(2 * LONG)
        while self.link.recv(65_536):
            pass
        raise Ended

    def end(self) -> None:
        if not self.is_reset:
            super().end()
            return
        self.lines.close()
        with contextlib.suppress(OSError):
            self.link.setsockopt(socket.SOL_SOCKET, socket.SO_LINGER, struct.pack("ii", 1, 0))
        self.link.close()


class Recorded(Wire):
    """A connection that keeps the steps, and counts the bytes."""

    def __init__(self, link: socket.socket, steps: List[Step], sizes: List[int]) -> None:
        super().__init__(link)
        self.steps, self.sizes = steps, sizes

    def line(self, step: Step) -> None:
        self.steps.append(step)
        super().line(step)

    def send(self, data: bytes) -> None:
        self.sizes.append(len(data))
        super().send(data)


class SpoiledLine(Wire):
    """A connection in which the line of one step is spoiled."""

    def __init__(self, link: socket.socket, at: int, act: Callable[[Wire, Step], None]) -> None:
        super().__init__(link)
        self.at, self.act = at, act

    def line(self, step: Step) -> None:
        if step.number != self.at:
            super().line(step)
            return
        self.link.settimeout(SHORT)
        self.act(self, step)


class Fault(NamedTuple):
    """What befalls a byte: it is changed into another one, dropped or doubled, at so many bytes behind the first one."""

    at: int
    kind: str
    byte: int


class SpoiledByte(Wire):
    """A connection in which one byte is spoiled; it keeps the step in whose line the byte was."""

    def __init__(self, link: socket.socket, fault: Fault, hit: List[Step]) -> None:
        super().__init__(link)
        self.fault, self.hit, self.gone = fault, hit, 0

    def line(self, step: Step) -> None:
        data = step.line.encode() + CRLF
        at = self.fault.at - self.gone
        self.gone += len(data)
        if 0 <= at < len(data):
            self.hit.append(step)
            self.link.settimeout(SHORT)
            instead = {"changed": bytes([self.fault.byte]), "dropped": b"", "doubled": data[at : at + 1] * 2}[self.fault.kind]
            data = data[:at] + instead + data[at + 1 :]
        self.put(data)


class HostileServer(Server):
    """The plain server, which takes one connection after the other: a command of a lost one is carried out before the next greeting, or never.
    `wire` says how the next connections are."""

    def __init__(self, boxes: Dict[str, Box], words: Words) -> None:
        self.wire: Callable[[socket.socket], Wire] = Wire
        super().__init__(boxes, words)

    def welcome(self, link: socket.socket) -> None:
        self.talk(self.wire(link))

    def refuse(self, step: Optional[Step], answer: str) -> None:
        """Has the command of a step refused, and nothing done: a letter in place of the line that asks for it, or once it has come."""
        def once(tag: str) -> Optional[str]:
            if not step or tag != step.tag:
                return None
            self.refused = self.unkept = lambda tag: None
            return answer

        if step and step.verb == "APPEND" and step.is_last:
            self.unkept = once
        else:
            self.refused = once
