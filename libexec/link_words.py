"""What is said on the line, and what it means for a session: lines and literals, a letter's way, a second look, limits, secrets.

Nothing here touches a socket or a file, so all of it can be tried with octets alone.
"""
import base64
import contextlib
import enum
import re
from typing import Dict, Iterator, List, NamedTuple, Optional, Tuple

LINE_LIMIT = 65_536  # A line is read up to here; what is longer is handed on unread.
HEADER_LIMIT = 32  # The octets at a line's end in which a literal's size can stand.
HOLD_STEP = 0.02  # Between two looks at the send queue.
SILENCE = 30.0  # Where the program leaves after so much of it, the line is to blame.
PROGRAM_TIME = 60.0  # For the program to connect.
LAST_WORDS = 5.0  # For the program to take what the server said before its end.
TOO_SLOW_TIME, TOO_SLOW_BYTES, SENT_PER_SECOND = 900.0, 4_096, 2_000
LOOK_CATENATE, LOOK_CRLF = 130.0, 130.0  # How long the line must live in a second look. A tunnel may hold a dead session's last part.
LOOK_STEP, LOOK_ANSWER, LOOK_LATE, LOOK_SILENCE = 2.0, 5.0, 1.0, 200.0
SECRETS, SECRET_LEAST, SECRET_MOST = 16, 4, 1_024  # How many hidden words are kept, and their sizes.

PRINTABLE = bytes(octet if 32 <= octet < 127 else ord("?") for octet in range(256))
LITERAL = re.compile(rb"\{([0-9]{1,18})(\+?)\}\r\n\Z")
COMMAND = re.compile(rb"([A-Z][0-9]{1,18}(?:R[23])?) ((?:UID )?[A-Z]+)(?=[ \r\n])")
SELECT = re.compile(rb'[A-Z][0-9]{1,18} SELECT (?:"([^"]*)"|([^" \r\n]+))[ \r]')
VALIDITY = re.compile(rb"\S+ OK \[UIDVALIDITY ([0-9]{1,10})\]", re.IGNORECASE)
TEXT_ASKED = re.compile(rb"[A-Z][0-9]{1,18} UID FETCH ([0-9]{1,10}) \(UID BODY\.PEEK\[\]\)\r\n")
TEXT_TOLD = re.compile(rb"BODY\[\] \{[0-9]{1,18}\}\r\n\Z", re.IGNORECASE)
CAPABILITIES = re.compile(rb"(?:\* CAPABILITY |\S+ [A-Z]+ +\[CAPABILITY )([^\]\r\n]*)", re.IGNORECASE)


class Status(enum.IntEnum):
    """How a session ended, for the script that started it."""

    WELL = 0
    WORDS = 2
    LINE = 3
    ADDRESS = 4
    AGAIN = 5
    LARGE = 6


class Ended(Exception):
    """The session ends here, with a status and a reason for people (none where all is well)."""

    def __init__(self, status: Status, reason: str = "") -> None:
        super().__init__(reason)
        self.status, self.reason = status, reason


def printable(octets: bytes) -> str:
    """The text of octets from outside, with ? for all that a terminal could take as more than a letter."""
    return octets.translate(PRINTABLE).decode("ascii")


class Part(NamedTuple):
    """Octets of a stream that belong together: of one line, or of one literal."""

    data: bytes
    is_literal: bool
    is_first: bool  # Not after a literal.
    is_whole: bool  # A whole line.
    ends: bool  # The line or the literal ends here.
    line: bytes = b""  # Where a line ends: its beginning, up to LINE_LIMIT octets.
    size: Optional[int] = None  # Where a line ends: the size of the literal after it.
    waits: bool = False  # That literal is sent only after a `+`.


class Scanner:
    """Cuts a stream into lines and literals, however its octets come.

    A line is given when it is whole. One that begins with an octet of `streamed`, or is longer than LINE_LIMIT, is given as it comes.
    """

    def __init__(self, streamed: bytes) -> None:
        self.streamed = streamed
        self.left = 0  # Octets that the literal still has.
        self.is_first = True
        self._begin_line()

    def _begin_line(self) -> None:
        self.front, self.waiting, self.end = bytearray(), bytearray(), b""
        self.is_cut = False

    def feed(self, data: bytes) -> Iterator[Part]:
        """The parts in these octets. No octet is changed, left out or put in another order."""
        at = 0
        while at < len(data):
            if self.left:
                piece = data[at : at + self.left]
                self.left -= len(piece)
                yield Part(piece, True, False, False, not self.left)
            else:
                piece = data[at : (data.find(b"\n", at) + 1) or len(data)]
                yield from self._take(piece)
            at += len(piece)

    def _take(self, piece: bytes) -> Iterator[Part]:
        """Takes a piece of a line."""
        self.waiting += piece
        self.front += piece[: LINE_LIMIT - len(self.front)]
        self.end = (self.end + piece)[-HEADER_LIMIT:]
        ends = piece.endswith(b"\n")
        is_streamed = bool(self.streamed) and (not self.is_first or self.front[:1] in self.streamed)
        if not ends and not is_streamed and len(self.waiting) <= LINE_LIMIT and not self.is_cut:
            return
        data, line, is_first = bytes(self.waiting), bytes(self.front), self.is_first
        is_whole = ends and not self.is_cut and len(data) <= LINE_LIMIT
        self.waiting, self.is_cut = bytearray(), True
        if not ends:
            yield Part(data, False, is_first, False, False)
            return
        header = LITERAL.search(self.end)
        size = int(header[1]) if header else None
        self.left, self.is_first = size or 0, size is None
        self._begin_line()
        yield Part(data, False, is_first, is_whole, True, line, size, bool(header and not header[2]))

    def refuse(self) -> None:
        """The literal that was announced doesn't come: a new line begins."""
        self.left, self.is_first = 0, True


class Way(enum.Enum):
    """What keeps a letter's last part back: the server's own word (RFC 4469), or the system's queue."""

    CATENATE = "catenate"
    CRLF = "crlf"


class Stage(enum.Enum):
    """How far a letter is."""

    ASKING = 1  # The server hasn't asked for it.
    SENDING = 2  # Its octets go out.
    HOLDING = 3  # All but its last part is out, or waits to be.
    WHOLE = 4  # Its last part is out.
    REFUSED = 5  # What still comes of it is dropped.


class Letter:
    """A letter on its way: what is to be sent of it, and when. The octets themselves pass through but for the last two."""

    def __init__(self, tag: bytes, size: int, way: Way) -> None:
        self.tag, self.size, self.way = tag, size, way
        self.stage = Stage.ASKING
        self.line = b""  # What announces it, as the program says it.
        self.left = size  # Octets that the program hasn't sent.
        self.held = b""
        self.has_end = False  # The program sent the CRLF too.
        self.is_asked = False  # The server asked for the last part.
        self.is_unclear = False  # Refused when the server didn't have all of what it asked for.

    def opening(self, line: bytes) -> bytes:
        """The line that announces the letter, as the server gets it."""
        self.line = line
        if self.way is Way.CRLF:
            return line
        return line[: line.rindex(b"{")] + b"CATENATE (TEXT {%d}\r\n" % (self.size - 2)

    def is_foreign(self, word: bytes) -> bool:
        """Whether the server answered so that it doesn't know CATENATE after all."""
        return word == b"BAD" and self.stage is Stage.ASKING and self.way is Way.CATENATE

    def go(self) -> None:
        """The server asks for the octets."""
        self.stage = Stage.SENDING if self.size else Stage.HOLDING

    def take(self, octets: bytes) -> bytes:
        """Takes octets of the letter from the program; what is to be sent for them."""
        self.left -= len(octets)
        if self.stage is Stage.REFUSED:
            return b""
        out = octets
        if self.way is Way.CATENATE:
            whole = self.held + octets
            cut = max(0, len(whole) - max(0, 2 - self.left))
            out, self.held = whole[:cut], whole[cut:]
        if self.stage is Stage.SENDING and self.left <= (2 if self.way is Way.CATENATE else 0):
            self.stage = Stage.HOLDING
            out += b" TEXT {2}\r\n" if self.way is Way.CATENATE else b""
        return out

    def is_ready(self, is_queue_empty: bool) -> bool:
        """Whether the last part may go out now. Nothing of the letter is in this program's own buffer."""
        if self.stage is not Stage.HOLDING or not self.has_end:
            return False
        return self.is_asked if self.way is Way.CATENATE else is_queue_empty

    def last_part(self) -> bytes:
        """The last part, which makes the command whole."""
        self.stage = Stage.WHOLE
        return self.held + b")\r\n" if self.way is Way.CATENATE else b"\r\n"

    def refuse(self) -> None:
        """The server answered NO or BAD before it had the whole command.

        In place of a `+` that is clear to both. Anywhere else the server may take what comes next as octets of the letter.
        """
        awaits_second = self.stage is Stage.HOLDING and self.way is Way.CATENATE and not self.is_asked
        is_in_place = self.stage is Stage.ASKING or awaits_second
        self.is_unclear = not is_in_place
        self.stage = Stage.REFUSED


class Look:
    """A second look: it waits until the line has lived for so long, which it sees by NOOPs of its own."""

    def __init__(self, seconds: float, now: float) -> None:
        self.whole = self.left = seconds
        self.count = 0
        self.asked: Optional[float] = None  # When the NOOP that isn't answered went out.
        self.lived_at: Optional[float] = None  # When the last one was answered.
        self.began = now

    def is_over(self) -> bool:
        """Whether the line has lived for long enough."""
        return self.left <= 0

    def next_turn(self) -> float:
        """When there is something to do."""
        if self.asked is not None:
            return self.asked + LOOK_SILENCE
        return self.began if self.lived_at is None else self.lived_at + min(LOOK_STEP, self.left)

    def turn(self, now: float) -> bytes:
        """What is to be sent now."""
        if now < self.next_turn():
            return b""
        if self.asked is not None:
            raise Ended(Status.LINE, f"the line died while a letter was awaited: no bytes for {LOOK_SILENCE:.0f} seconds")
        self.count, self.asked = self.count + 1, now
        return b"X%d NOOP\r\n" % self.count

    def hear(self, line: bytes, now: float) -> None:
        """Takes a line of the server. A stretch counts where the NOOP at its end was answered in time.

        A later answer counts for a little, so that a look comes to its end on a line that is always so slow. No stretch counts for
        more than it should take: link itself may have been stopped in it.
        """
        if self.asked is None or not line.startswith(b"X%d " % self.count):
            return
        if self.lived_at is not None:
            stretch = min(now - self.lived_at, LOOK_STEP + LOOK_ANSWER)
            self.left -= stretch if now - self.asked <= LOOK_ANSWER else LOOK_LATE
        self.lived_at, self.asked = now, None


class Watch:
    """The limit for a session that goes too slowly: so few bytes in so long, both directions together."""

    def __init__(self, now: float) -> None:
        self.since, self.bytes, self.out, self.sent = now, 0, 0, 0

    def check(self, now: float, received: int, sent: int, out: int, is_letter: bool) -> None:
        """`out` is what of `sent` left the system's queue. A letter that still moves is never too slow."""
        moved = received + out
        allowed = TOO_SLOW_TIME + (sent - self.sent) / SENT_PER_SECOND
        is_late = now - self.since > allowed
        if moved - self.bytes >= TOO_SLOW_BYTES or (is_late and is_letter and out > self.out):
            self.since, self.bytes, self.out, self.sent = now, moved, out, sent
        elif is_late:
            few, long = moved - self.bytes, now - self.since
            raise Ended(Status.LINE, f"the line is too slow: {few} bytes in {long:.0f} seconds")


def place_of(tag: bytes) -> Tuple[int, int]:
    """The number in a tag, which for an action's command is the action's, and which try of the action it is."""
    number, _, turn = tag[1:].partition(b"R")
    return int(number), int(turn or b"1")


class Secrets:
    """Whether what the program sends is hidden: from a log-in on until it was answered and the next command begins.

    The next command, and not the answer alone: a server that answers early must not uncover the line that the program sends then.
    """

    def __init__(self) -> None:
        self.is_hidden = self.is_answered = False
        self.highest: Dict[bytes, Tuple[int, int]] = {}  # Of each letter that tags begin with.
        self.kept: List[bytes] = []

    def begin(self, tag: bytes, verb: bytes) -> None:
        """A line looks like the beginning of a command."""
        letter, place = tag[:1], place_of(tag)
        highest = self.highest.get(letter, (-1, 0))
        if self.is_hidden and self.is_answered and place > highest:
            self.is_hidden = False
        self.highest[letter] = max(place, highest)
        if verb in (b"LOGIN", b"AUTHENTICATE"):
            self.is_hidden, self.is_answered = True, False

    def said(self, line: bytes) -> bytes:
        """What may be shown of a line of the program."""
        if not self.is_hidden:
            return line
        words = line.split()
        verb = words[1] if COMMAND.match(line) else b""
        shown, secret = {b"LOGIN": (2, 3), b"AUTHENTICATE": (3, 3)}.get(verb, (0, 0))
        self.keep(*words[secret:])
        return b" ".join(words[:shown] + ([b"[hidden]"] if words[shown:] else []))

    def keep(self, *words: bytes) -> None:
        """Keeps hidden words, and the password in base64, so that a server that repeats them doesn't uncover them."""
        for word in words:
            plain = [word.strip(b'"')]
            with contextlib.suppress(ValueError):
                plain.append(base64.b64decode(word, validate=True).split(b"\0")[-1])
            self.kept += [secret for secret in plain if SECRET_LEAST <= len(secret) <= SECRET_MOST and not LITERAL.match(secret + b"\r\n")]
        del self.kept[SECRETS:]

    def heard(self, line: bytes) -> bytes:
        """What may be shown of a line of the server."""
        return b"[hidden]" if any(secret in line for secret in self.kept) else line
