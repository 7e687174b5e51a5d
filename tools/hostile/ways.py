"""The ways in which a line of a server is spoiled. Each is told the connection and the step, and sends something before the line or in its place."""
import re
from itertools import chain, repeat
from typing import Callable, Iterable, Iterator, List, NamedTuple, Optional, Tuple

from .spoiling import CRLF, Bounds, Step, Wire

Act = Callable[[Wire, Step], None]
Fits = Callable[[Step], bool]

# More than a line may have, as a server would send that has lost its way: 256 MiB.
FLOOD, PIECE = 268_435_456, b"a" * 65_536
ROW = b"* 1 FETCH (UID %d FLAGS (\\Seen) MODSEQ (600))" + CRLF
FLAGS = b" ".join(b"k%d" % number for number in range(1025))
GONE = b"* VANISHED (EARLIER) %d" + CRLF


class Way(NamedTuple):
    """A way: its name, what it does, at which steps it can be, and how a command is refused where it does nothing else."""

    name: str
    act: Act
    fits: Fits = lambda step: True
    refusal: str = ""
    bounds: Bounds = Bounds()


def plain(step: Step) -> bytes:
    """The line as it would be."""
    return step.line.encode() + CRLF


def before(*lines: bytes) -> Act:
    """Lines that stand before it."""
    return lambda wire, step: wire.put(b"".join(line + CRLF for line in lines) + plain(step))


def instead(change: Callable[[bytes], bytes]) -> Act:
    """Its line, changed."""
    return lambda wire, step: wire.put(change(plain(step)))


def numbers(instead_of: bytes, name: str = "") -> Way:
    """Each number of a line, but for a tag's, is another one."""
    def changed(wire: Wire, step: Step) -> None:
        first, rest = step.line.encode().split(b" ", 1)
        wire.put(first + b" " + re.sub(rb"\d+", instead_of, rest) + CRLF)

    return Way(f"its numbers are {name or instead_of.decode()}", changed, lambda step: bool(re.search(r" .*\d", step.line)) and bool(step.tag))


def ends_inside(wire: Wire, step: Step) -> None:
    """Half of the line comes."""
    wire.put(plain(step)[: len(plain(step)) // 2])
    wire.stop()


def ends_behind(wire: Wire, step: Step) -> None:
    """The line comes, and the end."""
    wire.put(plain(step))
    wire.stop()


def says_bye(wire: Wire, step: Step) -> None:
    """BYE comes, and the end."""
    wire.put(b"* BYE gone" + CRLF)
    wire.stop()


def pours(pieces: Callable[[], Iterable[bytes]]) -> Act:
    """Much stands before it, in pieces."""
    def poured(wire: Wire, step: Step) -> None:
        wire.pour(iter(pieces()))
        wire.put(plain(step))

    return poured


def many(count: int, each: bytes, at_once: int = 1_000) -> Iterator[bytes]:
    """So many pieces, each with another number from a million on, as no message has; some thousand at once."""
    for first in range(1_000_000, 1_000_000 + count, at_once):
        yield b"".join(each % number for number in range(first, first + at_once))


def behind_next(wire: Wire, step: Step) -> None:
    """It comes behind the next line."""
    wire.held = plain(step)


def cut_literal(wire: Wire, step: Step) -> None:
    """A literal is longer than what follows, as the connection ends there."""
    wire.put(b"* 1 FETCH (UID 40 BODY[] {100000}\r\nshort" + plain(step))
    wire.stop()


def replaced(pattern: bytes, by: bytes) -> Act:
    """A part of its line is another one."""
    return instead(lambda line: re.sub(pattern, by, line))


def has(pattern: str) -> Fits:
    """The steps in whose line this stands."""
    return lambda step: re.search(pattern, step.line) is not None


def answers(pattern: str) -> Fits:
    """The completions of commands like this."""
    return lambda step: step.is_last and re.fullmatch(pattern, step.verb) is not None


def middle(data: bytes) -> Act:
    """These bytes stand in the middle of its line."""
    return instead(lambda line: line[: len(line) // 2] + data + line[len(line) // 2 :])


def deed(step: Step) -> bool:
    """Whether this is the completion of an action's command."""
    return step.is_last and step.tag.startswith("P")


def first(step: Step) -> bool:
    """Whether this is the first line of an answer, or the completion."""
    return step.is_last or re.match(r"\+|\* (\d+ EXISTS|ENABLED|CAPABILITY|BYE)", step.line) is not None or not step.tag


def ended(step: Step) -> bool:
    """Whether this ends a command, or asks for more of it: something can be refused in its place."""
    return step.is_last or step.line.startswith("+")


ENDS: List[Way] = [
    Way("ends before it", lambda wire, step: wire.stop()),
    Way("ends inside it", ends_inside),
    Way("ends behind it", ends_behind),
    Way("is reset before it", lambda wire, step: wire.stop(is_reset=True)),
    Way("says nothing more", lambda wire, step: wire.say_nothing(), bounds=Bounds(2)),
    Way("says nothing for a minute", lambda wire, step: wire.say_nothing(), has("UIDNEXT"), bounds=Bounds(90)),
    Way("drips it", lambda wire, step: wire.drip(plain(step))),
    Way("leaves it out", lambda wire, step: None),
    Way("tells it twice", lambda wire, step: wire.put(plain(step) * 2)),
    Way("tells it behind the next line", behind_next, lambda step: not step.is_last and not step.line.startswith("+") and bool(step.tag)),
]
BYTES: List[Way] = [
    Way("a line of 256 MiB", pours(lambda: chain([b"* OK "], repeat(PIECE, FLOOD // len(PIECE)), [CRLF]))),
    Way("lines of 256 MiB and more", pours(lambda: repeat(b"* OK " + PIECE + CRLF, FLOOD // len(PIECE))), first, bounds=Bounds(120)),
    Way("a NUL in it", middle(b"\0")),
    Way("bytes above 127 in it", middle(b"\x80\xff\xc3")),
    Way("bytes above 127 at its end", instead(lambda line: line[:-2] + b"\x80\xff\xc3" + CRLF)),
    Way("an LF in it", middle(b"\n")),
    Way("a literal longer than what follows", cut_literal),
    Way("a literal of 20 digits", before(b"* 1 FETCH (UID 40 BODY[] {99999999999999999999}")),
    Way("a literal of -1", before(b"* 1 FETCH (UID 40 BODY[] {-1}")),
    Way("a line of 1,025 flags", before(b"* 1 FETCH (UID 40 FLAGS (" + FLAGS + b") MODSEQ (1))")),
    Way("a flag of 256 bytes", before(b"* 1 FETCH (UID 40 FLAGS (" + b"f" * 256 + b") MODSEQ (1))")),
    Way("an unclosed list of a million parentheses", pours(lambda: chain([b"* 1 FETCH (X "], repeat(b"(" * 1_000, 1_000), [CRLF])), first),
    Way("a list 500,000 deep", pours(lambda: chain([b"* 1 FETCH (X "], repeat(b"(" * 1_000, 500), repeat(b")" * 1_000, 500), [b")" + CRLF])), first),
    Way("a literal of {5+}", before(b"* 1 FETCH (X {5+}", b"hello)")),
    Way("100,000 UIDs in a VANISHED", pours(lambda: chain([b"* VANISHED (EARLIER) 1000000"], many(100_000, b",%d"), [CRLF])), first),
    # One more than a mailbox may have, at least.
    Way("200,001 rows", pours(lambda: many(201_000, ROW)), first, bounds=Bounds(120, 256_000)),
    Way("a million VANISHED", pours(lambda: many(1_000_000, GONE)), first, bounds=Bounds(120, 256_000)),
]
TAGS: List[Way] = [
    Way("another command's completion", before(b"C999 OK done")),
    Way("an earlier command's completion", before(b"C1 OK done")),
    Way("a later action's completion", before(b"P3 OK [APPENDUID 9 77] done")),
    Way("its own completion too early", lambda wire, step: before(f"{step.tag} OK early".encode())(wire, step), lambda step: bool(step.tag)),
    Way("a tag of nobody", before(b"XYZ OK done")),
    Way("a + that nobody asked for", before(b"+ more")),
    Way("NO in its place", lambda wire, step: None, ended, refusal="NO not so"),
    Way("BAD in its place", lambda wire, step: None, ended, refusal="BAD not so"),
    Way("BYE in its place", says_bye),
    Way("NO, and it was done", replaced(rb" OK .*\r\n", b" NO not so\r\n"), deed),
    Way("BAD, and it was done", replaced(rb" OK .*\r\n", b" BAD not so\r\n"), deed),
    Way("an untagged NO", before(b"* NO think again")),
    Way("an untagged BAD", before(b"* BAD think again")),
    Way("an alert", before(b"* OK [ALERT] disk is on fire")),
    Way("PREAUTH", before(b"* PREAUTH welcome")),
]
NUMBERS: List[Way] = [
    *map(numbers, (b"-1", b"0", b"4294967296", b"99999999999999999999")),
    numbers(b"9" * 1_000, "of 1,000 digits"),
    Way("UID 0", before(b"* 1 FETCH (UID 0 FLAGS () MODSEQ (1))")),
    Way("VANISHED 0", before(b"* VANISHED 0")),
    Way("message 0", before(b"* 0 FETCH (UID 40 FLAGS () MODSEQ (1))")),
]
LIES: List[Way] = [
    Way("VANISHED of what isn't there", before(b"* VANISHED 4000000000")),
    Way("VANISHED (EARLIER) of what isn't there", before(b"* VANISHED (EARLIER) 1:6,4000000000")),
    Way("VANISHED of what is there", before(b"* VANISHED (EARLIER) 1:4294967295")),
    Way("EXISTS that shrinks", before(b"* 0 EXISTS")),
    Way("EXISTS that grows", before(b"* 4294967295 EXISTS")),
    Way("a FETCH of another UID", before(rb"* 9 FETCH (UID 77 FLAGS (\Seen) MODSEQ (600))")),
    Way("a FETCH with other flags", before(rb"* 1 FETCH (UID 40 FLAGS (\Draft) MODSEQ (600))", rb"* 2 FETCH (UID 42 FLAGS (\Draft) MODSEQ (600))")),
    Way("a FETCH without a UID", before(rb"* 1 FETCH (FLAGS (\Seen) MODSEQ (600))")),
    Way("HIGHESTMODSEQ lower", before(b"* OK [HIGHESTMODSEQ 1] lower")),
    Way("HIGHESTMODSEQ higher", before(b"* OK [HIGHESTMODSEQ 1000000] higher")),
    Way("UIDNEXT lower", before(b"* OK [UIDNEXT 1] lower")),
    Way("UIDNEXT higher", before(b"* OK [UIDNEXT 4000000000] higher")),
    Way("another UIDVALIDITY", before(b"* OK [UIDVALIDITY 6] another")),
    Way("NOMODSEQ", before(b"* OK [NOMODSEQ] none")),
    Way("UIDNOTSTICKY", before(b"* NO [UIDNOTSTICKY] none")),
    Way("CLOSED", before(b"* OK [CLOSED] closed")),
    Way("PERMANENTFLAGS of none", before(b"* OK [PERMANENTFLAGS ()] none")),
    Way("capabilities that lack all", before(b"* CAPABILITY IMAP4rev1")),
    Way("ENABLED of nothing", before(b"* ENABLED"), lambda step: step.verb == "ENABLE"),
    Way("a search that finds others", before(b"* SEARCH 1 40 42 77")),
    Way("COPYUID of another message", before(b"* OK [COPYUID 9 41 77] other")),
    Way("COPYUID to another place", replaced(rb"(COPYUID \d+ \d+) \d+", rb"\1 77"), has("COPYUID")),
    Way("COPYUID of two messages", replaced(rb"(COPYUID \d+) \d+ \d+", rb"\1 41:42 77:78"), has("COPYUID")),
    Way("APPENDUID out of place", before(b"* OK [APPENDUID 9 77] other")),
    Way("APPENDUID left out", replaced(rb"\[APPENDUID.*\] ", b""), has("APPENDUID")),
    Way("APPENDUID of another place", replaced(rb"(APPENDUID \d+) \d+", rb"\1 77"), has("APPENDUID")),
    Way("APPENDUID of another UIDVALIDITY", replaced(rb"APPENDUID \d+", rb"APPENDUID 10"), has("APPENDUID")),
    Way("MODIFIED out of place", before(b"* OK [MODIFIED 40] other")),
    Way("MODIFIED, and it was done", replaced(rb" OK ", b" OK [MODIFIED 40] "), answers("STORE")),
]
WAYS: List[Way] = ENDS + BYTES + TAGS + NUMBERS + LIES


def named(name: str) -> Optional[Way]:
    """The way of this name."""
    return next((way for way in WAYS if way.name == name), None)


def spoiled(steps: List[Step], ways: List[Way]) -> Iterator[Tuple[Way, Step]]:
    """Each way at each step where it can be."""
    return ((way, step) for way in ways for step in steps if way.fits(step))
