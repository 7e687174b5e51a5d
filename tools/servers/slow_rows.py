"""The rows of the table of slow lines, and which of them are tried."""
import dataclasses
import itertools
from typing import Iterator, List

# Bytes a second, and the letters that go through in about a hundred seconds.
SIZES = {
    5_000: (40_000, 300_000),
    20_000: (40_000, 300_000, 2_000_000),
    50_000: (40_000, 300_000, 2_000_000),
    200_000: (40_000, 300_000, 2_000_000),
}
LINES = ("one queue", "a queue each", "relay 16 KB", "relay")
WAYS = ("plain", "TLS", "tunnel")
LEFT, INT, KILL, LAST, DEAD, DEAD_KILL, SHORT_KILL = EVENTS = (
    "left alone",
    "INT after 1 s",
    "KILL after 1 s",
    "KILL at the last write",
    "dead for 90 s",
    "dead for 90 s and KILL",
    # So short that the killed play's system still sends what it holds; after some 50 seconds it gives up.
    "dead for 40 s and KILL",
)
# The connection of the killed play alone is dead, and the next play comes over a line that lives.
STUCK, LONG_STUCK = "its connection alone dead for 90 s and KILL", "its connection alone dead for 250 s and KILL"
# For how long the line or the connection is dead.
DEAD_SECONDS = {DEAD: 90, DEAD_KILL: 90, SHORT_KILL: 40, STUCK: 90, LONG_STUCK: 250}
# The rates and sizes at which each shows most.
TELLING = {
    LEFT: [(5_000, 300_000), (20_000, 2_000_000)],
    INT: [(5_000, 40_000), (20_000, 300_000), (50_000, 300_000), (50_000, 2_000_000)],
    KILL: [(20_000, 300_000), (50_000, 2_000_000), (5_000, 40_000), (50_000, 300_000)],
    LAST: [(20_000, 300_000), (50_000, 300_000), (5_000, 40_000), (50_000, 2_000_000)],
    DEAD: [(20_000, 40_000), (50_000, 300_000), (5_000, 40_000), (200_000, 300_000)],
    DEAD_KILL: [(20_000, 40_000), (50_000, 300_000), (5_000, 40_000), (200_000, 300_000)],
    SHORT_KILL: [(50_000, 300_000), (20_000, 40_000)],
}


@dataclasses.dataclass(frozen=True)
class Row:
    """What is tried once."""

    kind: str
    has_catenate: bool
    line: str
    way: str
    rate: int
    size: int
    event: str

    @property
    def server(self) -> str:
        """The server's name, with what it doesn't offer."""
        return self.kind if self.has_catenate else f"{self.kind} without CATENATE"

    @property
    def parts(self) -> List[str]:
        """What the row is, in words."""
        return [self.server, self.line, self.way, f"{self.rate // 1000} kB/s", f"{self.size // 1000} kB", self.event]

    def __str__(self) -> str:
        return ", ".join(self.parts)


def all_rows() -> Iterator[Row]:
    """Each row there is."""
    sizes = [(rate, size) for rate, each in SIZES.items() for size in each]
    for kind, catenate, line, way, (rate, size), event in itertools.product(("Dovecot", "Cyrus"), (True, False), LINES, WAYS, sizes, EVENTS):
        yield Row(kind, catenate, line, way, rate, size, event)


def some_rows() -> Iterator[Row]:
    """A selection: each line, way and event once, by turns at both servers; and without CATENATE what is hardest there."""
    turns = {event: itertools.cycle(pairs) for event, pairs in TELLING.items()}
    for line, way, event in itertools.product(LINES, WAYS, EVENTS):
        if event != SHORT_KILL or not line.startswith("relay"):
            yield Row(by_turns(line, way, event), True, line, way, *next(turns[event]), event)
    # Smaller letters, as the second look is a second longer for each 2,000 bytes there.
    sizes = itertools.cycle([(20_000, 300_000), (5_000, 40_000), (50_000, 300_000), (20_000, 40_000), (50_000, 40_000)])
    for line, way, event in itertools.product(("a queue each", "relay"), ("plain", "tunnel"), (KILL, LAST, DEAD_KILL, SHORT_KILL)):
        yield Row(by_turns(line, way, event), False, line, way, *next(sizes), event)


def by_turns(line: str, way: str, event: str) -> str:
    """One of the two servers."""
    return ("Dovecot", "Cyrus")[(LINES.index(line) + WAYS.index(way) + EVENTS.index(event)) % 2]


def open_rows() -> Iterator[Row]:
    """What no client can close: what the network itself keeps for longer than the second look waits on a line that lives."""
    for kind, way in itertools.product(("Dovecot", "Cyrus"), ("plain", "tunnel")):
        for catenate, event in itertools.product((True, False), (STUCK, LONG_STUCK)):
            yield Row(kind, catenate, "relay", way, 20_000, 40_000, event)
        yield Row(kind, True, "relay", way, 1_000, 100_000, KILL)
        yield Row(kind, False, "relay", way, 1_000, 300_000, KILL)


def chosen(words: str) -> List[Row]:
    """The rows that are asked for: `some`, `open`, `all`, or those that have each of these words as a part, with commas between."""
    if words in ("some", "open"):
        return list(some_rows() if words == "some" else open_rows())
    parts = {part.strip() for part in words.split(",")} - {"all"}
    return [row for row in all_rows() if parts <= set(row.parts)]
