"""The two files, the connection and the server, with what is to go wrong in a run (docs/SCENARIOS.md, "What is to go wrong")."""
from typing import Any, Callable, Dict, Iterable, List, Optional, Tuple

from .server import Box, Server
from .words import name_of

# What a text is kept under: the mailbox, its UIDVALIDITY and the UID.
Key = Tuple[str, int, int]


class Fault(Exception):
    """A run ends here, with this status and line."""

    def __init__(self, status: int, line: str):
        self.status, self.line = status, line


def disk_fault() -> Fault:
    return Fault(3, 'error disk')


def link_fault() -> Fault:
    return Fault(4, 'error link')


def draws(pick: int) -> Callable[[int], int]:
    """Numbers below a bound, one after the other, as a pick decides them."""
    state = pick % 2**32

    def draw(bound: int) -> int:
        nonlocal state
        state = (69069 * state + 1) % 2**32
        return state // 65536 % bound

    return draw


class File:
    """A file: what was synced, what a read gives, and the ranges that were written since."""

    def __init__(self, data: bytes = b''):
        self.synced = self.seen = data
        self.ranges: List[Tuple[int, int]] = []

    def write(self, at: int, data: bytes) -> None:
        seen = self.seen + bytes(max(0, at - len(self.seen)))
        self.seen = seen[:at] + data + seen[at + len(data):]
        self.ranges.append((at, at + len(data)))

    def sync(self) -> None:
        self.synced, self.ranges = self.seen, []

    def image(self, pick: int, draw: Callable[[int], int]) -> bytes:
        """What a stop leaves: what was synced, what a read gives, or of each byte that wasn't synced one that is drawn."""
        if pick in (0, 1):
            return (self.synced, self.seen)[pick]
        image = bytearray()
        for at, new in enumerate(self.seen):
            is_old = at < len(self.synced)
            old = self.synced[at] if is_old else 0
            if is_old and not any(low <= at < high for low, high in self.ranges):
                image.append(old)
            else:
                image.append([old, new, 1][draw(3)])
        return bytes(image)


class World(Server):
    """A server, two files, and one connection, with the plan of the next run."""

    def __init__(self, offers: Iterable[str] = (), boxes: Iterable[Box] = (), left: bytes = b'', right: bytes = b'',
                 account: Tuple[str, str] = ('ann', 'pw')):
        super().__init__(offers, boxes, account)
        self.files = [File(left), File(right)]
        self.on, self.was_sent = False, b''
        # The mailbox that the connection has selected, or the last one had.
        self.in_box: Optional[str] = None
        # What a command that waits does, if it is carried out, and the mailbox that was selected as it was sent.
        self.waiting: Optional[Callable[[], Any]] = None
        self.waits_in: Optional[str] = None
        self.moments = 1
        # The texts that are kept, in the order in which they were put.
        self.texts: Dict[Key, bytes] = {}
        # How many calls of link and disk the last run made that called the link; and how many the last run made.
        self.counts, self.last_calls = (0, 0), 0
        self.calls = self.link_calls = self.disk_calls = 0
        self.plan()

    def plan(self) -> None:
        """Forgets what was to go wrong, and counts calls anew."""
        self.last_calls = self.calls
        if self.link_calls:
            self.counts = (self.link_calls, self.disk_calls)
        self.fails: set = set()
        self.losses: Dict[int, str] = {}
        self.others: List[Tuple[int, tuple]] = []
        self.stop: Optional[int] = None
        self.sink_fails: set = set()
        self.source_fails: set = set()
        self.shelf_fails: set = set()
        self.input = b''
        self.shelf_calls = self.calls = self.disk_calls = self.link_calls = 0

    def change(self, *change, author: str = 'other') -> Optional[int]:
        if change[0] == 'reset' and self.is_held(change[1]):
            return None
        rule = super().change(*change, author=author)
        if rule is None:
            self.moments += 1
        return rule

    def change_between(self, *change) -> Optional[int]:
        """A change between two runs. First the end of the last connection is a moment of its own."""
        is_held = change[0] == 'reset' and self.is_held(change[1])
        rule = self.change(*change)
        if rule is None and not is_held:
            self.moments += 1
        return rule

    def is_held(self, name: str) -> bool:
        """Whether a mailbox isn't renewed now: the connection has it selected, or a command that waits does."""
        return (self.on and self.in_box == name_of(name)) or self.waits_in == name_of(name)

    def has_stopped(self) -> bool:
        return self.stop is not None and self.calls >= self.stop

    # Calls of the disk.

    def disk_call(self) -> None:
        if self.has_stopped():
            raise disk_fault()
        self.calls += 1
        self.disk_calls += 1
        if self.disk_calls in self.fails:
            raise disk_fault()

    def write(self, at: int, data: bytes, side: int = 0) -> None:
        self.disk_call()
        self.files[side].write(at, data)
        self.moments += 1

    def sync(self, side: int = 0) -> None:
        self.disk_call()
        self.files[side].sync()
        self.moments += 1

    def read(self) -> None:
        self.disk_call()

    def restart(self, pick: int) -> None:
        """Goes on from an image of the last moment, with nothing connected and nothing sent."""
        draw = draws(pick)
        self.files = [File(file.image(pick, draw)) for file in self.files]
        self.on, self.was_sent, self.moments = False, b'', 1

    def take_input(self) -> bytes:
        """The whole input: a first reading takes a short one, and another one finds its end."""
        assert len(self.input) <= 4096 or not self.source_fails
        if self.source_fails & ({1, 2} if self.input else {1}):
            raise Fault(13, 'error input')
        return self.input

    # Calls of the shelf, at which no stop looks.

    def shelf_call(self) -> None:
        self.shelf_calls += 1
        if self.shelf_calls in self.shelf_fails:
            raise Fault(16, 'error shelf')

    def put_text(self, key: Key, text: bytes) -> None:
        self.shelf_call()
        self.texts.pop(key, None)
        self.texts[key] = text

    def kept_text(self, key: Key) -> Optional[bytes]:
        self.shelf_call()
        return self.texts.get(key)

    # Calls of the link.

    def link_call(self) -> Optional[str]:
        """Counts a call, lets others act, and gives how the connection is lost in it, if it is."""
        if self.has_stopped():
            self.on = False
            return 'stop'
        self.calls += 1
        self.link_calls += 1
        for number, change in self.others:
            if number == self.link_calls:
                self.change(*change)
        return self.losses.get(self.link_calls)

    def connect(self) -> None:
        self.on = False
        # The end of the last connection is a moment of its own.
        if not self.has_stopped():
            self.moments += 1
        if self.link_call():
            raise link_fault()
        # A command of the lost connection that waits is carried out before the greeting, or never.
        if self.waiting:
            self.waiting()
        self.on, self.was_sent, self.waiting, self.in_box, self.waits_in = True, b'', None, None, None

    def send(self, text: bytes, carried: Optional[Callable[[], Any]] = None) -> Any:
        """Sends a text; what it is carried out as, where it is a command's last part, gives what the server answers."""
        loss = self.link_call()
        if loss == 'stop' or not self.on:
            raise link_fault()
        if loss is None:
            self.was_sent += text
            return carried and carried()
        arrived = 0 if loss == 'nothing' else int(loss.split()[1]) if loss.startswith('part ') else len(text)
        self.was_sent += text[:arrived]
        if carried and arrived >= len(text):
            if not loss.startswith('waits'):
                carried()
            else:
                self.waits_in = self.in_box
                self.waiting = carried if loss == 'waits done' else None
        self.on = False
        raise link_fault()

    def recv(self) -> None:
        if self.link_call():
            self.on = False
            raise link_fault()

    def close(self) -> None:
        self.link_call()
        self.on = False
