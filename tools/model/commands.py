"""What each command but `play` does with the journal, call by call (docs/JOURNAL.md, "Counted"), and what it prints."""
from typing import Iterable, List, Tuple

from .journal import MAGIC, MAGIC_1, Book, begin, body_of, event_of, journal, record, u32
from .words import Ident, crlf_of, keys, looked_at, may_be_asked, message_id
from .world import Fault, World

# A journal that ends up to this place is never told anew; the bytes that are held back where one is; the last generation.
SHORT, PIECE, LAST = 4096, 4096, 2**32 - 1


def is_up(text: bytes) -> bool:
    """Whether a file's head gate is open."""
    return len(text) >= 14 and text[0] == 1


def is_other(text: bytes) -> bool:
    """Whether a file with an open head gate isn't a journal's."""
    return is_up(text) and (text[1:9] not in (MAGIC_1, MAGIC) or text[9:13] == bytes(4))


def generation_of(text: bytes) -> int:
    return int.from_bytes(text[9:13], 'big') if is_up(text) else 0


class Store:
    """The journal, opened: of two sides that are set up the one with the higher generation."""

    def __init__(self, world: World):
        self.world = world
        world.sync(0)
        world.sync(1)
        world.read()
        world.read()
        sides = [file.seen for file in world.files]
        if any(map(is_other, sides)):
            raise Fault(9, 'error journal header')
        left, right = map(generation_of, sides)
        if left == right:
            raise Fault(9, 'error journal generations' if left else 'error journal none')
        self.side, self.generation = int(left < right), max(left, right)
        self.is_first = sides[self.side][1:9] == MAGIC_1
        events = self.read(sides[self.side])
        for _ in range(4 if len(events) == 1 else 5):
            world.read()
        self.book = Book(events)

    def read(self, text: bytes) -> List[tuple]:
        """The events of a file. The place of the gate behind them is kept."""
        at, events = 13, []
        while text[at:at + 1] == b'\x01':
            size = int.from_bytes(text[at + 1:at + 5], 'big')
            body = text[at + 5:at + 5 + size]
            is_whole = len(body) == size and len(text) > at + 5 + size
            event = event_of(body) if is_whole else None
            if event is None or (event[0] == 'begin') != (not events) or not self.may_come(event, events):
                raise Fault(9, 'error journal record %d' % at)
            events.append(event)
            at += 5 + size
        if not events:
            raise Fault(9, 'error journal record %d' % at)
        self.gate = at
        return events

    def may_come(self, event: tuple, events: List[tuple]) -> bool:
        """Whether the event may come behind these. Of the rules those are looked at that speak of tries."""
        return event[0] != 'withdraw' or (not self.is_first and Book(events).may_withdraw(*event[1:]))

    def commit(self, event: tuple) -> None:
        """Writes a record and the closed gate behind it, and then opens the gate in front of it."""
        frame = record(body_of(event)) + b'\x00'
        self.world.write(self.gate + 1, frame, self.side)
        self.world.sync(self.side)
        self.world.write(self.gate, b'\x01', self.side)
        self.world.sync(self.side)
        self.gate += len(frame)
        self.book.take(event)

    def bodies(self) -> List[bytes]:
        """Those of the records that tell the book anew."""
        return [body_of(event) for event in self.book.told_anew()]

    def is_turn_due(self) -> bool:
        """Whether the journal isn't short, a generation is to come, and told anew the book takes at most half of its bytes."""
        end = self.gate + 1
        return end > SHORT and self.generation < LAST and 2 * len(journal(*self.bodies())) <= end

    def take_over(self) -> None:
        """A journal of the first version is told anew in the second one, before something is added to it."""
        if self.is_first:
            if self.generation == LAST:
                raise Fault(14, 'error limit generation %d' % (LAST + 1))
            self.turn()

    def make_ready(self) -> None:
        self.take_over()
        if self.is_turn_due():
            self.turn()

    def turn(self) -> None:
        """Goes on on the other side, on which the book is told anew."""
        bodies = self.bodies()
        self.set_up(bodies)
        self.side, self.generation, self.gate, self.is_first = 1 - self.side, self.generation + 1, len(journal(*bodies)) - 1, False

    def set_up(self, bodies: List[bytes]) -> None:
        """Sets up the other side: short records are held back and written together, and the head gate is opened last."""
        world, side = self.world, 1 - self.side
        world.read()
        text = world.files[side].seen
        if len(text) < 14 or is_up(text):
            world.write(0, b'\x00', side)
            world.sync(side)
        world.write(1, MAGIC, side)
        world.write(9, u32(self.generation + 1), side)
        at, held = 13, b''
        for text in map(record, bodies):
            if len(held) + 1 + len(text) <= PIECE:
                held += b'\x01' + text
                continue
            pieces = [held, b'\x01' + text[:4], text[4:]]
            for piece in pieces:
                world.write(at, piece, side)
                at += len(piece)
            held = b''
        for piece in (held, b'\x00'):
            world.write(at, piece, side)
            at += len(piece)
        world.sync(side)
        world.write(0, b'\x01', side)
        world.sync(side)


def init(world: World, names: List[str]) -> List[str]:
    world.sync(0)
    world.sync(1)
    world.read()
    world.read()
    for file in world.files:
        if is_other(file.seen):
            raise Fault(9, 'error journal header')
        if is_up(file.seen):
            raise Fault(9, 'error journal exists')
    world.read()
    # A longer file has its head gate closed.
    if len(world.files[0].seen) < 14:
        world.write(0, b'\x00')
        world.sync(0)
    world.write(1, journal(begin(*names))[1:])
    world.sync(0)
    world.write(0, b'\x01')
    world.sync(0)
    return ['ready']


# Reasons, in their order.

def refused(reason: str) -> Fault:
    return Fault(10, 'refused ' + reason)


def opened(world: World, *boxes: str) -> Store:
    store = Store(world)
    if any(box not in store.book.boxes for box in boxes):
        raise refused('no-mailbox')
    return store


def target(book: Book, box: str, ident: Ident) -> tuple:
    """What the words name, where the view has it."""
    if (box, ident) not in book.view():
        raise refused('no-message')
    return ident if ident[0] == 'dummy' else ('real', box, book.boxes[box]['validity'], ident[1])


def weigh(store: Store, flags: Iterable[str] = ()) -> None:
    """The reasons from the flags on, up to a full queue."""
    if not all(map(may_be_asked, flags)):
        raise refused('bad-flag')
    if len(store.book.unsettled()) >= 65535:
        raise refused('queue-full')


def take(store: Store, action: tuple) -> List[str]:
    store.take_over()
    number = len(store.book.queue) + 1
    store.commit(('accept', number, action))
    return ['accepted %d' % number]


# The commands.

def flag(world: World, box: str, ident: Ident, sign: str, flags: List[str]) -> List[str]:
    store = opened(world, box)
    named = target(store.book, box, ident)
    weigh(store, flags)
    return take(store, ('flag', named, sign, keys(flags)))


def move(world: World, box: str, ident: Ident, to: str) -> List[str]:
    store = opened(world, box, to)
    named = target(store.book, box, ident)
    if box == to:
        raise refused('same-mailbox')
    weigh(store)
    return take(store, ('move', named, to))


def append(world: World, to: str, flags: List[str]) -> List[str]:
    store = opened(world, to)
    weigh(store, flags)
    text = crlf_of(world.take_input())
    if len(text) > 2**25:
        raise refused('too-large')
    if b'\0' in text:
        raise refused('bad-text')
    if message_id(text) is None:
        raise refused('no-message-id')
    return take(store, ('append', to, keys(flags), text))


def list_rows(world: World, box: str) -> List[str]:
    return opened(world, box).book.list(box)


def queue(world: World) -> List[str]:
    return Store(world).book.queue_lines()


def report(world: World) -> List[str]:
    return Store(world).book.report_lines()


def looked(book: Book, command: Iterable[str]) -> Tuple[bytes, int]:
    """What `history` or `letter N` prints of a book, and its status."""
    asked = looked_at(command)
    if asked is None:
        return b'error words\n', 2
    if asked[0] == 'history':
        return ''.join(line + '\n' for line in book.history_lines()).encode(), 0
    try:
        return book.letter(asked[1]), 0
    except LookupError as reason:
        return b'refused %s\n' % str(reason).encode(), 10
