"""Events as bytes and back (docs/JOURNAL.md), and the book that they make.

An event is a tuple: ('begin', names), ('accept', number, action), ('intend', number, intent), ('settle', number, outcome),
('learn', mailbox, whole, validity, highest, uidnext, gone, rows), a row being (uid, modseq, flags), ('reset', mailbox, kept, told),
('withdraw', number, tries), or ('old', number, action, outcome).
An action is ('flag', target, sign, flags), ('move', target, to) or ('append', to, flags, text), a target
('real', mailbox, validity, uid) or ('dummy', number).
An intent is ('store', mailbox, validity, uid, modseq), ('shift', mailbox, validity, uid, to) or ('put', to, validity, uidnext).
An outcome is ('done',), ('done', validity, uid) or ('conflict', kind, numbers).
"""
import struct
from typing import Dict, Iterable, List, Optional, Tuple

from .words import Ident, keys, message_id, name_of, ranges_of

# The words of the two versions of a journal. What is written is of the second one.
MAGIC_1, MAGIC = b'ODMAILJ1', b'ODMAILJ2'
HEAD = b'\x01' + MAGIC + (1).to_bytes(4, 'big')
# How many rows are told at once where a book is told anew.
ROWS_AT_ONCE = 1000
# The bytes of each number of a conflict that has some, by its kind.
WIDTHS = {3: [8], 7: [4], 9: [8, 8], 12: [4, 4], 13: [4, 4], 14: [4, 4]}
KIND_NAMES = ('message-gone already-so flags-changed refused-no refused-bad not-permanent target-unknown found-so store-unsure source-gone '
              'gone-after-loss ambiguous validity-changed reset-after-loss').split()
# The kinds that say that nothing was changed.
NOTHING = (1, 2, 3, 4, 5, 6, 7, 13)


def tags_of(number: int) -> List[str]:
    """Those of an action's three tries, as `history` prints them."""
    return ['P%d' % number, 'P%dR2' % number, 'P%dR3' % number]


def u16(number: int) -> bytes:
    return struct.pack('>H', number)


def u32(number: int) -> bytes:
    return struct.pack('>I', number)


def u64(number: int) -> bytes:
    return struct.pack('>Q', number)


def counted(text: str) -> bytes:
    data = text.encode()
    return bytes([len(data)]) + data


def named(name: str) -> bytes:
    return counted(name_of(name))


def flags_of(flags: Iterable[str]) -> bytes:
    found = keys(flags)
    return u16(len(found)) + b''.join(map(counted, found))


def real(box: str, validity: int, uid: int) -> tuple:
    return ('real', name_of(box), validity, uid)


def target_of(target: tuple) -> bytes:
    if target[0] == 'real':
        _, box, validity, uid = target
        return b'R' + named(box) + u32(validity) + u32(uid)
    return b'D' + u32(target[1])


# The bodies of records.

def begin(*names: str) -> bytes:
    return b'B' + bytes([len(names)]) + b''.join(map(named, names))


def accept(number: int, action: tuple) -> bytes:
    verb, *rest = action
    front = b'A' + u32(number)
    if verb == 'flag':
        target, sign, flags = rest
        return front + b'F' + target_of(target) + sign.encode() + flags_of(flags)
    if verb == 'move':
        target, to = rest
        return front + b'M' + target_of(target) + named(to)
    to, flags, text = rest
    return front + b'P' + named(to) + flags_of(flags) + u32(len(text)) + text


def intend(number: int, intent: tuple) -> bytes:
    verb, box, validity, *rest = intent
    front = b'I' + u32(number) + {'store': b'S', 'shift': b'M', 'put': b'P'}[verb] + named(box) + u32(validity)
    if verb == 'store':
        uid, modseq = rest
        return front + u32(uid) + u64(modseq)
    if verb == 'shift':
        uid, to = rest
        return front + u32(uid) + named(to)
    return front + u32(rest[0])


def settle(number: int, outcome: tuple) -> bytes:
    front = b'S' + u32(number)
    if outcome[0] == 'conflict':
        _, kind, numbers = outcome
        return front + b'C' + bytes([kind]) + b''.join(n.to_bytes(width, 'big') for n, width in zip(numbers, WIDTHS.get(kind, [])))
    if outcome[1:]:
        return front + b'D\x01' + u32(outcome[1]) + u32(outcome[2])
    return front + b'D\x00'


def old(number: int, action: tuple, outcome: tuple) -> bytes:
    return b'O' + accept(number, action)[1:] + settle(number, outcome)[5:]


def learn(box: str, whole: int, validity: int, highest: int, uidnext: int, gone: Iterable[int], rows: Iterable[tuple]) -> bytes:
    ranges, rows = ranges_of(gone), sorted(rows)
    front = b'L' + named(box) + bytes([whole]) + u32(validity) + u64(highest) + u32(uidnext)
    vanished = u32(len(ranges)) + b''.join(u32(low) + u32(high) for low, high in ranges)
    return front + vanished + u32(len(rows)) + b''.join(u32(uid) + u64(modseq) + flags_of(flags) for uid, modseq, flags in rows)


def reset(box: str, kept: int, told: int) -> bytes:
    return b'R' + named(box) + u32(kept) + u32(told)


def withdraw(number: int, tries: int) -> bytes:
    return b'W' + u32(number) + bytes([tries])


BODIES = dict(begin=lambda names: begin(*names), accept=accept, intend=intend, settle=settle, learn=learn, reset=reset, withdraw=withdraw,
              old=old)


def body_of(event: tuple) -> bytes:
    return BODIES[event[0]](*event[1:])


def record(body: bytes) -> bytes:
    return u32(len(body)) + body


def journal(*bodies: bytes, generation: int = 1, magic: bytes = MAGIC) -> bytes:
    """A whole file: the head, each record behind its open gate, and a closed gate."""
    return b'\x01' + magic + u32(generation) + b''.join(b'\x01' + record(body) for body in bodies) + b'\x00'


class Cut(Exception):
    """A body ends before what it has to hold."""


class Body:
    """A body that is read from its front."""

    def __init__(self, data: bytes):
        self.data, self.at = data, 0

    def take(self, count: int) -> bytes:
        self.at += count
        if self.at > len(self.data):
            raise Cut
        return self.data[self.at - count:self.at]

    def num(self, width: int = 4) -> int:
        return int.from_bytes(self.take(width), 'big')

    def name(self) -> str:
        return self.take(self.num(1)).decode()

    def flags(self) -> List[str]:
        return [self.name() for _ in range(self.num(2))]

    def target(self) -> tuple:
        if self.take(1) == b'R':
            return ('real', self.name(), self.num(), self.num())
        return ('dummy', self.num())

    def action(self) -> tuple:
        letter = self.take(1)
        if letter == b'F':
            return ('flag', self.target(), self.take(1).decode(), self.flags())
        if letter == b'M':
            return ('move', self.target(), self.name())
        return ('append', self.name(), self.flags(), self.take(self.num()))

    def intent(self) -> tuple:
        letter, box, validity = self.take(1), self.name(), self.num()
        if letter == b'S':
            return ('store', box, validity, self.num(), self.num(8))
        if letter == b'M':
            return ('shift', box, validity, self.num(), self.name())
        return ('put', box, validity, self.num())

    def outcome(self) -> tuple:
        if self.take(1) == b'D':
            return ('done', self.num(), self.num()) if self.num(1) else ('done',)
        kind = self.num(1)
        return ('conflict', kind, [self.num(width) for width in WIDTHS.get(kind, [])])

    def learned(self) -> tuple:
        box, whole, validity, highest, uidnext = self.name(), self.num(1), self.num(), self.num(8), self.num()
        ranges = [(self.num(), self.num()) for _ in range(self.num())]
        gone = [uid for low, high in ranges for uid in range(low, high + 1)]
        rows = [(self.num(), self.num(8), self.flags()) for _ in range(self.num())]
        return ('learn', box, whole, validity, highest, uidnext, gone, rows)

    def event(self) -> Optional[tuple]:
        letter = self.take(1)
        if letter == b'B':
            return ('begin', [self.name() for _ in range(self.num(1))])
        if letter == b'A':
            return ('accept', self.num(), self.action())
        if letter == b'I':
            return ('intend', self.num(), self.intent())
        if letter == b'S':
            return ('settle', self.num(), self.outcome())
        if letter == b'O':
            return ('old', self.num(), self.action(), self.outcome())
        if letter == b'L':
            return self.learned()
        if letter == b'R':
            return ('reset', self.name(), self.num(), self.num())
        if letter == b'W':
            return ('withdraw', self.num(), self.num(1))
        return None


def event_of(body: bytes) -> Optional[tuple]:
    """The event that a body spells, or None."""
    try:
        event = Body(body).event()
    except (Cut, UnicodeDecodeError):
        return None
    return event if event and body_of(event) == body else None


class Book:
    """What the events of a journal come to: caches by mailbox, actions with their outcomes, the intent that is pending, and how many tries of
    the first unsettled action were taken back."""

    def __init__(self, events: Iterable[tuple]):
        self.boxes: Dict[str, Optional[dict]] = {}
        self.queue: List[tuple] = []
        self.outcomes: List[Optional[tuple]] = []
        self.pending: Optional[tuple] = None
        self.tries = 0
        for event in events:
            self.take(event)

    def take(self, event: tuple) -> None:
        kind = event[0]
        if kind == 'begin':
            self.boxes = {name: None for name in event[1]}
        elif kind == 'accept':
            self.queue.append(event[2])
            self.outcomes.append(None)
        elif kind == 'intend':
            self.pending = event[2]
        elif kind == 'settle':
            self.outcomes[event[1] - 1] = event[2]
            self.pending, self.tries = None, 0
        elif kind == 'withdraw':
            self.pending, self.tries = None, event[2]
        elif kind == 'old':
            self.queue.append(event[2])
            self.outcomes.append(event[3])
        elif kind == 'learn':
            self.learned(*event[1:])
        elif kind == 'reset':
            self.boxes[event[1]] = None

    def may_withdraw(self, number: int, tries: int) -> bool:
        """Whether a record may say that so many tries of an action were taken back."""
        waiting = self.unsettled()
        if waiting[:1] != [number] or self.queue[number - 1][0] != 'flag' or tries not in (1, 2):
            return False
        return tries == self.tries + 1 if self.pending else self.tries == 0

    def learned(self, name: str, whole: int, validity: int, highest: int, uidnext: int, gone: List[int], rows: List[tuple]) -> None:
        kept = {} if whole else dict(self.boxes[name]['rows'])
        for uid in gone:
            kept.pop(uid, None)
        for uid, modseq, flags in rows:
            kept[uid] = (modseq, keys(flags))
        self.boxes[name] = dict(validity=validity, highest=highest, uidnext=uidnext, rows=kept)

    def told_anew(self) -> List[tuple]:
        """The events that make this book, in the order in which they are told."""
        events: List[tuple] = [('begin', list(self.boxes))]
        for name, cache in self.boxes.items():
            if cache:
                rows = [(uid, modseq, flags) for uid, (modseq, flags) in sorted(cache['rows'].items())]
                for at in range(0, max(len(rows), 1), ROWS_AT_ONCE):
                    numbers = (cache['validity'], cache['highest'], cache['uidnext'])
                    events.append(('learn', name, int(at == 0), *numbers, [], rows[at:at + ROWS_AT_ONCE]))
        for number, (action, outcome) in enumerate(zip(self.queue, self.outcomes), 1):
            events.append(('old', number, action, outcome) if outcome else ('accept', number, action))
        if self.tries:
            events.append(('withdraw', self.unsettled()[0], self.tries))
        if self.pending:
            events.append(('intend', self.unsettled()[0], self.pending))
        return events

    def unsettled(self) -> List[int]:
        return [number for number, outcome in enumerate(self.outcomes, 1) if outcome is None]

    def to_of(self, number: int) -> str:
        """The mailbox into which an action puts its message."""
        action = self.queue[number - 1]
        return action[1] if action[0] == 'append' else action[2]

    def row_of(self, target: tuple) -> Optional[Tuple[str, tuple]]:
        """The row that a target names, if any: of a UID in its mailbox, or of a dummy where its action puts it."""
        if target[0] == 'dummy':
            outcome = self.outcomes[target[1] - 1]
            if outcome is None:
                return (self.to_of(target[1]), target)
            if outcome[0] == 'conflict':
                return None
            target = ('real', self.to_of(target[1]), *outcome[1:])
        _, box, validity, uid = target
        cache = self.boxes[box]
        return (box, ('real', uid)) if cache and cache['validity'] == validity else None

    def cached(self) -> dict:
        return {(box, ('real', uid)): (modseq, set(flags))
                for box, cache in self.boxes.items() if cache for uid, (modseq, flags) in cache['rows'].items()}

    def view(self) -> Dict[Tuple[str, Ident], tuple]:
        """The rows as the user sees them: (mailbox, ident) with a mod-sequence, which a dummy hasn't, and flags."""
        rows = self.cached()
        for number in self.unsettled():
            verb, *rest = self.queue[number - 1]
            if verb == 'append':
                rows[rest[0], ('dummy', number)] = (None, set(keys(rest[1])))
                continue
            at = self.row_of(rest[0])
            if at not in rows:
                continue
            modseq, flags = rows[at]
            if verb == 'flag':
                named = set(keys(rest[2]))
                rows[at] = (modseq, flags | named if rest[1] == '+' else flags - named)
            else:
                del rows[at]
                rows[rest[1], ('dummy', number)] = (None, flags)
        return rows

    # The lines of `list`, `queue`, `report` and `history`, and the letter of `letter N`.

    def list(self, box: str) -> List[str]:
        lines = []
        rows = [(ident, row) for (name, ident), row in self.view().items() if name == box]
        for (kind, number), (modseq, flags) in sorted(rows, key=lambda row: (row[0][0] == 'dummy', row[0][1])):
            ident = ('d' if kind == 'dummy' else '') + str(number)
            mark = '-' if modseq is None else str(modseq)
            lines.append(' '.join([ident, mark] + sorted(flags, key=str.encode)))
        return lines

    def named(self, target: tuple) -> str:
        if target[0] == 'real':
            return '%s %d' % (target[1], target[3])
        return '%s d%d' % (self.to_of(target[1]), target[1])

    def action_text(self, action: tuple) -> str:
        verb, *rest = action
        if verb == 'flag':
            target, sign, flags = rest
            return ' '.join(['flag', self.named(target), sign] + keys(flags))
        if verb == 'move':
            target, to = rest
            return 'move %s %s' % (self.named(target), to)
        to, _, text = rest
        return 'append %s %s' % (to, message_id(text).decode())

    def stands(self, number: int) -> List[str]:
        """The words that say how an action stands."""
        outcome = self.outcomes[number - 1]
        if outcome is None:
            return ['begun' if self.pending and number == self.unsettled()[0] else 'waiting']
        if outcome[0] == 'done':
            return [str(word) for word in outcome]
        _, kind, numbers = outcome
        return ['nothing' if kind in NOTHING else 'unsure', KIND_NAMES[kind - 1]] + [str(n) for n in numbers]

    def history_line(self, number: int) -> str:
        return ' '.join([str(number), *self.stands(number), self.action_text(self.queue[number - 1])])

    def queue_lines(self) -> List[str]:
        return [self.history_line(number) for number in self.unsettled()]

    def report_lines(self) -> List[str]:
        return [' '.join([str(number), *self.stands(number)])
                for number, outcome in enumerate(self.outcomes, 1) if outcome and outcome[0] == 'conflict']

    def history_lines(self) -> List[str]:
        return [self.history_line(number) for number in range(1, len(self.queue) + 1)]

    def letter(self, number: int) -> bytes:
        """The text of an append as it was accepted."""
        if number > len(self.queue):
            raise LookupError('no-action')
        verb, *rest = self.queue[number - 1]
        if verb != 'append':
            raise LookupError('no-letter')
        text: bytes = rest[2]
        return text
