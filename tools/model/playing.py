"""What `play` does over a server in memory: the actions in their order, and then each mailbox once more (docs/PROTOCOL.md).

It is written from the rules of playback, and uses nothing of rules.py, which has them too: each is there to be compared with the program
apart from the other.
"""
import base64
from typing import Any, Callable, List, Optional, Tuple, Union

from .commands import Store
from .journal import tags_of
from .words import astring, fields, flag_text, keys, login_parts, message_id, set_text
from .world import Fault, World

(GONE, SO, CHANGED, NO, BAD, BARRED, UNKNOWN, FOUND_SO, UNSURE, SOURCE_GONE, GONE_LATER, AMBIGUOUS, RENEWED, RENEWED_LATER) = range(1, 15)
ROW = '(UID FLAGS MODSEQ)'
# How many times a change of flags is tried at most.
TRIES = 3


def conflict(kind: int, *numbers: int) -> tuple:
    return ('conflict', kind, list(numbers))


def row_of(message: dict) -> tuple:
    return (message['uid'], message['modseq'], message['flags'])


def nothing() -> None:
    """What a command does that nothing is asked of."""


class Run:
    """One connection, and what is known in it."""

    def __init__(self, world: World, store: Store):
        self.world, self.store, self.book, self.count = world, store, store.book, 0
        self.selected: Optional[Tuple[str, int]] = None
        # An intent that is pending now is of an earlier run.
        self.resumed = store.book.pending is not None

    # What is sent. `carried` is what the server makes of the whole command, and gives what it answers.

    def ask(self, text: str, *parts: bytes, carried: Callable[[], Any] = nothing) -> Any:
        """A question, with its further parts."""
        self.count += 1
        return self.command('C%d' % self.count, text, *parts, carried=carried)

    def command(self, tag: str, text: str, *parts: bytes, carried: Callable[[], Any], refused: bool = False) -> Any:
        """A command, which may be refused in place of the request for its next part."""
        texts = [('%s %s\r\n' % (tag, text)).encode(), *parts]
        for part in texts[:-1]:
            self.world.send(part)
            self.world.recv()
            if refused:
                return 'no'
        answer = self.world.send(texts[-1], carried)
        self.world.recv()
        return answer

    def enter(self) -> None:
        world = self.world
        world.connect()
        world.recv()
        self.ask('CAPABILITY')
        self.log_in()
        self.ask('CAPABILITY')
        rev2 = world.is_offered('IMAP4rev2')
        for item in ['QRESYNC'] + ([] if rev2 else ['UIDPLUS', 'MOVE']):
            if not world.is_offered(item):
                raise Fault(7, 'error lacking ' + item)
        self.ask('ENABLE IMAP4rev2 QRESYNC' if rev2 else 'ENABLE QRESYNC')

    def log_in(self) -> None:
        user, password = self.world.account
        if self.world.is_offered('AUTH=PLAIN'):
            secret = b'\0' + user.encode() + b'\0' + password.encode()
            self.ask('AUTHENTICATE PLAIN', base64.b64encode(secret) + b'\r\n')
        elif self.world.is_offered('LOGINDISABLED'):
            raise Fault(7, 'error lacking LOGIN')
        else:
            first, more = login_parts(user, password)
            self.ask(first, *more)

    # Selecting.

    def select(self, name: str, under: int = 0) -> Tuple[int, int]:
        """Resynchronises a mailbox, and records what was told. Its UIDVALIDITY is to be at least `under`. A cache of a lower one is taken
        away, and the rows of all messages are asked for. It gives the UIDVALIDITY and the UIDNEXT that were told."""
        cache = self.book.boxes[name]
        mark = '' if cache is None else ' (QRESYNC (%d %d))' % (cache['validity'], cache['highest'])
        told = self.ask('SELECT %s%s' % (astring(name), mark), carried=lambda: self.told_of(name, cache))
        if not told:
            raise Fault(5, 'error refused: C%d NO [TRYCREATE] done' % self.count)
        if cache:
            self.look_lower(name, cache['validity'], told['validity'])
        if cache and cache['validity'] < told['validity']:
            self.store.commit(('reset', name, cache['validity'], told['validity']))
            cache = None
        rows = told['rows']
        if cache is None and not told['empty']:
            rows = self.ask('UID FETCH 1:* ' + ROW, carried=lambda: [row_of(m) for m in self.world.box(name).messages])
        self.look_lower(name, under, told['validity'])
        self.selected = (name, told['validity'])
        whole = int(cache is None)
        self.store.commit(('learn', name, whole, told['validity'], told['highest'], told['uidnext'], told['gone'], rows))
        return told['validity'], told['uidnext']

    @staticmethod
    def look_lower(name: str, kept: int, told: int) -> None:
        """A server numbers no mailbox below what it told of it before."""
        if told < kept:
            raise Fault(6, 'error reply validity %s %d %d' % (name, kept, told))

    def told_of(self, name: str, cache: Optional[dict]) -> Optional[dict]:
        box = self.world.box(name)
        self.world.in_box = box.name if box else None
        if box is None:
            return None
        if cache and cache['validity'] != box.validity:
            cache = None
        highest = cache['highest'] if cache else 0
        return dict(validity=box.validity, highest=box.highest, uidnext=box.uidnext, empty=not box.messages,
                    gone=[uid for uid, modseq in box.gone if cache and modseq > highest],
                    rows=[row_of(m) for m in box.messages if cache and m['modseq'] > highest])

    # What an action is about.

    def resolve(self, target: tuple) -> Union[tuple, int]:
        """The message of a target: its mailbox, UIDVALIDITY and UID, or the number of the action that never made it."""
        if target[0] == 'real':
            return target[1:]
        outcome = self.book.outcomes[target[1] - 1]
        return target[1] if outcome[0] == 'conflict' else (self.book.to_of(target[1]), *outcome[1:])

    def be_in(self, name: str, validity: int) -> Optional[tuple]:
        """Selects a mailbox, unless it is selected under this UIDVALIDITY or a greater one. It gives how the action ends where that
        is greater: what it is about isn't numbered any more."""
        if self.selected is None or self.selected[0] != name or self.selected[1] < validity:
            self.select(name, validity)
        told = self.selected[1]
        return conflict(RENEWED_LATER if self.resumed else RENEWED, validity, told) if validity < told else None

    def row(self, uid: int) -> Optional[dict]:
        def told() -> Optional[dict]:
            message = self.world.box(self.selected[0]).at(uid)
            return message and dict(message)
        return self.ask('UID FETCH %d %s' % (uid, ROW), carried=told)

    def intend(self, number: int, intent: tuple) -> None:
        self.store.commit(('intend', number, intent))

    def tag(self, number: int) -> str:
        """That of an action's try."""
        return tags_of(number)[self.book.tries]

    # A change of flags, on condition of a mod-sequence.

    def flag(self, number: int, target: tuple, sign: str, flags: List[str]) -> tuple:
        at, asked = self.resolve(target), keys(flags)
        if not isinstance(at, tuple):
            return conflict(UNKNOWN, at)
        name, validity, uid = at
        renewed = self.be_in(name, validity)
        if renewed:
            return renewed
        while True:
            outcome = self.try_flag(number, name, validity, uid, sign, asked)
            if outcome[:2] != ('conflict', CHANGED) or self.book.tries == TRIES - 1:
                return outcome
            # The STORE had no effect: it is taken back, and the next one has the mod-sequence that the row has then.
            self.store.commit(('withdraw', number, self.book.tries + 1))
            self.resumed = False

    def try_flag(self, number: int, name: str, validity: int, uid: int, sign: str, asked: List[str]) -> tuple:
        row = self.row(uid)
        reason = self.why_not(row, sign, asked)
        if reason:
            return reason
        if self.resumed:
            mark = self.book.pending[4]
        else:
            mark = row['modseq']
            self.intend(number, ('store', name, validity, uid, mark))
        came = self.store_flags(number, name, uid, mark, sign, asked)
        if came is None:
            return conflict(GONE_LATER if self.resumed else GONE)
        return {'changed': conflict(CHANGED, mark), 'no': conflict(NO), 'done': ('done',)}[came]

    def why_not(self, row: Optional[dict], sign: str, asked: List[str]) -> Optional[tuple]:
        """The reason not to send the STORE, if there is one."""
        if row is None:
            return conflict(GONE_LATER if self.resumed else GONE)
        there = set(row['flags'])
        is_so = set(asked) <= there if sign == '+' else not set(asked) & there
        if self.resumed:
            mark = self.book.pending[4]
            if row['modseq'] == mark:
                return None
            return conflict(FOUND_SO) if is_so else conflict(UNSURE, mark, row['modseq'])
        if is_so:
            return conflict(SO)
        return conflict(BARRED) if self.is_barred(asked) else None

    def is_barred(self, asked: List[str]) -> bool:
        """A flag isn't kept that PERMANENTFLAGS doesn't name: of keywords `\\*` names all."""
        if self.world.permits is None:
            return False
        has_any, kept = self.world.permits
        return not all(key in kept or (has_any and key[:1] != '\\') for key in asked)

    def store_flags(self, number: int, name: str, uid: int, mark: int, sign: str, asked: List[str]) -> Optional[str]:
        def carried() -> Optional[str]:
            message = self.world.box(name).at(uid)
            if message is None:
                return None
            if message['modseq'] > mark:
                return 'changed'
            there = set(message['flags'])
            flags = there | set(asked) if sign == '+' else there - set(asked)
            rule = self.world.change('set', name, uid, *sorted(flags, key=str.encode), author=self.tag(number))
            return 'no' if rule else 'done'
        text = 'UID STORE %d (UNCHANGEDSINCE %d) %sFLAGS (%s)' % (uid, mark, sign, flag_text(asked))
        return self.command(self.tag(number), text, carried=carried)

    # A move.

    def move(self, number: int, target: tuple, to: str) -> tuple:
        at = self.resolve(target)
        if not isinstance(at, tuple):
            return conflict(UNKNOWN, at)
        name, validity, uid = at
        renewed = self.be_in(name, validity)
        if renewed:
            return renewed
        gone = conflict(SOURCE_GONE if self.resumed else GONE)
        if self.row(uid) is None:
            return gone
        if not self.resumed:
            self.intend(number, ('shift', name, validity, uid, to))

        def carried() -> Union[None, str, tuple]:
            box = self.world.box(to)
            if box is None:
                return 'no'
            if self.world.box(name).at(uid) is None:
                return None
            new = box.uidnext
            rule = self.world.change('shift', name, uid, to, new, author=self.tag(number))
            return 'no' if rule else ('done', box.validity, new)
        came = self.command(self.tag(number), 'UID MOVE %d %s' % (uid, astring(to)), carried=carried)
        if came is None:
            return gone
        return conflict(NO) if came == 'no' else came

    # An append, whose mailbox is always selected anew.

    def append(self, number: int, to: str, flags: List[str], text: bytes) -> tuple:
        if self.resumed:
            _, _, validity, uidnext = self.book.pending
            # Where the mailbox is selected under this UIDVALIDITY, it is selected once more.
            if self.selected == (to, validity):
                self.selected = None
            renewed = self.be_in(to, validity)
            if renewed:
                return renewed
            found = self.probe(to, text, uidnext)
            if len(found) == 1:
                return ('done', validity, found[0])
            if found:
                return conflict(AMBIGUOUS, *found[:2])
        else:
            validity, uidnext = self.select(to)
            self.intend(number, ('put', to, validity, uidnext))

        def carried() -> Union[str, tuple]:
            box = self.world.box(to)
            if box is None:
                return 'no'
            new = box.uidnext
            rule = self.world.change('add', to, new, text, *keys(flags), author=self.tag(number))
            return 'no' if rule else ('done', box.validity, new)
        front = 'APPEND %s (%s) {%d}' % (astring(to), flag_text(keys(flags)), len(text))
        came = self.command(self.tag(number), front, text + b'\r\n', carried=carried, refused=self.world.refused == to)
        if came == 'no':
            return conflict(NO)
        if self.world.is_muted:
            raise Fault(6, 'error reply lacks APPENDUID')
        return came

    def probe(self, to: str, text: bytes, uidnext: int) -> List[int]:
        """The messages that have exactly the Message-ID, from a UID on."""
        identifier = message_id(text).decode()

        def has_it(message: dict) -> bool:
            bodies = [body.decode('latin-1') for name, body in fields(message['text']) if name.lower() == b'message-id']
            return any(identifier.lower() in body.lower() for body in bodies)

        def searched() -> List[int]:
            messages = self.world.box(to).messages
            # UIDNEXT:* names the last message too where all are below.
            return [m['uid'] for m in messages if (m['uid'] >= uidnext or m is messages[-1]) and has_it(m)]

        def fetched() -> List[int]:
            there = [(uid, self.world.box(to).at(uid)) for uid in found]
            return [uid for uid, message in there if message and message_id(message['text']) == identifier.encode()]
        found = self.ask('UID SEARCH UID %d:* HEADER Message-ID %s' % (uidnext, identifier), carried=searched)
        found = [uid for uid in found if uid >= uidnext]
        if not found:
            return []
        return self.ask('UID FETCH %s (UID BODY.PEEK[HEADER.FIELDS (MESSAGE-ID)])' % set_text(found), carried=fetched)


def play(world: World) -> List[str]:
    """One call of the link a part of a command, and one a reply."""
    store = Store(world)
    store.make_ready()
    run = Run(world, store)
    run.enter()
    acts = dict(flag=run.flag, move=run.move, append=run.append)
    settled = conflicts = 0
    for number in run.book.unsettled():
        verb, *rest = run.book.queue[number - 1]
        outcome = acts[verb](number, *rest)
        run.store.commit(('settle', number, outcome))
        run.resumed = False
        settled += 1
        conflicts += outcome[0] == 'conflict'
    for name in list(run.book.boxes):
        run.select(name)
    run.ask('LOGOUT')
    return ['played %d conflicts %d' % (settled, conflicts)]
