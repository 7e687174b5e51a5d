"""What `play` needs next, by the book and by the replies.

It is written as a client would be, one function for each kind of action, from the rules of playback and not from the program. A run
is a generator: it yields what it needs, and is sent the server's replies. playing.py has the same rules over a server in memory; neither
uses the other, so that each is compared with the program by itself.
"""
from typing import Any, FrozenSet, Generator, Iterable, List, Optional, Sequence, Union

from . import words
from .words import set_text


def keys(flags: Iterable[str]) -> FrozenSet[str]:
    """The keys of flags: without case, and with \\Recent, which is left out where they are read."""
    return frozenset(flag.lower() for flag in flags)


def flag_text(flags: Iterable[str]) -> str:
    return words.flag_text(sorted(flags))


# What a server tells. Each has the lines that are sent, and the model reads the fields alone.

class Fetch:
    def __init__(self, uid: Optional[int] = None, flags: Optional[Sequence[str]] = None, modseq: Optional[int] = None,
                 ids: Optional[Sequence[str]] = None):
        self.uid, self.flags, self.modseq, self.ids = uid, flags, modseq, ids

    def lines(self) -> List[str]:
        items = []
        if self.uid is not None:
            items.append(f'UID {self.uid}')
        if self.flags is not None:
            items.append(f'FLAGS ({" ".join(self.flags)})')
        if self.modseq is not None:
            items.append(f'MODSEQ ({self.modseq})')
        if self.ids is None:
            return [f'* 1 FETCH ({" ".join(items)})']
        # The fields come as a literal, with the empty line behind them.
        size = sum(len(line) + 2 for line in self.ids) + 2
        items.append(f'BODY[HEADER.FIELDS (MESSAGE-ID)] {{{size}}}')
        return [f'* 1 FETCH ({" ".join(items)}'] + list(self.ids) + ['', ')']


class Found:
    def __init__(self, *uids: int, extended: bool = False):
        self.uids, self.extended = uids, extended

    def lines(self) -> List[str]:
        if self.extended:
            tail = f' ALL {set_text(self.uids)}' if self.uids else ''
            return [f'* ESEARCH (TAG "C1") UID{tail}']
        return [' '.join(['* SEARCH'] + [str(uid) for uid in self.uids])]


class Vanished:
    def __init__(self, *uids: int, earlier: bool = False):
        self.uids, self.earlier = uids, earlier

    def lines(self) -> List[str]:
        return [f'* VANISHED {"(EARLIER) " if self.earlier else ""}{set_text(self.uids)}']


class Exists:
    def __init__(self, count: int):
        self.count = count

    def lines(self) -> List[str]:
        return [f'* {self.count} EXISTS']


class Told:
    """An untagged OK, NO or BAD with a code."""

    def __init__(self, code: 'Code', ending: str = 'OK'):
        self.code, self.ending = code, ending

    def lines(self) -> List[str]:
        return [f'* {self.ending} [{self.code}] told']


class Code:
    """A response code: its name, and what stands behind that."""

    def __init__(self, name: str, *rest: Any):
        self.name, self.rest = name, rest

    def __str__(self) -> str:
        return ' '.join([self.name] + [set_text(part) if isinstance(part, (list, tuple)) else str(part) for part in self.rest])


class Reply:
    """A whole reply, whose completion comes last. `barred` says that the mailbox doesn't keep the flags that are asked."""

    def __init__(self, untagged: Iterable = (), ending: str = 'OK', code: Optional[Code] = None, barred: bool = False):
        self.untagged, self.ending, self.code, self.barred = list(untagged), ending, code, barred

    def lines(self, tag: str) -> List[str]:
        lines = ['barred'] if self.barred else []
        for response in self.untagged:
            lines += ['S: ' + line if line else 'S:' for line in response.lines()]
        code = f'[{self.code}] ' if self.code else ''
        return lines + [f'S: {tag} {self.ending} {code}done']

    def behind_closed(self) -> list:
        """Of a SELECT only what stands behind the last CLOSED is of the mailbox."""
        last = -1
        for at, response in enumerate(self.untagged):
            if isinstance(response, Told) and response.code.name == 'CLOSED':
                last = at
        return self.untagged[last + 1:]

    def codes(self) -> List[Code]:
        """The codes that a SELECT tells, the completion's last."""
        told = [response.code for response in self.behind_closed() if isinstance(response, Told)]
        return told + ([self.code] if self.code else [])


# The book.

class Cache:
    def __init__(self, validity: int, uidnext: int, highest: int, rows: dict):
        self.validity, self.uidnext, self.highest, self.rows = validity, uidnext, highest, dict(rows)


class Action:
    def __init__(self, kind: Optional[str], **fields: Any):
        self.kind, self.outcome, self.tries = kind, None, 0
        self.__dict__.update(fields)


class Book:
    def __init__(self) -> None:
        self.names, self.caches, self.actions, self.intent = ['INBOX', 'Archive'], {'INBOX': None, 'Archive': None}, [], None


# What a run yields.

class Need:
    """A need: its words, or the command as it is sent, and the tag of the reply where it has one."""

    def __init__(self, line: str, tag: Optional[str] = None):
        self.line, self.tag = line, tag

    def lines(self) -> List[str]:
        """The command's lines, or what is needed as it stands below a line of a case."""
        if self.tag and self.line.startswith(self.tag + ' '):
            return [('C: ' + line) if line else 'C:' for line in self.line.split('\r\n')]
        return [' = ' + self.line]


class More:
    """Behind a SELECT the FETCH of all rows is due."""
    tag = 'C1'


class Fault:
    """The reply isn't taken, and what was needed is needed again."""

    def __init__(self, text: str):
        self.text = text


# What is yielded, what is sent, and what comes of it in the end.
Steps = Generator[Union[Need, More, Fault], Optional[Reply], Any]


class Run:
    """A play over a book."""

    def __init__(self, book: Book):
        self.book = book
        self.selected = None
        # An intent that is pending now is of an earlier run.
        self.open = book.intent is not None

    def play(self) -> Steps:
        for number, action in enumerate(self.book.actions, 1):
            if action.outcome is None:
                outcome = yield from {'flag': self.flag, 'move': self.move, 'append': self.append}[action.kind](number, action)
                yield Need(f'settle {number} {outcome}')
                action.outcome = outcome
                self.book.intent, self.open = None, False
        for name in self.book.names:
            yield from self.select(name, None)
        while True:
            yield Need('finished')

    # Selecting. It gives the UIDVALIDITY and the UIDNEXT that were told. A cache of a lower UIDVALIDITY is taken away first.

    def select(self, name: str, under: Optional[int]) -> Steps:
        while True:
            selected = yield Need(f'select {name}', 'C1')
            kept, rows = self.book.caches[name], selected
            if kept and self.code_fault(selected) is None and kept.validity < self.code(selected, 'UIDVALIDITY'):
                yield Need(f'reset {name} {kept.validity} {self.code(selected, "UIDVALIDITY")}')
                kept = self.book.caches[name] = None
            if kept is None and not any(isinstance(r, Exists) and r.count == 0 for r in selected.behind_closed()):
                rows = yield More()
            fault = self.resync_fault(kept, selected, rows)
            if fault is None and under is not None and self.code(selected, 'UIDVALIDITY') < under:
                fault = f'target {under} {self.code(selected, "UIDVALIDITY")}'
            if fault is None:
                break
            yield Fault(fault)
        validity, uidnext = self.code(selected, 'UIDVALIDITY'), self.code(selected, 'UIDNEXT')
        self.selected = (name, validity)
        yield from self.learn(name, kept, selected, rows)
        return validity, uidnext

    @staticmethod
    def code(selected: Reply, name: str) -> Optional[int]:
        """The value of a code that counts: the last one."""
        told = [code.rest[0] for code in selected.codes() if code.name == name]
        return told[-1] if told else None

    @staticmethod
    def code_fault(selected: Reply) -> Optional[str]:
        told = [code.name for code in selected.codes()]
        if 'NOMODSEQ' in told:
            return 'resync nomodseq'
        if 'UIDNOTSTICKY' in told:
            return 'resync uidnotsticky'
        for name in ['UIDVALIDITY', 'UIDNEXT', 'HIGHESTMODSEQ']:
            if name not in told:
                return f'resync no {name}'
        return None

    def resync_fault(self, kept: Optional[Cache], selected: Reply, rows: Reply) -> Optional[str]:
        fault = self.code_fault(selected)
        if fault:
            return fault
        if kept and kept.validity > self.code(selected, 'UIDVALIDITY'):
            return f'resync validity {kept.validity} {self.code(selected, "UIDVALIDITY")}'
        if kept and self.code(selected, 'HIGHESTMODSEQ') < kept.highest:
            return f'resync unfit {kept.highest} {self.code(selected, "HIGHESTMODSEQ")}'
        fresh = rows.behind_closed()
        skipped = len(rows.untagged) - len(fresh)
        for at, response in enumerate(fresh):
            if isinstance(response, Fetch) and None in (response.uid, response.flags, response.modseq):
                return f'resync bare row at {skipped + at}'
        return None

    def learn(self, name: str, kept: Optional[Cache], selected: Reply, rows: Reply) -> Steps:
        validity, uidnext, highest = (self.code(selected, code) for code in ['UIDVALIDITY', 'UIDNEXT', 'HIGHESTMODSEQ'])
        told = {r.uid: (r.modseq, keys(r.flags) - {'\\recent'}) for r in rows.behind_closed() if isinstance(r, Fetch)}
        gone = set()
        if kept:
            for response in selected.behind_closed():
                if isinstance(response, Vanished):
                    gone |= set(response.uids)
        line = f'learn {name} {"part" if kept else "whole"} {validity} {uidnext} {highest}'
        if gone:
            line += f' gone {set_text(gone)}'
        for uid in sorted(told):
            modseq, flags = told[uid]
            line += ' ' + ' '.join([';', str(uid), str(modseq)] + ([flag_text(flags)] if flags else []))
        yield Need(line)
        before = {uid: row for uid, row in kept.rows.items() if uid not in gone} if kept else {}
        self.book.caches[name] = Cache(validity, uidnext, highest, {**before, **told})

    # The message of a target: its mailbox, UIDVALIDITY and UID, or the number of the action that never made it.

    def resolve(self, target: Union[tuple, int]) -> Union[tuple, int]:
        if isinstance(target, tuple):
            return target
        maker = self.book.actions[target - 1]
        if maker.outcome.startswith('done '):
            _, validity, uid = maker.outcome.split()
            return (maker.to, int(validity), int(uid))
        return target

    # A mailbox is selected, unless it is under this UIDVALIDITY or a greater one. It gives how the action ends where that is greater.

    def be_in(self, name: str, validity: int) -> Steps:
        if self.selected is None or self.selected[0] != name or self.selected[1] < validity:
            yield from self.select(name, validity)
        told = self.selected[1]
        if told == validity:
            return None
        return f'reset-after-loss {validity} {told}' if self.open else f'validity-changed {validity} {told}'

    # The row of a message, or None. FLAGS and MODSEQ are needed of it.

    def ask_row(self, uid: int) -> Steps:
        while True:
            reply = yield Need(f'C1 UID FETCH {uid} (UID FLAGS MODSEQ)', 'C1')
            rows = [r for r in reply.untagged if isinstance(r, Fetch) and r.uid == uid]
            row = rows[-1] if rows else None
            if row is None:
                return None, reply.barred
            if row.flags is None:
                yield Fault('lacks FLAGS')
            elif row.modseq is None:
                yield Fault('lacks MODSEQ')
            else:
                return row, reply.barred

    def intend(self, number: int, intent: str) -> Steps:
        yield Need(f'intend {number} {intent}')
        self.book.intent = intent

    # A change of flags, on condition of a mod-sequence. Where another changed the message first the try is taken back, twice at most, and
    # the action begins anew at the row of its message.

    def flag(self, number: int, action: Action) -> Steps:
        target = self.resolve(action.target)
        if not isinstance(target, tuple):
            return f'target-unknown {target}'
        name, validity, uid = target
        ended = yield from self.be_in(name, validity)
        if ended:
            return ended
        while True:
            outcome = yield from self.try_flag(number, action, target)
            if not outcome.startswith('flags-changed ') or action.tries == 2:
                return outcome
            action.tries += 1
            yield Need(f'withdraw {number} {action.tries}')
            self.book.intent, self.open = None, False

    def try_flag(self, number: int, action: Action, target: tuple) -> Steps:
        name, validity, uid = target
        row, barred = yield from self.ask_row(uid)
        if self.open:
            mark = int(self.book.intent.split()[-1])
            if row is None:
                return 'gone-after-loss'
            if row.modseq != mark:
                return 'found-so' if self.is_so(action, row) else f'store-unsure {mark} {row.modseq}'
        else:
            if row is None:
                return 'message-gone'
            if self.is_so(action, row):
                return 'already-so'
            if barred:
                return 'not-permanent'
            mark = row.modseq
            yield from self.intend(number, f'store {name} {validity} {uid} {mark}')
        sign = '+' if action.add else '-'
        tag = f'P{number}' + (f'R{action.tries + 1}' if action.tries else '')
        reply = yield Need(f'{tag} UID STORE {uid} (UNCHANGEDSINCE {mark}) {sign}FLAGS ({flag_text(keys(action.flags))})', tag)
        if reply.code and reply.code.name == 'MODIFIED' and uid in reply.code.rest[0]:
            return f'flags-changed {mark}'
        if reply.ending != 'OK':
            return {'NO': 'refused-no', 'BAD': 'refused-bad'}[reply.ending]
        if any(isinstance(r, Fetch) and r.uid == uid for r in reply.untagged):
            return 'done'
        return 'gone-after-loss' if self.open else 'message-gone'

    @staticmethod
    def is_so(action: Action, row: Fetch) -> bool:
        asked, there = keys(action.flags), keys(row.flags)
        return asked <= there if action.add else not asked & there

    # A move.

    def move(self, number: int, action: Action) -> Steps:
        target = self.resolve(action.target)
        if not isinstance(target, tuple):
            return f'target-unknown {target}'
        name, validity, uid = target
        ended = yield from self.be_in(name, validity)
        if ended:
            return ended
        row, _ = yield from self.ask_row(uid)
        if row is None:
            return 'source-gone' if self.open else 'message-gone'
        if not self.open:
            yield from self.intend(number, f'move {name} {validity} {uid} {action.to}')
        tag = f'P{number}'
        while True:
            reply = yield Need(f'{tag} UID MOVE {uid} {action.to}', tag)
            if reply.ending != 'OK':
                return {'NO': 'refused-no', 'BAD': 'refused-bad'}[reply.ending]
            codes = [r.code for r in reply.untagged if isinstance(r, Told) and r.ending == 'OK'] + ([reply.code] if reply.code else [])
            copied = [code for code in codes if code.name == 'COPYUID']
            if not copied:
                return 'source-gone' if self.open else 'message-gone'
            told, source, landed = copied[-1].rest
            if list(source) == [uid] and len(landed) == 1:
                return f'done {told} {landed[0]}'
            yield Fault('lacks COPYUID')

    # An append, whose mailbox is always selected anew.

    def append(self, number: int, action: Action) -> Steps:
        if self.open:
            _, to, validity, uidnext = self.book.intent.split()
            # Its mailbox is selected anew, unless it is under a greater UIDVALIDITY.
            if self.selected == (to, int(validity)):
                self.selected = None
            ended = yield from self.be_in(to, int(validity))
            if ended:
                return ended
            found = yield from self.probe(action, int(uidnext))
            if len(found) == 1:
                return f'done {validity} {found[0]}'
            if found:
                return f'ambiguous {found[0]} {found[1]}'
        else:
            validity, uidnext = yield from self.select(action.to, None)
            yield from self.intend(number, f'put {action.to} {validity} {uidnext}')
        tag = f'P{number}'
        text = f'Message-ID: {action.id}\r\n\r\nhi\r\n'
        while True:
            reply = yield Need(f'{tag} APPEND {action.to} ({flag_text(keys(action.flags))}) {{{len(text)}}}\r\n{text}', tag)
            if reply.ending != 'OK':
                return {'NO': 'refused-no', 'BAD': 'refused-bad'}[reply.ending]
            if reply.code and reply.code.name == 'APPENDUID':
                return f'done {reply.code.rest[0]} {reply.code.rest[1]}'
            yield Fault('lacks APPENDUID')

    def probe(self, action: Action, uidnext: int) -> Steps:
        """The UIDs of the messages with exactly the Message-ID, from the recorded UIDNEXT on."""
        reply = yield Need(f'C1 UID SEARCH UID {uidnext}:* HEADER Message-ID {action.id}', 'C1')
        found = {uid for r in reply.untagged if isinstance(r, Found) for uid in r.uids if uid >= uidnext}
        if not found:
            return []
        reply = yield Need(f'C1 UID FETCH {set_text(found)} (UID BODY.PEEK[HEADER.FIELDS (MESSAGE-ID)])', 'C1')
        fields = {r.uid: r.ids for r in reply.untagged if isinstance(r, Fetch) and r.ids is not None}
        return sorted(uid for uid in found if self.message_id(fields.get(uid, [])) == action.id)

    @staticmethod
    def message_id(lines: Sequence[str]) -> Optional[str]:
        """The identifier of the one Message-ID field of a header, or None."""
        bodies = [line.split(':', 1)[1].strip(' \t') for line in lines if line.lower().startswith('message-id:')]
        return bodies[0] if len(bodies) == 1 else None
