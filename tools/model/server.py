"""Mailboxes, and the changes that a server may make (docs/PROTOCOL.md, docs/SCENARIOS.md)."""
from typing import Iterable, List, Optional, Tuple

from .words import keys, name_of


class Box:
    """A mailbox: its messages in order, and the UIDs that went, each with the mod-sequence of its going."""

    def __init__(self, name: str, validity: int, uidnext: int, highest: int):
        self.name, self.validity, self.uidnext, self.highest = name_of(name), validity, uidnext, highest
        self.messages: List[dict] = []
        self.gone: List[Tuple[int, int]] = []

    def at(self, uid: int) -> Optional[dict]:
        return next((message for message in self.messages if message['uid'] == uid), None)

    def tick(self) -> int:
        self.highest += 1
        return self.highest

    def put(self, uid: int, text: bytes, flags: List[str]) -> None:
        self.messages.append(dict(uid=uid, modseq=self.tick(), text=text, flags=flags))
        self.uidnext = uid + 1

    def drop(self, message: dict) -> None:
        self.messages.remove(message)
        self.gone.append((message['uid'], self.tick()))

    def renew(self, validity: int, uidnext: int, highest: int, *uids: int) -> None:
        """The same messages under other UIDs, as of a mailbox that was recreated with them."""
        self.validity, self.uidnext, self.highest, self.gone = validity, uidnext, highest, []
        for message, uid in zip(self.messages, uids):
            message['uid'], message['modseq'] = uid, highest


class Server:
    """Mailboxes in order, what the server offers, and each change since it began, with its author: `other`, or the tag of a command.

    A change is ('add', box, uid, text, flag ..), ('set', box, uid, flag ..), ('drop', box, uid), ('shift', box, uid, to, new uid) or
    ('reset', box, validity, uidnext, highest, uid ..).
    """

    def __init__(self, offers: Iterable[str] = (), boxes: Iterable[Box] = (), account: Tuple[str, str] = ('ann', 'pw')):
        self.offers, self.boxes, self.account = list(offers), list(boxes), account
        # What PERMANENTFLAGS tells: whether `\*` is among them, and the others. None: nothing is told.
        self.permits: Optional[Tuple[bool, List[str]]] = None
        # The mailbox whose APPEND is refused.
        self.refused: Optional[str] = None
        # Whether it leaves APPENDUID out, as no lawful server does.
        self.is_muted = False
        self.history: List[tuple] = []

    def box(self, name: str) -> Optional[Box]:
        return next((box for box in self.boxes if box.name == name_of(name)), None)

    def is_offered(self, name: str) -> bool:
        return name.lower() in [offer.lower() for offer in self.offers]

    def broken(self, verb: str, name: str, *rest) -> Optional[int]:
        """The first rule that a change breaks, if it breaks one."""
        box = self.box(name)
        to = self.box(rest[1]) if verb == 'shift' else None
        if box is None or (verb == 'shift' and (to is None or to is box)):
            return 1
        if verb in ('add', 'shift'):
            uid, target = (rest[0], box) if verb == 'add' else (rest[2], to)
            if not target.uidnext <= uid <= 4294967294:
                return 2
        if verb in ('set', 'drop', 'shift') and box.at(rest[0]) is None:
            return 3
        if verb == 'reset':
            return self.broken_reset(box, *rest)
        if any(changed.highest >= 2**63 - 1 for changed in ([box, to] if verb == 'shift' else [box])):
            return 4
        if verb == 'add' and b'\0' in rest[1]:
            return 5
        return None

    @staticmethod
    def broken_reset(box: Box, validity: int, uidnext: int, highest: int, *uids: int) -> Optional[int]:
        """The first rule that a new UIDVALIDITY with these UIDs breaks, if it breaks one."""
        if validity <= box.validity:
            return 7
        rise = all(low < high for low, high in zip(uids, uids[1:]))
        return None if rise and len(uids) == len(box.messages) and all(uid < uidnext for uid in uids) else 8

    def change(self, verb: str, name: str, *rest, author: str = 'other') -> Optional[int]:
        """Makes a change, or gives the rule that it breaks."""
        rule = self.broken(verb, name, *rest)
        if rule:
            return rule
        box = self.box(name)
        if verb == 'add':
            box.put(rest[0], rest[1], keys(rest[2:]))
        elif verb == 'set':
            message = box.at(rest[0])
            message['modseq'], message['flags'] = box.tick(), keys(rest[1:])
        elif verb == 'reset':
            box.renew(*rest)
        else:
            message = box.at(rest[0])
            box.drop(message)
            if verb == 'shift':
                self.box(rest[1]).put(rest[2], message['text'], message['flags'])
        self.history.append((author, verb, name_of(name)) + rest)
        return None
