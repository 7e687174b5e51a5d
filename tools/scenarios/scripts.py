"""What a server says in a script, and scenarios over scripts."""
from typing import List, Optional, Sequence, Union

from common import Cases, Scenario, learn
from model.words import hexed, word
from model.world import World

# The commands of a connection up to ENABLE.
FIRST = ['C1 CAPABILITY', 'C2 LOGIN ann pw', 'C3 CAPABILITY', 'C4 ENABLE IMAP4rev2 QRESYNC']
PLAYED = 'played 0 conflicts 0'


def crlf(*lines: Union[str, bytes]) -> bytes:
    return b''.join((line.encode() if isinstance(line, str) else line) + b'\r\n' for line in lines)


def capability(tag: str, offers: str = 'IMAP4rev2 QRESYNC') -> bytes:
    return crlf('* CAPABILITY ' + offers, tag + ' OK done')


def ok(tag: str) -> bytes:
    return crlf(tag + ' OK done')


def enabled(tag: str, names: str = 'IMAP4rev2 QRESYNC') -> bytes:
    return crlf('* ENABLED ' + names, tag + ' OK done')


def selected(tag: str, exists: int, validity: Optional[int], uidnext: Optional[int], highest: Optional[int], *more: str,
             front: Sequence[str] = (), last: str = '[READ-WRITE] done') -> bytes:
    """The reply to a SELECT; a number that is None isn't told."""
    numbers = [('UIDVALIDITY', validity), ('UIDNEXT', uidnext), ('HIGHESTMODSEQ', highest)]
    permanent = '* OK [PERMANENTFLAGS (\\Answered \\Deleted \\Draft \\Flagged \\Seen \\*)] done'
    codes = [f'* OK [{name} {number}] done' for name, number in numbers if number is not None]
    return crlf(*front, '* %d EXISTS' % exists, permanent, *codes, *more, tag + ' OK ' + last)


CLOSED = '* OK [CLOSED] the mailbox before is closed'
INBOX_ROWS = crlf('* 1 FETCH (UID 40 FLAGS (\\Seen) MODSEQ (700))', '* 2 FETCH (UID 42 FLAGS () MODSEQ (715))')
GREETING = crlf('* OK [CAPABILITY IMAP4rev2 QRESYNC] hello')
ENTERED = [GREETING, capability('C1'), ok('C2'), capability('C3'), enabled('C4')]


def archive(tag: str) -> bytes:
    return selected(tag, 0, 9, 7, 300, front=[CLOSED])


def left(tag: str) -> bytes:
    return crlf('* BYE bye', tag + ' OK done')


# What the worked server says to a first synchronisation, and what is sent in it and in a later one.
WHOLE = ENTERED + [selected('C5', 2, 5, 44, 715), INBOX_ROWS + ok('C6'), archive('C7'), left('C8')]
SENT_WHOLE = FIRST + ['C5 SELECT INBOX', 'C6 UID FETCH 1:* (UID FLAGS MODSEQ)', 'C7 SELECT Archive', 'C8 LOGOUT']
SENT_AGAIN = FIRST + ['C5 SELECT INBOX (QRESYNC (5 715))', 'C6 SELECT Archive (QRESYNC (9 300))', 'C7 LOGOUT']
AGAIN = [learn('INBOX', 0, 5, 715, 44, [], []), learn('Archive', 0, 9, 300, 7, [], [])]


class Script(Scenario):
    """A scripted server: what it says, what the run prints, what was sent, and what the files are then."""

    def talks(self, files: bytes, pieces: List[bytes], status: int, printed: str, sent: List[str], after: Optional[bytes] = None,
              endless: Optional[bytes] = None) -> None:
        self.line('server')
        self.line('files %s -' % hexed(files))
        for piece in pieces:
            self.line('piece ' + word(piece))
        if endless:
            self.line('endless ' + word(endless))
        self.line('scripted')
        self.ran('play', status, printed)
        self.line('sent', *['C: ' + word(line) for line in sent])
        after = files if after is None else after
        self.line('files', 'left ' + hexed(after), 'right -')
        self.world = World(left=after)


def script(cases: Cases, title: str, *talk, lists: Sequence[str] = (), **more) -> None:
    scenario = Script()
    scenario.talks(*talk, **more)
    scenario.lists(*lists)
    cases.add(title, scenario)
