"""Makes the scenarios of servers that do what no server should as a file of cases (any_server), by the plain models of tools/model.

usage: tools/scenarios/gen_any_server.py FOLDER    (crates/mail_scenario, or a folder with a folder data in it)
"""
import sys
from typing import List, Optional

from common import (BOTH_LEARNED, M40, M42, OFFERS, SEEN, STATE, WORKED, Cases, Told, accept, intend, journal, learn, real, settle)
from gen_playback import Played, add, done
from scripts import AGAIN, ENTERED, FIRST, PLAYED, SENT_AGAIN, Script, archive, crlf, left, selected

SELECTED = FIRST + ['C5 SELECT INBOX (QRESYNC (5 715))']
# The line of the action that waits in the journal SEEN.
WAITS = '1 waiting flag INBOX 42 + \\seen'


class Spoiled(Script, Told):
    """A script at whose end an action still waits; then its journal is played at a server that serves."""


def spoiled(c: Cases, title: str, says: List[bytes], status: int, printed: str, sent: List[str], endless: Optional[bytes] = None) -> None:
    """A case in which the journal stays as it was."""
    s = Spoiled()
    s.talks(SEEN, says, status, printed, sent, endless=endless)
    s.says('queue', WAITS)
    s.server(OFFERS, WORKED, left=SEEN)
    s.stand()
    s.says('play', 'played 1 conflicts 0')
    s.history()
    c.add(title, s)


def greetings(c: Cases) -> None:
    spoiled(c, 'a greeting breaks off', [b'* OK'], 4, 'error link', [])
    spoiled(c, 'the greeting has a tag', [crlf('P1 OK')], 6, 'error reply 0', [])
    spoiled(c, 'the first command is answered under a later tag', [crlf('* OK'), crlf('C9 OK')], 6, 'error reply 6', FIRST[:1])


def replies_to_select(c: Cases) -> None:
    spoiled(c, 'lines without an end', ENTERED, 14, 'error limit reply 268435457', SELECTED, endless=crlf('* OK ' + 'a' * 1000))
    spoiled(c, 'a line without an end', ENTERED + [b'* OK '], 14, 'error limit line 1048577', SELECTED, endless=b'a' * 1000)
    many = ' '.join('f%d' % k for k in range(1025))
    spoiled(c, 'a message has too many flags', ENTERED + [crlf('* 2 FETCH (UID 42 FLAGS (%s) MODSEQ (715))' % many)], 14,
            'error limit flags 1025', SELECTED)
    spoiled(c, 'the size of a literal is beyond any number', ENTERED + [crlf('* X {99999999999999999999}')], 14,
            'error limit literal 9223372036854775807', SELECTED)
    spoiled(c, 'the server leaves', ENTERED + [crlf('* BYE gone')], 5, 'error refused: * BYE gone', SELECTED)


def all_vanished(c: Cases) -> None:
    told = selected('C5', 2, 5, 44, 715, '* VANISHED (EARLIER) 1:4294967295')
    # One range, which isn't written out here.
    gone = learn('INBOX', 0, 5, 715, 44, [1], []).replace(b'\0\0\0\1\0\0\0\1\0\0\0\1', b'\0\0\0\1\0\0\0\1\xff\xff\xff\xff')
    s = Script()
    s.talks(BOTH_LEARNED, ENTERED + [told, archive('C6'), left('C7')], 0, PLAYED, SENT_AGAIN,
            after=journal(*STATE, gone, AGAIN[1]))
    s.ran('list INBOX', 0)
    c.add('every UID vanished', s)


def told_twice(c: Cases) -> None:
    asked = [accept(1, ('flag', real('INBOX', 5, 42), '+', ['\\Seen'])), accept(2, ('flag', real('INBOX', 5, 40), '+', ['\\Flagged']))]
    says = ENTERED + [selected('C5', 2, 5, 44, 715), crlf('* 2 FETCH (UID 42 FLAGS () MODSEQ (715))', 'C6 OK done'),
                      crlf('* 2 FETCH (UID 42 FLAGS (\\Seen) MODSEQ (716))', 'P1 OK done')]
    sent = SELECTED + ['C6 UID FETCH 42 (UID FLAGS MODSEQ)', 'P1 UID STORE 42 (UNCHANGEDSINCE 715) +FLAGS (\\Seen)',
                       'C7 UID FETCH 40 (UID FLAGS MODSEQ)']
    after = journal(*STATE, *asked, AGAIN[0], intend(1, ('store', 'INBOX', 5, 42, 715)), settle(1, ('done',)))
    s = Spoiled()
    s.talks(journal(*STATE, *asked), says + [crlf('P1 OK done')], 6, 'error reply %d' % len(b''.join(says)), sent, after=after)
    s.says('queue', '2 waiting flag INBOX 40 + \\flagged')
    s.server(OFFERS, [('INBOX', 5, 44, 716, [(40, 700, M40, '\\Seen'), (42, 716, M42, '\\Seen')], []), WORKED[1]], left=after)
    s.stand()
    s.says('play', 'played 1 conflicts 0')
    s.history()
    c.add('the answer to an action comes twice: its end stays, and the next action waits', s)


def muted(c: Cases) -> None:
    s = Played().begin()
    s.stand_muted()
    s.put_in('Archive', '\\Seen')
    s.plays('error reply lacks APPENDUID')
    s.says('queue', '1 begun append Archive <a1@x>')
    s.history()
    s.plays('played 1 conflicts 0').sent_so(*FIRST, 'C5 SELECT Archive (QRESYNC (9 300))', 'C6 UID SEARCH UID 7:* HEADER Message-ID <a1@x>',
        'C7 UID FETCH 7 (UID BODY.PEEK[HEADER.FIELDS (MESSAGE-ID)])', 'C8 SELECT INBOX (QRESYNC (5 715))',
        'C9 SELECT Archive (QRESYNC (9 301))', 'C10 LOGOUT')
    add(c, 'APPENDUID isn\'t told: the append isn\'t taken for done, and the next play finds its message', s.ends(), done(9, 7))


def main(folder: str) -> None:
    cases = Cases(ANY_SERVER)
    for make in MAKERS:
        make(cases)
    cases.write(folder, 'any_server', 'gen_any_server')


ANY_SERVER = """\
# Whatever a server sends, the journal stays lawful, no accepted action is lost, and none is sent twice in a run. Each `play` ends with
# its line and status; where an action waits, the next one, at a server that serves, plays it.
"""
MAKERS = [greetings, replies_to_select, all_vanished, told_twice, muted]


if __name__ == '__main__':
    main(sys.argv[1])
