"""Makes the scenarios in which actions are played back as files of cases (playback, drawn, lost_moves, lost_appends, lost_one_move,
lost_searches), by the plain models of tools/model.

usage: tools/scenarios/gen_playback.py FOLDER    (crates/mail_scenario, or a folder with a folder data in it)
"""
import sys
from typing import Callable, List, Tuple

from common import (ARCHIVE_LEARNED, BEGIN, BEGUN, BOTH_LEARNED, INBOX_LEARNED, LOSSES, OFFERS, T, WORKED, Cases, Told, accept, begin,
                    intend, journal, learn, real, settle)
from common import add as add_drawn, worked_server
from gen_random import Draw
from model.commands import Store
from model.journal import NOTHING, Book, tags_of
from model.world import World
from scripts import CLOSED, FIRST, crlf, left, script, selected


# Other messages of the append's Message-ID, and of one that differs in case.
OTHER_ID, OTHER_CASE = b'Message-ID: <a1@x>\r\n\r\nold\r\n', b'Message-ID: <A1@X>\r\n\r\nnew\r\n'


class Played(Told):
    """A scenario over the worked server, whose mailboxes were synchronised."""

    def begin(self, offers=OFFERS, boxes=WORKED, left=BOTH_LEARNED, **more) -> 'Played':
        self.server(offers, boxes, left=left, **more)
        return self

    def asks(self, *commands: str) -> 'Played':
        for c in commands:
            self.run(*c.split())
        return self

    def put_in(self, *ws: str) -> 'Played':
        self.input(T)
        self.run('append', *ws)
        return self

    def plays(self, *printed: str) -> 'Played':
        self.says('play', *printed)
        return self

    def sent_so(self, *lines: str) -> 'Played':
        """What was sent in the connection, also by hand."""
        self.sent()
        told = [l[3:].strip('"').replace('\\\\', '\\') for l in self.lines[-1][1]]
        assert told == list(lines), (told, lines)
        return self

    def ends(self) -> 'Played':
        """What the server did, what is still to be done, what is shown and what was recorded."""
        self.history()
        self.run('queue')
        self.run('report')
        self.lists('INBOX', 'Archive')
        self.files()
        return self

    def holds(self) -> Book:
        """What must hold of every history: no action took effect twice, and one that is done took effect once."""
        book = Store(World((), (), *(file.seen for file in self.world.files))).book
        deeds = [author for author, *_ in self.world.history if author != 'other']
        for n, outcome in enumerate(book.outcomes, 1):
            count = sum(deeds.count(tag) for tag in tags_of(n))
            assert count <= 1 and (outcome != ('done',) and (outcome or ('',))[0] != 'done' or count == 1), (n, outcome, deeds)
            if outcome and outcome[0] == 'conflict' and outcome[1] in NOTHING:
                assert count == 0, (n, outcome, deeds)
        return book


def ready(s: Played) -> Played:
    s.stand()
    return s


def new(**more) -> Played:
    return ready(Played().begin(**more))


def add(c: Cases, title: str, s: Played, *outcomes: tuple) -> None:
    """A case, with how its actions ended by hand."""
    book = s.holds()
    assert not outcomes or [('done',) + o[1:] if o[0] == 'done' else o for o in book.outcomes] == list(outcomes), book.outcomes
    c.add(title, s)


def done(*place: int) -> tuple:
    return ('done',) + place


def conflict(kind: int, *numbers: int) -> tuple:
    return ('conflict', kind, list(numbers))

MOVE_AND_FLAG = ['move INBOX 42 Archive', 'flag Archive d1 + \\Flagged']


def moved() -> Played:
    return new().asks(*MOVE_AND_FLAG)


def flagged() -> Played:
    return new().asks('flag INBOX 42 + \\Seen')


def appended(**more) -> Played:
    return new(**more).put_in('Archive', '\\Seen')

def one_move() -> Played:
    return new().asks('move INBOX 42 Archive')


def searched() -> Played:
    """The next play looks for an append's message, which is there."""
    s = appended()
    s.link(15, 'all')
    return s.plays('error link')


def worked(c: Cases) -> None:
    s = moved().plays('played 2 conflicts 0')
    s.sent_so(*FIRST, 'C5 SELECT INBOX (QRESYNC (5 715))', 'C6 UID FETCH 42 (UID FLAGS MODSEQ)', 'P1 UID MOVE 42 Archive',
        'C7 SELECT Archive (QRESYNC (9 300))',
        'C8 UID FETCH 7 (UID FLAGS MODSEQ)', 'P2 UID STORE 7 (UNCHANGEDSINCE 301) +FLAGS (\\Flagged)', 'C9 SELECT INBOX (QRESYNC (5 715))',
        'C10 SELECT Archive (QRESYNC (9 301))', 'C11 LOGOUT')
    s.says('list Archive', '7 302 \\flagged')
    add(c, 'a message is moved, and changed where it comes', s.ends(), done(9, 7), done())

    s = appended()
    s.link(14, 'all')
    s.link(16, 'all')
    s.plays('error link').sent_so(*FIRST, 'C5 SELECT Archive (QRESYNC (9 300))', 'P1 APPEND Archive (\\Seen) {42}')
    s.plays('played 1 conflicts 0')
    s.sent()
    add(c, 'the request for an append\'s text is lost: the next run appends', s.ends(), done(9, 7))

    s = appended()
    s.link(15, 'all')
    s.plays('error link')
    s.sent()
    s.plays('played 1 conflicts 0').sent_so(*FIRST, 'C5 SELECT Archive (QRESYNC (9 300))', 'C6 UID SEARCH UID 7:* HEADER Message-ID <a1@x>',
        'C7 UID FETCH 7 (UID BODY.PEEK[HEADER.FIELDS (MESSAGE-ID)])',
        'C8 SELECT INBOX (QRESYNC (5 715))', 'C9 SELECT Archive (QRESYNC (9 301))', 'C10 LOGOUT')
    add(c, 'the reply to an append is lost: the next run finds the message', s.ends(), done(9, 7))

    old = [WORKED[0], ('Archive', 9, 7, 300, [(6, 300, OTHER_ID)], [])]
    known = journal(begin('INBOX', 'Archive'), INBOX_LEARNED, learn('Archive', 1, 9, 300, 7, [], [(6, 300, [])]))
    s = appended(boxes=old, left=known)
    s.link(15, 'nothing')
    s.plays('error link')
    s.plays('played 1 conflicts 0')
    s.sent()
    add(c, 'a message with the same Message-ID from before isn\'t the lost one', s.ends(), done(9, 7))

    s = appended()
    s.link(15, 'nothing')
    s.plays('error link')
    s.change('add', 'Archive', 7, OTHER_CASE)
    s.plays('played 1 conflicts 0')
    s.sent()
    add(c, 'a message whose Message-ID differs in case isn\'t the lost one', s.ends(), done(9, 8))


def lost_before_or_behind(c: Cases) -> None:
    s = moved()
    s.link(16, 'all')
    s.plays('error link')
    s.plays('played 2 conflicts 2')
    s.sent()
    s.says('list Archive', '7 301')
    add(c, 'the reply to a move is lost: the message isn\'t there, and it isn\'t known whether it was this move', s.ends(), conflict(10),
        conflict(7, 1))

    s = new().asks('move INBOX 42 Archive')
    s.link(15, 'nothing')
    s.plays('error link')
    s.plays('played 1 conflicts 0')
    s.sent()
    add(c, 'a move is lost before the server: it is sent again', s.ends(), done(9, 7))

    for title, flags, outcome in [('its flags aren\'t as asked', (), conflict(9, 715, 717)),
        ('its flags are as asked', ('\\Seen', '\\Flagged'), conflict(8))]:
        s = flagged()
        s.link(16, 'all')
        s.plays('error link')
        s.change('set', 'INBOX', 42, *flags)
        s.plays('played 1 conflicts 1')
        s.sent()
        add(c, 'the reply to a change of flags is lost, and another client changed the message since: ' + title, s.ends(), outcome)

    s = flagged()
    s.link(15, 'nothing')
    s.plays('error link')
    s.plays('played 1 conflicts 0')
    s.sent()
    add(c, 'a change of flags is lost before the server: it is sent again', s.ends(), done())


def reasons(c: Cases) -> None:
    s = new().asks('flag INBOX 40 + \\Seen')
    s.plays('played 1 conflicts 1')
    s.sent()
    add(c, 'the flags are so already', s.ends(), conflict(2))
    s = new().asks('flag INBOX 40 - work', 'flag INBOX 40 - \\Seen', 'flag INBOX 40 + a B')
    s.plays('played 3 conflicts 1')
    s.sent()
    add(c, 'flags are taken away: those that aren\'t there are gone already', s.ends(), conflict(2), done(), done())
    for kind, flags in [('only', ('\\Seen', '\\Flagged')), ('any', ('\\Seen',))]:
        s = Played().begin()
        s.permit(kind, *flags)
        s.stand()
        s.asks('flag INBOX 42 + work', 'flag INBOX 42 + \\Flagged', 'flag INBOX 42 + \\Draft', 'move INBOX 42 Archive',
            'flag Archive d4 + work')
        s.run('play')
        s.sent()
        told = 'these flags alone' if kind == 'only' else 'one flag, and all keywords'
        add(c, 'PERMANENTFLAGS has %s: what it doesn\'t keep isn\'t sent' % told, s.ends())
    s = new().asks('flag INBOX 42 + work')
    s.change('drop', 'INBOX', 42)
    s.plays('played 1 conflicts 1')
    s.sent()
    add(c, 'the message is gone', s.ends(), conflict(1))
    s = moved()
    s.change('drop', 'INBOX', 42)
    s.plays('played 2 conflicts 2')
    s.sent()
    add(c, 'the message that is to be moved is gone, and what is asked of it where it comes is none of any message', s.ends(), conflict(1),
        conflict(7, 1))
    s = flagged()
    s.other(15, 'drop', 'INBOX', 42)
    s.plays('played 1 conflicts 1')
    s.sent()
    add(c, 'the message goes between FETCH and STORE', s.ends(), conflict(1))
    s = moved()
    s.other(15, 'drop', 'INBOX', 42)
    s.plays('played 2 conflicts 2')
    s.sent()
    add(c, 'the message goes between FETCH and MOVE', s.ends(), conflict(1), conflict(7, 1))


def reasons_of_a_second_try(c: Cases) -> None:
    s = flagged()
    s.link(15, 'nothing')
    s.plays('error link')
    s.change('drop', 'INBOX', 42)
    s.plays('played 1 conflicts 1')
    s.sent()
    add(c, 'after a lost change of flags the message is gone', s.ends(), conflict(11))
    s = flagged()
    s.link(15, 'nothing')
    s.plays('error link')
    s.other(15, 'drop', 'INBOX', 42)
    s.plays('played 1 conflicts 1')
    s.sent()
    add(c, 'as it is sent again the message goes', s.ends(), conflict(11))
    s = moved()
    s.link(15, 'nothing')
    s.plays('error link')
    s.other(15, 'drop', 'INBOX', 42)
    s.plays('played 2 conflicts 2')
    s.sent()
    add(c, 'as a move is sent again the message goes', s.ends(), conflict(10), conflict(7, 1))


def refusals(c: Cases) -> None:
    s = Played().begin()
    s.refuse('Archive')
    s.stand()
    s.put_in('Archive', '\\Seen')
    s.plays('played 1 conflicts 1')
    s.sent()
    add(c, 'an append is refused', s.ends(), conflict(4))
    s = Played().begin()
    s.refuse('Archive')
    s.stand()
    s.put_in('Archive').asks('flag Archive d1 + \\Flagged', 'move Archive d1 INBOX', 'flag INBOX d3 + \\Seen')
    s.plays('played 4 conflicts 4')
    s.sent()
    add(c, 'what hangs on a refused append ends with it', s.ends(), conflict(4), conflict(7, 1), conflict(7, 1), conflict(7, 3))
    s = appended()
    s.link(15, 'all')
    s.plays('error link')
    s.change('add', 'Archive', 8, T)
    s.plays('played 1 conflicts 1')
    s.sent()
    add(c, 'two messages have a lost append\'s Message-ID', s.ends(), conflict(12, 7, 8))
    s = new(boxes=[WORKED[0]]).asks('move INBOX 42 Archive')
    s.run('play')
    s.sent()
    add(c, 'a mailbox isn\'t there: the move is refused, and then the run', s.ends(), conflict(4))
    s = new(boxes=[WORKED[0]]).put_in('Archive')
    s.run('play')
    s.sent()
    add(c, 'an append\'s mailbox isn\'t there: the run is refused, and the action waits', s.ends())


def several(c: Cases) -> None:
    s = new().put_in('Archive', '\\Seen').asks('flag Archive d1 + work', 'move Archive d1 INBOX', 'flag INBOX d3 - \\Seen',
        'move INBOX d3 Archive').put_in('INBOX').asks('flag INBOX 40 - \\Seen', 'move INBOX 42 Archive')
    s.asks('queue', 'list INBOX', 'list Archive')
    s.plays('played 8 conflicts 0')
    s.sent()
    add(c, 'a message is put in, changed, and moved to and fro', s.ends(), done(9, 7), done(), done(5, 44), done(), done(9, 8), done(5, 45),
        done(), done(9, 9))
    s = new(left=BEGUN).put_in('Archive').put_in('INBOX').asks('flag Archive d1 + a', 'move INBOX d2 Archive')
    s.plays('played 4 conflicts 0')
    s.sent()
    add(c, 'mailboxes that were never synchronised have what is put in', s.ends(), done(9, 7), done(5, 44), done(), done(9, 8))
    s = moved()
    s.link(19, 'all')
    s.plays('error link')
    s.asks('queue', 'list INBOX', 'list Archive', 'flag INBOX 40 + work')
    s.plays('played 2 conflicts 0')
    s.sent()
    add(c, 'a connection is lost between two actions, and a third one is asked for', s.ends(), done(9, 7), done(), done())


def waiting(c: Cases) -> None:
    s = flagged()
    s.link(16, 'waits done')
    s.plays('error link')
    s.asks('queue')
    s.plays('played 1 conflicts 1')
    add(c, 'the reply to a change of flags is lost: the flags are as asked, and it isn\'t known by whom', s.ends(), conflict(8))
    for loss in ['waits done', 'waits dropped']:
        s = flagged()
        s.link(15, loss)
        s.plays('error link')
        s.history()
        s.run('play')
        s.sent()
        add(c, 'a change of flags waits as the connection is lost, and is %s' % loss[6:], s.ends())
        s = moved()
        s.link(15, loss)
        s.plays('error link')
        s.history()
        s.run('play')
        s.sent()
        add(c, 'a move waits as the connection is lost, and is %s' % loss[6:], s.ends())
        s = appended()
        s.link(15, loss)
        s.plays('error link')
        s.history()
        s.run('play')
        s.sent()
        add(c, 'an append waits as the connection is lost, and is %s' % loss[6:], s.ends())


def to_the_end(c: Cases) -> None:
    s = moved()
    s.sink(1)
    s.gives(12, 'play')
    add(c, 'the output fails: all the same it was played', s.ends(), done(9, 7), done())
    s = new().asks('flag INBOX 40 + \\Seen')
    s.sink(1)
    s.gives(12, 'play')
    add(c, 'so it is with a conflict', s.ends(), conflict(2))
    s = moved()
    s.change('set', 'INBOX', 40, 'x')
    s.change('add', 'Archive', 7, b'y')
    s.other(21, 'add', 'INBOX', 44, b'z')
    s.plays('played 2 conflicts 0')
    s.sent()
    add(c, 'others act all the time: what is shown is what the server has', s.ends(), done(9, 8), done())
    s = new(offers=('IMAP4rev1', 'UIDPLUS', 'MOVE', 'ENABLE', 'CONDSTORE', 'QRESYNC', 'AUTH=PLAIN', 'LITERAL+',
        'IDLE')).asks('flag INBOX 40 - \\Seen', 'move INBOX 42 Archive').put_in('Archive')
    s.plays('played 3 conflicts 0')
    s.sent()
    add(c, 'a server of the older standard', s.ends(), done(), done(9, 7), done(9, 8))

# What a server of the older standard says, with all that a client doesn't ask for.
OLDER = 'IMAP4rev1 UIDPLUS MOVE ENABLE CONDSTORE QRESYNC AUTH=PLAIN LITERAL+ IDLE'


def older_talk() -> Tuple[bytes, List[bytes], List[str], bytes]:
    """The journal before, what the server says, what is sent to it, and the journal then."""
    asked = [accept(1, ('flag', real('INBOX', 5, 42), '+', ['\\Seen'])), accept(2, ('move', real('INBOX', 5, 40), 'Archive')),
        accept(3, ('append', 'Archive', ['\\Seen'], T))]
    noise = ['* FLAGS (\\Answered \\Flagged \\Deleted \\Seen \\Draft work)', '* 0 RECENT', '* XLIST nothing known {5}', 'ab cd']
    before = journal(BEGIN, INBOX_LEARNED, ARCHIVE_LEARNED, *asked)
    says = [crlf('* OK [CAPABILITY IMAP4rev1 LITERAL+ ID ENABLE IDLE AUTH=PLAIN] ready'), crlf('* CAPABILITY ' + OLDER, 'C1 OK done'),
        crlf('+ '), crlf('C2 OK logged in'), crlf('* CAPABILITY ' + OLDER, 'C3 OK done'),
        crlf('* ENABLED QRESYNC', 'C4 OK enabled'), selected('C5', 2, 5, 44, 715, *noise[2:], front=noise[:2]),
        crlf('* SEARCH 1 2 (MODSEQ 3)', '* 2 FETCH (UID 42 FLAGS (\\Recent) MODSEQ (715))', 'C6 OK [HIGHESTMODSEQ 715] done'),
        crlf('* 2 FETCH (UID 42 MODSEQ (716) FLAGS (\\Seen \\Recent))', '* OK [ALERT] soon', 'P1 OK [HIGHESTMODSEQ 716] done'),
        crlf('* 1 FETCH (MODSEQ (700) UID 40 FLAGS (\\Seen))', 'C7 OK done'),
        crlf('* OK [COPYUID 9 40 7] moved', '* VANISHED 40', '* 0 RECENT', 'P2 OK [HIGHESTMODSEQ 717] done'),
        selected('C8', 1, 9, 8, 301, '* 1 FETCH (UID 7 FLAGS (\\Seen \\Recent) MODSEQ (301))', front=[CLOSED, *noise[:2]],
        last='[HIGHESTMODSEQ 301] done'), crlf('+ go on'),
        crlf('* 2 EXISTS', '* 1 RECENT', '* OK [HIGHESTMODSEQ 302] x', 'P3 OK [APPENDUID 9 8] done'),
        selected('C9', 1, 5, 44, 717, '* VANISHED (EARLIER) 40', '* 1 FETCH (UID 42 FLAGS (\\Seen) MODSEQ (716))', front=[CLOSED, *noise]),
        selected('C10', 2, 9, 9, 302, '* 2 FETCH (UID 8 FLAGS (\\Seen) MODSEQ (302))', front=[CLOSED]), left('C11')]
    # In the script too the literal's text is a line of its own.
    sent = ['C1 CAPABILITY', 'C2 AUTHENTICATE PLAIN', 'AGFubgBwdw==', 'C3 CAPABILITY', 'C4 ENABLE QRESYNC',
        'C5 SELECT INBOX (QRESYNC (5 715))', 'C6 UID FETCH 42 (UID FLAGS MODSEQ)',
        'P1 UID STORE 42 (UNCHANGEDSINCE 715) +FLAGS (\\Seen)', 'C7 UID FETCH 40 (UID FLAGS MODSEQ)', 'P2 UID MOVE 40 Archive',
        'C8 SELECT Archive (QRESYNC (9 300))', 'P3 APPEND Archive (\\Seen) {42}',
        *T.decode().split('\r\n')[:-1], '', 'C9 SELECT INBOX (QRESYNC (5 715))', 'C10 SELECT Archive (QRESYNC (9 301))', 'C11 LOGOUT']
    after = journal(BEGIN, INBOX_LEARNED, ARCHIVE_LEARNED, *asked, learn('INBOX', 0, 5, 715, 44, [], []),
        intend(1, ('store', 'INBOX', 5, 42, 715)), settle(1, ('done',)),
        intend(2, ('shift', 'INBOX', 5, 40, 'Archive')), settle(2, ('done', 9, 7)),
        learn('Archive', 0, 9, 301, 8, [], [(7, 301, ['\\Seen'])]), intend(3, ('put', 'Archive', 9, 8)), settle(3, ('done', 9, 8)),
        learn('INBOX', 0, 5, 717, 44, [40], [(42, 716, ['\\Seen'])]), learn('Archive', 0, 9, 302, 9, [], [(8, 302, ['\\Seen'])]))
    return before, says, sent, after


def older(c: Cases) -> None:
    before, says, sent, after = older_talk()
    script(c, 'a server of the older standard tells much besides', before, says, 0, 'played 3 conflicts 0', sent, after=after,
        lists=['INBOX', 'Archive'])
    script(c, 'the reply to a move lacks COPYUID of the one message', before,
        says[:10] + [crlf('* OK [COPYUID 9 39:40 7:8] moved', 'P2 OK done')], 6, 'error reply lacks COPYUID', sent[:10],
        after=after[:after.index(settle(2, ('done', 9, 7))) - 5] + b'\0')
    script(c, 'the reply to an append lacks APPENDUID', before, says[:13] + [crlf('P3 OK done')], 6, 'error reply lacks APPENDUID',
        sent[:17], after=after[:after.index(settle(3, ('done', 9, 8))) - 5] + b'\0')
    script(c, 'the row of an action\'s message lacks its mod-sequence', before,
        says[:7] + [crlf('* 2 FETCH (UID 42 FLAGS ())', 'C6 OK done')], 6, 'error reply lacks MODSEQ', sent[:7],
        after=after[:after.index(intend(1, ('store', 'INBOX', 5, 42, 715))) - 5] + b'\0')
    script(c, 'a row is asked for, and refused', before, says[:7] + [crlf('C6 NO not now')], 5, 'error refused: C6 NO not now', sent[:7],
        after=after[:after.index(intend(1, ('store', 'INBOX', 5, 42, 715))) - 5] + b'\0')
    script(c, 'an action\'s message has a UIDVALIDITY above its mailbox\'s',
        journal(BEGIN, INBOX_LEARNED, ARCHIVE_LEARNED, accept(1, ('flag', real('INBOX', 6, 42), '+', ['\\Seen']))),
        says[:7], 6, 'error reply validity INBOX 6 5', sent[:6])


def older_server(c: Cases) -> None:
    many = [(uid, uid, b'x') for uid in range(1, 1201)]
    s = ready(Played().begin(offers=tuple(OLDER.split()), boxes=[('INBOX', 5, 1201, 1200, many, []), WORKED[1]], left=BEGUN))
    s.plays('played 0 conflicts 0')
    s.asks('flag INBOX 600 + \\Seen', 'move INBOX 1200 Archive').put_in('Archive')
    s.plays('played 3 conflicts 0')
    s.sent()
    s.history()
    s.run('queue')
    s.lists('Archive')
    add(c, 'a mailbox of 1,200 messages at a server of the older standard', s, done(), done(9, 7), done(9, 8))


# Actions whose play is lost in a call, or stopped behind one; then it is played to the end.

class Lost:
    """A play in which a call is lost or fails, or behind which the world stops."""

    # How a call of the link is lost, and by which images it goes on from a stop.
    losses: List[str] = LOSSES
    picks = range(5)

    def __init__(self, text: str, begun: Callable[[], Played]):
        self.cases, self.begun = Cases(text), begun
        head = begun()
        self.heads = len(head.lines)
        self.cases.head(head)
        head.run('play')
        self.link_calls, self.disk_calls = head.world.counts

    def ended(self, title: str, s: Played) -> None:
        rounds = 0
        while s.run('play') not in (0, 1):
            rounds += 1
            assert rounds < 3
        s.history()
        s.lists('INBOX', 'Archive')
        assert not s.holds().unsettled()
        s.lines = s.lines[self.heads:]
        self.cases.add(title, s)

    def all(self) -> Cases:
        for n in range(1, self.link_calls + 1):
            for loss in self.losses:
                s = self.begun()
                s.link(n, loss)
                s.run('play')
                self.ended('call %d of the link is lost, %s' % (n, loss), s)
        for n in range(1, self.disk_calls + 1):
            s = self.begun()
            s.disk(n)
            s.gives(3, 'play')
            self.ended('call %d of the disk fails' % n, s)
        for n in range(self.link_calls + self.disk_calls + 1):
            for pick in self.picks:
                s = self.begun()
                s.stop(n)
                s.run('play')
                s.restart(pick)
                self.ended('a stop behind %d calls, pick %d' % (n, pick), s)
        return self.cases


def drawn() -> Cases:
    cases, draw = Cases(DRAWN), Draw(28)
    draw.sents = 0.1
    cases.head(worked_server())
    for number in range(1, 201):
        add_drawn(cases, 'drawn %d' % number, draw.playing())
    return cases


PLAYBACK = '# Actions are played back. A line that begins with a space is what the line before it is to print.\n'
DRAWN = """\
# Two hundred scenarios that were drawn: actions, runs, losses, stops and polite other clients in turn; then all is played to the end. No
# action took effect twice, and each that is done once.

"""
LOST = """\
# %s played back, and a call is lost or fails, or the world stops behind it; then it is played to the end. Each action took
# effect once, or is a conflict; none took effect twice.

"""
MAKERS = [worked, lost_before_or_behind, reasons, reasons_of_a_second_try, refusals, several, waiting, to_the_end, older, older_server]


def main(folder: str) -> None:
    cases = Cases(PLAYBACK)
    for make in MAKERS:
        make(cases)
    cases.write(folder, 'playback', 'gen_playback')
    drawn().write(folder, 'drawn', 'gen_playback')
    Lost(LOST % 'A move and a change of flags where it comes are', moved).all().write(folder, 'lost_moves', 'gen_playback')
    Lost(LOST % 'An append is', appended).all().write(folder, 'lost_appends', 'gen_playback')
    Lost(LOST % 'A move is', one_move).all().write(folder, 'lost_one_move', 'gen_playback')
    Lost(LOST % 'An append whose reply was lost is', searched).all().write(folder, 'lost_searches', 'gen_playback')


if __name__ == '__main__':
    main(sys.argv[1])
