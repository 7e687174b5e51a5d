"""Makes the scenarios of `play` as files of cases (play, cuts, losses, later_losses), by the plain models of tools/model.

usage: tools/scenarios/gen_play.py FOLDER    (crates/mail_scenario, or a folder with a folder data in it)
"""
import sys

from common import (ARCHIVE_LEARNED, BEGIN, BEGUN, BOTH_LEARNED, INBOX_LEARNED, LOSSES, M40, M42, OFFERS, WORKED, Cases, Scenario,
                    journal, learn)
from model.journal import HEAD, reset
from model.words import word
from model.world import World
from scripts import (AGAIN, CLOSED, ENTERED, FIRST, GREETING, INBOX_ROWS, PLAYED, SENT_AGAIN, SENT_WHOLE, WHOLE, Script, archive,
                     capability, crlf, enabled, left, ok, script, selected)

LATER = [('INBOX', 5, 119, 730, [(40, 700, M40, '\\Seen'), (42, 715, M42), (118, 730, b'x', '$Forwarded')], [(41, 716), (43, 717)]),
    ('Archive', 9, 7, 300, [], [])]


def worked(s: Scenario, **more) -> None:
    s.server(OFFERS, WORKED, **more)
    s.stand()


# Scenarios by name.

def served(c: Cases) -> None:
    s = Scenario()
    worked(s)
    s.run('init', 'INBOX', 'Archive')
    s.run('play')
    s.sent()
    s.lists('INBOX', 'Archive')
    s.files()
    s.history()
    assert s.world.files[0].seen == BOTH_LEARNED
    s.run('flag', 'INBOX', '43', '+', '\\Seen')
    s.ran('flag INBOX 0 + \\Seen', 2, 'error words')
    s.files()
    c.add('a first synchronisation, and what can be asked then', s)

    s = Scenario()
    worked(s, left=BOTH_LEARNED)
    s.run('play')
    s.sent()
    s.lists('INBOX', 'Archive')
    s.files()
    s.run('play')
    s.sent()
    s.files()
    assert s.world.files[0].seen == journal(BEGIN, INBOX_LEARNED, ARCHIVE_LEARNED, *AGAIN, *AGAIN)
    c.add('nothing changed since: each mailbox is recorded all the same', s)


def later(c: Cases) -> None:
    s = Scenario()
    worked(s, left=BOTH_LEARNED)
    s.change('add', 'INBOX', 118, b'x', '$Forwarded', '\\Recent')
    s.change('drop', 'INBOX', 40)
    s.change('set', 'INBOX', 42, '\\Seen', 'work')
    s.change('shift', 'INBOX', 118, 'Archive', 9)
    s.change('add', 'INBOX', 4294967294, b'y')
    s.run('play')
    s.sent()
    s.lists('INBOX', 'Archive')
    s.files()
    s.change('add', 'Archive', 4294967294, b'z', 'a', 'B')
    s.run('play')
    s.lists('INBOX', 'Archive')
    c.add('others added, changed, dropped and moved messages', s)

    s = Scenario()
    s.server(OFFERS, LATER, left=BOTH_LEARNED)
    s.stand()
    s.run('play')
    s.sent()
    s.lists('INBOX', 'Archive')
    s.files()
    c.add('another client added UID 118, and two UIDs are gone', s)

    s = Scenario()
    s.server(OFFERS, [('INBOX', 4294967295, 4294967295, 2**63 - 1, [(4294967294, 2**63 - 1, b'x')], [])])
    s.stand()
    s.run('init', 'INBOX')
    s.run('play')
    s.sent()
    s.lists('INBOX')
    s.files()
    s.run('play')
    s.sent()
    s.lists('INBOX')
    c.add('the greatest UID and the greatest mod-sequence', s)


def offers(c: Cases) -> None:
    for title, offered, account in [
        ('AUTHENTICATE PLAIN where it is offered', ('IMAP4rev2', 'QRESYNC', 'AUTH=PLAIN'), None),
        ('also where LOGIN is disabled', ('IMAP4rev2', 'QRESYNC', 'LOGINDISABLED', 'auth=plain'), None),
        ('a server of the older standard', ('IMAP4rev1', 'UIDPLUS', 'MOVE', 'ENABLE', 'CONDSTORE', 'QRESYNC', 'AUTH=PLAIN', 'LITERAL+',
        'IDLE'), None),
        ('a password with a space', OFFERS, ('ann', 'a "b\\c')), ('a user that could be nil', OFFERS, ('nil', '')),
        ('a password that isn\'t ASCII is a literal', OFFERS, ('ann', 'a secret \u00e4')),
        ('so may be a user', OFFERS, ('\u00e4nn', 'p\r\nw'))]:
        s = Scenario()
        s.server(offered, WORKED, left=BEGUN, account=account)
        s.stand()
        s.run('play')
        s.sent()
        s.lists('INBOX')
        c.add(title, s)
    for title, offered in [('no QRESYNC', ('IMAP4rev2',)), ('LOGIN is disabled', ('IMAP4rev2', 'QRESYNC', 'LOGINDISABLED')),
        ('the older standard without UIDPLUS', ('IMAP4rev1', 'QRESYNC', 'MOVE')),
        ('the older standard without MOVE', ('QRESYNC', 'UIDPLUS')), ('it offers nothing', ())]:
        s = Scenario()
        s.server(offered, WORKED, left=BEGUN)
        s.stand()
        s.run('play')
        s.sent()
        s.lists('INBOX')
        s.files()
        c.add(title, s)


def around_the_commands(c: Cases) -> None:
    s = Scenario()
    s.server(OFFERS, WORKED, left=BOTH_LEARNED)
    s.stand()
    s.run('flag', 'INBOX', '42', '+', '\\Seen')
    s.run('play')
    s.sent()
    s.files()
    c.add('an action is played back, and then each mailbox is synchronised', s)

    for title, files in [('there is no journal', b''), ('it has no records', HEAD + b'\0')]:
        s = Scenario()
        s.server(OFFERS, WORKED, left=files)
        s.stand()
        s.run('play')
        s.sent()
        c.add(title, s)

    s = Scenario()
    worked(s, left=BEGUN)
    s.sink(1)
    s.run('play')
    s.sent()
    s.lists('INBOX')
    c.add('the output fails: all the same it is recorded', s)


def others_and_the_end(c: Cases) -> None:
    s = Scenario()
    worked(s, left=BEGUN)
    s.other(13, 'add', 'INBOX', 118, b'x', '$Forwarded')
    s.other(13, 'drop', 'INBOX', 40)
    s.run('play')
    s.lists('INBOX')
    s.run('play')
    s.lists('INBOX')
    c.add('others act between SELECT and FETCH: what was told by both is known, and the rest by the next run', s)

    s = Scenario()
    worked(s, left=BEGUN)
    s.other(19, 'add', 'INBOX', 118, b'x')
    s.other(20, 'add', 'INBOX', 119, b'y')
    s.run('play')
    s.history()
    s.lists('INBOX')
    s.run('play')
    s.lists('INBOX')
    c.add('the nineteenth call of the link closes the connection, and there is no twentieth', s)

    s = Scenario()
    worked(s, left=BEGUN)
    s.link(2, 'nothing')
    s.other(3, 'add', 'INBOX', 118, b'x')
    s.other(4, 'add', 'INBOX', 119, b'y')
    s.run('play')
    s.history()
    s.sent()
    s.run('play')
    s.lists('INBOX')
    c.add('the greeting is lost: the third call closes the connection', s)

    s = Scenario()
    worked(s, left=BEGUN)
    s.other(1, 'add', 'INBOX', 118, b'x')
    s.run('list', 'INBOX')
    s.history()
    c.add('a command that doesn\'t call the link doesn\'t close it', s)


def scripts(c: Cases) -> None:
    script(c, 'a script says what the worked server says', BEGUN, WHOLE, 0, PLAYED, SENT_WHOLE, after=BOTH_LEARNED,
        lists=['INBOX', 'Archive'])
    script(c, 'all that it says comes at once', BEGUN, [b''.join(WHOLE)], 0, PLAYED, SENT_WHOLE, after=BOTH_LEARNED, lists=['INBOX'])
    script(c, 'BYE alone ends LOGOUT', BEGUN, WHOLE[:-1] + [crlf('* BYE bye')], 0, PLAYED, SENT_WHOLE, after=BOTH_LEARNED)
    script(c, 'PREAUTH: nobody logs in', BEGUN, [crlf('* PREAUTH hello ann'), capability('C1'), capability('C2'), enabled('C3'),
        selected('C4', 2, 5, 44, 715),
        INBOX_ROWS + ok('C5'), archive('C6'), left('C7')], 0, PLAYED,
        ['C1 CAPABILITY', 'C2 CAPABILITY', 'C3 ENABLE IMAP4rev2 QRESYNC', 'C4 SELECT INBOX', 'C5 UID FETCH 1:* (UID FLAGS MODSEQ)',
        'C6 SELECT Archive', 'C7 LOGOUT'], after=BOTH_LEARNED)

    again = lambda *more, **named: ENTERED + [selected('C5', 3, 5, 119, 730, *more, **named), archive('C6'), left('C7')]
    vanished = [41] + list(range(43, 117))
    script(c, 'UIDs that vanished, and a row of a UID that is new', BOTH_LEARNED,
        again('* VANISHED (EARLIER) 41,43:116', '* 3 FETCH (UID 118 FLAGS ($Forwarded \\Recent) MODSEQ (730))'), 0, PLAYED,
        SENT_AGAIN, after=journal(BEGIN, INBOX_LEARNED, ARCHIVE_LEARNED,
        learn('INBOX', 0, 5, 730, 119, vanished, [(118, 730, ['$Forwarded'])]), AGAIN[1]), lists=['INBOX'])
    script(c, 'a UID that vanished and has a row isn\'t gone, and of two rows the last counts', BOTH_LEARNED,
        again('* VANISHED (EARLIER) 40:42', '* 1 FETCH (UID 42 FLAGS (a) MODSEQ (720))',
        '* 1 FETCH (FLAGS (b) MODSEQ (725) UID 42)'), 0, PLAYED, SENT_AGAIN,
        after=journal(BEGIN, INBOX_LEARNED, ARCHIVE_LEARNED, learn('INBOX', 0, 5, 730, 119, [40, 41], [(42, 725, ['b'])]), AGAIN[1]),
        lists=['INBOX'])
    closed = ['* 1 FETCH (UID 42 FLAGS (x) MODSEQ (720))', '* OK [HIGHESTMODSEQ 999] x', '* OK [UIDVALIDITY 8] x', '* VANISHED 40',
        '* 1 FETCH (UID 7)', '* OK [NOMODSEQ] x', CLOSED]
    script(c, 'what stands before CLOSED is of the mailbox before', BOTH_LEARNED,
        ENTERED + [selected('C5', 2, 5, 44, 715), selected('C6', 1, 9, 8, 301, '* 1 FETCH (UID 7 FLAGS () MODSEQ (301))', front=closed),
        left('C7')],
        0, PLAYED, SENT_AGAIN, after=journal(BEGIN, INBOX_LEARNED, ARCHIVE_LEARNED, AGAIN[0],
        learn('Archive', 0, 9, 301, 8, [], [(7, 301, [])])), lists=['INBOX', 'Archive'])
    script(c, 'the codes may stand in the completion, and the last one counts', BOTH_LEARNED,
        ENTERED + [selected('C5', 2, 5, 44, 716, last='[HIGHESTMODSEQ 715] done'), archive('C6'), left('C7')],
        0, PLAYED, SENT_AGAIN, after=journal(BEGIN, INBOX_LEARNED, ARCHIVE_LEARNED, *AGAIN))


def refusals(c: Cases) -> None:
    script(c, 'the greeting is BYE', BEGUN, [crlf('* BYE busy')], 5, 'error refused: * BYE busy', [])
    script(c, 'the user is refused', BEGUN, ENTERED[:2] + [crlf('C2 NO [AUTHENTICATIONFAILED] no')], 5,
        'error refused: C2 NO [AUTHENTICATIONFAILED] no', FIRST[:2])
    script(c, 'CAPABILITY is answered BAD', BEGUN, ENTERED[:1] + [crlf('C1 BAD what')], 5, 'error refused: C1 BAD what', FIRST[:1])
    script(c, 'the mailbox isn\'t there', BEGUN, ENTERED + [crlf('C5 NO [NONEXISTENT] no such mailbox')], 5,
        'error refused: C5 NO [NONEXISTENT] no such mailbox', FIRST + SENT_WHOLE[4:5])
    script(c, 'BYE in place of a reply', BEGUN, ENTERED + [crlf('* 1 EXISTS', '* BYE too slow', 'C5 OK done')], 5,
        'error refused: * BYE too slow', FIRST + SENT_WHOLE[4:5])
    script(c, 'of the line 200 bytes are told, and no byte that can\'t be printed', BEGUN, [crlf(b'* BYE \xc3\xa4\t' + b'x' * 300)], 5,
        'error refused: * BYE ???' + 'x' * 191, [])
    script(c, 'ENABLED doesn\'t name QRESYNC', BEGUN, ENTERED[:4] + [enabled('C4', 'IMAP4rev2 CONDSTORE')], 7, 'error lacking QRESYNC',
        FIRST)


def no_replies(c: Cases) -> None:
    at = len(GREETING)
    script(c, 'the greeting ends with LF alone', BEGUN, [b'* OK hi\n'], 6, 'error reply 7', [])
    script(c, 'the first line is no greeting', BEGUN, [crlf('* 1 EXISTS')], 6, 'error reply 0', [])
    script(c, 'a line spells no response', BEGUN, [GREETING, crlf('* OK [UIDNEXT 0] x', 'C1 OK done')], 6, 'error reply %d' % at, FIRST[:1])
    script(c, 'another tag', BEGUN, [GREETING, crlf('* CAPABILITY IMAP4rev2 QRESYNC', 'C2 OK done')], 6, 'error reply %d' % (at + 32),
        FIRST[:1])
    script(c, 'LF alone behind a good line', BEGUN, [GREETING, crlf('* CAPABILITY IMAP4rev2 QRESYNC') + b'C1 OK done\n'], 6,
        'error reply %d' % (at + 42), FIRST[:1])
    script(c, 'it says no more', BEGUN, ENTERED, 4, 'error link', FIRST + SENT_WHOLE[4:5])
    script(c, 'it says nothing', BEGUN, [], 4, 'error link', [])


def too_large(c: Cases) -> None:
    script(c, 'a literal is too large', BEGUN, [GREETING, crlf('* X {33554433}')], 14, 'error limit literal 33554433', FIRST[:1])
    script(c, 'a literal is as large as it may be, and then nothing comes', BEGUN, [GREETING, crlf('* X {33554432}')], 4, 'error link',
        FIRST[:1])
    script(c, 'a literal\'s size is told up to 2^63 - 1', BEGUN, [GREETING, crlf('* X {99999999999999999999}')], 14,
        'error limit literal 9223372036854775807', FIRST[:1])
    script(c, 'a line is too long', BEGUN, [b'* OK '], 14, 'error limit line 1048577', [], endless=b'x' * 1000)
    script(c, 'a line with a literal has no end before a log-in', BEGUN, [GREETING, crlf('* X {33554432}')], 14, 'error limit reply 2097153',
        FIRST[:1], endless=b'x' * 1000)
    script(c, 'a reply has no end before a log-in', BEGUN, [GREETING], 14, 'error limit reply 2097153', FIRST[:1], endless=crlf('* OK still'))
    row = lambda flags: ENTERED + [selected('C5', 1, 5, 44, 715), crlf('* 1 FETCH (UID 40 FLAGS (%s) MODSEQ (700))' % flags) + ok('C6'),
        archive('C7'), left('C8')]
    known = lambda flags: journal(BEGIN, learn('INBOX', 1, 5, 715, 44, [], [(40, 700, flags)]), ARCHIVE_LEARNED)
    script(c, 'a flag is too long', BEGUN, row('x' * 256), 14, 'error limit flag 256', SENT_WHOLE[:6])
    script(c, 'a flag is as long as it may be', BEGUN, row('x' * 255), 0, PLAYED, SENT_WHOLE, after=known(['x' * 255]))
    many = ['f%d' % k for k in range(1025)]
    script(c, 'a message has too many flags', BEGUN, row(' '.join(many)), 14, 'error limit flags 1025', SENT_WHOLE[:6])
    script(c, 'it has as many as it may have', BEGUN, row(' '.join(many[1:])), 0, PLAYED, SENT_WHOLE, after=known(many[1:]))


def lacking(c: Cases) -> None:
    kept = lambda *args, **named: ENTERED + [selected('C5', *args, **named)]
    sent = SENT_AGAIN[:5]
    script(c, 'UIDVALIDITY is a greater one: the cache is taken away, and all rows are asked for', BOTH_LEARNED,
        kept(2, 6, 44, 715) + [INBOX_ROWS + ok('C6'), archive('C7'), left('C8')], 0, PLAYED,
        sent + ['C6 UID FETCH 1:* (UID FLAGS MODSEQ)', 'C7 SELECT Archive (QRESYNC (9 300))', 'C8 LOGOUT'],
        after=journal(BEGIN, INBOX_LEARNED, ARCHIVE_LEARNED, reset('INBOX', 5, 6),
        learn('INBOX', 1, 6, 715, 44, [], [(40, 700, ['\\Seen']), (42, 715, [])]), AGAIN[1]), lists=['INBOX'])
    script(c, 'UIDVALIDITY is a lower one', BOTH_LEARNED, kept(2, 4, 44, 715), 6, 'error reply validity INBOX 5 4', sent, lists=['INBOX'])
    script(c, 'the highest mod-sequence fell', BOTH_LEARNED, kept(2, 5, 44, 714), 6, 'error reply modseq 715 714', sent, lists=['INBOX'])
    script(c, 'no highest mod-sequence is told', BOTH_LEARNED, kept(2, 5, 44, None), 6, 'error reply lacks HIGHESTMODSEQ', sent)
    script(c, 'no UIDNEXT is told', BOTH_LEARNED, kept(2, 5, None, 715), 6, 'error reply lacks UIDNEXT', sent)
    script(c, 'no UIDVALIDITY is told', BOTH_LEARNED, kept(2, None, None, None), 6, 'error reply lacks UIDVALIDITY', sent)
    script(c, 'there are no mod-sequences', BOTH_LEARNED, kept(2, 5, 44, None, '* OK [NOMODSEQ] none'), 7, 'error lacking MODSEQ', sent)
    script(c, 'none, though one is told', BOTH_LEARNED, kept(2, 5, 44, 715, '* NO [NOMODSEQ] none'), 7, 'error lacking MODSEQ', sent)
    script(c, 'UIDs don\'t stay', BOTH_LEARNED, kept(2, 5, 44, 715, '* OK [UIDNOTSTICKY] so it is'), 7, 'error lacking STICKY', sent)
    script(c, 'UIDVALIDITY comes before the mod-sequence', BOTH_LEARNED, kept(2, 4, 44, 714), 6, 'error reply validity INBOX 5 4', sent)
    script(c, 'a row lacks its flags', BOTH_LEARNED, kept(2, 5, 44, 715, '* 1 FETCH (UID 42 MODSEQ (715))'), 6, 'error reply lacks ROW',
        sent)


def nothing_kept(c: Cases) -> None:
    new = lambda select, fetch: ENTERED + [select, fetch]
    script(c, 'nothing was kept: the fault is told behind the FETCH', BEGUN, new(selected('C5', 2, 5, 44, None), INBOX_ROWS + ok('C6')),
        6, 'error reply lacks HIGHESTMODSEQ', SENT_WHOLE[:6])
    script(c, 'no mod-sequences, and nothing was kept', BEGUN,
        new(selected('C5', 2, 5, 44, None, '* OK [NOMODSEQ] none'), INBOX_ROWS + ok('C6')), 7, 'error lacking MODSEQ', SENT_WHOLE[:6])
    script(c, 'the FETCH is refused: that comes first', BEGUN,
        new(selected('C5', 2, 5, 44, None, '* OK [NOMODSEQ] none'), crlf('C6 NO not without mod-sequences')), 5,
        'error refused: C6 NO not without mod-sequences', SENT_WHOLE[:6])
    script(c, 'a row of the FETCH lacks its mod-sequence', BEGUN,
        new(selected('C5', 2, 5, 44, 715), crlf('* 1 FETCH (UID 40 FLAGS (\\Seen))', 'C6 OK done')), 6, 'error reply lacks ROW',
        SENT_WHOLE[:6])
    script(c, 'the second mailbox is at fault: the first is known', BOTH_LEARNED,
        ENTERED + [selected('C5', 2, 5, 44, 715), selected('C6', 0, 8, 7, 300, front=[CLOSED])], 6, 'error reply validity Archive 9 8',
        SENT_AGAIN[:6],
        after=journal(BEGIN, INBOX_LEARNED, ARCHIVE_LEARNED, AGAIN[0]))
    s = Script()
    s.talks(BEGUN, WHOLE[:5], 4, 'error link', SENT_WHOLE[:5])
    s.ran('play', 4, 'error link')
    s.line('sent')
    c.add('the script goes on over a second run, and has ended', s)


# A FETCH whose FLAGS and UID follow a literal, cut at every place.

def cuts(c: Cases) -> None:
    s = Scenario()
    s.line('server')
    s.line('files %s -' % BEGUN.hex())
    for p in ENTERED + [selected('C5', 1, 5, 44, 715)]:
        s.line('piece ' + word(p))
    c.head(s)
    reply = crlf('* 1 FETCH (BODY[HEADER.FIELDS (SUBJECT)] {15}', 'Subject: hi', '', ' FLAGS (\\Seen) UID 40 MODSEQ (700))', 'C6 OK done')
    for k in list(range(len(reply))) + [None]:
        s = Scenario()
        for p in [reply[i:i + 1] for i in range(len(reply))] if k is None else [reply[:k], reply[k:]]:
            s.line('piece ' + word(p))
        s.line('piece ' + word(archive('C7')))
        s.line('piece ' + word(left('C8')))
        s.line('scripted')
        s.ran('play', 0, PLAYED)
        s.world = World(left=journal(BEGIN, learn('INBOX', 1, 5, 715, 44, [], [(40, 700, ['\\Seen'])]), ARCHIVE_LEARNED))
        s.lists('INBOX')
        c.add('each byte is a piece' if k is None else 'whole' if k == 0 else 'cut at byte %d' % k, s)


# Each call of a play fails in turn, and then it is played to the end.

class Lost:
    """A play in which a call is lost or fails, or which is stopped."""

    def __init__(self, heading: str, boxes: list, files: bytes, link_calls: int, disk_calls: int):
        self.cases, self.boxes, self.files = Cases(heading), boxes, files
        self.link_calls, self.disk_calls = link_calls, disk_calls
        head = self.begun()
        self.cases.head(head)
        self.heads = len(head.lines)

    def begun(self) -> Scenario:
        s = Scenario()
        s.server(OFFERS, self.boxes, left=self.files)
        s.stand()
        return s

    def ended(self, title: str, s: Scenario) -> None:
        s.run('play')
        s.lists('INBOX', 'Archive')
        s.lines = s.lines[self.heads:]
        self.cases.add(title, s)

    def losses(self) -> None:
        for n in range(1, self.link_calls + 2):
            for loss in LOSSES:
                s = self.begun()
                s.link(n, loss)
                status = s.run('play')
                assert (status == 4) == (n < self.link_calls)
                s.sent()
                self.ended('call %d of the link is lost, %s' % (n, loss), s)

    def faults(self) -> None:
        for n in range(1, self.disk_calls + 2):
            s = self.begun()
            s.disk(n)
            status = s.run('play')
            assert (status == 3) == (n <= self.disk_calls)
            s.sent()
            self.ended('call %d of the disk fails' % n, s)

    def stops(self) -> None:
        calls = self.link_calls + self.disk_calls
        for n in range(calls + 1):
            for pick in [0, 1, 2, 3]:
                s = self.begun()
                s.stop(n)
                status = s.run('play')
                assert (status == 0) == (n >= calls - 1)
                s.restart(pick)
                self.ended('a stop behind %d calls, pick %d' % (n, pick), s)

    def all(self) -> Cases:
        self.losses()
        self.faults()
        self.stops()
        return self.cases


PLAY = '# Synchronisation. A line that begins with a space is what the line before it is to print.\n'
CUTS = '# A reply comes in two pieces, cut at each place, and in pieces of one byte: it is read as one and the same.\n\n'
FIRST_TIME = """\
# A first synchronisation in which a call fails, or which is stopped; then it is played to the end, and what is known is what the
# server has. A call of the link that is lost behind the last one loses nothing.

"""
LATER_ON = '# The same of a mailbox that was synchronised before, to which another client added UID 118 since.\n\n'
MAKERS = [served, later, offers, around_the_commands, others_and_the_end, scripts, refusals, no_replies, too_large, lacking, nothing_kept]


def main(folder: str) -> None:
    cases = Cases(PLAY)
    for make in MAKERS:
        make(cases)
    cases.write(folder, 'play', 'gen_play')
    cases = Cases(CUTS)
    cuts(cases)
    cases.write(folder, 'cuts', 'gen_play')
    Lost(FIRST_TIME, WORKED, BEGUN, 19, 16).all().write(folder, 'losses', 'gen_play')
    Lost(LATER_ON, LATER, BOTH_LEARNED, 17, 17).all().write(folder, 'later_losses', 'gen_play')


if __name__ == '__main__':
    main(sys.argv[1])
