"""Makes the scenarios in which a mailbox is recreated under a greater UIDVALIDITY as files of cases (resets, lost_resets, resets_behind,
drawn_resets), by the plain models of tools/model.

usage: tools/scenarios/gen_resets.py FOLDER    (crates/mail_scenario, or a folder with a folder data in it)
"""
import sys

from common import (ARCHIVE_LEARNED, BEGIN, INBOX_LEARNED, SEEN, STATE, Cases, accept, journal, learn, real,
                    worked_server)
from common import add as add_drawn
from gen_playback import LOST, Lost, Played, add, appended, conflict, done, flagged, moved, new, one_move
from gen_random import Draw
from model.journal import reset, settle
from scripts import ENTERED, FIRST, archive, crlf, left, ok, script, selected

# INBOX and Archive, recreated with the messages that they have.
INBOX_ANEW = ('reset', 'INBOX', 6, 3, 800, 1, 2)
ARCHIVE_ANEW = ('reset', 'Archive', 10, 2, 900)


def played(c: Cases, title: str, s: Played, *outcomes: tuple) -> None:
    """A play to its end, with what was sent and what came of it."""
    conflicts = sum(outcome[0] == 'conflict' for outcome in outcomes)
    s.gives(int(conflicts > 0), 'play')
    s.sent()
    add(c, title, s.ends(), *outcomes)


def lost(s: Played, call: int, loss: str) -> Played:
    """A play that is lost in a call, before a mailbox is recreated."""
    s.link(call, loss)
    return s.plays('error link')


def before_an_action(c: Cases) -> None:
    s = flagged()
    s.change(*INBOX_ANEW)
    s.plays('played 1 conflicts 1').sent_so(*FIRST, 'C5 SELECT INBOX (QRESYNC (5 715))', 'C6 UID FETCH 1:* (UID FLAGS MODSEQ)',
        'C7 SELECT INBOX (QRESYNC (6 800))', 'C8 SELECT Archive (QRESYNC (9 300))', 'C9 LOGOUT')
    s.says('report', '1 nothing validity-changed 5 6')
    s.says('list INBOX', '1 800 \\seen', '2 800')
    add(c, 'INBOX was recreated before a change of flags', s.ends(), conflict(13, 5, 6))
    s = moved()
    s.change(*INBOX_ANEW)
    played(c, 'INBOX was recreated before a move', s, conflict(13, 5, 6), conflict(7, 1))
    s = moved()
    s.change(*ARCHIVE_ANEW)
    played(c, 'a move\'s mailbox was recreated: its place has the new UIDVALIDITY', s, done(10, 2), done())
    s = moved()
    s.other(15, *ARCHIVE_ANEW)
    played(c, 'a move\'s mailbox is recreated as the source is selected', s, done(10, 2), done())
    s = moved()
    s.other(17, 'reset', 'Archive', 10, 2, 900, 1)
    played(c, 'the mailbox is recreated into which a message was moved: what is asked of it there isn\'t done', s, done(9, 7),
        conflict(13, 9, 10))
    s = appended()
    s.change(*ARCHIVE_ANEW)
    played(c, 'a mailbox was recreated before an append: the append is sent', s, done(10, 2))
    s = appended()
    s.other(14, *ARCHIVE_ANEW)
    played(c, 'a mailbox isn\'t recreated while it is selected', s, done(9, 7))
    s = flagged().put_in('Archive').asks('move INBOX 40 Archive')
    s.change(*INBOX_ANEW)
    s.change(*ARCHIVE_ANEW)
    played(c, 'both were recreated', s, conflict(13, 5, 6), done(10, 2), conflict(13, 5, 6))


def behind_an_intent(c: Cases) -> None:
    for loss in ['nothing', 'all']:
        s = lost(flagged(), 15, loss)
        s.change(*INBOX_ANEW)
        s.plays('played 1 conflicts 1')
        s.sent()
        s.says('report', '1 unsure reset-after-loss 5 6')
        add(c, 'INBOX was recreated behind a change of flags that was lost, %s' % loss, s.ends(), conflict(14, 5, 6))
    s = lost(moved(), 15, 'nothing')
    s.change(*INBOX_ANEW)
    played(c, 'INBOX was recreated behind a move that was lost before the server', s, conflict(14, 5, 6), conflict(7, 1))
    s = lost(moved(), 15, 'all')
    s.change('reset', 'INBOX', 6, 3, 800, 1)
    played(c, 'INBOX was recreated behind a move whose reply was lost', s, conflict(14, 5, 6), conflict(7, 1))
    s = lost(one_move(), 15, 'nothing')
    s.change(*ARCHIVE_ANEW)
    played(c, 'a move\'s mailbox was recreated: the move that was lost is sent again', s, done(10, 2))
    s = lost(appended(), 15, 'all')
    s.change('reset', 'Archive', 10, 2, 900, 1)
    s.plays('played 1 conflicts 1').sent_so(*FIRST, 'C5 SELECT Archive (QRESYNC (9 300))', 'C6 UID FETCH 1:* (UID FLAGS MODSEQ)',
        'C7 SELECT INBOX (QRESYNC (5 715))', 'C8 SELECT Archive (QRESYNC (10 900))', 'C9 LOGOUT')
    s.says('report', '1 unsure reset-after-loss 9 10')
    add(c, 'Archive was recreated behind an append whose reply was lost: nothing is searched for', s.ends(), conflict(14, 9, 10))
    s = lost(appended(), 15, 'nothing')
    s.change(*ARCHIVE_ANEW)
    played(c, 'Archive was recreated behind an append that was lost before the server', s, conflict(14, 9, 10))
    s = lost(flagged().asks('flag INBOX 40 + work').put_in('Archive'), 15, 'nothing')
    s.change(*INBOX_ANEW)
    played(c, 'what waits behind an action that was lost ends as one that wasn\'t begun', s, conflict(14, 5, 6), conflict(13, 5, 6), done(9, 7))


def while_it_waits(c: Cases) -> None:
    s = flagged()
    s.other(15, *INBOX_ANEW)
    played(c, 'a mailbox isn\'t recreated while it is selected and an action in it is played', s, done())
    s = lost(flagged(), 15, 'waits done')
    s.change(*INBOX_ANEW)
    played(c, 'a mailbox isn\'t recreated while a change of flags in it waits', s, conflict(8))
    s = lost(appended(), 15, 'waits done')
    s.change(*ARCHIVE_ANEW)
    played(c, 'a mailbox isn\'t recreated while an append to it waits', s, done(9, 7))
    s = lost(one_move(), 15, 'waits done')
    s.change(*ARCHIVE_ANEW)
    played(c, 'the mailbox is recreated into which a move that waits goes', s, conflict(10))


def again(c: Cases) -> None:
    s = flagged()
    s.change(*INBOX_ANEW)
    s.other(20, 'reset', 'INBOX', 7, 9, 801, 3, 8)
    s.run('play')
    s.sent()
    s.gives(0, 'play')
    s.sent()
    add(c, 'INBOX is recreated once more as another mailbox is selected', s.ends(), conflict(13, 5, 6))
    s = new()
    s.change('drop', 'INBOX', 40)
    s.change('drop', 'INBOX', 42)
    s.change('reset', 'INBOX', 6, 1, 1)
    played(c, 'a mailbox was recreated without a message: no row is asked for', s)
    s = new()
    s.change('reset', 'INBOX', 6, 3, 1, 1, 2)
    played(c, 'a mailbox that was recreated has lower mod-sequences', s)
    s = new()
    s.change('reset', 'INBOX', 4294967295, 4294967295, 9223372036854775807, 40, 42)
    played(c, 'the greatest numbers', s)


def between_reset_and_learn(c: Cases) -> None:
    s = flagged()
    s.change(*INBOX_ANEW)
    s.link(13, 'nothing')
    s.plays('error link')
    s.sent()
    s.looks()
    played(c, 'the connection is lost behind the record that takes a cache away: the next SELECT is plain', s, conflict(13, 5, 6))
    s = flagged()
    s.change(*INBOX_ANEW)
    s.link(13, 'nothing')
    s.plays('error link')
    s.refuses('no-message', 'flag INBOX 42 + work')
    s.put_in('INBOX')
    s.looks()
    played(c, 'there is no message while a mailbox has no cache', s, conflict(13, 5, 6), done(6, 3))


# What a server tells that numbers a mailbox anew, or below what it told before.

def lower_numbers(c: Cases) -> None:
    asked = FIRST + ['C5 SELECT INBOX (QRESYNC (5 715))']
    script(c, 'a mailbox is numbered below its cache', SEEN, ENTERED + [selected('C5', 2, 4, 44, 715)], 6, 'error reply validity INBOX 5 4',
        asked)
    far = journal(*STATE, accept(1, ('flag', real('INBOX', 8, 42), '+', ['\\Seen'])))
    script(c, 'a mailbox is numbered below what an action names', far, ENTERED + [selected('C5', 2, 5, 44, 715)], 6,
        'error reply validity INBOX 8 5', asked)
    rows = crlf('* 1 FETCH (UID 1 FLAGS (\\Seen) MODSEQ (800))', '* 2 FETCH (UID 2 FLAGS () MODSEQ (800))') + ok('C6')
    body = accept(1, ('flag', real('INBOX', 8, 42), '+', ['\\Seen']))
    script(c, 'a mailbox is numbered above its cache, and below what an action names: the cache is taken away, and then the run ends', far,
        ENTERED + [selected('C5', 2, 6, 3, 800), rows], 6, 'error reply validity INBOX 8 6',
        asked + ['C6 UID FETCH 1:* (UID FLAGS MODSEQ)'], after=journal(*STATE, body, reset('INBOX', 5, 6)))


def older_replies(c: Cases) -> None:
    # A server that answers QRESYNC by what it knows of the old UIDVALIDITY.
    vanished = selected('C5', 2, 6, 3, 800, '* VANISHED (EARLIER) 40', '* 1 FETCH (UID 1 FLAGS () MODSEQ (800))')
    rows = crlf('* 1 FETCH (UID 1 FLAGS (\\Seen) MODSEQ (800))', '* 2 FETCH (UID 2 FLAGS () MODSEQ (800))') + ok('C6')
    after = journal(BEGIN, INBOX_LEARNED, ARCHIVE_LEARNED, accept(1, ('flag', real('INBOX', 5, 42), '+', ['\\Seen'])), reset('INBOX', 5, 6),
        learn('INBOX', 1, 6, 800, 3, [], [(1, 800, ['\\Seen']), (2, 800, [])]), settle(1, ('conflict', 13, [5, 6])),
        learn('INBOX', 0, 6, 800, 3, [], []), learn('Archive', 0, 9, 300, 7, [], []))
    script(c, 'rows beside a greater UIDVALIDITY aren\'t taken', SEEN,
        ENTERED + [vanished, rows, selected('C7', 2, 6, 3, 800), archive('C8'), left('C9')], 1, 'played 1 conflicts 1',
        FIRST + ['C5 SELECT INBOX (QRESYNC (5 715))', 'C6 UID FETCH 1:* (UID FLAGS MODSEQ)', 'C7 SELECT INBOX (QRESYNC (6 800))',
                 'C8 SELECT Archive (QRESYNC (9 300))', 'C9 LOGOUT'], after=after, lists=['INBOX', 'Archive'])


# At each call of a play with two actions.

def two_actions() -> Played:
    return new().asks('flag INBOX 42 + \\Seen').put_in('Archive', '\\Seen')


def at_each_call(c: Cases) -> None:
    s = two_actions()
    s.run('play')
    calls = s.world.counts[0]
    for name, anew in [('INBOX', INBOX_ANEW), ('Archive', ('reset', 'Archive', 10, 8, 900))]:
        for n in range(1, calls + 1):
            s = two_actions()
            s.other(n, *anew)
            s.run('play')
            s.sent()
            s.run('play')
            add(c, '%s is recreated in call %d of the link' % (name, n), s.ends())


def renewed() -> Played:
    """An action in a mailbox that was recreated, and one in another."""
    s = two_actions()
    s.change(*INBOX_ANEW)
    return s


class ResetsBehind(Lost):
    """The same of a play before which no mailbox was recreated: both are recreated behind it, but for one in which a command waits."""

    picks = range(2)

    def ended(self, title: str, s: Played) -> None:
        for box in s.world.boxes:
            count = len(box.messages)
            s.change('reset', box.name, box.validity + 1, count + 1, box.highest + 100, *range(1, count + 1))
        super().ended(title, s)


class Renewing(Draw):
    """Scenarios in which others recreate mailboxes too."""

    def change(self, world, polite=False):
        if not world.boxes or self.likely(0.5):
            return super().change(world, polite)
        box = self.choice(world.boxes)
        uids = sorted(self.sample(range(1, 60), len(box.messages)))
        return ('reset', box.name, box.validity + self.randint(1, 3), (uids or [0])[-1] + self.randint(1, 3),
            self.choice([1, box.highest, box.highest + 100]), *uids)


def drawn() -> Cases:
    cases, draw = Cases(DRAWN), Renewing(15)
    draw.sents = 0.1
    cases.head(worked_server())
    for number in range(1, 101):
        add_drawn(cases, 'drawn %d' % number, draw.playing())
    return cases


RESETS = '# Mailboxes are recreated under a greater UIDVALIDITY. A line that begins with a space is what the line before it is to print.\n'
BEHIND = """\
# A change of flags and an append are played back, and a call is lost or fails, or the world stops behind it; then both mailboxes are
# recreated, but for one in which a command waits, and it is played to the end. Each action took effect once, or is a conflict; none took
# effect twice.

"""
DRAWN = """\
# A hundred scenarios that were drawn: actions, runs, losses, stops, and others who act politely and recreate mailboxes; then all is played
# to the end. No action took effect twice, and each that is done once.

"""
MAKERS = [before_an_action, behind_an_intent, while_it_waits, again, between_reset_and_learn, lower_numbers, older_replies, at_each_call]


def main(folder: str) -> None:
    cases = Cases(RESETS)
    for make in MAKERS:
        make(cases)
    cases.write(folder, 'resets', 'gen_resets')
    Lost(LOST % 'A change of flags in a mailbox that was recreated, and an append, are', renewed).all().write(folder, 'lost_resets', 'gen_resets')
    ResetsBehind(BEHIND, two_actions).all().write(folder, 'resets_behind', 'gen_resets')
    drawn().write(folder, 'drawn_resets', 'gen_resets')


if __name__ == '__main__':
    main(sys.argv[1])
