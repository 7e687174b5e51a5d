"""Makes the scenarios in which a change of flags is tried more than once, since another client's change forestalled it, as files of cases
(tries, lost_tries), by the plain models of tools/model.

usage: tools/scenarios/gen_tries.py FOLDER    (crates/mail_scenario, or a folder with a folder data in it)
"""
import sys

from common import STATE, Cases, accept, intend, journal, real, withdraw
from gen_playback import LOST, Lost, Played, add, conflict, done, flagged, new
from scripts import FIRST

# The calls of the link by which the three STOREs of `flagged` are sent.
STORES = (15, 19, 23)
SELECT = 'C5 SELECT INBOX (QRESYNC (5 715))'
FRONT = FIRST + [SELECT, 'C6 UID FETCH 42 (UID FLAGS MODSEQ)', 'P1 UID STORE 42 (UNCHANGEDSINCE 715) +FLAGS (\\Seen)']
SECOND = ['C7 UID FETCH 42 (UID FLAGS MODSEQ)', 'P1R2 UID STORE 42 (UNCHANGEDSINCE 716) +FLAGS (\\Seen)']
THIRD = ['C8 UID FETCH 42 (UID FLAGS MODSEQ)', 'P1R3 UID STORE 42 (UNCHANGEDSINCE 717) +FLAGS (\\Seen)']
# What others make of the message in front of each.
OTHERS = ('\\Answered', '\\Flagged', '\\Draft')


def forestalled(count: int, s: Played = None) -> Played:
    """Others change the message before so many STOREs."""
    s = s or flagged()
    for call, flag in list(zip(STORES, OTHERS))[:count]:
        s.other(call, 'set', 'INBOX', 42, flag)
    return s


def behind(*sent: str, count: int = 2) -> list:
    """What is sent at last: each mailbox is resynchronised, and the run leaves."""
    return [*sent, 'C%d SELECT INBOX (QRESYNC (5 715))' % (6 + count), 'C%d SELECT Archive (QRESYNC (9 300))' % (7 + count),
        'C%d LOGOUT' % (8 + count)]


def one_two_three(c: Cases) -> None:
    s = forestalled(1)
    s.plays('played 1 conflicts 0').sent_so(*FRONT, *behind(*SECOND))
    s.says('list INBOX', '40 700 \\seen', '42 717 \\answered \\seen')
    add(c, 'another client changes the message between FETCH and STORE: it is tried again', s.ends(), done())
    s = forestalled(2)
    s.plays('played 1 conflicts 0').sent_so(*FRONT, *SECOND, *behind(*THIRD, count=3))
    add(c, 'and once more', s.ends(), done())
    s = forestalled(3)
    s.plays('played 1 conflicts 1').sent_so(*FRONT, *SECOND, *behind(*THIRD, count=3))
    s.says('report', '1 nothing flags-changed 717')
    add(c, 'others change the message before each of the three STOREs', s.ends(), conflict(3, 717))


def as_a_first_try(c: Cases) -> None:
    s = forestalled(1)
    s.other(17, 'drop', 'INBOX', 42)
    s.plays('played 1 conflicts 1')
    s.sent()
    add(c, 'the message goes before the second FETCH: it is gone, as at a first try', s.ends(), conflict(1))
    s = forestalled(1)
    s.other(19, 'drop', 'INBOX', 42)
    s.plays('played 1 conflicts 1')
    s.sent()
    add(c, 'the message goes before the second STORE', s.ends(), conflict(1))
    s = flagged()
    s.other(15, 'set', 'INBOX', 42, '\\Seen')
    s.plays('played 1 conflicts 1')
    s.sent()
    add(c, 'another client sets the flag that was asked for: it is so already', s.ends(), conflict(2))
    s = flagged()
    s.other(15, 'set', 'INBOX', 42, '\\Answered')
    s.other(16, 'reset', 'INBOX', 6, 3, 800, 1, 2)
    s.plays('played 1 conflicts 0')
    s.sent()
    add(c, 'a mailbox isn\'t recreated between two tries', s.ends(), done())


def several(c: Cases) -> None:
    s = forestalled(1, new().asks('flag INBOX 42 + \\Seen', 'flag INBOX 42 - \\Seen', 'flag INBOX 40 + work'))
    s.other(23, 'set', 'INBOX', 42, '\\Draft', '\\Seen')
    s.plays('played 3 conflicts 0')
    s.sent()
    add(c, 'each action has its own tries', s.ends(), done(), done(), done())
    s = forestalled(3, new().asks('flag INBOX 42 + \\Seen', 'flag INBOX 42 + work'))
    s.plays('played 2 conflicts 1')
    s.sent()
    add(c, 'the next action begins with its first try', s.ends(), conflict(3, 717), done())


def lost(count: int, call: int, loss: str) -> Played:
    s = forestalled(count)
    s.link(call, loss)
    s.plays('error link')
    s.run('queue')
    return s


def open_tries(c: Cases) -> None:
    for count in (1, 2):
        call = STORES[count]
        s = lost(count, call, 'nothing')
        s.plays('played 1 conflicts 0')
        s.sent()
        add(c, 'try %d is lost before the server: it is sent again under its own tag' % (count + 1), s.ends(), done())
        s = lost(count, call, 'all')
        s.plays('played 1 conflicts 1')
        s.sent()
        add(c, 'the reply to try %d is lost' % (count + 1), s.ends(), conflict(8))
        s = lost(count, call, 'waits done')
        s.plays('played 1 conflicts 1')
        s.sent()
        add(c, 'try %d waits as the connection is lost' % (count + 1), s.ends(), conflict(8))
        s = lost(count, call, 'nothing')
        s.other(15, 'set', 'INBOX', 42, 'work')
        s.run('play')
        s.sent()
        add(c, 'try %d is lost, and as it is sent again another client forestalls it' % (count + 1), s.ends())
        s = lost(count, call, 'nothing')
        s.change('drop', 'INBOX', 42)
        s.plays('played 1 conflicts 1')
        s.sent()
        add(c, 'try %d is lost, and the message goes' % (count + 1), s.ends(), conflict(11))
        s = lost(count, call, 'nothing')
        s.change('reset', 'INBOX', 6, 3, 800, 1, 2)
        s.plays('played 1 conflicts 1')
        s.sent()
        add(c, 'try %d is lost, and its mailbox is recreated' % (count + 1), s.ends(), conflict(14, 5, 6))
        s = lost(count, call - 1, 'all')
        s.change('drop', 'INBOX', 42)
        s.plays('played 1 conflicts 1')
        s.sent()
        add(c, 'the connection is lost behind what takes try %d back: nothing is pending' % count, s.ends(), conflict(1))
        s = lost(count, call - 1, 'all')
        s.change('reset', 'INBOX', 6, 3, 800, 1, 2)
        s.plays('played 1 conflicts 1')
        s.sent()
        add(c, 'and its mailbox is recreated', s.ends(), conflict(13, 5, 6))


def read_back(c: Cases) -> None:
    asked = accept(1, ('flag', real('INBOX', 5, 42), '+', ['\\Seen']))
    first, second = intend(1, ('store', 'INBOX', 5, 42, 715)), intend(1, ('store', 'INBOX', 5, 42, 716))
    for title, bodies in [('a try of none', [withdraw(1, 0)]), ('a third try taken back', [withdraw(1, 3)]),
                          ('a second try without a first', [first, withdraw(1, 2)]), ('a first one twice', [first, withdraw(1, 1), second, withdraw(1, 1)]),
                          ('one of another action', [first, withdraw(2, 1)])]:
        s = new(left=journal(*STATE, asked, *bodies))
        s.run('report')
        s.run('play')
        c.add('a record takes back %s' % title, s)
    # A book that is told anew has the number of tries alone.
    for tries in (1, 2):
        s = new(left=journal(*STATE, asked, withdraw(1, tries)))
        s.asks('queue')
        s.plays('played 1 conflicts 0')
        s.sent()
        add(c, 'a journal told anew has %d tries taken back' % tries, s.ends(), done())


TRIES = """\
# A change of flags is tried up to three times, since another client's change forestalled it. A line that begins with a space is what the
# line before it is to print.

"""
MAKERS = [one_two_three, as_a_first_try, several, open_tries, read_back]


def main(folder: str) -> None:
    cases = Cases(TRIES)
    for make in MAKERS:
        make(cases)
    cases.write(folder, 'tries', 'gen_tries')
    Lost(LOST % 'A change of flags that others forestall twice is', lambda: forestalled(2)).all().write(folder, 'lost_tries', 'gen_tries')


if __name__ == '__main__':
    main(sys.argv[1])
