"""Makes the scenarios of the words of a command as a file of cases (words), by the plain models of tools/model: what is accepted,
the reasons, the view and the queue, with each call failing and each stop.

usage: tools/scenarios/gen_words.py FOLDER    (crates/mail_scenario, or a folder with a folder data in it)
"""
import sys
from typing import Optional

from common import (APPENDED, BEGUN, BOTH_LEARNED, FLAGGED, INBOX_LEARNED, MOVED, OFFERS, SEEN, STATE, T, WORKED, Cases, Told, accept,
                    add, begin, intend, journal, learn, over, real, settle, without_head, worked_server)
from model.words import crlf_of


# As many flags as words may have, and one more.
MANY = ['f%d' % k for k in range(33)]
# Two actions, the first one's intent, and what is known of its message then.
TWO_ACCEPTED, SHIFT = [accept(1, MOVED), accept(2, FLAGGED)], intend(1, ('shift', 'INBOX', 5, 42, 'Archive'))
ROWS = learn('Archive', 0, 9, 301, 8, [], [(7, 301, [])])


def book(*bodies: bytes) -> Told:
    return over(journal(*STATE, *bodies))


# What is accepted and shown.

def worked(c: Cases) -> None:
    s = without_head()
    s.server(OFFERS, WORKED)
    s.stand()
    s.says('init INBOX Archive', 'ready')
    s.says('queue')
    s.says('list INBOX')
    s.says('play', 'played 0 conflicts 0')
    s.says('queue')
    s.says('list INBOX', '40 700 \\seen', '42 715')
    s.says('list Archive')
    assert s.world.files[0].seen == BOTH_LEARNED
    add(c, 'a new journal has no queue', s)

    s = worked_server()
    s.says('flag INBOX 42 + \\Seen', 'accepted 1')
    s.says('list INBOX', '40 700 \\seen', '42 715 \\seen')
    s.says('queue', '1 waiting flag INBOX 42 + \\seen')
    s.files()
    assert s.world.files[0].seen == SEEN
    add(c, 'a flag that is asked for is shown', s)

    s = worked_server()
    s.refuses('no-message', 'flag INBOX 43 + \\Seen')
    s.says('flag INBOX 0 + \\Seen', 'error words')
    s.files()
    add(c, 'a UID that isn\'t there, and one that is none', s)

    s = worked_server()
    s.says('move INBOX 42 Archive', 'accepted 1')
    s.says('flag Archive d1 + \\Flagged', 'accepted 2')
    s.says('list INBOX', '40 700 \\seen')
    s.says('list Archive', 'd1 - \\flagged')
    s.says('queue', '1 waiting move INBOX 42 Archive', '2 waiting flag Archive d1 + \\flagged')
    s.files()
    assert s.world.files[0].seen == journal(*STATE, accept(1, MOVED), accept(2, FLAGGED))
    s.says('play', 'played 2 conflicts 0')
    s.sent()
    s.history()
    s.looks()
    add(c, 'a message is moved, and changed where it comes', s)


def put_in(c: Cases) -> None:
    s = worked_server()
    s.input(T)
    s.says('append Archive \\Seen', 'accepted 1')
    s.says('list Archive', 'd1 - \\seen')
    s.says('list INBOX', '40 700 \\seen', '42 715')
    s.says('queue', '1 waiting append Archive <a1@x>')
    s.files()
    assert s.world.files[0].seen == journal(*STATE, accept(1, APPENDED))
    s.says('play', 'played 1 conflicts 0')
    s.sent()
    s.looks()
    add(c, 'a message is put in', s)

    s = worked_server()
    s.input(b'Subject: hi\n\nhello\n')
    s.refuses('no-message-id', 'append Archive')
    s.input(b'Message-ID: <a@x>\nMessage-ID: <b@x>\n\nhello\n')
    s.refuses('no-message-id', 'append Archive')
    s.input(b'Message-ID: <a@x>\n\nhel\0lo\n')
    s.refuses('bad-text', 'append Archive')
    s.moments()
    s.files()
    s.input(b'Message-ID: <b@x>\n\nhi\n')
    s.says('append Archive', 'accepted 1')
    s.says('queue', '1 waiting append Archive <b@x>')
    s.files()
    assert s.world.files[0].seen == journal(*STATE, accept(1,
        ('append', 'Archive', [], b'Message-ID: <b@x>\r\n\r\nhi\r\n'))) and len(crlf_of(b'Message-ID: <b@x>\n\nhi\n')) == 25
    add(c, 'a message without a Message-ID, with two, with a NUL, and with bare line ends', s)


def without_effect(c: Cases) -> None:
    s = worked_server()
    s.says('flag INBOX 40 + \\Seen', 'accepted 1')
    s.says('list INBOX', '40 700 \\seen', '42 715')
    s.says('queue', '1 waiting flag INBOX 40 + \\seen')
    s.refuses('bad-flag', 'flag INBOX 42 + \\Foo')
    s.refuses('same-mailbox', 'move INBOX 42 INBOX')
    s.refuses('no-mailbox', 'list Sent')
    s.says('play', 'played 1 conflicts 1')
    s.sent()
    s.looks()
    add(c, 'a flag that is there already waits too', s)

    s = without_head()
    s.server(())
    s.stand()
    for w in ['queue', 'report', 'list INBOX', 'flag INBOX 42 + \\Foo', 'move Sent 42 Sent', 'append Sent \\Foo', 'play']:
        s.source(1)
        s.says(w, 'error journal none')
    s.moments()
    s.says('append', 'error words')
    add(c, 'without a journal there are no reasons', s)

    s = over(BEGUN)
    s.refuses('no-message', 'move INBOX 42 Archive', 'flag INBOX d1 + \\Seen')
    s.input(T)
    s.says('append Archive work', 'accepted 1')
    s.says('list Archive', 'd1 - work')
    s.says('move Archive d1 INBOX', 'accepted 2')
    s.looks()
    add(c, 'mailboxes that were never synchronised have what is put in', s)


def names_like_words(c: Cases) -> None:
    s = over(b'')
    s.says('init d1 42 + Sent,Mail inbox', 'ready')
    s.input(T)
    s.says('append d1 +', 'accepted 1')
    s.says('move d1 d1 42', 'accepted 2')
    s.says('flag 42 d2 - +', 'accepted 3')
    s.input(T)
    s.says('append + + - \\seen', 'accepted 4')
    s.says('queue', '1 waiting append d1 <a1@x>', '2 waiting move d1 d1 42', '3 waiting flag 42 d2 - +', '4 waiting append + <a1@x>')
    s.says('list 42', 'd2 -')
    s.says('list +', 'd4 - + - \\seen')
    s.says('list d1')
    s.says('move + d4 iNbOx', 'accepted 5')
    s.says('list INBOX', 'd5 - + - \\seen')
    add(c, 'mailboxes may be called like other words', s)

    s = over(b'')
    s.run('init', 'Sent Mail', 'a')
    s.put(T, 'Sent Mail', 'b')
    s.run('flag', 'Sent Mail', 'd1', '+', 'c')
    s.run('move', 'Sent Mail', 'd1', 'a')
    s.run('move', 'a', 'd3', 'Sent Mail')
    s.run('queue')
    s.lists('Sent Mail', 'a')
    add(c, 'a name with a space', s)


# The words.

def grammar(c: Cases) -> None:
    s = worked_server()
    for w in ['queue x', 'queue INBOX', 'Queue', 'QUEUE', 'queues', 'reports', 'report x', 'Report', 'move', 'move INBOX', 'move INBOX 42',
        'move INBOX 42 Archive INBOX', 'move 42 Archive', 'Move INBOX 42 Archive',
        'append', 'Append INBOX', 'appends INBOX', 'append IN*BOX', 'append a&b', 'append a\\b', 'append a%b \\Seen', 'append a"b',
        'move IN*BOX 42 Archive', 'move INBOX 42 Arch*ive', 'move INBOX 42 a%b', 'move INBOX Archive 42',
        'append ' + 'x' * 129, 'move INBOX 42 ' + 'x' * 129, 'flag INBOX 42 \\Seen', 'flag INBOX 42 +', 'flag INBOX d1 -', 'flag INBOX d1',
        'flag INBOX d1 * \\Seen', 'flag INBOX d1 ++ \\Seen', 'list', 'list INBOX d1', 'list a*b', 'play d1',
        'append INBOX ' + ' '.join(MANY), 'flag INBOX 42 + ' + ' '.join(MANY), 'flag INBOX d1 - ' + ' '.join(MANY)]:
        s.source(1)
        s.says(w, 'error words')
    for ws in [(), ('',), ('append', ''), ('append', '\u00e4'), ('append', 'a\r\nb'), ('append', 'a\x7f'), ('move', '', '42', 'Archive'),
        ('move', 'INBOX', '42', ''), ('move', 'INBOX', '', 'Archive'), ('move', 'INBOX', '42', '\u00e4'),
        ('queue', ''), (' queue',), ('queue ',), ('queue\n',), ('append INBOX',), ('list', 'INBOX', '')]:
        s.source(1)
        s.gives(2, *ws)
    s.moments()
    s.files()
    add(c, 'words that are none of a command: nothing is read', s)

    s = worked_server()
    for ident in ['', '0', '00', '042', '4294967296', '04294967295', '42949672950', '18446744073709551658', '-1', '+42', '42.', '42 ',
        ' 42', '4 2', '4a', '0x2a', '4_2', '\u0664\u0662', '\u00b2', 'd', 'D1', 'd0', 'd00', 'd01', 'd1 ', 'd 1', ' d1',
        'd-1', 'd+1', 'dd1', '1d', 'd1d', 'd1,d2', '40:42', '*', '40,42', 'd4294967296', 'd18446744073709551617', 'd\u0661']:
        s.gives(2, 'flag', 'INBOX', ident, '+', '\\Seen')
        s.gives(2, 'move', 'INBOX', ident, 'Archive')
    s.moments()
    add(c, 'what is no number of a message', s)

    s = worked_server()
    s.refuses('no-message', *['%s INBOX %s %s' % (verb, ident, rest) for verb,
        rest in [('flag', '+ \\Seen'), ('move', 'Archive')] for ident in ['1', '43', '4294967295', 'd1', 'd42', 'd4294967295']])
    s.moments()
    s.says('queue')
    add(c, 'numbers that nothing has', s)


def names_and_flags(c: Cases) -> None:
    s = worked_server()
    s.refuses('no-mailbox', 'list 42', 'list d1', 'append archive', 'append ' + 'x' * 128, 'move INBOX 42 archive',
        'move InboX 42 ' + 'x' * 128, 'flag Inboxx 42 + \\Seen')
    s.says('flag inbox 42 + \\Seen', 'accepted 1')
    s.says('move iNBOX 42 Archive', 'accepted 2')
    s.says('queue', '1 waiting flag INBOX 42 + \\seen', '2 waiting move INBOX 42 Archive')
    s.input(T)
    s.says('append Inbox', 'accepted 3')
    s.says('move Archive d2 inboX', 'accepted 4')
    s.says('list inbox', '40 700 \\seen', 'd3 -', 'd4 - \\seen')
    s.says('queue', '1 waiting flag INBOX 42 + \\seen', '2 waiting move INBOX 42 Archive', '3 waiting append INBOX <a1@x>',
        '4 waiting move Archive d2 INBOX')
    add(c, 'INBOX in any case is one mailbox, and other names have case', s)

    s = worked_server()
    s.input(T)
    s.says('append INBOX', 'accepted 1')
    s.input(T)
    s.says('append INBOX ' + ' '.join(MANY[:32]), 'accepted 2')
    s.input(T)
    s.says('append INBOX ' + ' '.join(['\\SEEN', '\\seen'] * 16), 'accepted 3')
    s.says('flag INBOX d1 + ' + ' '.join(MANY[:32]), 'accepted 4')
    s.says('flag INBOX d2 - ' + ' '.join(['f0', 'F31'] * 16), 'accepted 5')
    s.says('flag INBOX 42 + seen \\SEEN $Label \\seen [x -', 'accepted 6')
    s.looks()
    s.files()
    add(c, 'as many flags as may be asked for, and none', s)


def flags_not_asked_for(c: Cases) -> None:
    s = worked_server()
    for flag in ['\\Recent', '\\Foo', '\\', '\\*', '*', '(', ')', 'a(b', 'a{', '%', 'a"b', 'a]', '\\\\Seen', 'Seen\\', '\\Seen\\',
        'x' * 256, '\\Seen,\\Draft']:
        for w in ['flag INBOX 42 + ', 'flag INBOX 42 - ', 'append Archive ']:
            s.source(1)
            s.refuses('bad-flag', w + flag)
    for flag in ['', ' ', 'a b', '\\Seen ', '\u00e4', '\x01', 'a\x7f', '\r\n']:
        for ws in [('flag', 'INBOX', '42', '+', flag), ('append', 'Archive', flag)]:
            s.source(1)
            s.gives(10, *ws)
    s.source(1)
    s.refuses('bad-flag', 'append Archive \\Seen work \\Foo', 'flag INBOX 42 + \\Seen work \\Foo',
        'append Archive ' + ' '.join(MANY[:31] + ['\\Recent']))
    s.moments()
    s.says('flag INBOX 42 + ' + 'x' * 255, 'accepted 1')
    s.input(T)
    s.says('append INBOX \\ANSWERED \\flagged \\Deleted \\Seen \\Draft a[b $x !', 'accepted 2')
    s.lists('INBOX')
    add(c, 'flags that a user can\'t ask for', s)


# The reasons.

def reasons(c: Cases) -> None:
    for reason, commands in [
        ('no-mailbox', ['flag Sent 42 + \\Seen', 'move Sent 42 INBOX', 'move INBOX 42 Sent', 'append Sent', 'append Sent \\Seen',
        'list Sent']),
        ('no-message', ['flag INBOX 43 + \\Seen', 'flag Archive 42 + \\Seen', 'flag INBOX d1 + \\Seen', 'move INBOX 41 Archive',
        'move Archive 42 INBOX', 'move Archive d1 INBOX']),
        ('bad-flag', ['flag INBOX 42 + \\Foo', 'append Archive \\Foo']),
        ('same-mailbox', ['move INBOX 42 INBOX', 'move INBOX 42 inbox', 'move inbox 40 INBOX'])]:
        s = worked_server()
        for w in commands:
            s.source(1)
            s.input(T)
            s.refuses(reason, w)
        s.looks()
        s.moments()
        s.files()
        add(c, reason + ' alone: the input isn\'t read', s)
    s = worked_server()
    s.input(b'a\0b\n' + T)
    s.refuses('bad-text', 'append Archive')
    s.input(b'Subject: x\n\n')
    s.refuses('no-message-id', 'append Archive')
    s.refuses('no-message-id', 'append Archive')
    s.looks()
    s.moments()
    s.files()
    add(c, 'bad-text and no-message-id alone: the input was read, and nothing is written', s)


def several_reasons(c: Cases) -> None:
    # Each with the one behind it, and with later ones.
    s = worked_server()
    s.refuses('no-mailbox', 'flag Sent 43 + \\Seen', 'move Sent 43 INBOX', 'move INBOX 43 Sent', 'move Sent d1 INBOX')
    s.refuses('no-mailbox', 'flag Sent 42 + \\Foo', 'append Sent \\Foo', 'move Sent 42 Sent', 'flag Sent 43 + \\Foo')
    s.refuses('no-message', 'flag INBOX 43 + \\Foo', 'flag INBOX d1 + \\Foo', 'move INBOX 43 INBOX', 'move inbox d1 INBOX',
        'move Archive 42 Archive')
    for text in [b'', b'\0', b'\0\n' + T]:
        s.input(text)
        s.refuses('no-mailbox', 'append Sent \\Foo')
        s.input(text)
        s.refuses('bad-flag', 'append Archive \\Foo')
    s.source(1)
    s.input(b'\0')
    s.refuses('bad-flag', 'append Archive \\Foo')
    s.source(1)
    s.refuses('no-mailbox', 'append Sent')
    for n in [1, 2]:
        s.source(n)
        s.input(b'\0')
        s.says('append Archive', 'error input')
    for n in [1, 2]:
        s.source(n)
        s.input(b'no identifier')
        s.says('append Archive', 'error input')
    s.source(1)
    s.says('append Archive', 'error input')
    s.source(2)
    s.refuses('no-message-id', 'append Archive')
    s.input(b'a\0')
    s.refuses('bad-text', 'append Archive')
    s.input(T + b'\0')
    s.refuses('bad-text', 'append Archive')
    s.input(b'\0' + T)
    s.refuses('bad-text', 'append Archive')
    s.looks()
    s.moments()
    s.files()
    add(c, 'of several reasons the first is told', s)


def order_of_calls(c: Cases) -> None:
    s = worked_server()
    s.disk(1)
    s.source(1)
    s.says('append Sent \\Foo', 'error disk')
    s.disk(9)
    s.source(1)
    s.says('append Archive', 'error disk')
    s.disk(10)
    s.source(1)
    s.says('append Archive', 'error input')
    s.disk(10)
    s.input(b'\0')
    s.refuses('bad-text', 'append Archive')
    s.disk(10)
    s.refuses('same-mailbox', 'move INBOX 42 INBOX')
    s.disk(9)
    s.says('move INBOX 42 INBOX', 'error disk')
    s.disk(1)
    s.says('move INBOX 0 INBOX', 'error words')
    s.disk(10)
    s.says('queue')
    s.disk(10)
    s.refuses('no-mailbox', 'list Sent')
    s.looks()
    s.files()
    add(c, 'the words before the disk, the disk as it is read before the reasons, and these before it is written', s)

    s = over(journal(*STATE)[:-1] + b'\x01')
    for w in ['queue', 'report', 'list Sent', 'move Sent 42 Sent', 'append Sent \\Foo', 'flag Sent 1 + \\Foo']:
        s.source(1)
        s.says(w, 'error journal record 144')
    add(c, 'a journal that isn\'t whole before the reasons', s)


# Messages, each with its Message-ID or None.

TEXTS = [
    (b'Message-ID: <a@x>', '<a@x>'), (b'Message-ID:<a@x>\n', '<a@x>'), (b'MESSAGE-id: \t <a@x> \t\r\n', '<a@x>'),
    (b'message-id:\n <a@x>\n', '<a@x>'), (b'Message-ID: \r\n\t<a@x>\r\n \r\nTo: b\r\n', '<a@x>'),
    (b'Subject: Message-ID: <b@x>\n Message-ID: <c@x>\nMessage-ID: <a@x>\n\nMessage-ID: <d@x>\n', '<a@x>'),
    (b'\r\r\n\nMessage-ID: <a@x>\n', None), (b'Message-ID: <a@x>\r\r\n', None), (b'Message-ID: <a@x>\r', None),
    (b'no field\nMessage-ID: <a@x>\n', '<a@x>'), (b' folded\nMessage-ID: <a@x>\n', '<a@x>'), (b': x\nMessage-ID: <a@x>\n', '<a@x>'),
    (b'Message-ID: <!#$%&\'*+-/=?^_`{|}~;:,.[]()"\\@>\n', '<!#$%&\'*+-/=?^_`{|}~;:,.[]()"\\@>'),
    (b'Message-ID: <' + b'a' * 510 + b'>\n', '<' + 'a' * 510 + '>'), (b'Message-ID: ' + b' ' * 600 + b'<a@x>\n', '<a@x>'),
    (b'Message-ID: <a@x>\n\n\xff\xfe\x80\r\n.\r\n\n\r', '<a@x>'), (b'Message-ID: <a\n @x>\n', None), (b'Message-ID: <a@x\n>\n', None),
    (b'', None), (b'\n', None), (b'\nMessage-ID: <a@x>\n', None), (b'Subject: x\n\nMessage-ID: <a@x>\n', None),
    (b'Subject: x\n \nMessage-ID: <a@x>\n', '<a@x>'), (b'Message-ID : <a@x>\n', None), (b' Message-ID: <a@x>\n', None),
    (b'Message-IDs: <a@x>\n', None),
    (b'X-Message-ID: <a@x>\n', None), (b'Message-ID <a@x>\n', None), (b'Message-ID: <a@x>\nMESSAGE-ID: <a@x>\n', None),
    (b'Message-ID: <a@x>\nMessage-ID:\n', None), (b'Message-ID:\n', None), (b'Message-ID: <>\n', None),
    (b'Message-ID: a@x\n', None), (b'Message-ID: <a@x\n', None), (b'Message-ID: a@x>\n', None), (b'Message-ID: <a@x>b\n', None),
    (b'Message-ID: <a@x> (b)\n', None), (b'Message-ID: <a@x> <b@x>\n', None), (b'Message-ID: <a b>\n', None),
    (b'Message-ID: <<a@x>>\n', None), (b'Message-ID: <a>@x>\n', None), (b'Message-ID: <a\x7f@x>\n', None),
    (b'Message-ID: <\xc3\xa4@x>\n', None), (b'Message-ID: <a\t@x>\n', None), (b'Message-ID: <' + b'a' * 511 + b'>\n', None)]


def messages(c: Cases) -> None:
    s = worked_server()
    n, waiting = 0, []
    for text, identifier in TEXTS:
        s.input(text)
        if identifier:
            n += 1
            s.says('append Archive', 'accepted %d' % n)
            waiting.append('%d waiting append Archive %s' % (n, identifier))
        else:
            s.refuses('no-message-id', 'append Archive')
    s.says('queue', *waiting)
    s.files()
    add(c, 'one Message-ID of the header, unfolded and trimmed, in its form', s)

    ends = [(b'a\nb', b'a\r\nb'), (b'a\r\nb', b'a\r\nb'), (b'\n\n', b'\r\n\r\n'), (b'\r\n\n\r\n', b'\r\n\r\n\r\n'), (b'\n\r', b'\r\n\r'),
        (b'\r\r\n', b'\r\r\n'), (b'\r \n', b'\r \r\n'), (b'a', b'a'), (b'\r', b'\r'), (b'\n\r\n\r', b'\r\n\r\n\r')]
    s = worked_server()
    accepted = []
    for n, (text, lines) in enumerate(ends, 1):
        front = b'Message-ID: <a@x>'
        assert crlf_of(text) == lines
        s.input(front + b'\n\n' + text)
        s.says('append INBOX', 'accepted %d' % n)
        accepted.append(accept(n, ('append', 'INBOX', [], front + b'\r\n\r\n' + lines)))
    s.files()
    assert s.world.files[0].seen == journal(*STATE, *accepted)
    add(c, 'each line end that lacks its CR gets one, and all else stays', s)

    s = worked_server()
    text = b'Message-ID: <long@x>\n\n' + b'a line of thirty-one characters\n' * 2048
    s.input(text)
    s.says('append INBOX \\Draft', 'accepted 1')
    assert len(crlf_of(text)) > 65536
    s.says('queue', '1 waiting append INBOX <long@x>')
    s.says('list INBOX', '40 700 \\seen', '42 715', 'd1 - \\draft')
    s.says('flag INBOX d1 - \\Draft', 'accepted 2')
    s.looks()
    add(c, 'a text of more than 64 KiB', s)


def inputs(c: Cases) -> None:
    s = worked_server()
    s.input(T)
    s.says('flag INBOX 42 + \\Seen', 'accepted 1')
    s.refuses('no-message-id', 'append Archive')
    s.input(b'x')
    s.input(T)
    s.says('append Archive', 'accepted 2')
    s.input(T)
    s.says('queue', '1 waiting flag INBOX 42 + \\seen', '2 waiting append Archive <a1@x>')
    s.refuses('no-message-id', 'append Archive')
    add(c, 'an input is that of one run', s)

    for ws in ['init INBOX', 'flag INBOX 42 + \\Seen', 'move INBOX 42 Archive', 'list INBOX', 'queue', 'report', 'play']:
        s = worked_server()
        s.source(1)
        s.source(2)
        s.input(T)
        s.run(*ws.split())
        s.files()
        add(c, 'the input isn\'t read: ' + ws, s)


def failing_inputs(c: Cases) -> None:
    s = worked_server()
    for n in [1, 2]:
        s.source(n)
        s.input(T)
        s.says('append Archive \\Seen', 'error input')
        s.says('queue')
        s.moments()
    s.source(1)
    s.says('append Archive \\Seen', 'error input')
    s.files()
    s.source(3)
    s.input(T)
    s.says('append Archive \\Seen', 'accepted 1')
    s.source(3)
    s.input(T)
    s.says('append Archive', 'accepted 2')
    s.looks()
    add(c, 'each reading of the input fails in turn: nothing is accepted', s)

    s = worked_server()
    text = b'Message-ID: <a@x>\n\n' + b'x' * 4077
    for n in [1, 2]:
        s.source(n)
        s.input(text)
        s.says('append Archive', 'error input')
    s.source(3)
    s.input(text)
    s.says('append Archive', 'accepted 1')
    assert len(text) == 4096
    for n, text in [(1, b'\n'), (2, b'x')]:
        s.source(n)
        s.input(text)
        s.says('append Archive', 'error input')
    s.source(1)
    s.says('append Archive', 'error input')
    s.source(2)
    s.refuses('no-message-id', 'append Archive')
    s.says('queue', '1 waiting append Archive <a@x>')
    add(c, 'an input of 4,096 bytes is read by one reading, and an empty one by none but that of its end', s)


# The view.

def views(c: Cases) -> None:
    s = worked_server()
    s.says('flag INBOX 40 - \\Seen', 'accepted 1')
    s.says('flag INBOX 40 + \\Flagged work', 'accepted 2')
    s.says('list INBOX', '40 700 \\flagged work', '42 715')
    s.says('move INBOX 40 Archive', 'accepted 3')
    s.says('list INBOX', '42 715')
    s.says('list Archive', 'd3 - \\flagged work')
    s.refuses('no-message', 'flag INBOX 40 + \\Seen', 'move INBOX 40 Archive', 'flag INBOX d3 + \\Seen', 'flag Archive 40 + \\Seen',
        'flag Archive d1 + \\Seen', 'flag Archive d2 + \\Seen', 'move Archive d2 INBOX')
    s.says('flag Archive d3 - WORK', 'accepted 4')
    s.says('move Archive d3 INBOX', 'accepted 5')
    s.says('list INBOX', '42 715', 'd5 - \\flagged')
    s.says('list Archive')
    s.refuses('no-message', 'flag Archive d3 + \\Seen', 'flag INBOX d3 + \\Seen', 'move Archive d3 INBOX', 'flag Archive d5 + \\Seen')
    s.says('flag INBOX d5 + \\Draft', 'accepted 6')
    s.refuses('same-mailbox', 'move INBOX d5 inbox')
    s.says('move INBOX d5 Archive', 'accepted 7')
    s.says('list INBOX', '42 715')
    s.says('list Archive', 'd7 - \\draft \\flagged')
    s.says('queue', '1 waiting flag INBOX 40 - \\seen', '2 waiting flag INBOX 40 + \\flagged work', '3 waiting move INBOX 40 Archive',
        '4 waiting flag Archive d3 - work', '5 waiting move Archive d3 INBOX',
        '6 waiting flag INBOX d5 + \\draft', '7 waiting move INBOX d5 Archive')
    s.files()
    add(c, 'a message is changed, moved, changed as what it became, and moved back and away again', s)

    s = worked_server()
    s.says('flag INBOX 42 + \\Seen', 'accepted 1')
    s.says('flag INBOX 42 - \\Seen', 'accepted 2')
    s.says('list INBOX', '40 700 \\seen', '42 715')
    s.says('flag INBOX 42 + \\Seen \\Draft', 'accepted 3')
    s.says('flag INBOX 42 - \\Draft \\Answered', 'accepted 4')
    s.says('list INBOX', '40 700 \\seen', '42 715 \\seen')
    add(c, 'flags come and go in the order of the actions', s)


def dummies(c: Cases) -> None:
    s = worked_server()
    s.says('move INBOX 42 Archive', 'accepted 1')
    s.says('move INBOX 40 Archive', 'accepted 2')
    s.says('list INBOX')
    s.says('list Archive', 'd1 -', 'd2 - \\seen')
    s.refuses('no-message', 'move INBOX 42 Archive', 'move INBOX 40 INBOX')
    for n in range(3, 13):
        s.input(T)
        s.says('append Archive n%d' % n, 'accepted %d' % n)
    s.says('move Archive d3 INBOX', 'accepted 13')
    s.says('list Archive', 'd1 -', 'd2 - \\seen', *['d%d - n%d' % (n, n) for n in range(4, 13)])
    s.says('list INBOX', 'd13 - n3')
    s.refuses('no-message', 'flag Archive d3 + x', 'flag Archive d13 + x', 'flag INBOX d12 + x', 'flag Archive d14 + x')
    s.run('queue')
    add(c, 'dummies are listed by number', s)

    s = over(journal(begin('INBOX', 'Archive'), INBOX_LEARNED, learn('Archive', 1, 9, 300, 7, [], [(2, 300, ['a']), (6, 298, ['b'])])))
    s.input(T)
    s.says('append Archive', 'accepted 1')
    s.says('move INBOX 42 Archive', 'accepted 2')
    s.says('flag Archive 6 - b', 'accepted 3')
    s.says('list Archive', '2 300 a', '6 298', 'd1 -', 'd2 -')
    s.says('move Archive 2 INBOX', 'accepted 4')
    s.says('list Archive', '6 298', 'd1 -', 'd2 -')
    s.says('list INBOX', '40 700 \\seen', 'd4 - a')
    add(c, 'real rows stand first, by UID', s)


def begun_and_done(c: Cases) -> None:
    s = book(*TWO_ACCEPTED, SHIFT)
    s.says('queue', '1 begun move INBOX 42 Archive', '2 waiting flag Archive d1 + \\flagged')
    s.lists('INBOX', 'Archive')
    s.says('play', 'error lacking QRESYNC')
    s.says('flag Archive d1 - \\Flagged', 'accepted 3')
    s.looks()
    add(c, 'a command is about to be sent: its action waits as it did', s)
    s = book(*TWO_ACCEPTED, SHIFT, settle(1, ('done', 9, 7)))
    s.says('queue', '2 waiting flag Archive d1 + \\flagged')
    s.says('list INBOX', '40 700 \\seen', '42 715')
    s.says('list Archive')
    s.refuses('no-message', 'flag Archive d1 + x', 'flag Archive 7 + x', 'move Archive d1 INBOX')
    s.says('play', 'error lacking QRESYNC')
    s.says('flag INBOX 42 + \\Seen', 'accepted 3')
    s.looks()
    add(c, 'a settled action has no part: what was cached is shown as it is', s)
    s = book(*TWO_ACCEPTED, SHIFT, settle(1, ('done', 9, 7)), ROWS, learn('INBOX', 0, 5, 716, 44, [42], []))
    s.says('queue', '2 waiting flag Archive d1 + \\flagged')
    s.says('list INBOX', '40 700 \\seen')
    s.says('list Archive', '7 301 \\flagged')
    s.refuses('no-message', 'flag Archive d1 + x')
    s.says('flag Archive 7 - \\Flagged', 'accepted 3')
    s.says('list Archive', '7 301')
    s.says('move Archive 7 INBOX', 'accepted 4')
    s.looks()
    add(c, 'the dummy of a done action is the message at its place', s)


def conflicts_and_places(c: Cases) -> None:
    s = book(*TWO_ACCEPTED, SHIFT, settle(1, ('done', 8, 7)), ROWS)
    s.says('queue', '2 waiting flag Archive d1 + \\flagged')
    s.says('list Archive', '7 301')
    add(c, 'a place under another UIDVALIDITY is no row', s)
    s = book(*TWO_ACCEPTED, settle(1, ('conflict', 1, [])))
    s.says('queue', '2 waiting flag Archive d1 + \\flagged')
    s.says('list INBOX', '40 700 \\seen', '42 715')
    s.says('list Archive')
    s.refuses('no-message', 'flag Archive d1 + x')
    add(c, 'the dummy of a conflict is no row', s)
    s = book(*TWO_ACCEPTED, accept(3, ('move', ('dummy', 1), 'INBOX')), settle(1, ('conflict', 1, [])))
    s.says('queue', '2 waiting flag Archive d1 + \\flagged', '3 waiting move Archive d1 INBOX')
    s.says('list INBOX', '40 700 \\seen', '42 715')
    s.refuses('no-message', 'flag INBOX d3 + x')
    s.says('list Archive')
    add(c, 'what it was moved to is none', s)
    s = book(accept(1, APPENDED), accept(2, ('move', ('dummy', 1), 'INBOX')), intend(1, ('put', 'Archive', 9, 7)))
    s.says('queue', '1 begun append Archive <a1@x>', '2 waiting move Archive d1 INBOX')
    s.says('list INBOX', '40 700 \\seen', '42 715', 'd2 - \\seen')
    s.says('list Archive')
    s.refuses('no-message', 'flag Archive d1 + x')
    add(c, 'a message that is put in is moved on', s)
    s = book(accept(1, APPENDED), accept(2, ('move', ('dummy', 1), 'INBOX')), intend(1, ('put', 'Archive', 9, 7)),
        settle(1, ('done', 9, 7)), ROWS)
    s.says('queue', '2 waiting move Archive d1 INBOX')
    s.says('list INBOX', '40 700 \\seen', '42 715', 'd2 -')
    s.says('list Archive')
    s.refuses('no-message', 'flag Archive 7 + x')
    add(c, 'it is moved on from its place, with the flags that it has there', s)


def others_since(c: Cases) -> None:
    s = book(accept(1, ('flag', real('INBOX', 4, 42), '+', ['\\Seen'])), accept(2, ('move', real('INBOX', 5, 41), 'Archive')))
    s.says('queue', '1 waiting flag INBOX 42 + \\seen', '2 waiting move INBOX 41 Archive')
    s.says('list INBOX', '40 700 \\seen', '42 715')
    s.says('list Archive')
    s.refuses('no-message', 'flag Archive d2 + x', 'move INBOX 41 Archive')
    s.says('flag INBOX 42 + \\Seen', 'accepted 3')
    s.looks()
    add(c, 'a UID of another UIDVALIDITY and one that isn\'t there are no rows', s)
    s = book(accept(1, ('flag', real('INBOX', 5, 42), '+', ['\\Seen'])), accept(2, MOVED), learn('INBOX', 0, 5, 716, 44, [42], []),
        learn('Archive', 0, 9, 301, 8, [], [(7, 301, ['\\Seen'])]))
    s.says('queue', '1 waiting flag INBOX 42 + \\seen', '2 waiting move INBOX 42 Archive')
    s.says('list INBOX', '40 700 \\seen')
    s.says('list Archive', '7 301 \\seen')
    s.refuses('no-message', 'flag Archive d2 + x')
    add(c, 'a message that went since is no row, and its actions wait', s)

    s = without_head()
    s.server(OFFERS, WORKED, left=journal(*STATE, *TWO_ACCEPTED, settle(1, ('conflict', 1, [])), settle(2, ('conflict', 7, [1]))))
    s.stand()
    s.says('queue')
    s.looks()
    s.change('set', 'INBOX', 42, 'work')
    s.says('play', 'played 0 conflicts 0')
    s.says('list INBOX', '40 700 \\seen', '42 716 work')
    s.says('flag INBOX 42 - work', 'accepted 3')
    s.says('play', 'played 1 conflicts 0')
    s.looks()
    add(c, 'where all are settled it is played, and so is the next action', s)


# Each call fails in turn, and each stop.

class Faulty:
    """A command of which each call fails in turn, and which is stopped behind each."""

    def __init__(self, cases: Cases, name: str, command: str, action: tuple, text: Optional[bytes] = None):
        self.cases, self.name, self.command, self.action, self.text = cases, name, command, action, text

    def begun(self) -> Told:
        s = worked_server()
        self.given(s)
        return s

    def given(self, s: Told) -> None:
        if self.text:
            s.input(self.text)

    def add(self, title: str, s: Told) -> None:
        add(self.cases, self.name + ': ' + title, s)

    def again(self, s: Told) -> None:
        """The same once more, or of another message."""
        self.given(s)
        s.run(*(self.command if self.text else 'move INBOX 40 Archive').split())
        s.looks()

    def failing_disk(self) -> None:
        for n in range(1, 15):
            s = self.begun()
            s.disk(n)
            s.says(self.command, 'error disk' if n <= 13 else 'accepted 1')
            s.looks()
            s.says('flag Archive d1 + x', *['accepted 2'] if n >= 13 else ['refused no-message'])
            self.add('call %d of the disk fails' % n, s)

    def stops(self) -> None:
        accepted = journal(*STATE, accept(1, self.action))[:-1]
        for n in range(15):
            for pick in [0, 1, 2, 3]:
                s = self.begun()
                s.stop(n)
                s.says(self.command, 'error disk' if n <= 12 else 'accepted 1')
                s.restart(pick)
                s.looks()
                held = s.world.files[0].seen.startswith(accepted)
                assert held if n >= 13 else n == 12 or not held
                self.add('a stop behind %d calls, pick %d' % (n, pick), s)

    def last_sync(self) -> None:
        s = self.begun()
        s.disk(13)
        s.says(self.command, 'error disk')
        self.again(s)
        self.add('the last sync failed, and the next one has the next number', s)

    def failing_output(self) -> None:
        command = self.command.split()
        s = self.begun()
        s.sink(1)
        s.says(self.command)
        assert s.lines[-1][1][-1] == '= 12'
        s.says('queue', '1 waiting ' + ('append Archive <a1@x>' if self.text else 'move INBOX 42 Archive'))
        s.lists('INBOX', 'Archive')
        s.sink(1)
        if self.text:
            s.input(b'\0')
        s.gives(10, *command)
        s.sink(1)
        s.gives(2, *command[:1])
        s.sink(1)
        s.disk(1)
        s.gives(3, *command)
        if self.text:
            s.sink(1)
            s.source(1)
            s.gives(13, *command)
        s.sink(1)
        s.gives(12, 'play')
        s.sink(2)
        self.again(s)
        self.add('the output fails, and the action is there', s)

    def all(self) -> None:
        self.failing_disk()
        self.stops()
        self.last_sync()
        self.failing_output()


def readers_fail(c: Cases) -> None:
    waiting = journal(*STATE, accept(1, MOVED), accept(2, FLAGGED), accept(3, APPENDED))
    for command in ['queue', 'list Archive']:
        s = over(waiting)
        for n in range(1, 11):
            s.disk(n)
            s.gives(3 if n <= 9 else 0, *command.split())
        s.sink(1)
        s.gives(12, *command.split())
        s.moments()
        s.files()
        add(c, command + ': each call of the disk fails in turn, and the output', s)
        s = over(waiting)
        for n in range(11):
            s.stop(n)
            s.gives(3 if n <= 8 else 0, *command.split())
            s.restart(n % 4)
        s.looks()
        s.files()
        add(c, command + ': a stop behind each number of calls', s)


def faults(c: Cases) -> None:
    Faulty(c, 'move', 'move INBOX 42 Archive', MOVED).all()
    Faulty(c, 'append', 'append Archive \\Seen', APPENDED, T).all()
    readers_fail(c)


HEADING = """\
# What is accepted, refused and shown. A line that begins with a space is what the line before it is to print. Each case begins with a
# server whose mailboxes were synchronised, or describes its own.

"""
MAKERS = [worked, put_in, without_effect, names_like_words, grammar, names_and_flags, flags_not_asked_for, reasons, several_reasons,
          order_of_calls, messages, inputs, failing_inputs, views, dummies, begun_and_done, conflicts_and_places, others_since, faults]


def main(folder: str) -> None:
    cases = Cases(HEADING)
    cases.head(worked_server())
    for make in MAKERS:
        make(cases)
    cases.write(folder, 'words', 'gen_words')


if __name__ == '__main__':
    main(sys.argv[1])
