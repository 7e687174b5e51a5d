"""Makes the stored scenarios of mail_scenario (stdin, and what it is to print), by the plain models of tools/model.

usage: tools/scenarios/gen.py FOLDER    (crates/mail_scenario, or a copy of it, whose files of cases were made before: they are
                                         counted at the end)
"""
import sys

from common import ACCEPTED, BEGUN, BOTH_LEARNED, M40, OFFERS, SEEN, WORKED, Scenario, begin, journal, keys
from model.journal import HEAD, MAGIC, named, u32
from model.server import Box
from model.world import World


def language(s: Scenario) -> None:
    s.note('The lines of the language, once each. docs/SCENARIOS.md has what they mean.', '',
        'A comment is printed byte for byte: "quotes", \\escapes, double  spaces, and \u00e4.')
    s.gap()
    s.note('A server. A name is INBOX in any case; \\Recent is dropped, and a flag that comes twice counts once.')
    for l in ['server IMAP4rev2 QRESYNC "not an atom"', 'mailbox iNBOX 5 44 715', 'mailbox "Sent Mail" 9 7 300',
        'message INBOX 40 700 "Message-ID: <m40@x>\\r\\n\\r\\n" \\Seen \\Recent $Label \\seen',
        'message "inbox" 42 715 "quote \\" backslash \\\\ NUL-less \\x01\\x7f\\xff \\x41"',
        'message "Sent Mail" 3 300 bare\\text', 'message "Sent Mail" 4 299 ""', 'gone INBOX 41 710', 'gone INBOX 39 715',
        'mailbox Full 4294967295 4294967295 9223372036854775807', 'message Full 1 1 x', 'permit any \\Seen $Label', 'permit only \\Seen',
        'refuse Full', 'refuse "Sent Mail"', 'files 00ff -', 'account ann "a secret \\xc3\\xa4"', 'piece "* OK never said\\r\\n"',
        'endless x',
        'input "never read"', 'world']:
        s.line(l)
    # The same, as the model has it.
    odd_text = b'quote " backslash \\ NUL-less \x01\x7f\xff A'
    boxes = []
    for name, validity, uidnext, highest, messages, gone in [
        ('INBOX', 5, 44, 715, [(40, 700, M40, ['\\Seen', '$Label']), (42, 715, odd_text, [])], [(41, 710), (39, 715)]),
        ('Sent Mail', 9, 7, 300, [(3, 300, b'bare\\text', []), (4, 299, b'', [])], []),
        ('Full', 4294967295, 4294967295, 2**63 - 1, [(1, 1, b'x', [])], [])]:
        b = Box(name, validity, uidnext, highest)
        boxes.append(b)
        b.messages = [dict(uid=u, modseq=m, text=t, flags=keys(f)) for u, m, t, f in messages]
        b.gone = gone
    s.world = World(OFFERS, boxes, b'\x00\xff')
    s.show()
    s.files()
    s.sent()
    s.history()
    s.moments()
    s.gap()


def changes_by_others(s: Scenario) -> None:
    s.note('Changes by another client, and the rules that they may break.')
    for c in [('add', 'INBOX', 44, b'', '\\Flagged', '\\Recent'), ('set', 'INBOX', 42, 'work', '\\Seen'), ('drop', 'INBOX', 40),
        ('shift', 'INBOX', 42, 'Sent Mail', 7),
        ('drop', 'Nowhere', 1), ('shift', 'INBOX', 44, 'INBOX', 90), ('add', 'INBOX', 44, b'text'), ('add', 'INBOX', 43, b'text'),
        ('drop', 'INBOX', 40),
        ('set', 'Full', 1, '\\Seen'), ('add', 'INBOX', 90, b'a\0b')]:
        s.change(*c)
    s.note('A mailbox that is recreated with its messages: under a greater UIDVALIDITY, with UIDs that rise, one a message, below UIDNEXT.')
    for c in [('reset', 'Sent Mail', 10, 20, 5, 1, 2, 19),
        ('reset', 'Nowhere', 6, 1, 1), ('reset', 'INBOX', 5, 45, 1, 44), ('reset', 'INBOX', 4, 45, 1, 44), ('reset', 'INBOX', 6, 45, 1),
        ('reset', 'INBOX', 6, 45, 1, 1, 2), ('reset', 'Sent Mail', 11, 20, 5, 2, 1, 3), ('reset', 'Sent Mail', 11, 20, 5, 1, 1, 3),
        ('reset', 'INBOX', 6, 45, 1, 45)]:
        s.change(*c)
    s.history()
    s.show()
    s.moments()
    s.line('image 10 0', 'left 00ff', 'right -')
    s.line('image 11 1', 'no moment 11')
    s.line('image 18446744073709551615 18446744073709551615', 'no moment 11')
    s.gap()
    s.note('A restart leaves the server and the history, and one moment.')
    s.restart(0)
    s.moments()
    s.history()
    s.gap()


def plans(s: Scenario) -> None:
    s.note('Each plan, before `world` and behind it. These commands don\'t call the link, or read their input.')
    for l in ['server', 'disk 1', 'link 1 nothing', 'link 2 part 0', 'link 3 part 4294967295', 'link 4 all', 'link 5 waits done',
        'link 6 waits dropped',
        'other 1 add INBOX 1 "text" \\Seen', 'other 1 set INBOX 1', 'other 2 drop INBOX 1',
        'other 18446744073709551615 shift INBOX 1 Archive 2', 'other 3 reset INBOX 6 3 800 1 2', 'other 4 reset Archive 10 1 1',
        'stop 0', 'source 1', 'sink 2', 'world', 'show']:
        s.line(l)
    s.world = World()
    s.ran('init INBOX', 3, 'error disk')
    s.note('There is none behind that run, and `change` and `restart` leave one.')
    s.run('flag', 'INBOX', '42', '+', '\\Seen')
    s.disk(1)
    s.change('drop', 'INBOX', 1)
    s.line('restart 1')
    s.ran('init INBOX', 3, 'error disk')
    s.note('Of two `stop` lines the last counts.')
    s.line('stop 0')
    s.line('stop 18446744073709551615')
    s.ran('init INBOX', 0, 'ready')
    s.gap()


def scripted(s: Scenario) -> None:
    s.note('A world of a script has the files and no server. What was planned is forgotten.')
    for l in ['server QRESYNC', 'mailbox INBOX 5 44 715', 'mailbox INBOX 5 44 715', 'files %s -' % BOTH_LEARNED.hex(),
        'piece "* OK [CAPABILITY IMAP4rev2] hello\\r\\n"',
        'piece ""', 'endless "* 1 EXISTS\\r\\n"', 'disk 1', 'sink 1', 'scripted']:
        s.line(l)
    s.world = World(left=BOTH_LEARNED)
    s.sent()
    s.files()
    s.run('flag', 'INBOX', '42', '+', '\\Seen')
    s.files()
    s.line('input ""')
    s.line('source 1')
    s.sink(1)
    s.run('flag', 'INBOX', '42', '+', '\\Seen')
    s.run('flag', 'INBOX', '42', '+', '\\Seen')
    s.gap()


def inits(s: Scenario) -> None:
    s.note('`init`, `flag` and `list`.', '',
        '`init` sets up the journal: in the left file the head, one record, and a closed gate. It makes 11 calls of the disk.')
    s.server(OFFERS, WORKED)
    s.stand()
    s.run('init', 'INBOX', 'Archive')
    s.files()
    s.note('Three writes and three syncs, each a moment; two syncs of the opening; and the first.')
    s.moments()
    s.note('At the eighth only the gate in front of all isn\'t on the disk.')
    s.line('image 7 0', 'left 00' + BEGUN.hex()[2:], 'right -')
    s.line('image 7 1', 'left ' + BEGUN.hex(), 'right -')
    s.line('image 8 0', 'left ' + BEGUN.hex(), 'right -')
    s.sent()
    s.history()
    s.gap()
    s.note('A second `init` is refused, and leaves it.')
    s.run('init', 'INBOX', 'Archive')
    s.run('init', 'Other')
    s.files()
    s.gap()
    s.note('Two names that are one in the protocol are faulty words.')
    s.server(())
    s.stand()
    s.ran('init INBOX inbox', 2, 'error words')
    s.ran('init Archive Archive', 2, 'error words')
    s.run('init', 'Archive', 'archive')
    s.gap()


def flags(s: Scenario) -> None:
    s.note('A message of a mailbox that was never synchronised isn\'t known, and a mailbox without a cache shows no rows.')
    s.server((), left=BEGUN)
    s.stand()
    s.run('flag', 'INBOX', '42', '+', '\\Seen')
    s.lists('INBOX', 'Archive', 'Sent')
    s.files()
    s.gap()
    s.note('INBOX was synchronised, with UIDs 40 and 42. A message is named by the UID that was cached; '
        'the files stay where it isn\'t there.')
    s.server((), left=BOTH_LEARNED)
    s.stand()
    s.lists('INBOX', 'inbox', 'Archive')
    s.run('flag', 'INBOX', '43', '+', '\\Seen')
    s.run('flag', 'Archive', '42', '+', '\\Seen')
    s.run('flag', 'Sent', '42', '+', '\\Seen')
    s.ran('flag INBOX 0 + \\Seen', 2, 'error words')
    s.files()
    s.gap()
    s.note('An action is accepted: its record stands behind the last one, and the gate behind it is closed.')
    s.run('flag', 'INBOX', '42', '+', '\\Seen')
    s.files()
    s.run('flag', 'inbox', '42', '-', '\\FLAGGED', 'work', '\\flagged')
    s.run('flag', 'INBOX', '40', '+', '\\draft')
    s.files()
    s.note('A flag is a keyword or one of five; a reason comes behind the words, and the mailbox and the message before the flag.')
    s.run('flag', 'INBOX', '42', '+', '\\Recent')
    s.run('flag', 'INBOX', '42', '+', '\\Seen', '\\Foo')
    s.run('flag', 'INBOX', '42', '+', 'a(b')
    s.run('flag', 'INBOX', '43', '+', '\\Foo')
    s.run('flag', 'Sent', '43', '+', '\\Foo')
    s.lists('INBOX')
    s.gap()


def no_journals(s: Scenario) -> None:
    s.note('Without a journal there is nothing to write in, and files that are none are left.')
    s.server(())
    s.stand()
    s.run('flag', 'INBOX', '42', '+', '\\Seen')
    s.lists('INBOX')
    s.files()
    for left, right in [(b'\x01' + b'x' * 13, b''), (BEGUN, BEGUN), (HEAD + b'\0', b''), (BEGUN[:-1] + b'\x01', b''),
        (journal(begin('INBOX', 'Archive'), b'F' + named('INBOX') + u32(42) + b'+' + b'\x05\\seen'), b''), (journal(ACCEPTED), b'')]:
        s.server((), left=left, right=right)
        s.stand()
        s.run('flag', 'INBOX', '42', '+', '\\Seen')
        s.lists('INBOX')
        if left[1:9] != MAGIC:
            s.run('init', 'INBOX')
        s.files()
    s.gap()


def odd_words(s: Scenario) -> None:
    s.note('Words that are none of a command: nothing is read or written.')
    s.server((), left=BOTH_LEARNED)
    s.stand()
    for w in ['', '""', 'init', 'INIT INBOX', 'play now', 'queue now', 'report now', '"init INBOX"', 'init ""', 'init "a\\"b"', 'init a&b',
        'init %', 'init INBOX "\\xc3\\xa4"',
        'flag', 'flag INBOX 42 +', 'flag INBOX 0 + \\Seen', 'flag INBOX 042 + \\Seen', 'flag INBOX 4294967296 + \\Seen',
        'flag INBOX -1 + \\Seen', 'flag INBOX 42 * \\Seen',
        'flag a*b 42 + \\Seen', 'Flag INBOX 42 + \\Seen', 'list', 'list a*b', 'list INBOX Archive', 'List INBOX',
        'init ' + ' '.join('b%d' % k for k in range(33)), 'init "x"*129',
        'flag INBOX 42 + ' + ' '.join('f%d' % k for k in range(33))]:
        s.ran(w, 2, 'error words')
    s.moments()
    s.files()
    s.run('flag', 'INBOX', '42', '+', *['f%d' % k for k in range(32)])
    s.gap()


def faults(s: Scenario) -> None:
    s.note('The output fails: the status is 12 where the command was done, and else stays.')
    s.server(())
    s.stand()
    s.sink(1)
    s.run('init', 'INBOX', 'Archive')
    s.files()
    s.server((), left=BOTH_LEARNED)
    s.stand()
    s.sink(1)
    s.run('flag', 'INBOX', '42', '+', '\\Seen')
    s.run('flag', 'INBOX', '42', '+', '\\Seen')
    s.sink(1)
    s.run('init', 'INBOX')
    s.sink(1)
    s.run('flag')
    s.sink(1)
    s.run('list', 'INBOX')
    s.sink(2)
    s.run('flag', 'INBOX', '42', '+', '\\Seen')
    s.gap()


def failing_calls(s: Scenario) -> None:
    s.note('Each call of the disk that `init` makes fails in turn. The next one sets up the journal; '
        'where the last sync failed it is there.')
    for n in range(1, 13):
        s.server(())
        s.stand()
        s.disk(n)
        s.run('init', 'INBOX', 'Archive')
        s.run('init', 'INBOX', 'Archive')
        s.files()
        s.moments()
    s.gap()
    s.note('Each call of the disk that `flag` makes fails in turn. The next one is the first action; '
        'where the last sync failed the second.')
    for n in range(1, 15):
        s.server((), left=BOTH_LEARNED)
        s.stand()
        s.disk(n)
        s.run('flag', 'INBOX', '42', '+', '\\Seen')
        s.run('flag', 'INBOX', '42', '+', '\\Seen')
    s.gap()
    s.note('Each call of the disk that `list` makes fails in turn.')
    for n in range(1, 11):
        s.server((), left=BOTH_LEARNED)
        s.stand()
        s.disk(n)
        s.run('list', 'INBOX')
    s.gap()


def stops(s: Scenario) -> None:
    s.note('`init` stops behind each number of calls. Up to the tenth call a stop leaves no journal; at the write of its first gate '
        'none, or', 'the whole of it; and then the whole of it.')
    for n in range(0, 12):
        for pick in ([0, 1, 2] if n != 10 else [0, 1, 2, 3]):
            s.server(())
            s.stand()
            s.stop(n)
            s.run('init', 'INBOX', 'Archive')
            s.restart(pick)
            s.run('list', 'INBOX')
    s.gap()
    s.note('`flag` stops behind each number of calls. A stop leaves the action that was accepted before; at the write of its gate '
        'without the', 'new one, or with it; and then with it. The right file is never written.')
    for n in range(0, 15):
        for pick in ([0, 1, 2] if n != 12 else [0, 1, 2, 3]):
            s.server((), left=SEEN)
            s.stand()
            s.stop(n)
            s.run('flag', 'INBOX', '42', '-', '\\Seen')
            s.restart(pick)
            s.run('flag', 'INBOX', '40', '+', '\\Draft')


def kept_texts(s: Scenario) -> None:
    s.gap()
    s.note('Kept texts stand beside the world, and stay over a restart. `shelf` shows each once, the one that was put last first.')
    dated = b'Message-ID: <m42@x>\r\nDate: Tue, 1 Dec 2026 09:00:00 +0000\r\n\r\n'
    s.server(OFFERS, [('INBOX', 5, 44, 715, [(40, 700, M40 + b'forty'), (42, 715, dated)], [])])
    s.shelf(2**64 - 1)
    s.stand()
    s.texts()
    for command in ['init INBOX', 'play', 'show INBOX 42']:
        s.run(*command.split())
    s.shelf(1)
    s.run('fetch', 'INBOX', '42')
    s.texts()
    s.run('fetch', 'INBOX', '42')
    s.run('fetch', 'INBOX', '40')
    s.texts()
    s.run('fetch', 'inbox', '42')
    s.restart(0)
    s.texts()
    s.shelf(1)
    s.run('show', 'INBOX', '40')
    s.run('show', 'INBOX', '40')
    s.shelf(2)
    s.run('dates', 'INBOX')
    s.run('dates', 'INBOX')
    s.note('These three words alone pick `read_run`; it has no other.')
    for command in ['fetch INBOX', 'show INBOX 042', 'dates', 'fetched INBOX 40']:
        s.run(*command.split())


def tally(folder: str) -> str:
    """What the program prints at its end: how many cases passed."""
    files = [read('%s/data/%s' % (folder, name)) for name in read(folder + '/args').split()[1:]]
    return '%d passed\n' % sum(('\n' + text).count('\n== ') for text in files)


def read(name: str) -> str:
    with open(name) as file:
        return file.read()


def write(name: str, text: str) -> None:
    with open(name, 'w') as file:
        file.write(text)


MAKERS = [language, changes_by_others, plans, scripted, inits, flags, no_journals, odd_words, faults, failing_calls, stops, kept_texts]


def main(folder: str) -> None:
    s = Scenario()
    for make in MAKERS:
        make(s)
    counts = tally(folder)
    write(folder + '/stdin', s.stdin())
    write(folder + '/stdout', s.stdout() + counts)
    print(len(s.lines), counts.split('\n'))


if __name__ == '__main__':
    main(sys.argv[1])
