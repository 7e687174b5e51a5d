"""Makes the table of the player in crates/talk_cases: each state of an action, reached by replies, and behind it each of a set of replies.

usage: tools/player/gen.py > crates/talk_cases/data/player_table.txt
"""
import pathlib
import sys

sys.path.insert(0, str(pathlib.Path(__file__).resolve().parent.parent))
from model.rules import Action, Book, Cache, Code, Exists, Fault, Fetch, Found, More, Reply, Run, Told, Vanished, keys  # noqa: E402

ID = '<a1@x>'


def row(uid, flags, modseq):
    return Fetch(uid, tuple(flags.split()), modseq)


def ids(uid, *names):
    return Fetch(uid, ids=[f'Message-ID: {name}' for name in names])


def told(name, *rest, ending='OK'):
    return Told(Code(name, *rest), ending)


def copied(source, target, validity=9, ending='OK'):
    return told('COPYUID', validity, source, target, ending=ending)


def select(validity, uidnext, highest, *others, exists=2):
    return Reply([Exists(exists), told('UIDVALIDITY', validity), told('UIDNEXT', uidnext), told('HIGHESTMODSEQ', highest), *others],
                 code=Code('READ-WRITE'))


INBOX, ARCHIVE = select(5, 44, 715), select(9, 7, 300, exists=0)
ALL = Reply([row(40, '\\Seen', 700)])
SEEN, PLAIN, NONE = Reply([row(42, '\\Seen', 716)]), Reply([row(42, '', 715)]), Reply()
# A STORE that had no effect, and the row as another left it.
LATE, OTHER = Reply(code=Code('MODIFIED', [42])), Reply([row(42, '\\Flagged', 717)])

# What stands in front of a completion.
ROWS = [
    [], [row(42, '', 715)], [row(42, '\\Seen', 716)], [row(42, '\\Seen', 715)], [row(42, '', 717)], [row(42, '\\Flagged', 714)],
    [row(42, '\\SEEN \\Recent $Work', 718)], [Fetch(42, ('\\Seen',))], [Fetch(42, modseq=715)], [Fetch(42)], [row(40, '\\Seen', 700)],
    [Fetch(None, ('\\Seen',), 716)], [row(42, '', 715), row(42, '\\Seen', 716)], [row(42, '\\Seen', 716), row(42, '', 715)],
    [row(42, '\\Seen', 716), Fetch(42)], [Fetch(42), row(42, '\\Seen', 716)], [row(42, '', 715), row(40, '\\Seen', 716)],
    [Vanished(42)], [row(42, '', 715), Vanished(42)], [Vanished(42), row(42, '\\Seen', 716)], [Exists(3), told('HIGHESTMODSEQ', 720)],
]
CODES = [
    [told('MODIFIED', [42])], [told('MODIFIED', [42], ending='NO'), row(42, '\\Seen', 716)], [told('APPENDUID', 9, 7)],
    [told('APPENDUID', 9, 7), row(42, '', 716)],
]
COPIES = [
    [copied([42], [7])], [copied([41], [7])], [copied([42], [7]), copied([41], [8])], [copied([41], [7]), copied([42], [8])],
    [copied([42], [7], ending='NO')], [copied([42], [7]), copied([41], [8], ending='BAD')], [copied([42, 43], [7, 8])],
    [copied([42], [7, 8])], [copied([7], [42])], [copied([42], [7], validity=8), Vanished(42)], [copied([40, 42], [7])],
    [row(42, '', 715), copied([42], [9])],
]
SEARCHES = [
    [Found()], [Found(7)], [Found(6)], [Found(6, 8, 7)], [Found(7, 8, extended=True)], [Found(extended=True)], [Found(7), Found(9)],
    [Found(12, 7, 9), Vanished(9)], [Found(1, 2, 3, 4, 5, 6)], [Found(4294967294)], [Found(7), Found()],
]
FIELDS = [
    [ids(7, ID)], [ids(7, '<b@x>')], [ids(7, ID), ids(8, ID)], [ids(8, ID), ids(7, ID)], [ids(7, ID), ids(7, '<b@x>')],
    [ids(7, '<b@x>'), ids(7, ID)], [ids(7, ID), row(7, '', 300)], [ids(6, ID), ids(9, ID)], [ids(7, '<A1@x>')], [ids(7, ID, ID)],
    [ids(7)],
    [ids(7, ID), ids(8, '<b@x>'), ids(9, ID)], [ids(9, ID), ids(8, ID), ids(7, ID)], [ids(7, ID + 'b')], [ids(7, '  ' + ID + ' ')],
    [Fetch(None, ids=['Message-ID: ' + ID])], [Fetch(7, ids=['MESSAGE-id:\t' + ID])], [ids(8, ID)], [ids(9, ID), ids(7, ID)],
]
COMPLETIONS = [
    ('OK', None), ('OK', Code('MODIFIED', [42])), ('OK', Code('MODIFIED', [41, 43])), ('OK', Code('COPYUID', 9, [42], [7])),
    ('OK', Code('COPYUID', 9, [41], [7])), ('OK', Code('APPENDUID', 9, 8)), ('OK', Code('HIGHESTMODSEQ', 720)), ('NO', None),
    ('NO', Code('MODIFIED', [40, 41, 42])), ('NO', Code('TRYCREATE')), ('NO', Code('COPYUID', 9, [42], [7])), ('BAD', None),
    ('BAD', Code('MODIFIED', [42])), ('BAD', Code('APPENDUID', 9, 8)),
]


def questions(barred=False):
    """The replies to a question."""
    return [Reply(lines, barred=barred) for lines in ROWS + CODES + COPIES[:3] + SEARCHES[:3] + FIELDS[:2]]


def searches():
    return [Reply(lines) for lines in SEARCHES + ROWS[:3] + COPIES[:2] + FIELDS[:2]]


def fields():
    return [Reply(lines) for lines in FIELDS + SEARCHES[:3] + ROWS[:3]]


def answers(some):
    """The replies to an action's command: each of some lines with each completion, and all others with OK and NO."""
    others = [lines for lines in ROWS + CODES + COPIES if lines not in some]
    replies = [Reply(lines, ending, code) for lines in some for ending, code in COMPLETIONS]
    return replies + [Reply(lines, ending) for lines in others for ending in ['OK', 'NO']]


def selects(validity, uidnext, highest):
    """The replies to a SELECT of a mailbox whose cache has these numbers, or would have them."""
    v, n, h = told('UIDVALIDITY', validity), told('UIDNEXT', uidnext), told('HIGHESTMODSEQ', highest)
    closed, vanished = told('CLOSED'), Vanished(3, 41, earlier=True)
    lists = [
        [v, n, h], [n, h], [v, h], [v, n], [], [h, n, v, told('NOMODSEQ')], [v, n, h, told('UIDNOTSTICKY')],
        [told('NOMODSEQ'), told('UIDNOTSTICKY')], [told('UIDVALIDITY', validity + 1), n, h], [told('UIDVALIDITY', validity + 1), v, n, h],
        [told('UIDVALIDITY', validity - 1), n, h], [v, told('UIDVALIDITY', validity + 1), told('HIGHESTMODSEQ', 1), h, Vanished(40), n],
        [v, n, told('HIGHESTMODSEQ', highest - 1)], [v, n, h, told('HIGHESTMODSEQ', highest - 1)],
        [v, n, h, told('HIGHESTMODSEQ', highest + 9)],
        [v, told('UIDNEXT', uidnext + 5), h], [v, n, h, row(40, '\\Seen', 700)], [row(42, '\\Flagged', 719), v, n, h, row(40, '', 718)],
        [v, n, h, row(42, '', 716), row(42, '$Work \\Seen', 717)], [v, n, h, Fetch(42)], [v, n, h, Fetch(None, (), 5)],
        [v, n, h, Fetch(42, ())],
        [v, n, h, vanished], [v, n, h, Vanished(3), Vanished(4, 5)], [told('NOMODSEQ'), closed, v, n, h],
        [v, n, h, closed, v, n, h],
        [v, n, h, closed], [Fetch(42), closed, v, n, h], [closed, v, n, h, Fetch(42)], [Fetch(42), closed, Fetch(41), v, n, h],
        [Vanished(40), closed, v, n, h],
        [v, told('UIDNEXT', uidnext, ending='NO'), told('HIGHESTMODSEQ', highest, ending='BAD')],
        [told('UIDVALIDITY', validity + 1), n, told('HIGHESTMODSEQ', highest - 1), Fetch(42)],
        [Exists(0), told('UIDVALIDITY', validity + 1), n, h], [Exists(0), v, n, h], [Exists(0), closed, v, n, h],
        [Exists(0), Exists(3), v, n, h],
    ]
    codes = [Code('HIGHESTMODSEQ', highest + 2), Code('NOMODSEQ'), Code('UIDVALIDITY', validity + 1), Code('UIDNEXT', uidnext + 1)]
    return [Reply(lines, code=Code('READ-WRITE')) for lines in lists] + [Reply([v, n, h], code=code) for code in codes]


def alls():
    """The replies to the FETCH of all rows."""
    lists = [
        [], [row(40, '\\Seen', 700)], [row(40, '\\Seen', 700), row(42, '', 715)], [row(42, '', 715), row(40, '', 1)],
        [row(40, '', 700), row(40, '\\Seen', 701)], [row(50, '', 799)], [Fetch(40)], [row(40, '', 700), Fetch(None, (), 1)],
        [Fetch(40, ()), told('CLOSED'), row(42, '', 715)], [row(40, '', 700), told('CLOSED'), Exists(1), Fetch(41, modseq=3)],
        [Vanished(40), row(40, '\\Recent', 700)],
    ]
    return [Reply(lines) for lines in lists]


# The books.

def known():
    book = Book()
    book.caches['INBOX'] = Cache(5, 44, 715, {40: (700, keys(['\\Seen'])), 42: (715, keys([]))})
    book.caches['Archive'] = Cache(9, 7, 300, {})
    return book


KNOWN = ['learn INBOX whole 5 44 715 ; 40 700 \\Seen ; 42 715', 'learn Archive whole 9 7 300']


def with_action(kind, intent=None, add=True, new=False, tries=0):
    """A book with one action, and perhaps with tries that were taken back and an intent of an earlier run; and the lines that make it."""
    book, lines = (Book(), []) if new else (known(), list(KNOWN))
    if kind == 'flag':
        book.actions = [Action('flag', target=('INBOX', 5, 42), add=add, flags=('\\Seen',))]
        lines.append(f'accept 1 flag INBOX 5 42 {"+" if add else "-"} \\Seen')
    if kind == 'move':
        book.actions = [Action('move', target=('INBOX', 5, 42), to='Archive')]
        lines.append('accept 1 move INBOX 5 42 Archive')
    if kind == 'append':
        book.actions = [Action('append', to='Archive', flags=(), id=ID)]
        lines.append(f'accept 1 append Archive "Message-ID: {ID}\\r\\n\\r\\nhi\\r\\n" {ID}')
    if tries:
        book.actions[0].tries = tries
        lines += [line for turn in range(1, tries + 1) for line in [f'intend 1 {STORE}', f'withdraw 1 {turn}']]
    if intent:
        book.intent = intent
        lines.append(f'intend 1 {intent}')
    return book, lines


STORE, SHIFT, PUT = 'store INBOX 5 42 715', 'move INBOX 5 42 Archive', 'put Archive 9 7'

# The states: how the book is made, the replies that lead there, and the replies that are then told.
STATES = [
    ('an added flag: the SELECT', lambda: with_action('flag'), [], selects(5, 44, 715)),
    ('an added flag, and no cache: the SELECT', lambda: with_action('flag', new=True), [], selects(5, 44, 715)),
    ('an added flag, and no cache: all rows', lambda: with_action('flag', new=True), [INBOX], alls()),
    ('an added flag, and no cache of another UIDVALIDITY: all rows', lambda: with_action('flag', new=True), [select(6, 44, 715)], alls()),
    ('an added flag behind a lost STORE: the SELECT', lambda: with_action('flag', STORE), [], selects(5, 44, 715)),
    ('a move: the SELECT', lambda: with_action('move'), [], selects(5, 44, 715)),
    ('a move behind a lost MOVE: the SELECT', lambda: with_action('move', SHIFT), [], selects(5, 44, 715)),
    ('an added flag: the row', lambda: with_action('flag'), [INBOX], questions()),
    ('an added flag that the mailbox does not keep: the row', lambda: with_action('flag'), [INBOX], questions(barred=True)),
    ('an added flag: the STORE', lambda: with_action('flag'), [INBOX, PLAIN], answers(ROWS[:12])),
    ('an added flag, and a STORE that had no effect: the row', lambda: with_action('flag'), [INBOX, PLAIN, LATE], questions()),
    ('an added flag that is not kept, and a STORE that had no effect: the row', lambda: with_action('flag'), [INBOX, PLAIN, LATE],
        questions(barred=True)),
    ('an added flag: the second STORE', lambda: with_action('flag'), [INBOX, PLAIN, LATE, OTHER], answers(ROWS[:12])),
    ('an added flag: the third STORE', lambda: with_action('flag'), [INBOX, PLAIN, LATE, OTHER, LATE, PLAIN], answers(ROWS[:3])),
    ('an added flag, of which an earlier run took a try back: the SELECT', lambda: with_action('flag', tries=1), [], selects(5, 44, 715)),
    ('an added flag, of which an earlier run took two tries back: the STORE', lambda: with_action('flag', tries=2), [INBOX, OTHER],
        answers(ROWS[:3])),
    ('an added flag behind a lost second STORE: the row', lambda: with_action('flag', STORE, tries=1), [INBOX], questions()),
    ('an added flag: the second STORE that is sent again', lambda: with_action('flag', STORE, tries=1), [INBOX, PLAIN], answers(ROWS[:3])),
    ('an added flag: the third STORE that is sent again', lambda: with_action('flag', STORE, tries=2), [INBOX, PLAIN], answers(ROWS[:3])),
    ('an added flag: the second STORE behind a lost one', lambda: with_action('flag', STORE), [INBOX, PLAIN, LATE, OTHER],
        answers(ROWS[:3])),
    ('an added flag behind a lost STORE: the row', lambda: with_action('flag', STORE), [INBOX], questions()),
    ('an added flag that is not kept, behind a lost STORE: the row', lambda: with_action('flag', STORE), [INBOX], questions(barred=True)),
    ('an added flag: the STORE that is sent again', lambda: with_action('flag', STORE), [INBOX, PLAIN], answers(ROWS[:12])),
    ('a flag to be taken away: the row', lambda: with_action('flag', add=False), [INBOX], questions()),
    ('a flag to be taken away that is not kept: the row', lambda: with_action('flag', add=False), [INBOX], questions(barred=True)),
    ('a flag to be taken away: the STORE', lambda: with_action('flag', add=False), [INBOX, SEEN], answers(ROWS[:3])),
    ('a flag to be taken away behind a lost STORE: the row', lambda: with_action('flag', STORE, add=False), [INBOX], questions()),
    ('a move: the row', lambda: with_action('move'), [INBOX], questions()),
    ('a move, for which it does not matter which flags are kept: the row', lambda: with_action('move'), [INBOX],
        questions(barred=True)),
    ('a move: the MOVE', lambda: with_action('move'), [INBOX, PLAIN], answers(COPIES)),
    ('a move behind a lost MOVE: the row', lambda: with_action('move', SHIFT), [INBOX], questions()),
    ('a move: the MOVE that is sent again', lambda: with_action('move', SHIFT), [INBOX, SEEN], answers(COPIES)),
    ('an append: the SELECT', lambda: with_action('append'), [], selects(9, 7, 300)),
    ('an append, and no cache: the SELECT', lambda: with_action('append', new=True), [], selects(9, 7, 300)),
    ('an append: the APPEND', lambda: with_action('append'), [ARCHIVE], answers(CODES + ROWS[:2] + COPIES[:1])),
    ('a lost APPEND: the SELECT', lambda: with_action('append', PUT), [], selects(9, 7, 300)),
    ('a lost APPEND, and no cache: the SELECT', lambda: with_action('append', PUT, new=True), [], selects(9, 7, 300)),
    ('a lost APPEND: the search', lambda: with_action('append', PUT), [select(9, 12, 310)], searches()),
    ('a lost APPEND: the fields of a candidate', lambda: with_action('append', PUT), [ARCHIVE, Reply([Found(7)])], fields()),
    ('a lost APPEND: the fields of several', lambda: with_action('append', PUT), [ARCHIVE, Reply([Found(6, 7, 8, 9)])], fields()),
    ('an append: the APPEND that is sent again', lambda: with_action('append', PUT), [ARCHIVE, NONE], answers(CODES + ROWS[:2])),
    ('an append: the APPEND that is sent again behind the fields', lambda: with_action('append', PUT),
        [ARCHIVE, Reply([Found(7)]), Reply([ids(7, '<b@x>')])], answers(CODES[2:])),
    ('no action: the SELECT', lambda: with_action(None), [], selects(5, 44, 715)),
    ('no action, and no cache: the SELECT', lambda: with_action(None, new=True), [], selects(5, 44, 715)),
    ('no action: the second SELECT', lambda: with_action(None), [INBOX], selects(9, 7, 300)),
]


class Player:
    """Drives a run, and keeps the lines of what it needs and is told."""

    def __init__(self, book):
        self.run = Run(book).play()
        self.wants = next(self.run)
        self.lines = []

    def need(self):
        """Goes on to the next need that has a reply, or to an end. What is recorded on the way is needed too."""
        while True:
            if isinstance(self.wants, More):
                return
            self.lines += self.wants.lines()
            if self.wants.tag or self.wants.line == 'finished':
                return
            self.wants = self.run.send(None)

    def tell(self, reply):
        self.lines += reply.lines(self.wants.tag)
        self.wants = self.run.send(reply)
        if isinstance(self.wants, Fault):
            self.lines.append(f' = fault {self.wants.text}')
            self.wants = self.run.send(None)


def reached(make, replies):
    book, lines = make()
    player = Player(book)
    player.need()
    for reply in replies:
        player.tell(reply)
        player.need()
    return player, lines


def main():
    print('# Made by tools/make-cases (tools/player/gen.py): a case that is added here by hand is lost when it runs again.')
    print('# Each state of an action, and behind it each of a set of replies, by a plain model of the rules: the lines in front of the first')
    print('# `each` are played with each block behind one.')
    print('trial player')
    for title, make, replies, told_then in STATES:
        player, lines = reached(make, replies)
        print()
        print(f'== {title}')
        print('\n'.join(lines + ['connect'] + player.lines))
        for reply in told_then:
            player, _ = reached(make, replies)
            before = len(player.lines)
            player.tell(reply)
            player.need()
            if isinstance(player.wants, More):
                player.tell(ALL)
                player.need()
            print('each')
            print('\n'.join(player.lines[before:]))


main()
