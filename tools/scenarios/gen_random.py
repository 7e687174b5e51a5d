"""Makes random scenarios of the words of a command, with what the plain models of tools/model say of them, as a file of cases: random
journals, with actions that wait, have begun or are settled, random commands, messages and failures. Runs of the program over them
find where it and the models differ.

usage: tools/scenarios/gen_random.py SEED COUNT FILE [play]    (then: mail_scenario FILE; with `play` each is of actions played back)
"""
import random
import sys

from common import (ARCHIVE_LEARNED, INBOX_LEARNED, LOSSES, OFFERS, T, WORKED, Cases, add, begin, body_of, journal,
                    keys, over, without_head, worked_server)
from gen_words import TEXTS
from model.commands import Store
from model.journal import NOTHING, Book, tags_of
from model.words import message_id
from model.world import Fault, World

NAMES, UIDS, SOME = ['INBOX', 'Archive', 'Other'], [1, 2, 7, 40, 42, 43], ['\\Seen', 'work', '\\Flagged', 'b', 'a', '\\Draft']
ODD_NAMES = ['inbox', 'iNbOx', 'Sent', 'archive', 'd1', '42', 'a*b', '', 'Sent Mail']
ODD_FLAGS = ['\\SEEN', 'Work', 'WORK', '$x', '\\Foo', '\\Recent', 'a(b', '', 'seen', '+', 'x' * 255, 'x' * 256, '\u00e4', 'a]', '\\']
IDENTS = ['1', '2', '7', '40', '42', '43', '118'] * 3 + ['d%d' % n for n in range(1, 7)] * 4 + ['0', 'd0', 'd01', '042', '4294967295',
    '4294967296', 'd4294967295', 'd4294967296', '', 'd']


class Draw(random.Random):
    sents = 0.5

    def likely(self, share):
        return self.random() < share

    def some(self, items, most):
        return self.sample(items, self.randint(0, most))

    def name(self):
        return self.choice(NAMES if self.likely(0.8) else ODD_NAMES)

    def flags(self, least):
        count = self.choice([31, 32, 33]) if self.likely(0.05) else self.choice([least, 1, 1, 2, 3, 5])
        return [self.choice(SOME if self.likely(0.8) else ODD_FLAGS) for _ in range(count)]

    def words(self):
        """Words of any command, and of none."""
        verb = self.choice(['flag', 'move', 'append', 'list', 'flag', 'move', 'queue', 'play', 'init', 'report', 'x'])
        words = [verb] + {
            'flag': lambda: [self.name(), self.choice(IDENTS), self.choice('+-+-+-*'), *self.flags(1)],
            'move': lambda: [self.name(), self.choice(IDENTS), self.name()],
            'append': lambda: [self.name(), *self.flags(0)],
            'list': lambda: [self.name()],
            'init': lambda: [self.choice(NAMES + ['inbox']) for _ in range(self.randint(0, 3))]}.get(verb, list)()
        if self.likely(0.03):
            words.append(self.choice(['', 'x', 'INBOX']))
        if self.likely(0.03):
            words.pop()
        return words

    def aimed(self, world):
        """Words that the journal is likely to take."""
        try:
            book = Store(World((), (), *(file.seen for file in world.files))).book
        except Fault:
            return ['init', *NAMES]
        rows, names = list(book.view()), list(book.boxes)
        verb = self.choice(['flag', 'move', 'move', 'append']) if rows else 'append'
        if verb == 'append':
            return [verb, self.choice(names), *self.some(SOME, 3)]
        name, (kind, number) = self.choice(rows)
        ident = ('d' if kind == 'dummy' else '') + str(number)
        if verb == 'move':
            return [verb, name, ident, self.choice(names)]
        return [verb, name, ident, self.choice('+-'), *self.sample(SOME, self.randint(1, 4))]

    def message(self):
        text = bytearray(self.choice([T, b'Message-ID: <b@x>\n\nhi\n'] if self.likely(0.7) else [t for t, _ in TEXTS]))
        while self.likely(0.2):
            at = self.randint(0, len(text))
            if self.likely(0.5):
                del text[at:at + 1]
            else:
                text[at:at] = self.choice([b'\n', b'\r', b'\r\n', b'\0', b' ', b'\t', b':', b'<', b'>', b'Message-ID: <c@x>\n', b'\xff',
                    b'\r\n '])
        return bytes(text)

    def told(self, book):
        """Lawful events of a journal."""
        name = self.choice(NAMES)
        cache = book.boxes[name]
        gone = [] if cache is None else sorted(self.some(UIDS, 3))
        rows = [(u, self.randint(1, 700) if cache is None else self.randint(716, 900),
            keys(self.some(SOME, 3))) for u in sorted(set(self.some(UIDS + [118], 5)) - set(gone))]
        if cache is None:
            return ('learn', name, 1, self.choice([5, 9]), 715, 119, [], rows)
        return ('learn', name, 0, cache['validity'], cache['highest'] + self.randint(0, 3), 119, gone, rows)

    def accepted(self, book):
        made = [n for n, a in enumerate(book.queue, 1) if a[0] != 'flag']
        target = ('dummy', self.choice(made)) if made and self.likely(0.6) else ('real', self.choice(NAMES), self.choice([4, 5, 5, 9, 9]),
            self.choice(UIDS))
        return ('accept', len(book.queue) + 1,
            self.choice([('flag', target, self.choice('+-'), keys(self.some(SOME, 3)) or ['a']), ('move', target, self.choice(NAMES)),
            ('append', self.choice(NAMES), keys(self.some(SOME, 3)), self.choice([T, b'Message-ID: <z@x>\r\n\r\n']))]))

    def went_on(self, book):
        """An intent, or an outcome, of the action that is due."""
        n = book.unsettled()[0]
        verb, *a = book.queue[n - 1]
        if book.pending:
            if self.likely(0.3):
                return ('settle', n, ('conflict', 4, []))
            return ('settle', n, ('done',) if verb == 'flag' else ('done', self.choice([5, 9, 9]), self.choice([1, 7, 42])))
        if verb == 'append':
            return ('intend', n, ('put', a[0], self.choice([5, 9]), 7))
        at, outcome = a[0][1:], None
        if a[0][0] == 'dummy':
            outcome = book.outcomes[a[0][1] - 1]
            if outcome[0] == 'conflict':
                return ('settle', n, ('conflict', 7, [a[0][1]]))
            at = (book.to_of(a[0][1]), *outcome[1:])
        if self.likely(0.3):
            return ('settle', n, ('conflict', 1, []))
        return ('intend', n, ('store', *at, 700) if verb == 'flag' else ('shift', *at, a[1]))

    def journal(self):
        events = [('begin', NAMES)]
        for _ in range(self.randint(0, 14)):
            book = Book(events)
            kinds = [self.told] * 3 + [self.accepted] * 4 + [self.went_on] * 3 * bool(book.unsettled())
            events.append(self.choice(kinds)(book))
        return journal(*map(body_of, events))

    def scenario(self):
        if self.likely(0.5):
            s = over(self.journal())
        else:
            s = without_head()
            known = journal(begin(*NAMES), INBOX_LEARNED, ARCHIVE_LEARNED)
            s.server(OFFERS, WORKED + [('Other', 3, 1, 1, [], [])], left=self.choice([b'', journal(begin(*NAMES))] + [known] * 8))
            s.stand()
        for _ in range(self.randint(1, 12)):
            self.step(s)
        s.run('queue')
        s.lists(*NAMES)
        s.files()
        return s

    def change(self, world, polite=False):
        """What others do, mostly lawful changes of what is there: a polite one leaves messages with an append's Message-ID alone."""
        if not world.boxes:
            return ('drop', 'INBOX', 1)
        box = self.choice(world.boxes)
        uids = [m['uid'] for m in box.messages if not polite or message_id(m['text']) in (None, b'<m40@x>', b'<m42@x>')]
        verb = self.choice(['add', 'set', 'set', 'drop', 'shift'] if uids else ['add'])
        uid = self.choice(uids or [1])
        if verb == 'add':
            return (verb, box.name, box.uidnext + self.randint(0, 2),
                b'x' if polite else self.choice([b'x', T, b'Message-ID: <b@x>\r\n\r\nhi\r\n']), *self.some(SOME, 2))
        if verb == 'set':
            return (verb, box.name, uid, *self.some(SOME, 3))
        if verb == 'drop':
            return (verb, box.name, uid)
        to = self.choice(world.boxes)
        return (verb, box.name, uid, to.name, to.uidnext)

    def played(self, s, polite=False):
        """A run, in which a call may be lost and others may act."""
        for _ in range(self.choice([0, 0, 1, 2])):
            s.other(self.randint(1, 40), *self.change(s.world, polite))
        if self.likely(0.5):
            s.link(self.randint(1, 45), self.choice(LOSSES + ['part 20']))
        if self.likely(0.15):
            s.disk(self.randint(1, 45))
        stops = self.likely(0.2)
        if stops:
            s.stop(self.randint(0, 80))
        s.run('play')
        if stops:
            s.restart(self.choice([0, 1, 2, 3, 77]))
        if self.likely(self.sents):
            s.sent()
        if self.likely(0.5):
            s.history()
            s.run('queue')

    def playing(self, *sides):
        """Actions that the book takes, runs and others in turn; it is played to the end, and no action took effect twice. It begins with
        these files, or with a journal that has both mailboxes of the worked server."""
        s = without_head()
        known = journal(begin(*NAMES), INBOX_LEARNED, ARCHIVE_LEARNED)
        s.server(OFFERS, WORKED + [('Other', 3, 1, 1, [], [])], **dict(zip(('left', 'right'), sides or [known])))
        if self.likely(0.2):
            s.permit(self.choice(['any', 'only']), *self.some(['\\Seen', '\\Flagged', 'work'], 3))
        if self.likely(0.1):
            s.refuse(self.choice(NAMES))
        s.stand()
        for _ in range(self.randint(2, 14)):
            if self.likely(0.15):
                s.change(*self.change(s.world, True))
            if self.likely(0.35):
                self.played(s, True)
                continue
            words = self.aimed(s.world)
            if words[0] == 'append':
                s.input(self.choice([T, b'Message-ID: <b@x>\n\nhi\n', b'Message-ID: <c@x>\n\nho\n']))
            s.run(*words)
        for _ in range(4):
            if s.run('play') in (0, 1):
                break
        s.history()
        s.run('queue')
        s.lists(*NAMES)
        book, deeds = Store(World((), (), *(file.seen for file in s.world.files))).book, [author for author, *_ in s.world.history]
        for n, outcome in enumerate(book.outcomes, 1):
            count = sum(deeds.count(tag) for tag in tags_of(n))
            assert count <= 1, (n, deeds)
            if outcome:
                assert count == 1 if outcome[0] == 'done' else count == 0 or outcome[1] not in NOTHING, (n, outcome, deeds)
        return s

    def step(self, s):
        if self.likely(0.2) and s.world.boxes:
            s.change(*self.change(s.world))
        if self.likely(0.25):
            return self.played(s)
        words = self.aimed(s.world) if self.likely(0.6) else self.words()
        if self.likely(0.8 if words[:1] == ['append'] else 0.1):
            s.input(self.message())
        if self.likely(0.08):
            s.source(self.randint(1, 3))
        if self.likely(0.12):
            s.disk(self.randint(1, 15))
        if self.likely(0.03):
            s.sink(self.randint(1, 2))
        stops = words[:1] != ['play'] and self.likely(0.08)
        if stops:
            s.stop(self.randint(0, 14))
        s.run(*words)
        if stops or self.likely(0.02):
            s.restart(self.choice([0, 1, 2, 3, 77]))
        if self.likely(0.3):
            s.run('queue')
        if self.likely(0.4):
            s.lists(self.choice(NAMES))


def main(seed, count, name, *kind):
    draw, cases = Draw(int(seed)), Cases('# Random scenarios of seed %d.\n\n' % int(seed))
    cases.head(worked_server())
    make = draw.playing if kind == ('play',) else draw.scenario
    for number in range(1, int(count) + 1):
        add(cases, 'random scenario %d of seed %d' % (number, int(seed)), make())
    with open(name, 'w') as file:
        file.write(cases.text)
    print(int(count), cases.text.count('\n'), len(cases.text))


if __name__ == '__main__':
    main(*sys.argv[1:])
