"""Makes rules.txt of crates/value_cases: beside each kind of book each kind of event, with the rule that it breaks in each version.

usage: tools/books/gen.py > crates/value_cases/data/rules.txt
"""
import pathlib
import sys

sys.path.insert(0, str(pathlib.Path(__file__).resolve().parent.parent))
from model.lawful import KINDS, Lawful  # noqa: E402
from model.words import word, words  # noqa: E402

HEAD = """# Made by tools/make-cases (tools/books/gen.py): a case that is added here by hand is lost when it runs again.
# Each kind of event beside each kind of book: the rule that it breaks in a first and in a second version, from a plain model
# of the rules.
"""
REAL = ('real', 'INBOX', 5, 42)
FLAG, MOVE = ('flag', REAL), ('move', REAL, 'Archive')
APPEND = ('append', 'Archive')
STORE, SHIFT, PUT = ('store', 'INBOX', 5, 42, 700), ('shift', 'INBOX', 5, 42, 'Archive'), ('put', 'Archive', 9, 7)
DONE, PLACED = ('done',), ('done', 9, 7)
LETTER = words(b'Message-ID: <a@x>\r\n\r\n', b'<a@x>')
LEARNT = ('learn', 'INBOX', True, 9, 300)


def refused(kind: str, *numbers: int) -> tuple:
    return ('conflict', kind, numbers)


# By name: the version of the journal, and its events.
BOOKS = {
    'nothing was asked': (1, []),
    'a cache': (1, [LEARNT]),
    'a flag action': (1, [('accept', 1, FLAG)]),
    'a flag action with an intent': (1, [('accept', 1, FLAG), ('intend', 1, STORE)]),
    'a flag action, tried once': (2, [('accept', 1, FLAG), ('intend', 1, STORE), ('withdraw', 1, 1)]),
    'a flag action, tried once, with an intent': (2, [('accept', 1, FLAG), ('withdraw', 1, 1), ('intend', 1, STORE)]),
    'a flag action, tried twice': (2, [('accept', 1, FLAG), ('withdraw', 1, 2)]),
    'a flag action, tried twice, with an intent': (2, [('accept', 1, FLAG), ('withdraw', 1, 2), ('intend', 1, STORE)]),
    'a move': (1, [('accept', 1, MOVE)]),
    'a move with an intent': (1, [('accept', 1, MOVE), ('intend', 1, SHIFT)]),
    'an append': (1, [('accept', 1, APPEND)]),
    'an append with an intent': (1, [('accept', 1, APPEND), ('intend', 1, PUT)]),
    'a move that ended': (1, [('old', 1, MOVE, PLACED)]),
    'a move that failed': (1, [('old', 1, MOVE, refused('refused-no'))]),
    'a flag action on a moved message': (1, [('old', 1, MOVE, PLACED), ('accept', 2, ('flag', ('dummy', 1)))]),
    'a flag action on a message that was never there': (1, [('old', 1, APPEND, refused('refused-bad')), ('accept', 2, ('flag', ('dummy', 1)))]),
}


def outcomes() -> list:
    """Each kind, with numbers that fit somewhere and such that fit nowhere."""
    numbers = {'flags-changed': [(700,), (701,)], 'target-unknown': [(1,), (2,)], 'store-unsure': [(700, 702), (701, 702)], 'ambiguous': [(3, 9)],
               'validity-changed': [(5, 6), (9, 10), (5, 5), (6, 7)], 'reset-after-loss': [(5, 6), (9, 10), (5, 5), (6, 7)]}
    kinds = sorted(set(sum(KINDS.values(), [])))
    return [DONE, PLACED] + [refused(kind, *some) for kind in kinds for some in numbers.get(kind, [()])]


def events(book: Lawful) -> list:
    """Groups of events: with the number that is due or the next one, and with one that is neither."""
    due, new = book.due() or len(book.queue) or 1, len(book.queue) + 1
    actions = [FLAG, MOVE, APPEND, ('flag', ('dummy', 1)), ('move', ('dummy', new), 'INBOX'), ('flag', ('real', 'Else', 5, 42)),
               ('move', REAL, 'Else'), ('append', 'Else')]
    accepted = [('accept', new, action) for action in actions] + [('accept', new + 1, FLAG), ('accept', new + 1, ('append', 'Else'))]
    old = [('old', new, action, outcome) for action in actions for outcome in (DONE, PLACED, refused('refused-no'))] + [('old', new + 1, FLAG, DONE)]
    if book.due() is None:
        old += [('old', new, action, outcome) for action in (FLAG, MOVE, APPEND, ('flag', ('dummy', 1))) for outcome in outcomes()[2:]]
    intents = [STORE, SHIFT, PUT, ('store', 'INBOX', 6, 42, 700), ('store', 'INBOX', 5, 43, 700), ('store', 'Archive', 9, 7, 1),
               ('shift', 'INBOX', 5, 42, 'INBOX'), ('put', 'INBOX', 9, 7), ('put', 'Else', 9, 7)]
    intended = [('intend', due, intent) for intent in intents] + [('intend', due + 1, STORE)]
    settled = [('settle', due, outcome) for outcome in outcomes()] + [('settle', due + 1, DONE)]
    withdrawn = [('withdraw', due, tries) for tries in (0, 1, 2, 3)] + [('withdraw', due + 1, 1)]
    learnt = [('learn', name, whole, validity, highest) for name in ('INBOX', 'Archive', 'Else') for whole in (True, False)
              for validity in (8, 9) for highest in (299, 300)]
    reset = [('reset', name, kept, told) for name in ('INBOX', 'Archive', 'Else') for kept in (8, 9) for told in (8, 9, 10)]
    return [[('begin', ['INBOX'])], accepted, intended, settled, withdrawn, old, learnt, reset]


def target_words(target: tuple) -> str:
    return f'd{target[1]}' if target[0] == 'dummy' else words(*map(str, target[1:]))


def action_words(action: tuple) -> str:
    if action[0] == 'flag':
        return f'flag {target_words(action[1])} + \\Seen'
    if action[0] == 'move':
        return f'move {target_words(action[1])} {word(action[2])}'
    return f'append {word(action[1])} {LETTER}'


def intent_words(intent: tuple) -> str:
    return ' '.join(['move' if intent[0] == 'shift' else intent[0], words(*map(str, intent[1:]))])


def outcome_words(outcome: tuple) -> str:
    if outcome[0] == 'done':
        return ' '.join(map(str, outcome))
    return ' '.join(map(str, (outcome[1], *outcome[2])))


def event_words(event: tuple) -> str:
    if event[0] == 'begin':
        return 'begin ' + words(*event[1])
    if event[0] == 'learn':
        return f'learn {word(event[1])} {"whole" if event[2] else "part"} {event[3]} 7 {event[4]}'
    if event[0] == 'reset':
        return f'reset {word(event[1])} {event[2]} {event[3]}'
    if event[0] == 'withdraw':
        return f'withdraw {event[1]} {event[2]}'
    told = {'accept': [action_words], 'intend': [intent_words], 'settle': [outcome_words], 'old': [action_words, outcome_words]}[event[0]]
    return f'{event[0]} {event[1]} ' + ' ; '.join(as_words(part) for as_words, part in zip(told, event[2:]))


def asked(name: str, group: list) -> list:
    """The lines of a case: the book's events, and then each event of the group in each version."""
    version, before = BOOKS[name]
    books = []
    for by in (1, 2):
        book = Lawful(version, ['INBOX', 'Archive'])
        for event in before:
            book.enter(event)
        book.version = by
        books.append(book)
    lines = [f'== {name}: {group[0][0]}', 'book' if version == 1 else 'book second']
    lines += [f'{event_words(event)} = entered' for event in before]
    for event in group:
        broken = ' '.join(book.broken(event) or 'entered' for book in books)
        lines.append(f'both {event_words(event)} = {broken}')
    return lines


def main() -> None:
    print(HEAD, end='')
    for name, (version, before) in BOOKS.items():
        book = Lawful(version, ['INBOX', 'Archive'])
        for event in before:
            book.enter(event)
        for group in events(book):
            print('', *asked(name, group), sep='\n')


main()
