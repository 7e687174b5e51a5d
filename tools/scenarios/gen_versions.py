"""Makes the scenarios over journals of the first version as files of cases (versions, lost_versions), by the plain models of tools/model.

usage: tools/scenarios/gen_versions.py FOLDER    (crates/mail_scenario, or a folder with a folder data in it)
"""
import sys
from typing import List

from common import STATE, T, Cases, accept, intend, journal, learn, real, settle
from gen_playback import LOST, Lost, Played, add, done, new
from model.commands import LAST
from model.journal import MAGIC_1

ASKED = [accept(1, ('append', 'Archive', ['\\Seen'], T)), accept(2, ('flag', real('INBOX', 5, 42), '+', ['\\Seen']))]
BEGUN_ONE = intend(1, ('put', 'Archive', 9, 7))

# A journal that the program wrote as it knew the first version alone: a change of flags that was played, a move that is begun, and behind it a
# letter and a change of its flags. The bytes are kept as they were written.
KEPT = bytes.fromhex(
    '014f444d41494c4a31000000010100000010420205494e424f58074172636869766501000000424c05494e424f58010000000500000000000002cb0000002c00'
    '000000000000020000002800000000000002bc0001055c7365656e0000002a00000000000002cb000001000000224c0741726368697665010000000900000000'
    '0000012c00000007000000000000000001000000214100000001465205494e424f58000000050000002a2b0001085c666c616767656401000000204c05494e42'
    '4f58000000000500000000000002cb0000002c0000000000000000010000001c49000000015305494e424f58000000050000002a00000000000002cb01000000'
    '075300000001440001000000374c05494e424f58000000000500000000000002cc0000002c00000000000000010000002a00000000000002cc0001085c666c61'
    '6767656401000000224c07417263686976650000000009000000000000012c000000070000000000000000010000001d41000000024d5205494e424f58000000'
    '050000002a0741726368697665010000004441000000035007417263686976650001055c7365656e0000002a4d6573736167652d49443a203c613140783e0d0a'
    '5375626a6563743a2068690d0a0d0a68656c6c6f0d0a010000001341000000044644000000022b000104776f726b01000000204c05494e424f58000000000500'
    '000000000002cc0000002c0000000000000000010000001c49000000024d05494e424f58000000050000002a074172636869766500')


def first(*bodies: bytes, generation: int = 1) -> bytes:
    """A journal of the first version."""
    return journal(*STATE, *bodies, generation=generation, magic=MAGIC_1)


def over(*sides: bytes) -> Played:
    return new(**dict(zip(('left', 'right'), sides)))


def asks(s: Played, *words: str) -> None:
    if words[0] == 'append':
        s.input(T)
    s.run(*words)


# The commands that write, and those that read.
WRITING = [('flag', 'INBOX', '42', '+', 'work'), ('move', 'INBOX', '40', 'Archive'), ('append', 'INBOX', '\\Seen'), ('play',)]
READING = [('list', 'INBOX'), ('list', 'Archive'), ('queue',), ('report',), ('init', 'INBOX')]
REFUSED = [('flag', 'INBOX', '41', '+', 'work'), ('flag', 'INBOX', '42', '+', '\\Recent'), ('move', 'INBOX', '42', 'INBOX'),
           ('append', 'Nowhere'), ('flag', 'INBOX', '42', '+', 'a b')]


def taken_over(c: Cases) -> None:
    s = over(first(*ASKED))
    s.says('list Archive', 'd1 - \\seen')
    s.files()
    s.says('flag Archive d1 + \\Seen', 'accepted 3')
    assert s.world.files[1].seen[:13].hex() == '014f444d41494c4a3200000002'
    s.files()
    add(c, 'a change of flags is asked for: the journal goes on in the second version on its other side', s.ends())
    for words in WRITING:
        s = over(first(*ASKED))
        asks(s, *words)
        add(c, '`%s` takes a journal over' % words[0], s.ends())
    s = over(first(*ASKED, BEGUN_ONE))
    s.plays('played 2 conflicts 0')
    s.sent()
    add(c, 'an intent that is pending is taken over', s.ends(), done(9, 7), done())
    s = over(first(*ASKED, BEGUN_ONE, settle(1, ('done', 9, 7))))
    s.plays('played 1 conflicts 0')
    s.files()
    c.add('so is an outcome', s)


def left_alone(c: Cases) -> None:
    s = over(first(*ASKED))
    for words in READING:
        s.run(*words)
    s.files()
    add(c, 'what reads leaves the journal as it is', s.ends())
    s = over(first(*ASKED))
    for words in REFUSED:
        asks(s, *words)
    s.input(b'no identifier\r\n')
    s.run('append', 'Archive')
    s.files()
    add(c, 'what is refused leaves the journal as it is', s.ends())


def sides(c: Cases) -> None:
    older, newer = journal(*STATE, generation=3), first(*ASKED, generation=4)
    s = over(newer, older)
    asks(s, *WRITING[0])
    add(c, 'the older side is of the second version', s.ends())
    s = over(first(*ASKED), journal(*STATE, *ASKED, generation=2))
    asks(s, *WRITING[0])
    add(c, 'a journal that was taken over, and is added to', s.ends())
    s = over(first(*ASKED, generation=LAST))
    for words in WRITING:
        s.says(' '.join(words), 'error limit generation 4294967296') if words[0] != 'append' else asks(s, *words)
    s.run('report')
    add(c, 'no generation is left to take a journal over: what reads still does', s.ends())
    s = over(journal(*STATE, *ASKED, generation=LAST))
    asks(s, *WRITING[0])
    add(c, 'the last generation is of the second version: it is added to', s.ends())


def long_ones(c: Cases) -> None:
    s = over(first(*[learn('INBOX', 0, 5, 715, 44, [], [])] * 120))
    s.plays('played 0 conflicts 0')
    add(c, 'a journal that grew long is told anew once, in the second version', s.ends())


def kept(c: Cases) -> None:
    boxes = [('INBOX', 5, 44, 716, [(40, 700, b'Message-ID: <m40@x>\r\n\r\n', '\\Seen'), (42, 716, b'Message-ID: <m42@x>\r\n\r\n', '\\Flagged')], []),
             ('Archive', 9, 7, 300, [], [])]
    s = new(boxes=boxes, left=KEPT)
    s.run('queue')
    s.plays('played 3 conflicts 0')
    s.sent()
    s.asks('queue', 'report', 'list INBOX', 'list Archive')
    s.files()
    c.add('a journal that the program wrote as it knew the first version alone is taken over and played', s)


def failing(c: Cases, words: tuple) -> None:
    """A command that takes a journal over, in which a call of the disk fails, or behind which the world stops; and then the same command."""
    def begun() -> Played:
        return over(first(*ASKED))

    def then(title: str, s: Played) -> None:
        s.run('queue')
        asks(s, *words)
        s.run('queue')
        c.add('`%s` takes a journal over, and %s' % (words[0], title), s)
    s = begun()
    asks(s, *words)
    calls = s.world.last_calls
    for number in range(1, calls + 1):
        s = begun()
        s.disk(number)
        asks(s, *words)
        then('call %d of the disk fails' % number, s)
    for number in range(calls + 1):
        for pick in range(2):
            s = begun()
            s.stop(number)
            asks(s, *words)
            s.restart(pick)
            then('a stop behind %d calls, pick %d' % (number, pick), s)


def failures(c: Cases) -> None:
    for words in WRITING[:3]:
        failing(c, words)


class TakenOver(Lost):
    """A play that takes a journal over, in which a call of the disk fails, or behind which the world stops."""

    losses: List[str] = []
    picks = range(3)


VERSIONS = """\
# Journals of the first version: they are read, and taken over by the first command that writes. A line that begins with a space is what the
# line before it is to print.

"""
MAKERS = [taken_over, left_alone, sides, long_ones, kept, failures]


def main(folder: str) -> None:
    cases = Cases(VERSIONS)
    for make in MAKERS:
        make(cases)
    cases.write(folder, 'versions', 'gen_versions')
    of_two = LOST % 'An append and a change of flags in a journal of the first version are'
    TakenOver(of_two, lambda: over(first(*ASKED))).all().write(folder, 'lost_versions', 'gen_versions')


if __name__ == '__main__':
    main(sys.argv[1])
