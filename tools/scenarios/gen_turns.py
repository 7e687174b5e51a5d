"""Makes the scenarios in which `play` tells a journal anew on its other side as a file of cases (turns), by the plain models of
tools/model.

usage: tools/scenarios/gen_turns.py FOLDER    (crates/mail_scenario, or a folder with a folder data in it)
"""
import sys
from typing import Callable, List

from common import Cases
from gen_playback import Played, add, done, new
from model.commands import Store
from model.world import World

# The plays that tell the journal anew.
TURNS_AT = (20, 36)
# Where the journal ends in front of the nineteenth play and of the twentieth, counted by hand.
ENDS = {19: 3960, 20: 4173}


def change(s: Played, number: int) -> None:
    s.asks('flag INBOX 42 %s \\Seen' % '-+'[number % 2])


def grow(s: Played, number: int) -> int:
    """Plays with one change of a flag each, from this number on, until with the next change a turn is due. Gives its number."""
    change(s, number)
    while not opened(s).is_turn_due():
        s.plays('played 1 conflicts 0')
        number += 1
        change(s, number)
    return number


def left_by(made: Played, *sides: bytes) -> Played:
    """The same server and files, without what led there."""
    boxes = [(box.name, box.validity, box.uidnext, box.highest, [(m['uid'], m['modseq'], m['text'], *m['flags']) for m in box.messages], box.gone)
             for box in made.world.boxes]
    return new(boxes=boxes, **dict(zip(('left', 'right'), sides or [file.seen for file in made.world.files])))


def grown() -> Played:
    s = new()
    assert grow(s, 1) == TURNS_AT[0]
    return left_by(s)


def grown_again() -> Played:
    """A journal of the second generation that grew long, beside the one that it was told from."""
    s = new()
    grow(s, 1)
    s.plays('played 1 conflicts 0')
    assert grow(s, TURNS_AT[0] + 1) == TURNS_AT[1]
    return left_by(s)


def opened(s: Played) -> Store:
    """The journal of a scenario as it stands, opened in a world of its own."""
    return Store(World((), (), *(file.seen for file in s.world.files)))


def head_of(text: bytes) -> str:
    return text[:13].hex()


def twenty_plays(c: Cases) -> None:
    s = new()
    for number in range(1, TURNS_AT[0] + 1):
        change(s, number)
        left, right = (file.seen for file in s.world.files)
        assert number not in ENDS or len(left) == ENDS[number], (number, len(left))
        assert right == b''
        s.plays('played 1 conflicts 0')
    assert head_of(s.world.files[1].seen) == '014f444d41494c4a3200000002'
    s.says('list INBOX', '40 700 \\seen', '42 735')
    s.says('report')
    add(c, 'twenty plays of one flag: the last one tells the journal anew', s.ends(), *[done()] * TURNS_AT[0])


def and_back(c: Cases) -> None:
    s = grown_again()
    s.plays('played 1 conflicts 0')
    assert [head_of(file.seen)[-8:] for file in s.world.files] == ['00000003', '00000002']
    c.add('the journal goes back to the first side', s.ends())


def still_long(c: Cases) -> None:
    s = new()
    s.input(b'Message-ID: <a1@x>\r\n\r\n' + b'x' * 4000 + b'\r\n')
    s.run('append', 'Archive')
    before = [file.seen for file in s.world.files]
    s.link(1, 'nothing')
    s.gives(4, 'play')
    assert [file.seen for file in s.world.files] == before
    s.plays('played 1 conflicts 0')
    assert s.world.files[1].seen == b''
    add(c, 'a journal of more than 4,096 bytes that told anew takes more than half of them stays', s.ends(), done(9, 7))


def told_once(c: Cases) -> None:
    s = grown()
    s.link(1, 'nothing')
    s.gives(4, 'play')
    side = s.world.files[1].seen
    assert head_of(side)[-8:] == '00000002'
    s.run('queue')
    s.plays('played 1 conflicts 0')
    assert s.world.files[1].seen.startswith(side[:-1])
    c.add('it is told anew before the connection is made, also where none is made', s.ends())


class Turned:
    """A play that tells the journal anew, in which a call of that fails, or behind which the world stops."""

    def __init__(self, where: str, begun: Callable[[], Played]):
        self.cases, self.begun = Cases(LOST % where), begun
        head = begun()
        self.heads = len(head.lines)
        self.cases.head(head)

    def ended(self, title: str, s: Played) -> None:
        s.run('queue')
        s.plays('played 1 conflicts 0')
        s.history()
        s.lists('INBOX', 'Archive')
        book = opened(s).book
        assert all(outcome == ('done',) for outcome in book.outcomes) and not book.pending
        s.lines = s.lines[self.heads:]
        self.cases.add(title, s)

    def all(self) -> Cases:
        for n in range(1, CALLS + 1):
            s = self.begun()
            s.disk(n)
            s.gives(3, 'play')
            self.ended('call %d of the disk fails' % n, s)
        for n in range(CALLS + 1):
            for pick in range(5):
                s = self.begun()
                s.stop(n)
                s.run('play')
                s.restart(pick)
                self.ended('a stop behind %d calls, pick %d' % (n, pick), s)
        return self.cases


TURNS = """\
# Where a journal grew long, `play` tells it anew on its other side before it makes its connection.

"""
LOST = """\
# A long journal is told anew on %s, and a call of the disk fails on the way, or the world stops behind a call; then it is played to
# the end.

"""
MAKERS: List[Callable[[Cases], None]] = [twenty_plays, and_back, still_long, told_once]
# The calls of the disk up to the connection: nine of an opening, and ten of a turn, for which the other side is closed first.
CALLS = 9 + 10


def main(folder: str) -> None:
    cases = Cases(TURNS)
    for make in MAKERS:
        make(cases)
    cases.write(folder, 'turns', 'gen_turns')
    Turned('its other side, on which nothing stands', grown).all().write(folder, 'lost_turns', 'gen_turns')
    Turned('the side that it was told from before', grown_again).all().write(folder, 'lost_turns_back', 'gen_turns')


if __name__ == '__main__':
    main(sys.argv[1])
