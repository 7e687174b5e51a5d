"""Makes drawn scenarios in which a turn of the journal comes between plays as a file of cases (drawn_turns), by the plain models of
tools/model.

usage: tools/scenarios/gen_drawn_turns.py FOLDER    (crates/mail_scenario, or a folder with a folder data in it)
       tools/scenarios/gen_drawn_turns.py --seeds FIRST LAST    prints what the turns of each of these seeds meet
"""
import sys
from typing import List

from common import ARCHIVE_LEARNED, INBOX_LEARNED, Cases, add, begin, journal, learn, worked_server
from gen_random import NAMES, Draw
from gen_turns import opened

# One scenario each. They were picked so that each of MEETS comes in more than one.
SEEDS = [22, 49, 137, 176, 204, 222, 263, 276, 331, 564, 604, 606, 674, 899, 947]
# What a turn may meet: an intent that is pending, an action that ended before it, one that waits, the way back to the first side, and a
# play behind it; or it is cut off by a call of the disk that fails, or by a stop.
MEETS = ['pending', 'ended', 'waits', 'back', 'goes on', 'fails', 'stopped']


class Turning(Draw):
    """A scenario over a journal that is nearly long, or is."""

    def __init__(self, seed: int):
        super().__init__(seed)
        self.sents, self.met = 0.1, set()
        # The generation of the journal as the scenario begins.
        self.began = 1

    def long(self, generation: int) -> bytes:
        """A journal in which mailboxes were recorded again and again without a change."""
        bodies = [begin(*NAMES), INBOX_LEARNED, ARCHIVE_LEARNED]
        size = self.randint(3500, 4200)
        while len(journal(*bodies)) < size:
            bodies.append(self.choice([learn('INBOX', 0, 5, 715, 44, [], []), learn('Archive', 0, 9, 300, 7, [], [])]))
        return journal(*bodies, generation=generation)

    def sides(self) -> List[bytes]:
        if self.likely(0.5):
            return [self.long(1)]
        self.began = 2
        return [journal(begin(*NAMES)), self.long(2)]

    def played(self, s, polite=False):
        """A play. It is noted what a turn in it met."""
        before, said = opened(s), len(s.lines)
        super().played(s, polite)
        if before.generation > self.began:
            self.met.add('goes on')
        if not before.is_turn_due():
            return
        if opened(s).generation > before.generation:
            book = before.book
            self.met |= {'turns'} | {what for what, holds in [('pending', book.pending), ('ended', any(book.outcomes)),
                                                              ('waits', book.unsettled()), ('back', self.began == 2)] if holds}
        else:
            self.met.add('stopped' if any(line.startswith('stop ') for line, _ in s.lines[said:]) else 'fails')


def main(*words: str) -> None:
    if words[0] == '--seeds':
        for seed in range(int(words[1]), int(words[2]) + 1):
            draw = Turning(seed)
            draw.playing(*draw.sides())
            print(seed, *sorted(draw.met))
        return
    cases, met = Cases(DRAWN), []
    cases.head(worked_server())
    for seed in SEEDS:
        draw = Turning(seed)
        add(cases, 'drawn from %d' % seed, draw.playing(*draw.sides()))
        assert 'turns' in draw.met, seed
        met += draw.met
    assert len(SEEDS) == 15 and all(met.count(what) > 1 for what in MEETS), met
    cases.write(words[0], 'drawn_turns', 'gen_drawn_turns')


DRAWN = """\
# Fifteen drawn scenarios over a journal that grew long, in which a `play` tells it anew on its other side between the others: with
# actions that ended and that wait, an intent that is pending, losses, calls that fail, stops and polite other clients. Then all is
# played to the end. No action took effect twice, and each that is done once.

"""


if __name__ == '__main__':
    main(*sys.argv[1:])
