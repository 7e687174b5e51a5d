"""Makes drawn scenarios in which another client changes messages between the tries of a change of flags as a file of cases (drawn_tries),
by the plain models of tools/model.

usage: tools/scenarios/gen_drawn_tries.py FOLDER    (crates/mail_scenario, or a folder with a folder data in it)
       tools/scenarios/gen_drawn_tries.py --seeds FIRST LAST    prints what the tries of each of these seeds meet
"""
import copy
import sys
from typing import List, Tuple

from common import ARCHIVE_LEARNED, INBOX_LEARNED, LOSSES, Cases, accept, add, begin, journal, keys, real, withdraw, worked_server
from gen_drawn_turns import Turning
from gen_random import NAMES, SOME
from gen_turns import opened
from model.commands import Store
from model.journal import MAGIC_1
from model.playing import CHANGED, SO, play
from model.world import Fault, World

# One scenario each. They were picked so that each of MEETS comes in more than one.
SEEDS = [35, 53, 54, 74, 80, 101, 110, 124, 185, 229, 246, 302, 324, 328, 350]
# How a change of flags ends behind another client's: at its second or third try, given up, or as already so. What a run leaves behind its end:
# a number of tries taken back, or an open try behind the first. What is told anew: such a number, or a journal of the first version.
MEETS = ['second', 'third', 'given up', 'so', 'left', 'open', 'told anew', 'taken over']
KNOWN = [begin(*NAMES), INBOX_LEARNED, ARCHIVE_LEARNED]
# How many calls of the link lie between two tries: a FETCH, a STORE, and the replies.
APART = 4


class Trying(Turning):
    """A scenario in which another client changes a message just before its STORE."""

    def sides(self) -> List[bytes]:
        kind = self.random()
        if kind < 0.5:
            return [journal(*KNOWN)]
        if kind < 0.75:
            return [journal(*KNOWN, magic=MAGIC_1)]
        # A journal that grew long, in which a try was taken back.
        tried = [accept(1, ('flag', real('INBOX', 5, 42), '+', ['\\Seen'])), withdraw(1, self.choice([1, 2]))]
        return [self.long(1)[:-1] + journal(*tried)[len(journal()) - 1:]]

    def aimed(self, world) -> List[str]:
        """Most of what is asked for is a change of flags that isn't so yet."""
        rows = list(Store(World((), (), *(file.seen for file in world.files))).book.view().items())
        if not rows or self.likely(0.3):
            return super().aimed(world)
        (name, (kind, number)), (_, flags) = self.choice(rows)
        front = ['flag', name, ('d' if kind == 'dummy' else '') + str(number)]
        if flags and self.likely(0.3):
            return [*front, '-', self.choice(sorted(flags))]
        return [*front, '+', *self.sample(sorted(set(keys(SOME)) - flags) or ['c'], 1)]

    def stores(self, s) -> List[Tuple[int, str, int]]:
        """The calls by which a play would send its STOREs, each with the mailbox and the UID."""
        world, found = copy.deepcopy(s.world), []
        world.waiting = None
        send = world.send

        def noted(text: bytes, carried=None):
            words = text.decode('latin-1').split()
            if words[1:3] == ['UID', 'STORE']:
                found.append((world.link_calls + 1, world.in_box, int(words[3])))
            return send(text, carried)
        world.send = noted
        try:
            play(world)
        except Fault:
            pass
        return found

    def others(self, s, name: str, uid: int) -> List[str]:
        """The flags that another client gives a message: mostly one more that no action names."""
        message = s.world.box(name).at(uid)
        if message is None or self.likely(0.2):
            return self.some(SOME, 2)
        return [*message['flags'], self.choice(['\\Answered', 'later'])]

    def meddle(self, s) -> None:
        """Others change a message in front of some tries of a change of flags, and a call of one of them may be lost."""
        there = self.stores(s)
        if not there:
            return
        call, name, uid = self.choice(there)
        for turn in range(3):
            if self.likely(0.75):
                s.other(call + APART * turn, 'set', name, uid, *self.others(s, name, uid))
        if self.likely(0.4):
            s.link(call + self.randint(0, 2 * APART), self.choice(LOSSES))

    def played(self, s, polite=False) -> None:
        before = opened(s)
        if self.likely(0.8):
            self.meddle(s)
        super().played(s, polite)
        after = opened(s)
        if after.book.tries:
            self.met |= {'left'} | ({'open'} if after.book.pending else set())
        if after.generation > before.generation and before.book.tries:
            self.met.add('told anew')

    def playing(self, *sides):
        s = super().playing(*sides)
        if sides[0][1:9] == MAGIC_1:
            self.met.add('taken over')
        book, authors = opened(s).book, [author for author, *_ in s.world.history]
        self.met |= {what for what, end in [('second', 'R2'), ('third', 'R3')] if any(author.endswith(end) for author in authors)}
        self.met |= {what for what, kind in [('given up', CHANGED), ('so', SO)] if any(o[:2] == ('conflict', kind) for o in book.outcomes if o)}
        return s


def main(*words: str) -> None:
    if words[0] == '--seeds':
        for seed in range(int(words[1]), int(words[2]) + 1):
            draw = Trying(seed)
            s = draw.playing(*draw.sides())
            print(seed, len(s.lines), sum(len(printed) for _, printed in s.lines), *sorted(draw.met))
        return
    cases, met = Cases(DRAWN), []
    cases.head(worked_server())
    for seed in SEEDS:
        draw = Trying(seed)
        add(cases, 'drawn from %d' % seed, draw.playing(*draw.sides()))
        met += draw.met
    assert len(SEEDS) == 15 and all(met.count(what) > 1 for what in MEETS), met
    cases.write(words[0], 'drawn_tries', 'gen_drawn_tries')


DRAWN = """\
# Fifteen drawn scenarios in which another client changes messages just before their STOREs, so that changes of flags are tried again: with
# losses, calls that fail, stops and polite other clients, some over a journal of the first version, or over one that grew long. Then all is
# played to the end. No action took effect twice, and each that is done once.

"""


if __name__ == '__main__':
    main(*sys.argv[1:])
