#!/usr/bin/env python3
"""What the program `mail_drill SEED N` prints, by the plain models of tools/model: a mailbox of N messages, 2N commands that the seed
decides, and rounds of `play` through lost connections and stops.

    drill.py SEED N                        the line
    drill.py --scenario SEED N             the same as a case, for mail_scenario
    drill.py --compare PROGRAM FIRST LAST N  the program's line for each of these seeds beside the model's
"""
import subprocess
import sys

from common import Scenario
from model.commands import Store
from model.journal import tags_of
from model.world import draws

LOSSES = ['nothing', 'part 10', 'all']


class Drill:
    def __init__(self, seed, size):
        self.draw, self.size = draws(seed), size
        self.accepted = self.refused = self.rounds = self.stops = 0
        self.s = Scenario()
        self.s.server(boxes=[
            ('INBOX', 5, size + 1, size, [(i, i, b'Message-ID: <m%d@d>\r\n\r\n' % i) for i in range(1, size + 1)], []),
            ('Archive', 9, 1, 1, [], [])])
        self.s.stand()

    def give(self, number):
        """A command, which is drawn."""
        kind = self.draw(10)
        if kind < 8:
            uid = str(1 + self.draw(self.size))
            words = ['flag', 'INBOX', uid, '+', '\\Flagged'] if kind < 6 else ['move', 'INBOX', uid, 'Archive']
        else:
            words = ['append', 'Archive']
            self.s.input(b'Message-ID: <a%d@d>\r\n\r\n' % number)
        status = self.s.run(*words)
        assert status in (0, 10), (words, status)
        if status:
            self.refused += 1
        else:
            self.accepted += 1

    def strike(self, number):
        """What goes wrong in a round; the pick of the stop, if it is one."""
        call, second = 1 + self.draw(400), self.draw(3)
        if number % 4:
            self.s.link(call, LOSSES[second])
            return None
        self.s.stop(call)
        return second

    def play(self):
        pick = None
        for number in range(1, 102):
            if pick is not None:
                self.s.restart(pick)
                self.stops += 1
            pick = self.strike(number) if number <= 100 else None
            self.rounds = number
            if self.s.run('play') in (0, 1):
                return
        raise AssertionError('the last round')

    def held(self):
        assert self.s.run('init', 'INBOX', 'Archive') == 0 and self.s.run('play') == 0
        for number in range(1, 2 * self.size + 1):
            self.give(number)
        self.play()
        return self

    def line(self):
        world = self.s.world
        book = Store(world).book
        deeds = [sum(author in tags_of(n) for author, *_ in world.history) for n in range(1, len(book.queue) + 1)]
        assert len(book.queue) == self.accepted and all(author != 'other' for author, *_ in world.history)
        settled = sum(o is not None for o in book.outcomes)
        missing = sum(d != 1 and not (o and o[0] == 'conflict') for d, o in zip(deeds, book.outcomes))
        self.conflicts = sum(bool(o) and o[0] == 'conflict' for o in book.outcomes)
        return 'actions %d refused %d settled %d twice %d missing %d' % (self.accepted, self.refused, settled, sum(d > 1 for d in deeds),
            missing)


def compare(program, first, last, size):
    wrong = 0
    for seed in range(first, last + 1):
        d = Drill(seed, size).held()
        ours = d.line()
        ran = subprocess.run([program, str(seed), str(size)], capture_output=True, text=True)
        theirs = ran.stdout.rstrip('\n') if ran.returncode == 0 else 'status %d: %s' % (ran.returncode, ran.stdout)
        if ours != theirs:
            wrong += 1
            print('seed %d: %s\n  the model: %s' % (seed, theirs, ours))
        else:
            print('seed %d: %s (rounds %d, stops %d, conflicts %d)' % (seed, ours, d.rounds, d.stops, d.conflicts))
    print('%d seeds, %d differ' % (last - first + 1, wrong))
    return 1 if wrong else 0


def main(args):
    if args[:1] == ['--compare']:
        return compare(args[1], *map(int, args[2:]))
    show = args[:1] == ['--scenario']
    d = Drill(*map(int, args[show:])).held()
    if show:
        d.s.history()
        d.s.files()
        d.s.run('report')
        print('== seed %d, size %d' % (int(args[1]), int(args[2])))
        print(d.s.case(), end='')
    else:
        print(d.line())
    return 0


if __name__ == '__main__':
    sys.exit(main(sys.argv[1:]))
