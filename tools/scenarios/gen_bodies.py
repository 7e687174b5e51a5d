"""Makes the scenarios in which texts are fetched, shown and dated as a file of cases (bodies), by the plain models of tools/model: each
call of link, disk and shelf is lost or fails, the world stops behind each call, and some scenarios are drawn.

usage: tools/scenarios/gen_bodies.py FOLDER    (crates/mail_scenario, or a folder with a folder data in it)
"""
import random
import sys
from typing import Callable, List

from common import BOTH_LEARNED, LOSSES, OFFERS, Cases, Told

DATED = b'Message-ID: <m40@x>\nDate: Tue, 1 Jul 2003 10:52:37 +0200\n\nforty\n'
TEXT = b'Message-ID: <m42@x>\n\nnineteen octets, so'
BOXES = [('INBOX', 5, 44, 715, [(40, 700, DATED, '\\Seen'), (42, 715, TEXT)], []), ('Archive', 9, 7, 300, [], [])]
FETCH = 'fetch INBOX 42'


def kept() -> Told:
    """The text of one message is kept, and that of another isn't."""
    s = Told()
    s.server(OFFERS, BOXES, left=BOTH_LEARNED)
    s.stand()
    s.says('fetch INBOX 40', 'kept 64')
    return s


class Broken:
    """A reading of which a call is lost or fails, or behind which the world stops."""

    def __init__(self, cases: Cases):
        self.cases, self.heads = cases, len(kept().lines)

    def counts(self, command: str) -> tuple:
        s = kept()
        s.run(*command.split())
        return s.world.counts

    def add(self, title: str, plan: Callable[[Told], None], command: str = FETCH, *then: str) -> None:
        s = kept()
        plan(s)
        s.run(*command.split())
        s.texts()
        for later in then or ('show INBOX 42', FETCH, 'show INBOX 42', 'dates INBOX'):
            s.run(*later.split())
        s.texts()
        s.lines = s.lines[self.heads:]
        self.cases.add(title, s)

    def fetches(self) -> None:
        links, disks = self.counts(FETCH)
        for n in range(1, links + 1):
            for loss in LOSSES:
                self.add('call %d of the link is lost, %s' % (n, loss), lambda s: s.link(n, loss))
        for n in range(1, disks + 1):
            self.add('call %d of the disk fails' % n, lambda s: s.disk(n))
        for n in range(links + disks + 1):
            for pick in range(2):
                self.stopped(n, pick)
        self.add('the shelf fails', lambda s: s.shelf(1))

    def stopped(self, n: int, pick: int) -> None:
        s = kept()
        s.stop(n)
        s.run(*FETCH.split())
        s.restart(pick)
        s.texts()
        for later in ('show INBOX 42', 'show INBOX 40', FETCH, 'dates INBOX'):
            s.run(*later.split())
        s.lines = s.lines[self.heads:]
        self.cases.add('a stop behind %d calls, pick %d' % (n, pick), s)

    def looks(self) -> None:
        """`show` and `dates`, which call the disk and the shelf alone."""
        for command in ('show INBOX 40', 'dates INBOX'):
            for n in range(1, 10):
                self.add('call %d of the disk fails at %s' % (n, command.split()[0]), lambda s: s.disk(n), command, command)
            for n in range(1, 4):
                self.add('call %d of the shelf fails at %s' % (n, command.split()[0]), lambda s: s.shelf(n), command, command)


def drawn(cases: Cases, count: int) -> None:
    """Readings, other commands, other clients, losses, failures and stops in turn."""
    draw = random.Random(54)
    heads = len(kept().lines)
    for number in range(1, count + 1):
        s = kept()
        for _ in range(draw.randint(8, 14)):
            step(s, draw)
        for last in ('play', 'list INBOX', 'dates INBOX'):
            s.run(*last.split())
        s.texts()
        s.lines = s.lines[heads:]
        cases.add('drawn %d' % number, s)


def step(s: Told, draw: random.Random) -> None:
    wrong: List[Callable[[], None]] = [
        lambda: s.link(draw.randint(1, 17), draw.choice(LOSSES[:4])), lambda: s.disk(draw.randint(1, 10)),
        lambda: s.shelf(draw.randint(1, 2)), lambda: s.stop(draw.randint(0, 24))]
    uid, name = draw.choice([40, 42, 42, 43, 45]), draw.choice(['INBOX', 'INBOX', 'INBOX', 'Archive', 'Sent'])
    changes = [('drop', 'INBOX', uid), ('set', 'INBOX', uid, '\\Flagged'), ('shift', 'INBOX', uid, 'Archive', draw.randint(7, 9)),
               ('add', 'INBOX', draw.choice([44, 45]), b'Date: 1 Jul 2003 10:52 +0200\n\nnew %d\n' % draw.randint(1, 9))]
    if draw.random() < 0.25:
        s.change(*draw.choice(changes))
    broken = draw.random() < 0.25
    if broken:
        draw.choice(wrong)()
    command = draw.choice(['fetch %s %d' % (name, uid)] * 4 + ['show %s %d' % (name, uid)] * 3 + ['dates ' + name, 'play', 'play'])
    s.run(*command.split())
    if broken and draw.random() < 0.5:
        s.restart(draw.randint(0, 3))
        s.texts()


BODIES = """\
# Texts are fetched, shown and dated. The text of 40 is kept; a call of link, disk or shelf is lost or fails, or the world stops behind it: what
# was kept stays, and the next `fetch` keeps the other one. Then scenarios that were drawn. A line that begins with a space is what the line
# before it is to print.

"""


def main(folder: str) -> None:
    cases = Cases(BODIES)
    cases.head(kept())
    broken = Broken(cases)
    broken.fetches()
    broken.looks()
    drawn(cases, 30)
    cases.write(folder, 'bodies', 'gen_bodies')


if __name__ == '__main__':
    main(sys.argv[1])
