"""What the generators of scenarios share: the worked server and its journal, scenarios that are also written by hand, and their files."""
import pathlib
import sys

# The package of plain models stands beside this folder.
sys.path.insert(0, str(pathlib.Path(__file__).resolve().parent.parent))
from model.journal import accept, begin, body_of, event_of, intend, journal, keys, learn, real, settle, withdraw  # noqa: E402
from model.scenario import Cases, Scenario  # noqa: E402

# The worked server: two mailboxes, two messages; and the records that tell of it.
OFFERS = ('IMAP4rev2', 'QRESYNC')
M40, M42 = b'Message-ID: <m40@x>\r\n\r\n', b'Message-ID: <m42@x>\r\n\r\n'
WORKED: list = [('INBOX', 5, 44, 715, [(40, 700, M40, '\\Seen'), (42, 715, M42)], []), ('Archive', 9, 7, 300, [], [])]
BEGIN = begin('INBOX', 'Archive')
INBOX_LEARNED = learn('INBOX', 1, 5, 715, 44, [], [(40, 700, ['\\Seen']), (42, 715, [])])
ARCHIVE_LEARNED = learn('Archive', 1, 9, 300, 7, [], [])
STATE = [BEGIN, INBOX_LEARNED, ARCHIVE_LEARNED]
ACCEPTED = accept(1, ('flag', real('INBOX', 5, 42), '+', ['\\Seen']))
# The journal before and behind a first synchronisation, and with an action.
BEGUN, BOTH_LEARNED, SEEN = journal(BEGIN), journal(*STATE), journal(*STATE, ACCEPTED)

# A message, and an action of each kind.
T = b'Message-ID: <a1@x>\r\nSubject: hi\r\n\r\nhello\r\n'
MOVED = ('move', real('INBOX', 5, 42), 'Archive')
FLAGGED = ('flag', ('dummy', 1), '+', ['\\Flagged'])
APPENDED = ('append', 'Archive', ['\\Seen'], T)

# How a connection is lost in a call.
LOSSES = ['nothing', 'part 1', 'part 7', 'all', 'waits done', 'waits dropped']


def check_bytes() -> None:
    """Compares what the model writes with bytes that were worked out by hand from docs/JOURNAL.md."""
    by_hand = [
        (BEGUN, '014f444d41494c4a32000000010100000010420205494e424f58074172636869766500'),
        (ACCEPTED, '4100000001465205494e424f58000000050000002a2b0001055c7365656e'),
        (BOTH_LEARNED, '014f444d41494c4a32000000010100000010420205494e424f58074172636869766501000000424c05494e424f580100000005'
                       '00000000000002cb0000002c00000000000000020000002800000000000002bc0001055c7365656e0000002a00000000000002cb'
                       '000001000000224c07417263686976650100000009000000000000012c00000007000000000000000000'),
        (accept(1, MOVED), '41000000014d5205494e424f58000000050000002a0741726368697665'),
        (intend(1, ('shift', 'INBOX', 5, 42, 'Archive')), '49000000014d05494e424f58000000050000002a0741726368697665'),
        (settle(1, ('done', 9, 7)), '530000000144010000000900000007'),
        (settle(2, ('done',)), '53000000024400'),
        (settle(1, ('conflict', 9, [715, 722])), '5300000001430900000000000002cb00000000000002d2'),
        (withdraw(1, 1), '570000000101'),
    ]
    for told, wanted in by_hand:
        assert told.hex() == wanted, (told.hex(), wanted)
    assert (len(T), len(BOTH_LEARNED), len(SEEN)) == (42, 145, 180)


def check_reading() -> None:
    """Reads events back from their bytes."""
    flags = lambda action: tuple(keys(part) if isinstance(part, list) else part for part in action)
    events = [('accept', number, flags(action)) for number, action in enumerate([MOVED, FLAGGED, APPENDED], 1)]
    events += [('intend', 1, ('store', 'INBOX', 5, 42, 715)), ('intend', 1, ('shift', 'INBOX', 5, 42, 'Archive')),
               ('intend', 3, ('put', 'Archive', 9, 7))]
    events += [('settle', 1, ('done', 9, 7)), ('settle', 2, ('done',)), ('settle', 1, ('conflict', 9, [715, 722])),
               ('settle', 1, ('conflict', 12, [7, 8])), ('withdraw', 1, 2)]
    for event in events:
        assert event_of(body_of(event)) == event, event


check_bytes()
check_reading()


class Told(Scenario):
    """A scenario in which what is printed is also written by hand."""

    def gives(self, status: int, *command: str) -> None:
        """A command that ends with this status."""
        told = self.run(*command)
        assert told == status, (command, told)

    def says(self, command: str, *printed: str) -> None:
        """A command of bare words, and the lines that it prints."""
        self.run(*command.split())
        told = [line[2:] for line in self.lines[-1][1][1:-1]]
        assert told == list(printed), (command, told, printed)

    def refuses(self, reason: str, *commands: str) -> None:
        for command in commands:
            self.says(command, 'refused ' + reason)

    def looks(self) -> None:
        self.run('queue')
        self.lists('INBOX', 'Archive')

    def put(self, text: bytes, *command: str) -> None:
        self.input(text)
        self.run('append', *command)


def worked_server() -> Told:
    """A scenario over the worked server, whose mailboxes were synchronised."""
    scenario = Told()
    scenario.server(OFFERS, WORKED, left=BOTH_LEARNED)
    scenario.stand()
    return scenario


# How many lines a file begins with, where its cases begin with `worked_server`. A case that has its own server has none of them.
HEADS = len(worked_server().lines)


def without_head() -> Told:
    scenario = Told()
    scenario.lines = [('', [])] * HEADS
    return scenario


def over(left: bytes, right: bytes = b'') -> Told:
    """A scenario over files of its own."""
    scenario = without_head()
    scenario.server((), left=left, right=right)
    scenario.stand()
    return scenario


def add(cases: Cases, title: str, scenario: Scenario) -> None:
    scenario.lines = scenario.lines[HEADS:]
    cases.add(title, scenario)
