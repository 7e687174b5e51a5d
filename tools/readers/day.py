"""A day with a reader: it works without a network, comes back, and what it did is on the server, in the Maildir and in `list`."""
import contextlib
import pathlib
import re
import time
from typing import Any, FrozenSet, Iterator, List, NamedTuple, Tuple, Type

from servers import kinds

from .account import BOXES, Account, Other
from .reader import Reader
from .terminal import Lost

SEEN = frozenset({"seen"})
FLAGGED = frozenset({"flagged"})
ANSWERED = frozenset({"answered"})
NONE: FrozenSet[str] = frozenset()
# How long a sync of these few letters may take.
SYNC_SECONDS = 60.0
# The letters that are in INBOX in the morning; the first one was read already.
SUBJECTS = ("timetable", "lunch", "invoice", "minutes", "photos", "newsletter", "question", "agenda", "receipt", "nameless")


class Place(NamedTuple):
    """Where a message is."""

    subject: str
    box: str
    flags: FrozenSet[str] = NONE


def about(subject: str) -> str:
    """What a letter says."""
    return f"This is about the {subject}."


def letter(subject: str, number: int) -> bytes:
    """A letter. The nameless one has no Message-ID."""
    lines = [f"Message-ID: <{subject}@example.org>"] if subject != "nameless" else []
    lines += [f"From: Ben <ben{number}@example.org>", "To: ann@example.org", f"Date: Tue, 1 Dec 2026 09:{number:02}:00 +0000"]
    return "\r\n".join([*lines, f"Subject: {subject}", "", about(subject), ""]).encode()


class Day:
    """One reader's day, and the comparisons, counted."""

    def __init__(self, account: Account, reader: Reader) -> None:
        self.account, self.reader = account, reader
        self.passed = self.failed = 0
        self.name = type(reader).__name__.lower()

    def same(self, title: str, told: Any, wanted: Any) -> None:
        """Counts a comparison."""
        good = told == wanted
        self.passed, self.failed = self.passed + good, self.failed + (not good)
        print(f"ok: {self.name}: {title}" if good else f"FAILED: {self.name}: {title}: {told!r} in place of {wanted!r}", flush=True)

    def other(self) -> Other:
        """Another client."""
        return Other(self.account.server, self.account.certificate)

    def sync(self, title: str, wanted: int) -> str:
        """A sync, of which the status is wanted. What it says besides."""
        status, printed, said = self.account.run("sync")
        self.same(f"{title}: the status of sync", status, wanted)
        if status != wanted:
            print(printed + said, flush=True)
        return said

    def sync_inside(self, title: str) -> None:
        """A sync by the reader itself, which is over once no other one is at work. It has asked for something."""
        asked = len(self.account.lines("history"))
        if not self.reader.sync():
            self.sync(title, 0)
            return
        ended = time.monotonic() + SYNC_SECONDS
        while time.monotonic() < ended and (len(self.account.lines("history")) == asked or self.is_busy()):
            time.sleep(0.5)
        self.same(f"{title}: it has the Maildir synced", time.monotonic() < ended, True)

    def is_busy(self) -> bool:
        """Whether something waits, or a sync is at work."""
        return bool(self.account.lines("queue")) or self.account.is_syncing()

    def agree(self, title: str, wanted: List[Place]) -> None:
        """Compares the server, the Maildir and `list`, and the server with what is wanted."""
        found: List[Place] = []
        with self.other() as other:
            for box in BOXES:
                there = other.rows(box)
                self.same(f"{title}: the files of {box} are the server's messages", self.account.filed(box), there)
                self.same(f"{title}: list {box} is the server's", self.account.listed(box), {uid: row.flags for uid, row in there.items()})
                found += [Place(row.subject, box, row.flags) for row in there.values()]
        self.same(f"{title}: each message is where it should be, once", sorted(found, key=str), sorted(wanted, key=str))
        self.same(f"{title}: nothing waits", self.account.lines("queue"), [])

    def begin(self) -> None:
        """The first sync."""
        with self.other() as other:
            for box in BOXES[1:]:
                other.link.create(box)
            for number, subject in enumerate(SUBJECTS):
                other.put("INBOX", letter(subject, number), "\\Seen" if number == 0 else "")
        self.same("init", self.account.lines("init", *BOXES), ["ready"])
        self.sync("in the morning", 0)
        self.agree("in the morning", [Place(subject, "INBOX", NONE if number else SEEN) for number, subject in enumerate(SUBJECTS)])

    def work_offline(self) -> None:
        """What is done in the reader without a network."""
        reader = self.reader
        reader.open()
        reader.unread("timetable")
        self.same("a letter can be read", about("lunch") in reader.read("lunch", about("lunch")), True)
        reader.flag("invoice")
        reader.save("minutes", "Archive")
        reader.flag("photos")
        reader.save("photos", "Archive")
        reader.delete("newsletter")
        reader.answer("question")
        reader.flag("agenda")
        reader.save("nameless", "Archive")
        reader.postpone("plan")
        reader.write_out()
        reader.leave()

    def asked(self) -> List[str]:
        """What waits, without its numbers and the identifiers of letters."""
        lines = (" ".join(line.split()[2:]).partition(" <")[0] for line in self.account.lines("queue"))
        return sorted(re.sub(r"\bd[0-9]+\b", "dN", line) for line in lines)

    def wishes(self) -> List[str]:
        """What should wait then. Whether a letter that was answered counts as read is the reader's."""
        return sorted([
            "append Drafts", "append Sent", "flag Archive dN + \\flagged", "flag INBOX 1 - \\seen", "flag INBOX 2 + \\seen",
            "flag INBOX 3 + \\flagged", "flag INBOX 7 + " + " ".join(f"\\{flag}" for flag in sorted(self.answered())),
            "flag INBOX 8 + \\flagged", "move INBOX 10 Archive", "move INBOX 4 Archive", "move INBOX 5 Archive", "move INBOX 6 Trash",
        ])

    def come_back(self) -> List[Place]:
        """Another client has been at work meanwhile; and then the sync."""
        with self.other() as other:
            other.remove("INBOX", "agenda")
            other.change("INBOX", "receipt", "\\Answered")
            other.put("INBOX", letter("statement", 30))
        said = self.sync("behind it", 1)
        self.same("what couldn't be done is told", "message-gone" in said, True)
        wanted = [
            Place("timetable", "INBOX"), Place("lunch", "INBOX", SEEN), Place("invoice", "INBOX", FLAGGED), Place("minutes", "Archive"),
            Place("photos", "Archive", FLAGGED), Place("newsletter", "Trash"), Place("question", "INBOX", self.answered()),
            Place("receipt", "INBOX", ANSWERED), Place("statement", "INBOX"), Place("nameless", "Archive"), Place("Re: question", "Sent", SEEN),
        ]
        self.agree("behind it", [*wanted, Place("plan", "Drafts", self.drafted())])
        return wanted

    def answered(self) -> FrozenSet[str]:
        """The flags of a message that was answered: whether it counts as read is the reader's."""
        return ANSWERED | self._said("INBOX", "question")

    def drafted(self) -> FrozenSet[str]:
        """The flags of a draft: which they are is the reader's."""
        return self._said("Drafts", "plan")

    def _said(self, box: str, subject: str) -> FrozenSet[str]:
        """The flags that a file of a subject has."""
        return next((row.flags for row in self.account.filed(box).values() if row.subject == subject), NONE)

    def work_beside(self, wanted: List[Place]) -> None:
        """The reader stays open while a sync is at work."""
        reader = self.reader
        reader.open()
        self.same("a letter that came is there", about("statement") in reader.read("statement", about("statement")), True)
        drafted = self.drafted()
        reader.recall("plan")
        reader.write_out()
        self.sync("the reader is open", 0)
        reader.flag("receipt")
        reader.change_to("Archive")
        reader.save("minutes", "INBOX")
        reader.write_out()
        self.sync_inside("it is still open")
        reader.leave()
        changed = [Place("statement", "INBOX", SEEN), Place("receipt", "INBOX", ANSWERED | FLAGGED), Place("minutes", "INBOX")]
        subjects = {place.subject for place in changed}
        kept = [place for place in wanted if place.subject not in subjects]
        # The draft was deleted as it was sent.
        self.agree("in the evening", [*kept, *changed, Place("plan", "Sent", SEEN), Place("plan", "Trash", drafted)])

    def rest(self) -> None:
        """Where nothing was done a sync asks nothing, and leaves each file as it is."""
        names = [path for box in BOXES for path in self.account.files(box)]
        times = [path.stat().st_ctime_ns for path in names]
        asked = self.account.lines("history")
        self.sync("nothing was done", 0)
        after = [path for box in BOXES for path in self.account.files(box)]
        self.same("nothing was done: the files are as they were", ([*after], [path.stat().st_ctime_ns for path in after]), (names, times))
        self.same("nothing was done: nothing was asked", self.account.lines("history"), asked)


@contextlib.contextmanager
def stopped(reader: Reader) -> Iterator[None]:
    """Has the reader's terminal stopped at the end, whatever comes."""
    try:
        yield
    finally:
        if hasattr(reader, "terminal"):
            reader.terminal.stop()


def tried(kind: Type[Reader], program: pathlib.Path, home: pathlib.Path, server_home: pathlib.Path) -> Tuple[int, int]:
    """How many comparisons passed in the day of a reader with this home, and how many failed."""
    certificate = kinds.Certificate(home, ["127.0.0.1"])
    server = kinds.Dovecot(str(server_home), kinds.free_port(), tls=certificate)
    account = Account(home, program, server, certificate)
    day = Day(account, kind(home, account.bin))
    with stopped(day.reader):
        try:
            with kinds.started(server):
                day.begin()
            day.work_offline()
            day.sync("without a network", 4)
            day.same("without a network: what waits", day.asked(), day.wishes())
            with kinds.started(server):
                wanted = day.come_back()
                day.work_beside(wanted)
                day.rest()
        except Lost as lost:
            day.same("the reader does what it is asked for", str(lost), "")
    return day.passed, day.failed
