"""Lies of a server that nobody can see, with what they excuse: by the way, by the command under way and by the line at which it is told. What a lie
excuses are words of `judging`. The premises exclude them: a server keeps to its rules, and the line changes no byte."""
import re
from typing import Dict, List, NamedTuple

from .spoiling import Step


class Lie(NamedTuple):
    """A lie: the ways, the commands and the lines with which it is told, what may be wrong then, and why."""

    ways: str
    commands: str
    lines: str
    excuses: str
    why: str

    def fits(self, way: str, step: Step) -> bool:
        """Whether it is told so."""
        return all(re.fullmatch(form, it, re.DOTALL) for form, it in ((self.ways, way), (self.commands, step.command), (self.lines, step.line)))


# What a mailbox is synchronised by: the answer to a SELECT, and the one with all its rows.
SYNCHRONISED = r"SELECT .*|UID FETCH 1:\* .*"
# What a lost letter is looked for by.
FINDING = "UID SEARCH .*|UID FETCH .*BODY.*"
UNTOLD = r"leaves it out|tells it behind the next line|bytes above 127 in it|its numbers are -1"
BYTE = "changed|dropped|doubled"
EARLY = "its own completion too early"
STALE = "the cache keeps what wasn't told, or was told falsely, until the message changes"
BEGIN = "the mark that was told was never the server's, so a new journal has to be begun"
RESENT = "a letter that isn't found is sent again"

LIES: List[Lie] = [
    Lie(UNTOLD, SYNCHRONISED, r"\* (VANISHED|\d+ FETCH).*", "cache", STALE),
    Lie(EARLY, SYNCHRONISED, ".*", "cache", STALE),
    Lie("EXISTS that shrinks", "SELECT [^ ]*", ".*", "cache", STALE),
    Lie("its numbers are 0", "SELECT [^ ]*", r"\* \d+ EXISTS", "cache", STALE),
    Lie("a FETCH of another UID|a FETCH with other flags|VANISHED .*of what is there", SYNCHRONISED, ".*", "cache", STALE),
    Lie("CLOSED", r"UID FETCH 1:\* .*", ".*", "cache", STALE),
    Lie("HIGHESTMODSEQ higher", SYNCHRONISED, ".*", "clean cache", BEGIN),
    Lie("its numbers are 4294967296", SYNCHRONISED, ".*HIGHESTMODSEQ.*", "clean cache", BEGIN),
    Lie("another UIDVALIDITY", SYNCHRONISED, ".*", "clean cache", BEGIN),
    Lie("(NO|BAD|MODIFIED), and it was done", ".*", ".*", "effect", "what the server says wasn't done, it did"),
    Lie(UNTOLD, "UID STORE .*", r"\* \d+ FETCH.*", "effect", "a changed message without its row counts as gone"),
    Lie(UNTOLD, "UID MOVE .*", r".*COPYUID.*", "effect", "a moved message without its COPYUID counts as gone"),
    Lie(EARLY, "UID (STORE|MOVE) .*", ".*", "effect", "a command that is OK without what it owes did nothing"),
    Lie(f"{UNTOLD}|{EARLY}", FINDING, r"\* .*", "twice effect", RESENT),
    Lie(BYTE, ".*", ".*", "clean effect cache", "the line changed a byte, and it was believed"),
    Lie(BYTE, FINDING, ".*", "twice", RESENT),
]


def excused(way: str, step: Step) -> Dict[str, str]:
    """What may be wrong here, with the reason."""
    return {word: lie.why for lie in LIES if lie.fits(way, step) for word in lie.excuses.split()}
