"""What has to hold after a spoiled play, and what a server's lie excuses.

    journal    `list`, `queue`, `report` and `history` end with 0, and show each accepted action; none that ended waits again or ends otherwise
    line       the spoiled play ends with a status of docs/COMMANDS.md, and prints its line
    memory     it takes at most 64 MB of memory, or what its way says
    time       and ends by itself, not much later than its session may last
    twice      no action's command changes something twice
    clean      the next play, at a server that tells nothing but the truth, ends with 0 or 1, and nothing waits then
    effect     what is done was done once, what ended as `nothing` never, what is unsure once or never
    cache      `list` then shows what the server has
    anew       where the next play doesn't end well, a new journal does, as docs/TROUBLESHOOTING.md says
"""
import re
from typing import Dict, List, NamedTuple, Optional

from servers.plain import Box

from .sessions import BOXES, LETTER_ID, MOVED_ID, SECONDS, Program, Said, Session
from .spoiling import Bounds, HostileServer

# What a play prints, by its status.
LINES = {
    0: r"played \d+ conflicts 0",
    1: r"played \d+ conflicts [1-9]\d*",
    4: "error link",
    5: r"error refused: [ -~]{1,200}",
    6: r"error reply (\d+|lacks [A-Z]+|modseq \d+ \d+|validity (INBOX|Archive) \d+ \d+)",
    7: r"error lacking [A-Z0-9]+",
    14: r"error limit (literal|line|reply|flags|flag|rows) \d+",
}
HISTORY = re.compile(r"(\d+) (waiting|begun|done(?: \d+ \d+)?|(nothing|unsure) [a-z-]+(?: \d+)*) ((?:flag|move|append) .*)")


class Look(NamedTuple):
    """What the journal shows: how each action stands, what it asks for, and what `list` prints of each mailbox."""

    stands: List[str]
    asked: List[str]
    listed: Dict[str, List[str]]
    wrong: Optional[str]


def look(mine: Program, session: Session) -> Look:
    """Looks at the journal by all commands that only read."""
    listed = {name: mine.say("list", name) for name in BOXES}
    queue, report, history = (mine.say(word) for word in ("queue", "report", "history"))
    said = [*listed.values(), queue, report, history]
    rows = [HISTORY.fullmatch(line) for line in history.text.splitlines()]
    stands, asked = [row[2] for row in rows if row], [row[4] for row in rows if row]
    wrong = None
    if any(it.status for it in said):
        wrong = f"a look ends with {[(it.line, it.status) for it in said if it.status]}"
    elif not all(rows) or [row[1] for row in rows if row] != [str(number + 1) for number in range(session.actions)]:
        wrong = f"history prints {history.text!r}"
    elif queue.text.splitlines() != [f"{n + 1} {how} {what}" for n, (how, what) in enumerate(zip(stands, asked)) if how in ("waiting", "begun")]:
        wrong = f"queue prints {queue.text!r} beside the history {history.text!r}"
    elif report.text.splitlines() != [f"{n + 1} {how}" for n, how in enumerate(stands) if how.split()[0] in ("nothing", "unsure")]:
        wrong = f"report prints {report.text!r} beside the history {history.text!r}"
    return Look(stands, asked, {name: said.text.splitlines() for name, said in listed.items()}, wrong)


def is_over(how: str) -> bool:
    """Whether an action stands so that it has ended."""
    return how not in ("waiting", "begun")


def goes_back(old: Look, new: Look) -> Optional[str]:
    """What is wrong where an action of an earlier look is another one now, or has ended otherwise."""
    if old.asked != new.asked:
        return f"the actions {old.asked} became {new.asked}"
    for number, (one, another) in enumerate(zip(old.stands, new.stands), 1):
        if is_over(one) and one != another:
            return f"action {number} was {one} and is {another}"
    return None


def begun_anew(mine: Program, boxes: Dict[str, Box]) -> Optional[str]:
    """What is wrong with a new journal at this server."""
    mine.folder.mkdir()
    mine.say("init", *BOXES)
    told = mine.say("play")
    listed = {name: mine.say("list", name).text.splitlines() for name in BOXES}
    if told.status or listed != {name: box.listed() for name, box in boxes.items()}:
        return f"a new journal's play prints {told.line}, status {told.status}, and lists {listed}"
    return None


class Played(NamedTuple):
    """A spoiled play and the clean one behind it: what was printed, what the journal shows before, between and behind them, and the server."""

    spoiled: Said
    clean: Said
    looks: List[Look]
    anew: Optional[str]
    server: HostileServer

    def wrong(self, bounds: Bounds) -> Dict[str, str]:
        """What is wrong, by the words above."""
        found = {
            "journal": self.journal(),
            "line": None if re.fullmatch(LINES.get(self.spoiled.status, "-"), self.spoiled.line) else "isn't a status of the table with its line",
            "memory": f"{self.spoiled.memory} KB" if self.spoiled.memory > bounds.memory else None,
            "time": f"{self.spoiled.seconds:.0f} seconds" if self.spoiled.seconds > bounds.seconds + SECONDS else None,
            "twice": self.twice(),
            "clean": self.cleanly(),
            "effect": self.effect(),
            "cache": self.cache(),
            "anew": self.anew,
        }
        return {word: what for word, what in found.items() if what}

    def journal(self) -> Optional[str]:
        """What is wrong with the journal."""
        first, middle, last = self.looks
        return first.wrong or middle.wrong or last.wrong or goes_back(first, middle) or goes_back(middle, last)

    def twice(self) -> Optional[str]:
        """What was done twice: by the commands, and as somebody sees it who looks into the mailboxes."""
        more = {tag: count for tag, count in self.server.deeds.items() if count > 1}
        if more:
            return f"deeds: {more}"
        letters, moved = (sum(box.having(ident) for box in self.server.boxes.values()) for ident in (LETTER_ID, MOVED_ID))
        return f"{letters} letters, {moved} moved messages" if letters > 1 or moved != 1 else None

    def cleanly(self) -> Optional[str]:
        """What is wrong with the clean play."""
        if self.clean.status not in (0, 1):
            return f"the next play prints {self.clean.line}, status {self.clean.status}"
        waits = [how for how in self.looks[-1].stands if not is_over(how)]
        return f"after {self.clean.line} there waits {waits}" if waits else None

    def effect(self) -> Optional[str]:
        """Which action stands otherwise than it was done."""
        for number, how in enumerate(self.looks[-1].stands, 1):
            count = self.server.deeds[f"P{number}"]
            if how.startswith("done") and count != 1 or how.startswith("nothing") and count != 0:
                return f"action {number} is {how}, and changed the server {count} times"
        return None

    def cache(self) -> Optional[str]:
        """Which mailbox is listed otherwise than it is, once no action waits."""
        for name, box in self.server.boxes.items():
            if all(map(is_over, self.looks[-1].stands)) and self.looks[-1].listed[name] != box.listed():
                return f"list {name} prints {self.looks[-1].listed[name]} where the server has {box.listed()}"
        return None
