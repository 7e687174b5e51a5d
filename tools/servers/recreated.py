"""The table of mailboxes that are deleted and recreated between two plays, while actions wait for them: what became of each action, and
whether what stands in the new mailbox was left alone. In one of the plays the line is cut, or in none."""
import concurrent.futures
import itertools
import re
import time
from typing import List, NamedTuple, Optional, Tuple

from . import cutting
from .clients import Other, Program
from .lost import AT_ONCE
from .trial import Trial

CHANGED, AFTER_LOSS, UNKNOWN = "nothing validity-changed", "unsure reset-after-loss", "nothing target-unknown"
# How a move and a flag end whose reply was lost, where the mailbox stays.
SOURCE_GONE, FOUND_SO = "unsure source-gone", "unsure found-so"
# How an action ended, in a line of `history`; of a move or an append with the UIDVALIDITY under which its message came.
ENDED = re.compile(r"\d+ (done|(?:nothing|unsure) [a-z-]+)(?: (\d+))?")
Ended = Tuple[str, str]


class Outcome(NamedTuple):
    """What became of a case: of its actions, of their messages, and of what was put into the new mailbox."""

    first: Optional[int]
    last: Optional[int]
    ends: List[Ended]
    new: str
    copies: Tuple[int, int, int]
    is_spared: bool
    is_same: bool

    @property
    def is_good(self) -> bool:
        """Whether the last play ended well, each action ended as its mailbox allows, and nothing else was touched."""
        kinds = [kind for kind, _ in self.ends]
        unsure = sum(kind.startswith("unsure") for kind in kinds)
        if len(kinds) != 5 or unsure > 1 or self.last not in (0, 1) or not (self.is_spared and self.is_same):
            return False
        flag, move, put, back, flag_put = kinds
        is_new = put == "done" and self.ends[2][1] == self.new
        wanted = {"done": (1,), CHANGED: (0,), AFTER_LOSS: (0, 1)}
        return (
            flag in wanted
            and move in wanted
            and self.copies[0] in wanted[move]
            and put in ("done", AFTER_LOSS)
            and self.copies[1] == is_new
            and flag_put in ([UNKNOWN] if put == AFTER_LOSS else ["done", FOUND_SO] if is_new else [CHANGED])
            and back in ("done", SOURCE_GONE)
            and self.copies[2] == 1
        )


class Recreated:
    """A mailbox with actions that wait: a flag and a move of its messages, an append to it, a move to it, and a flag of what is appended."""

    def __init__(self, trial: Trial, number: int) -> None:
        self.trial, self.box, self.beside = trial, f"R{number}", f"T{number}"
        self.moved, self.put, self.back, self.new = (f"<{word}.{number}@x>" for word in ("moved", "put", "back", "new"))
        with Other(trial.port) as other:
            other.create(self.box, self.beside)
            for name, ident in ((self.box, "<stays@x>"), (self.box, self.moved), (self.beside, self.back)):
                other.put(name, f"Message-ID: {ident}\r\n\r\n".encode())
            stay, go = (row.split()[0] for row in other.rows(self.box))
            back = other.rows(self.beside)[0].split()[0]
        self.relay = cutting.Relay(("127.0.0.1", trial.port)).start()
        self.mine = Program(trial.front.path, trial.home / f"recreated{number}", self.relay.port)
        self.mine.say("init", self.box, self.beside)
        self.mine.say("play")
        self.mine.say("flag", self.box, stay, "+", r"\Flagged")
        self.mine.say("move", self.box, go, self.beside)
        self.mine.say("append", self.box, "work", given=f"Message-ID: {self.put}\n\nhello\n".encode())
        self.mine.say("move", self.beside, back, self.box)
        self.mine.say("flag", self.box, "d3", "+", r"\Flagged")

    def play(self, cut: Optional[cutting.Cut]) -> Tuple[Optional[int], List[str]]:
        """The status of a play with this cut, and the tags of its commands."""
        self.relay.cut, begun = cut, len(self.relay.tags)
        status = self.mine.say("play")[1]
        self.relay.cut = None
        return status, self.relay.tags[begun:]

    def recreate(self) -> str:
        """Deletes the mailbox and makes it again, with two other messages under the old UIDs. Its UIDVALIDITY."""
        # What the server carries out late has come by then, and a UIDVALIDITY may be made of the second.
        time.sleep(2)
        with Other(self.trial.port) as other:
            other.done(other.link.delete(self.box))
            time.sleep(1.1)
            other.create(self.box)
            for _ in range(2):
                other.put(self.box, f"Message-ID: {self.new}\r\n\r\n".encode())
            return str(other.mark(self.box)[0])

    def outcome(self, first: Optional[int], last: Optional[int], new: str) -> Outcome:
        """What became of it all."""
        self.relay.close()
        history = self.mine.say("history")[0].splitlines()
        ends = [(found[1], found[2] or "") for found in map(ENDED.match, history) if found]
        with Other(self.trial.port) as other:
            rows = [other.rows(name) for name in (self.box, self.beside)]
            copies = other.having(self.beside, self.moved), other.having(self.box, self.put), other.having(self.box, self.back)
            others = other.having(self.box, self.new)
        is_spared = others == 2 and not any(r"\flagged" in row for row in rows[0][:2])
        is_same = self.trial.listed(self.mine, [self.box, self.beside]) == rows and self.mine.say("queue")[0] == ""
        return Outcome(first, last, ends, new, copies, is_spared, is_same)


def cut_before(trial: Trial, number: int, cut: cutting.Cut) -> Outcome:
    """The play before is cut off; then the mailbox is recreated."""
    case = Recreated(trial, number)
    first, _ = case.play(cut)
    new = case.recreate()
    return case.outcome(first, case.play(None)[0], new)


def cut_behind(trial: Trial, number: int, cut: cutting.Cut) -> Outcome:
    """The mailbox is recreated, and the play behind that is cut off."""
    case = Recreated(trial, number)
    new = case.recreate()
    first, _ = case.play(cut)
    return case.outcome(first, case.mine.say("play", "--retry", "3")[1], new)


def table(trial: Trial, is_short: bool) -> None:
    """Prints the table. Where it is to be short, only some commands are cut."""
    case = Recreated(trial, 0)
    new = case.recreate()
    status, tags = case.play(None)
    whole = case.outcome(status, status, new)
    kinds = [kind for kind, _ in whole.ends]
    trial.same("a mailbox that was recreated, and no cut", (status, kinds), (1, [CHANGED, CHANGED, "done", "done", "done"]))
    trial.same("  and what stands there", (whole.copies, whole.is_spared, whole.is_same), ((0, 1, 1), True, True))
    # Of the play behind it: the SELECT that tells the new UIDVALIDITY, what is asked for up to the first command of an action, and that.
    first = next(place for place, tag in enumerate(tags) if tag.startswith("P"))
    behind = tags[first - 3 : first + 1] if is_short else tags
    cases = [(cut_before, (tag, *place)) for tag in ("P1", "P2", "P3") for place in cutting.PLACES]
    cases += [(cut_behind, (tag, *place)) for tag in behind for place in cutting.PLACES]
    print("recreated  cut                 statuses  copies  others  list    actions")
    outcomes = []
    with concurrent.futures.ThreadPoolExecutor(AT_ONCE) as pool:
        played = pool.map(lambda number, case: case[0](trial, number, case[1]), itertools.count(1), cases)
        for (run, cut), outcome in zip(cases, played):
            outcomes.append(outcome)
            show("behind" if run is cut_before else "before", cut, outcome)
    went = sum(outcome.first == 4 for outcome in outcomes)
    trial.same(f"{len(outcomes)} cuts, {went} of which lost the play its connection", sum(outcome.is_good for outcome in outcomes), len(outcomes))


def show(when: str, cut: cutting.Cut, outcome: Outcome) -> None:
    """Prints a row."""
    kinds = ", ".join(kind.split()[-1] for kind, _ in outcome.ends)
    copies = " ".join(map(str, outcome.copies))
    others = "spared" if outcome.is_spared else "HARMED"
    same = "same " if outcome.is_same else "OTHER"
    good = "" if outcome.is_good else "   WRONG"
    print(f"{when:<9}  {':'.join(cut):<18}  {outcome.first}, {outcome.last}     {copies}   {others}  {same}   {kinds}{good}", flush=True)
