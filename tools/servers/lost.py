"""The table of lost connections: the line is cut in each command of a session, and what became of a flag, a move and an append counted."""
import concurrent.futures
import itertools
from typing import List, NamedTuple, Optional, Tuple

from . import cutting
from .clients import Other, Program
from .trial import Trial

# How many lost connections are tried at a time.
AT_ONCE = 6


class Outcome(NamedTuple):
    """What became of a session's actions."""

    tags: List[str]
    first: Optional[int]
    last: Optional[int]
    effects: Tuple[int, int, int]
    conflicts: List[str]
    is_same: bool

    @property
    def is_good(self) -> bool:
        """Whether each action took effect once, the last play ended well, and `list` is the server's."""
        return self.effects == (1, 1, 1) and self.is_same and self.last in (0, 1)


class Cut:
    """A flag, a move and an append whose play is cut off at a place."""

    def __init__(self, trial: Trial, number: int) -> None:
        self.trial = trial
        self.boxes = [f"A{number}", f"B{number}"]
        self.moved, self.put = f"<moved.{number}@x>", f"<put.{number}@x>"
        with Other(trial.port) as other:
            other.create(*self.boxes)
            other.put(self.boxes[0], b"Subject: flagged\r\n\r\n")
            other.put(self.boxes[0], f"Message-ID: {self.moved}\r\n\r\n".encode())
            self.stay, self.go = (row.split()[0] for row in other.rows(self.boxes[0]))
        self.mine = Program(trial.front.path, trial.home / f"lost{number}", trial.port)
        self.mine.say("init", *self.boxes)
        self.mine.say("play")
        self.mine.say("flag", self.boxes[0], self.stay, "+", r"\Flagged")
        self.mine.say("move", self.boxes[0], self.go, self.boxes[1])
        self.mine.say("append", self.boxes[0], "work", given=f"Message-ID: {self.put}\n\n{'hello ' * 500}\n".encode())

    def played(self, cut: Optional[cutting.Cut]) -> Outcome:
        """What became of them, once they were played to the end behind this cut, if there is one."""
        between = cutting.Relay(("127.0.0.1", self.trial.port), cut).start()
        self.mine.environment["MAIL_SERVER"] = f"127.0.0.1:{between.port}"
        first = last = self.mine.say("play", "--moved")[1]
        between.cut = None
        tags = list(between.tags)
        if cut:
            last = self.mine.say("play", "--retry", "3")[1]
        between.close()
        rows, effects = self.effects()
        is_same = self.trial.listed(self.mine, self.boxes) == rows and self.mine.say("queue")[0] == ""
        return Outcome(tags, first, last, effects, self.mine.say("report")[0].splitlines(), is_same)

    def effects(self) -> Tuple[List[List[str]], Tuple[int, int, int]]:
        """The server's rows, and how often each action took effect."""
        with Other(self.trial.port) as other:
            rows = [other.rows(name) for name in self.boxes]
            flagged = sum(row.split()[0] == self.stay and r"\flagged" in row for row in rows[0])
            moved = other.having(self.boxes[1], self.moved) - other.having(self.boxes[0], self.moved)
            return rows, (flagged, moved, other.having(self.boxes[0], self.put))


def table(trial: Trial, is_short: bool) -> None:
    """Prints the table. Where it is to be short, of the three actions' own commands alone."""
    outcome = Cut(trial, 0).played(None)
    trial.same("three actions over the relay, and no cut", outcome[1:2] + outcome[3:], (0, (1, 1, 1), [], True))
    tags = [tag for tag in outcome.tags if not is_short or tag.startswith("P")]
    cuts = [(tag, *place) for tag in tags for place in cutting.PLACES]
    if not is_short:
        cuts = [("greeting", "in", place) for place in ("before", "inside", "after")] + cuts
    print("cut                 statuses  flag move append  list    conflicts")
    outcomes = []
    with concurrent.futures.ThreadPoolExecutor(AT_ONCE) as pool:
        for cut, outcome in zip(cuts, pool.map(lambda number, cut: Cut(trial, number).played(cut), itertools.count(1), cuts)):
            outcomes.append(outcome)
            show(cut, outcome)
    summary(trial, outcomes)


def show(cut: cutting.Cut, outcome: Outcome) -> None:
    """Prints a row."""
    kinds = ", ".join(" ".join(line.split()[1:3]) for line in outcome.conflicts)
    effects = " ".join(f"{effect:>4}" for effect in outcome.effects)
    same = "same" if outcome.is_same else "OTHER"
    print(f"{':'.join(cut):<19} {outcome.first}, {outcome.last}     {effects}    {same}  {kinds}", flush=True)


def summary(trial: Trial, outcomes: List[Outcome]) -> None:
    """Prints how often each action took effect, and counts the table as one comparison."""
    for place, name in enumerate(("flag", "move", "append")):
        effects = [outcome.effects[place] for outcome in outcomes]
        once, twice = effects.count(1), sum(effect > 1 for effect in effects)
        print(f"{name}: {once} once, {twice} twice, {len(effects) - once - twice} lost, of {len(effects)} cuts")
    went = sum(outcome.first == 4 for outcome in outcomes)
    good = sum(outcome.is_good for outcome in outcomes)
    trial.same(f"{len(outcomes)} cuts, {went} of which lost the play its connection", good, len(outcomes))
