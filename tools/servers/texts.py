"""Texts that are fetched and shown: of all kinds, and with the line cut in each command of a fetch."""
import concurrent.futures
import itertools
from typing import Dict, List, NamedTuple, Optional, Tuple

from . import cutting
from .clients import Other, Program
from .trial import Trial

# How many lost connections are tried at a time.
AT_ONCE = 6
HEAD = b"Date: Tue, 1 Jul 2003 10:52:37 +0200\r\nFrom: a@x\r\nSubject: hi\r\n\r\n"
# What a text may be like. A server may refuse one, or tell it otherwise: what it tells is what counts.
TEXTS = {
    "plain": HEAD + b"hello\r\n",
    "without an end of line": HEAD + b"hello",
    "with 8-bit bytes": HEAD + bytes(range(1, 10)) + bytes(range(14, 256)) + b"\r\n",
    "with bare LFs": HEAD.replace(b"\r\n", b"\n") + b"one\ntwo\r\nthree\n",
    "with bare CRs": HEAD + b"one\rtwo\r\r\n",
    "without a header": b"\r\nhello\r\n",
    "of a header alone": HEAD,
    "of what looks like answers": HEAD + b"C7 OK done\r\n* BYE\r\n) {5}\r\nUID 1\r\n",
    "of long lines": HEAD + b"x" * 70_000 + b"\r\n",
    "of 200 KB": HEAD + b"hello hello\r\n" * 15_000,
    "of 30 MB": HEAD + b"hello hello hello hello hello hello hello hello hello hello hello \r\n" * 450_000,
}
# What is fetched through lost connections.
SMALL = [name for name, text in TEXTS.items() if len(text) < 1_000_000]


class Outcome(NamedTuple):
    """What became of a fetch of all messages whose line was cut, and of the one after it."""

    first: Optional[int]
    last: Optional[int]
    # How many texts were kept before the cut, and whether these are the ones that were told.
    before: int
    is_told: bool
    is_same: bool

    @property
    def is_good(self) -> bool:
        """Whether each text is here in the end, byte for byte, and what was kept before the cut was told."""
        return self.is_told and self.is_same and self.last == 0


def fill(trial: Trial, box: str, names: List[str]) -> Dict[str, bytes]:
    """Puts such messages into a new mailbox. What the server then tells of each, by its UID."""
    with Other(trial.port) as other:
        other.create(box)
        for name in names:
            if not other.put_exactly(box, TEXTS[name]):
                print(f"  the server takes no message {name}")
        return {uid: other.text(box, uid) for uid in (row.split()[0] for row in other.rows(box))}


def begun(trial: Trial, box: str, name: str, port: int) -> Program:
    """The front with a journal for this mailbox, which was played."""
    mine = Program(trial.front.path, trial.home / name, port)
    mine.environment["MAIL_PAUSE"] = "0"
    mine.say("init", box)
    mine.say("play")
    return mine


def each_kind(trial: Trial) -> None:
    """Each kind of text: it is fetched, and shown as the server has it; its flags stay as they were."""
    box = "Kinds"
    wanted = fill(trial, box, list(TEXTS))
    mine = begun(trial, box, "kinds", trial.port)
    trial.same("no text is here yet", mine.say("show", box, min(wanted)), ("refused not-kept\n", 10))
    lines = "".join(f"{uid} kept {len(text)}\n" for uid, text in wanted.items())
    trial.same(f"{len(wanted)} messages are fetched", mine.say("fetch", box, "new"), (lines, 0))
    trial.same("  and no more is new", mine.say("fetch", box, "new"), ("", 0))
    for uid, text in wanted.items():
        told, status = mine.tell("show", box, uid)
        trial.same(f"  and {uid} is shown as it is, {len(text)} bytes", (told == text, status), (True, 0))
    mine.say("play")
    trial.same_rows("  and then", mine, box)
    gone = min(wanted)
    with Other(trial.port) as other:
        other.select(box)
        other.uid("STORE", gone, "+FLAGS", r"(\Deleted)")
        other.uid("EXPUNGE", gone)
    trial.same("a message that is gone", mine.say("fetch", box, gone), ("refused gone\n", 10))
    trial.same("  is shown still", mine.tell("show", box, gone), (wanted[gone], 0))
    mine.say("play")
    trial.same("  and once that is known no more", mine.say("show", box, gone), ("refused no-message\n", 10))


def lost(trial: Trial, box: str, wanted: Dict[str, bytes], number: int, cut: cutting.Cut) -> Outcome:
    """All messages are fetched, and the line is cut at this place of one of them; then they are fetched again."""
    relay = cutting.Relay(("127.0.0.1", trial.port)).start()
    mine = begun(trial, box, f"texts{number}", relay.port)
    count = itertools.count()
    # In the first connection of all, or in one of a later message.
    chosen = 0 if cut[0] == "greeting" else number % len(wanted)

    def before(tag: str) -> None:
        if tag == cut[0] and next(count) == chosen:
            relay.cut = cut

    relay.before = before
    relay.cut = cut if cut[0] == "greeting" else None
    told, first = mine.say("fetch", box, "new")
    relay.before, relay.cut = lambda tag: None, None
    lines = mine.say("dates", box)[0].splitlines()
    is_told = [line.split()[0] for line in lines] == [line.split()[0] for line in told.splitlines() if " kept " in line]
    last = mine.say("fetch", box, "new")[1]
    relay.close()
    is_same = all(mine.tell("show", box, uid) == (text, 0) for uid, text in wanted.items())
    return Outcome(first, last, len(lines), is_told, is_same)


def places(is_short: bool) -> List[cutting.Cut]:
    """Where the line is cut: in the greeting and in each command of a fetch, or where it is to be short in the last three."""
    tags = [f"C{number}" for number in range(5 if is_short else 1, 8)]
    cuts = [(tag, *place) for tag in tags for place in cutting.PLACES]
    return cuts if is_short else [("greeting", "in", place) for place in ("before", "inside", "after")] + cuts


def table(trial: Trial, is_short: bool) -> None:
    """Prints the table, and counts it as one comparison."""
    each_kind(trial)
    box = "Texts"
    wanted = fill(trial, box, SMALL)
    cuts = places(is_short)
    print("cut                 statuses  kept before")
    outcomes: List[Outcome] = []
    with concurrent.futures.ThreadPoolExecutor(AT_ONCE) as pool:
        numbered: List[Tuple[int, cutting.Cut]] = list(enumerate(cuts, 1))
        for (_, cut), outcome in zip(numbered, pool.map(lambda each: lost(trial, box, wanted, *each), numbered)):
            outcomes.append(outcome)
            end = "" if outcome.is_good else f"  {outcome}"
            print(f"{':'.join(cut):<19} {outcome.first}, {outcome.last}      {outcome.before} of {len(wanted)}{end}", flush=True)
    went = sum(outcome.first == 4 for outcome in outcomes)
    good = sum(outcome.is_good for outcome in outcomes)
    trial.same(f"{len(outcomes)} cuts of a fetch of {len(wanted)} messages, {went} of which lost it its connection", good, len(outcomes))
