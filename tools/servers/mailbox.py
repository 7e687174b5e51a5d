"""A session, a mailbox of 10,000 messages that others change, what ends a play, and how long plays take."""
import pathlib
import resource
import time
from typing import Dict, List, Sequence, Set, Tuple

from .clients import Alone, Marks, Other, Program, Said
from .trial import BOXES, PLAYED, Trial

MESSAGES = 10_000
MANY = 10 * MESSAGES
# What a play may take, in times of what the same commands take alone: the first one, of these messages and of many, and one where nothing
# changed, with its journal in memory and on a disk.
FIRST, FIRST_OF_MANY = 3, 1.15
UNCHANGED = {"in memory": 1.5, "on a disk": 2}
LETTER = b"Message-ID: <played@x>\nSubject: played\n\nhello\n"


def session(trial: Trial) -> None:
    """The worked session: a first play, a list, a move, a flag and a letter, and their play."""
    boxes = ("S1", "S2")
    with Other(trial.port) as other:
        other.create(*boxes)
        other.fill(boxes[0], range(1, 3))
    mine = trial.begin(*boxes)
    trial.same("the session: a first play", mine.say("play"), PLAYED)
    with Other(trial.port) as other:
        first, second = other.rows(boxes[0])
    uid = second.split()[0]
    for words, given, wanted in steps(boxes, first, second, uid):
        trial.same(f"  {words[0]}", mine.say(*words, given=given), (wanted, 0))
    for name in boxes:
        trial.same_rows("  and then", mine, name)


def steps(boxes: Sequence[str], first: str, second: str, uid: str) -> List[Tuple[Tuple[str, ...], bytes, str]]:
    """The commands of the session, what is given to them, and what they print."""
    queue = f"1 waiting move S1 {uid} S2\n2 waiting flag S2 d1 + \\flagged\n3 waiting append S2 <session@x>\n"
    return [
        (("list", boxes[0]), b"", f"{first}\n{second}\n"),
        (("move", boxes[0], uid, boxes[1]), b"", "accepted 1\n"),
        (("flag", boxes[1], "d1", "+", r"\Flagged"), b"", "accepted 2\n"),
        (("append", boxes[1], r"\Seen"), b"Message-ID: <session@x>\n\nhello\n", "accepted 3\n"),
        (("list", boxes[0]), b"", f"{first}\n"),
        (("list", boxes[1]), b"", "d1 - \\flagged \\seen\nd3 - \\seen\n"),
        (("queue",), b"", queue),
        (("play",), b"", "played 3 conflicts 0\n"),
        (("queue",), b"", ""),
        (("report",), b"", ""),
    ]


def synchronised(trial: Trial) -> Tuple[Program, List[str]]:
    """A mailbox of 10,000 messages, and what others change there: the program with its journal, and the UIDs of before."""
    with Other(trial.port) as other:
        other.fill("INBOX", range(1, MESSAGES + 1))
    mine = trial.begin(*BOXES)
    trial.synchronise("a first play", mine)
    trial.synchronise("a play where nothing changed", mine)
    uids = flags_change(trial, mine)
    messages_come_and_go(trial, mine, uids)
    return mine, uids


def flags_change(trial: Trial, mine: Program) -> List[str]:
    """Another client changes flags. The UIDs of INBOX."""
    with Other(trial.port) as other:
        uids = [row.split()[0] for row in other.rows("INBOX")]
        other.select("INBOX")
        other.uid("STORE", f"{uids[0]}:{uids[499]}", "+FLAGS", r"(\Answered $work)")
        other.uid("STORE", f"{uids[400]}:{uids[899]}", "-FLAGS", r"(\Seen Later)")
        other.uid("STORE", uids[2000], "FLAGS", r"(\Draft)")
    trial.synchronise("flags that changed", mine)
    return uids


def messages_come_and_go(trial: Trial, mine: Program, uids: List[str]) -> None:
    """Another client puts messages there and takes some away."""
    with Other(trial.port) as other:
        other.select("INBOX")
        gone = f"{uids[3000]}:{uids[3299]}"
        other.uid("STORE", gone, "+FLAGS", r"(\Deleted)")
        other.uid("EXPUNGE", gone)
        other.uid("MOVE", ",".join(uids[5000:5200:2]), "Archive")
        other.fill("INBOX", range(MESSAGES + 1, MESSAGES + 51))
        other.fill("Sent Items", range(1, 21))
    trial.synchronise("messages that came and went", mine)


def acted(trial: Trial, uids: List[str]) -> None:
    """Actions on messages that are there, and that are gone; and they are played back."""
    mine = trial.begin(*BOXES)
    trial.synchronise("a first play of all this", mine)
    trial.same("an action on a message that is gone", mine.say("flag", "INBOX", uids[3000], "+", r"\Seen"), ("refused no-message\n", 10))
    actions = [
        (("flag", "INBOX", uids[2999], "+", r"\Answered", "played"), b""),
        (("flag", "INBOX", uids[2999], "-", "played"), b""),
        (("move", "INBOX", uids[2999], "Archive"), b""),
        (("flag", "Archive", "d3", "+", r"\Draft"), b""),
        (("append", "Sent Items", r"\Seen"), LETTER),
        (("move", "Sent Items", "d5", "INBOX"), b""),
        (("flag", "INBOX", "d6", "-", r"\Seen"), b""),
    ]
    for number, (words, given) in enumerate(actions, 1):
        trial.same(f"an action, {words[0]}", mine.say(*words, given=given), (f"accepted {number}\n", 0))
    trial.same("  and a play behind them", mine.say("play"), ("played 7 conflicts 0\n", 0))
    for name in BOXES:
        trial.same_rows("  and then", mine, name)
    with Other(trial.port) as other:
        trial.same("  and the letter is there once", [other.having(name, "<played@x>") for name in BOXES], [1, 0, 0])


def refused(trial: Trial, mine: Program) -> None:
    """What ends a play."""
    told, status = trial.begin("Nowhere").say("play")
    trial.same("a mailbox that isn't there", (told[:15], status), ("error refused: ", 5))
    with Other(trial.port) as other:
        old = other.mark("Archive")[0]
        other.done(other.link.delete("Archive"))
        # A UIDVALIDITY may be made of the second.
        time.sleep(1.1)
        other.create("Archive")
        new = other.mark("Archive")[0]
    trial.same("a mailbox that was recreated under a greater UIDVALIDITY", old < new, True)
    trial.same("  is played on", mine.say("play"), PLAYED)
    for name in BOXES:
        trial.same_rows("  and then", mine, name)


def processor_time() -> float:
    """The seconds of processor time of all programs that ended."""
    used = resource.getrusage(resource.RUSAGE_CHILDREN)
    return used.ru_utime + used.ru_stime


def timed(trial: Trial, title: str, aim: float, programs: List[Program], marks: Marks) -> None:
    """Prints the least time of a play by each of these programs, and that of the same commands alone, in turn; and whether it passes its aim."""
    plays: List[float] = []
    alone: List[float] = []
    own: List[float] = []
    said: Set[Said] = set()
    for mine in programs:
        began, used = time.perf_counter(), processor_time()
        said.add(mine.say("play"))
        plays.append(time.perf_counter() - began)
        own.append(processor_time() - used)
        began = time.perf_counter()
        Alone(trial.port).play(BOXES, marks)
        alone.append(time.perf_counter() - began)
    trial.same(f"{title}, {len(plays)} times", said, {PLAYED})
    ratio = min(plays) / min(alone)
    far = "" if ratio <= aim else ": beyond the aim"
    figures = f"{min(plays):.3f} s (processor {min(own):.3f} s), its commands alone {min(alone):.3f} s"
    print(f"time: {title}: {figures}: {ratio:.2f} times, aim {aim}{far}")


def times(trial: Trial, mine: Program) -> None:
    """How long a first play takes, and one where nothing changed."""
    with Other(trial.port) as other:
        marks = {name: other.mark(name) for name in BOXES}
    timed(trial, "the first play", FIRST, [trial.begin(*BOXES) for _ in range(9)], {})
    timed(trial, "a play where nothing changed", UNCHANGED["on a disk"], [mine] * 9, marks)


def ten_times(other: Other) -> None:
    """Copies the messages of INBOX nine times, which takes a server a tenth of the time that putting them there does."""
    uids = [row.split()[0] for row in other.rows("INBOX")]
    other.select("INBOX")
    for _ in range(9):
        other.uid("COPY", f"{uids[0]}:{uids[-1]}", "INBOX")


def long_times(trial: Trial, homes: Dict[str, pathlib.Path]) -> None:
    """How long a play of 10,000 messages takes where nothing changed, and a first one of 100,000, with the journal in each of these folders."""
    with Other(trial.port) as other:
        other.fill("INBOX", range(1, MESSAGES // 10 + 1))
        ten_times(other)
        marks = {name: other.mark(name) for name in BOXES}
    for where, home in homes.items():
        mine = trial.begin(*BOXES, home=home)
        mine.say("play")
        timed(trial, f"a play of {MESSAGES} messages where nothing changed, its journal {where}", UNCHANGED[where], [mine] * 15, marks)
    with Other(trial.port) as other:
        ten_times(other)
    for where, home in homes.items():
        begun = [trial.begin(*BOXES, home=home) for _ in range(15)]
        timed(trial, f"the first play of {MANY} messages, its journal {where}", FIRST_OF_MANY, begun, {})
