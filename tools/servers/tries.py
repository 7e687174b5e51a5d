"""A change of flags that another client forestalls, as often as it is tried: its tags, how it ends, and what is then so."""
from typing import List

from . import cutting
from .clients import Other, Program
from .trial import Trial

TRIES = ["P1", "P1R2", "P1R3"]


def forestalled(trial: Trial, times: int) -> None:
    """Another client sets a flag on the message before each of so many tries."""
    box = f"F{times}"
    with Other(trial.port) as other:
        other.create(box)
        other.put(box, b"Subject: forestalled\r\n\r\n")
        uid = other.rows(box)[0].split()[0]
    relay = cutting.Relay(("127.0.0.1", trial.port)).start()
    mine = Program(trial.front.path, trial.home / f"forestalled{times}", relay.port)
    mine.say("init", box)
    mine.say("play")
    mine.say("flag", box, uid, "+", r"\Flagged")
    sent: List[str] = []

    def before(tag: str) -> None:
        if not tag.startswith("P"):
            return
        sent.append(tag)
        if len(sent) <= times:
            with Other(trial.port) as other:
                other.select(box)
                other.uid("STORE", uid, "+FLAGS", f"(try{len(sent)})")

    relay.before = before
    conflicts = int(times >= len(TRIES))
    trial.same(f"a flag, and another client before {times} of its tries", mine.say("play"), (f"played 1 conflicts {conflicts}\n", conflicts))
    relay.close()
    trial.same("  its tries", sent, TRIES[: times + 1])
    with Other(trial.port) as other:
        flags = other.rows(box)[0].split()[2:]
    wanted = [f"try{number}" for number in range(1, times + 1)] + ([] if conflicts else [r"\flagged"])
    trial.same("  its flags", sorted(flags), sorted(wanted))
    kinds = [" ".join(line.split()[:3]) for line in mine.say("report")[0].splitlines()]
    trial.same("  its conflict", kinds, ["1 nothing flags-changed"] * conflicts)
    mine.environment["MAIL_SERVER"] = f"127.0.0.1:{trial.port}"
    trial.same_rows("  and then", mine, box)


def table(trial: Trial) -> None:
    """None, one, two and three times."""
    for times in range(len(TRIES) + 1):
        forestalled(trial, times)
