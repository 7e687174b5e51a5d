"""Plays that are killed, or failing, at each of their system calls; and then played to the end."""
import concurrent.futures
import itertools
import pathlib
import re
import shutil
import subprocess
import time
from typing import Dict, Iterator, List, Sequence, Tuple

from .clients import Other, Program
from .trial import PLAYED, SMALL, Trial

# What is done to a play at each of its system calls, and how it may end then: killed, or as the disk, the link, memory or output failed.
# An exit doesn't fail, and brk has no errors by a number.
BEFALLS: Dict[str, Tuple[Tuple[int, ...], Tuple[str, ...]]] = {
    "signal=KILL": ((-9,), ()),
    "error=EIO": ((0, 3, 4, 11, 12), ("exit_group", "brk")),
}
# How many plays of actions are tried at a time.
AT_ONCE = 8
# What stands in the place of the program, and of the helper for the line: each runs under what the environment names.
PROGRAM_UNDER = """#!/bin/sh
exec ${TRY_PROGRAM-} %s "$@"
"""
LINK_UNDER = """import os, sys
words = [*os.environ.get("TRY_LINK", "").split(), sys.executable, "-Es", %r, *sys.argv[1:]]
os.execvp(words[0], words)
"""
Call = Tuple[str, int]


def can_trace() -> bool:
    """Whether strace is there and may be used."""
    if shutil.which("strace") and not subprocess.run(["strace", "-o", "/dev/null", "true"], stderr=subprocess.DEVNULL).returncode:
        return True
    print("skipped: strace isn't installed, or may not be used")
    return False


def calls_of(trace: pathlib.Path, first: str = "/dev/null") -> List[Call]:
    """The system calls in a trace, each with its place among those of its name, from the one on in which this stands: a program begins
    with /dev/null, before it does anything of its own."""
    found: List[Call] = []
    counts: Dict[str, int] = {}
    for line in trace.read_text(errors="replace").splitlines():
        if call := re.match(r"\d+ +([a-z0-9_]+)\(", line):
            counts[call[1]] = counts.get(call[1], 0) + 1
            if found or first in line:
                found.append((call[1], counts[call[1]]))
    return found


def first_plays(trial: Trial, seconds: int) -> None:
    """Kills a first play at each of its system calls, and lets each of them fail, as far as the seconds go for each."""
    if not can_trace():
        return
    with Other(trial.port) as other:
        wanted = [other.rows(name) for name in SMALL]
    trace = trial.home / "trace"
    trial.begin(*SMALL).say("play", under=("strace", "-f", "-o", str(trace)))
    for what, (_, but) in BEFALLS.items():
        first_plays_of(trial, what, [call for call in calls_of(trace) if call[0] not in but], wanted, seconds)


def first_plays_of(trial: Trial, what: str, left: List[Call], wanted: List[List[str]], seconds: int) -> None:
    """Does this to a first play at each of these system calls, as far as the time goes."""
    faults = tried = 0
    began = time.monotonic()
    while left and time.monotonic() - began < seconds:
        name, place = left.pop(0)
        tried += 1
        if fault := fault_of_first(trial, f"{name}:{what}:when={place}", BEFALLS[what][0], wanted):
            faults += 1
            print(f"  {name} {place}, {what}: {fault}")
    if left:
        print(f"skipped: {len(left)} system calls, as the time is up")
    trial.same(f"a play, {what} at each of {tried} system calls", (faults, tried > 0), (0, True))


def fault_of_first(trial: Trial, inject: str, ends: Sequence[int], wanted: List[List[str]]) -> str:
    """What is wrong with a first play to which this was done, and with the next one, if anything."""
    mine = trial.begin(*SMALL)
    _, status = mine.say("play", under=("strace", "-f", "-o", "/dev/null", "-e", f"inject={inject}"))
    if status not in ends:
        return f"ended with {status}"
    if (said := mine.say("play")) != PLAYED:
        return f"ended with {status}, and then {said}"
    return "" if trial.listed(mine, list(SMALL)) == wanted else f"ended with {status}, and then other rows"


class Actions:
    """Actions on mailboxes of their own, played by the front, under which the program or the helper for the line is killed."""

    def __init__(self, trial: Trial, number: int) -> None:
        self.trial = trial
        self.boxes = [f"K{number}", f"L{number}"]
        self.ident = f"<killed.{number}@x>"
        with Other(trial.port) as other:
            other.create(*self.boxes)
        self.mine = Program(trial.front.path, trial.home / f"killed{number}", trial.port)
        self.mine.say("init", *self.boxes)
        self.mine.say("play")
        self.mine.say("append", self.boxes[0], given=f"Message-ID: {self.ident}\n\n{'hello ' * 2000}\n".encode())
        self.mine.say("flag", self.boxes[0], "d1", "+", r"\Flagged")
        self.mine.say("move", self.boxes[0], "d1", self.boxes[1])

    def play_under(self, which: str, *words: str) -> None:
        """A play in which the program or the helper runs under this."""
        self.mine.environment[which] = " ".join(words)
        self.mine.say("play")
        del self.mine.environment[which]

    def fault(self, which: str, inject: str) -> str:
        """What is wrong with the actions, of which a play was killed so, and which are then played to the end, if anything."""
        self.play_under(which, "strace", "-f", "-o", "/dev/null", "-e", f"inject={inject}")
        said, status = self.mine.say("play", "--retry", "3")
        with Other(self.trial.port) as other:
            there = [other.having(name, self.ident) for name in self.boxes]
            rows = [other.rows(name) for name in self.boxes]
        shown = self.trial.listed(self.mine, self.boxes)
        queue = self.mine.say("queue")[0]
        if status not in (0, 1) or sum(there) != 1 or shown != rows or queue:
            return f"{said!r}, the letter is there {there} times, the queue is {queue!r}, the rows are {'the same' if shown == rows else 'others'}"
        return ""


def put_under(trial: Trial) -> None:
    """Lets the environment name what the front's program and its helper for the line run under."""
    for name, text in (("mowerbean", PROGRAM_UNDER), ("link", LINK_UNDER)):
        place = trial.front.path.parent.parent / "libexec/mowerbean" / name
        real = place.with_name(f"{name}-itself")
        place.rename(real)
        place.write_text(text % str(real))
        place.chmod(0o755)


def played_actions(trial: Trial, seconds: int) -> None:
    """Kills the program, and the helper for the line, in a play of three actions at their system calls, and plays them to the end."""
    if not can_trace():
        return
    put_under(trial)
    numbers = itertools.count()
    for which, title, first in (("TRY_PROGRAM", "the program", "/dev/null"), ("TRY_LINK", "the helper for the line", "listen(")):
        trace = trial.home / which
        Actions(trial, next(numbers)).play_under(which, "strace", "-f", "-o", str(trace))
        killed_at(trial, which, title, calls_of(trace, first), numbers, seconds)


def spread(calls: List[Call]) -> List[Call]:
    """The same calls, so that each front of the list has some of all parts of a play."""
    return [call for start in range(16) for call in calls[(start * 7) % 16 :: 16]]


def killed_at(trial: Trial, which: str, title: str, calls: List[Call], numbers: Iterator[int], seconds: int) -> None:
    """Kills at these system calls, many at a time, as far as the time goes."""
    ends = time.monotonic() + seconds
    order = spread(calls)

    def tried(number: int, call: Call) -> str:
        """What is wrong, if anything; where the time is up it isn't tried."""
        if time.monotonic() > ends:
            return "skipped"
        return Actions(trial, number).fault(which, f"{call[0]}:signal=KILL:when={call[1]}")

    with concurrent.futures.ThreadPoolExecutor(AT_ONCE) as pool:
        told = list(zip(order, pool.map(tried, itertools.islice(numbers, len(order)), order)))
    done = [(call, fault) for call, fault in told if fault != "skipped"]
    for (name, place), fault in done:
        if fault:
            print(f"  {name} {place}: {fault}")
    if len(done) < len(told):
        print(f"skipped: {len(told) - len(done)} system calls, as the time is up")
    faults = sum(bool(fault) for _, fault in done)
    trial.same(f"a play of actions, {title} killed at each of {len(done)} system calls", (faults, len(done) > 0), (0, True))
