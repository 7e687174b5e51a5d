"""A play of the front in a process group of its own, and the moments at which something happens to it."""
import os
import pathlib
import re
import signal
import subprocess
import threading
import time
from typing import Callable, Dict, List, Optional

# What a sender calls: how it puts its mark in place as the last part of a letter goes out, and how it writes to a connection.
MARKING = "rename,renameat,renameat2"
WRITING = "sendto,sendmsg,write,writev"
CALL = re.compile(r"(\d+) +(?:<\.\.\. )?(\w+)(?:\((\d+)| resumed|\()")
# The microseconds for which the front's programs are held behind each rename, so that a line can die before the last part goes out.
HELD = 1_500_000


class LastWrite:
    """Reads a trace of system calls, and says when the last write of a letter returned: the first one after the sender's mark was put in
    place so many times, or of a sender without a mark the one of the whole letter."""

    def __init__(self, size: int, mark: str, times: int) -> None:
        self.size, self.mark, self.times = size, mark, times
        self.files: Dict[str, str] = {}

    def is_it(self, line: str) -> bool:
        """Whether this line is of the call that wrote the last part."""
        call = CALL.match(line)
        if not call:
            return False
        pid, name, file = call.groups()
        if file:
            self.files[pid] = file
        if "rename" in name and self.mark and self.mark in line:
            self.times -= 1
        wrote = re.search(r"= (\d+)$", line)
        if not wrote or name not in WRITING.split(","):
            return False
        if self.mark:
            return self.times <= 0 and self.files.get(pid, "1") not in ("1", "2")
        return int(wrote[1]) >= self.size


class Play:
    """A play that runs; `under` stands in front of the front's own words."""

    def __init__(self, words: List[str], environment: Dict[str, str], told: pathlib.Path) -> None:
        self.told = told
        with told.open("wb") as out:
            self.running = subprocess.Popen(words, env=environment, stdin=subprocess.DEVNULL, stdout=out, stderr=out, start_new_session=True)

    def is_over(self) -> bool:
        """Whether it has ended."""
        return self.running.poll() is not None

    def send(self, what: signal.Signals) -> None:
        """Sends a signal to its whole group, as a terminal does."""
        try:
            os.killpg(self.running.pid, what)
        except ProcessLookupError:
            pass

    def wait_for(self, moment: Callable[[], bool], seconds: float) -> bool:
        """Waits until this is so; not where the play ends before, or this time is over."""
        ends = time.monotonic() + seconds
        while time.monotonic() < ends:
            if moment():
                return True
            if self.is_over():
                return False
            time.sleep(0.05)
        return False

    def end(self, seconds: float) -> Optional[int]:
        """Its status; one that doesn't end is killed."""
        try:
            return self.running.wait(seconds)
        except subprocess.TimeoutExpired:
            self.send(signal.SIGKILL)
            self.running.wait()
            return None


def kill_at_last_write(play: Play, trace: pathlib.Path, last: LastWrite) -> bool:
    """Kills the play's group as the last write returned, as its trace says; or lets it end, where it isn't written."""
    with trace.open(errors="replace") as lines:
        for line in lines:
            if last.is_it(line.rstrip()):
                play.send(signal.SIGKILL)
                return True
    return False


def traced(trace: pathlib.Path, words: List[str]) -> List[str]:
    """The words that run these under a trace of what a letter's sender calls, into a pipe that is made here."""
    os.mkfifo(trace)
    return ["strace", "-f", "-qq", "-s", "0", "--seccomp-bpf", "-o", str(trace), "-e", f"trace={MARKING},{WRITING}", *words]


def held(words: List[str]) -> List[str]:
    """The words that run these, and hold each of their programs behind a rename."""
    return ["strace", "-f", "-qq", "-o", "/dev/null", "-e", f"trace={MARKING}", "-e", f"inject={MARKING}:delay_exit={HELD}", *words]
