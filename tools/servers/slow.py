"""The table of slow lines: a letter is played over a slow line while something happens, then played to the end, and its copies counted.

Wanted is one copy in each row, with the letter's own octets. A row waits until nothing more can come before it counts.
"""
import concurrent.futures
import contextlib
import os
import pathlib
import shutil
import signal
import subprocess
import tempfile
import threading
import time
from typing import Callable, Dict, Iterator, List, NamedTuple, Optional, Sequence, Tuple, Union

from . import kinds, lines, plays
from .clients import Other
from .slow_rows import DEAD, DEAD_SECONDS, INT, KILL, LAST, LONG_STUCK, STUCK, Row
from .trial import Front

# The seconds after which no more plays of a row are begun, and for which a line may take to become empty.
MOST_SECONDS = 1_500
# How many rows are tried at a time.
AT_ONCE = 32
# The bytes that go to the server before a letter, at most.
BEFORE = 8_000

Line = Union[lines.RealLine, lines.Relay]
Environment = Dict[str, str]


class Letter:
    """A letter of so many octets, each line of which says where it stands."""

    def __init__(self, ident: str, size: int) -> None:
        self.ident = ident
        head = f"From: ann@x\nDate: Sun, 29 Nov 2026 12:00:00 +0000\nSubject: slow\nMessage-ID: {ident}\n\n"
        body = "".join(f"{number:08} {'abcdefghij' * 6}\n" for number in range(size // 71 + 1))
        octets = (head + body).replace("\n", "\r\n").encode()
        self.sent = octets[: size - 3].rstrip(b"\r\n") + b".\r\n"
        self.text = self.sent.replace(b"\r\n", b"\n")


class Settings:
    """What all rows have in common: the front, the servers, and the ends of the tunnels that stand beside them."""

    def __init__(self, home: pathlib.Path, front: Front, certificate: kinds.Certificate, is_linked: bool) -> None:
        self.home, self.front, self.certificate, self.is_linked = home, front, certificate, is_linked
        self.servers: Dict[Tuple[str, bool], kinds.Server] = {}
        self.tunnels: Dict[Tuple[str, bool], int] = {}

    @property
    def has_helper(self) -> bool:
        """Whether the front has a helper for the line, and is to use it."""
        return self.front.has_helper and self.is_linked

    @property
    def mark(self) -> Tuple[str, int]:
        """The mark that is put in place before a letter's last part goes out, and how many times until then."""
        if self.has_helper:
            return "mowerbean.line", 1
        return ("mowerbean.sent", 2) if self.front.has_helper else ("", 0)

    def start(self, stack: contextlib.ExitStack, which: Tuple[str, bool], address: str) -> None:
        """Starts a server, and the end of all tunnels to it."""
        kind: kinds.Kind = getattr(kinds, which[0])
        if kinds.missing(kind):
            return
        folder = stack.enter_context(scratch())
        server = stack.enter_context(kinds.started(kind(str(folder), kinds.free_port(address), address, self.certificate, which[1])))
        port = kinds.free_port(address)
        more = f"cert = {self.certificate.cert}\nkey = {self.certificate.key}"
        stack.enter_context(lines.tunnel(self.home / f"tunnel{port}", (address, port), (address, server.port), more))
        self.servers[which], self.tunnels[which] = server, port

    def server(self, row: Row) -> kinds.Server:
        """The server of a row."""
        return self.servers[row.kind, row.has_catenate]

    def target(self, row: Row) -> lines.Address:
        """Where a row's line ends."""
        server = self.server(row)
        if row.way == "tunnel":
            return server.address, self.tunnels[row.kind, row.has_catenate]
        return server.address, server.tls_port if row.way == "TLS" else server.port

    def can(self, row: Row, has_lines: bool) -> bool:
        """Whether a row can be tried here."""
        if (row.kind, row.has_catenate) not in self.servers or (row.way == "TLS" and not self.has_helper):
            return False
        return has_lines or row.line.startswith("relay")


class Trial:
    """One row as it is tried."""

    def __init__(self, row: Row, number: int, settings: Settings) -> None:
        self.row, self.number, self.settings = row, number, settings
        self.server = settings.server(row)
        self.home = settings.home / f"row{number}"
        self.home.mkdir()
        self.folder = self.home / "journal"
        self.box, self.letter = f"R{number}", Letter(f"<slow.{number}@x>", row.size)
        self.statuses: List[Optional[int]] = []
        self.notes = [str(row)]
        self.has_come_back = threading.Event()
        self.has_come_back.set()
        self.began = time.monotonic()
        self.fault = ""

    def note(self, what: str) -> None:
        """Keeps what happened and when."""
        self.notes.append(f"{time.monotonic() - self.began:.1f}: {what}")
        (self.home / "notes").write_text("\n".join(self.notes) + "\n")

    @property
    def left(self) -> float:
        """The seconds that are left to the row."""
        return MOST_SECONDS - (time.monotonic() - self.began)

    def run(self) -> "Trial":
        """Tries the row."""
        self.began = time.monotonic()
        try:
            with contextlib.ExitStack() as stack:
                self.played(stack)
            self.fault = self.found()
        except (OSError, subprocess.SubprocessError, RuntimeError) as error:
            self.fault = f"it couldn't be tried: {error}"
        self.note(self.fault or "1 copy")
        return self

    def played(self, stack: contextlib.ExitStack) -> None:
        """Plays over the row's line until nothing more can come."""
        line = self.line(self.settings.target(self.row))
        stack.callback(line.close)
        address = line.address
        if self.row.way == "tunnel":
            address = ("127.0.0.1", kinds.free_port())
            stack.enter_context(lines.tunnel(self.home / "tunnel", address, line.address, "client = yes", line.inside))
        environment = self.account(address)
        self.prepare(environment)
        self.befall(line, environment)
        while self.statuses[-1] not in (0, 1) and self.left > 0:
            self.end(self.start(self.words(line), environment))
            time.sleep(0.2)
        self.settle(line)

    def line(self, target: lines.Address) -> Line:
        """The row's own line."""
        if self.row.line.startswith("relay"):
            return lines.Relay(self.row.rate, self.row.line != "relay", target)
        return lines.RealLine(self.number, self.row.rate, self.row.line == "a queue each", target[1])

    def account(self, address: lines.Address) -> Environment:
        """The environment in which the front finds its account."""
        config = self.home / "config/mowerbean/default.conf"
        config.parent.mkdir(parents=True)
        word = "tls" if self.row.way == "TLS" else "server"
        said = [f"dir={self.folder}", f"{word}={address[0]}:{address[1]}", f"user={kinds.USER}", f"password_command=echo {kinds.PASSWORD}"]
        if self.row.way == "TLS":
            said.append(f"cafile={self.settings.certificate.cert}")
        if self.settings.front.has_helper and not self.settings.is_linked:
            said.append("link=no")
        config.write_text("\n".join(said) + "\n")
        config.chmod(0o600)
        return {"PATH": os.environ["PATH"], "HOME": str(self.home), "XDG_CONFIG_HOME": str(self.home / "config")}

    def prepare(self, environment: Environment) -> None:
        """An empty mailbox that was synchronised beside the line, and a letter that waits."""
        with Other(self.server.port, self.server.address) as other:
            other.create(self.box)
        direct = {**environment, "MAIL_SERVER": f"{self.server.address}:{self.server.port}", "MAIL_USER": kinds.USER, "MAIL_PASSWORD": kinds.PASSWORD}
        # On a busy machine a server may not answer in time.
        for words, given in ((["init", self.box], b""), (["play", "--retry", "3"], b""), (["append", self.box], self.letter.text)):
            ran = subprocess.run([str(self.settings.front.path), *words], env=direct, input=given, capture_output=True)
            if ran.returncode:
                told = (ran.stdout + ran.stderr).decode(errors="replace").strip().splitlines()
                raise RuntimeError(f"{words[0]} ended with {ran.returncode}: {told[-1:]}")
        # The line's address is another one than the server's.
        (self.folder / "mowerbean.server").unlink(missing_ok=True)

    def words(self, line: Line) -> List[str]:
        """The words of a play over the line."""
        return [*line.inside, str(self.settings.front.path), "play"]

    def start(self, words: List[str], environment: Environment) -> plays.Play:
        """Begins a play."""
        self.note("a play")
        return plays.Play(words, environment, self.home / f"play{len(self.statuses) + 1}")

    def end(self, play: plays.Play) -> None:
        """Waits for a play's end."""
        self.statuses.append(play.end(max(1.0, self.left)))
        self.note(f"it ended with {self.statuses[-1]}")

    def befall(self, line: Line, environment: Environment) -> None:
        """The first play, and what happens to it."""
        event, words = self.row.event, self.words(line)
        if event == LAST:
            self.killed_at_last_write(words, environment)
        elif event in DEAD_SECONDS:
            self.dead(line, plays.held(words), environment)
        else:
            base = line.carried()
            play = self.start(words, environment)
            if event in (INT, KILL):
                play.wait_for(lambda: line.carried() > base + min(BEFORE, self.row.size // 4), 120)
                time.sleep(1)
                self.note(event)
                play.send(signal.SIGINT if event == INT else signal.SIGKILL)
            self.end(play)

    def killed_at_last_write(self, words: List[str], environment: Environment) -> None:
        """A play that is killed as the last write returned."""
        trace = self.home / "trace"
        play = self.start(plays.traced(trace, words), environment)
        if plays.kill_at_last_write(play, trace, plays.LastWrite(self.row.size, *self.settings.mark)):
            self.note(LAST)
        self.end(play)

    def dead(self, line: Line, words: List[str], environment: Environment) -> None:
        """A play whose line dies before the letter's last part."""
        play = self.at_last_part(line, words, environment)
        if self.row.event in (STUCK, LONG_STUCK) and isinstance(line, lines.Relay):
            line.fall_alone()
        else:
            line.fall()
        self.note("the line is dead")
        self.has_come_back.clear()
        threading.Thread(target=self.rise_later, args=(line,), daemon=True).start()
        if self.row.event != DEAD:
            # Held behind its mark, and a second more.
            time.sleep(plays.HELD / 1e6 + 1)
            self.note("KILL")
            play.send(signal.SIGKILL)
        self.end(play)

    def at_last_part(self, line: Line, words: List[str], environment: Environment) -> plays.Play:
        """A play whose last part is about to go out. On a busy machine one may end before."""
        for _ in range(3):
            base = line.carried()
            play = self.start(words, environment)
            if play.wait_for(self.before_last_part(line, base), 600):
                return play
            self.end(play)
        raise RuntimeError("no last part was seen")

    def rise_later(self, line: Line) -> None:
        """Lets the line come back."""
        time.sleep(DEAD_SECONDS[self.row.event])
        line.rise()
        self.note("the line is back")
        self.has_come_back.set()

    def before_last_part(self, line: Line, base: int) -> Callable[[], bool]:
        """Whether the last part is about to go out; of a sender that makes no mark, whether half of the letter went through."""
        name, times = self.settings.mark
        if not name:
            return lambda: line.carried() > base + self.row.size // 2
        mark = self.folder / name
        return lambda: mark.exists() and (times == 1 or b"whole" in mark.read_bytes())

    def settle(self, line: Line) -> None:
        """Waits until nothing more can come, and a little more, as servers take their time."""
        self.has_come_back.wait()
        ends = time.monotonic() + MOST_SECONDS
        while not line.is_empty():
            if time.monotonic() > ends:
                raise RuntimeError("the line doesn't become empty")
            time.sleep(3)
        self.note("the line is empty")
        time.sleep(5)

    def found(self) -> str:
        """What is wrong with what the server has, if anything."""
        if self.statuses[-1] not in (0, 1):
            return f"no play ended well: {self.statuses}"
        with Other(self.server.port, self.server.address) as other:
            if (copies := other.having(self.box, self.letter.ident)) != 1:
                return f"{copies} copies"
            uid = other.uid("SEARCH", "HEADER", "Message-ID", self.letter.ident)[0].decode()
            text = other.uid("FETCH", uid, "(BODY.PEEK[])")[0][1]
        return "" if text == self.letter.sent else f"other octets: {len(text)} in place of {len(self.letter.sent)}"

    def show(self) -> None:
        """Prints the row."""
        verdict = f"FAILED: {self.row}: {self.fault}" if self.fault else f"ok: {self.row}: 1 copy"
        print(f"{verdict}; plays {', '.join(map(str, self.statuses))}; {time.monotonic() - self.began:.0f} s", flush=True)


@contextlib.contextmanager
def scratch() -> Iterator[pathlib.Path]:
    """A folder that goes away again, in memory where there is such a place: a server syncs each message that is put there."""
    shared = "/dev/shm" if os.path.isdir("/dev/shm") else None
    with tempfile.TemporaryDirectory(prefix="try-server-", dir=shared) as folder:
        os.chmod(folder, 0o755)
        yield pathlib.Path(folder)


def tried(rows: Sequence[Row], settings: Settings) -> List[Trial]:
    """Tries these rows, many at a time, and prints each as it ends."""
    trials = [Trial(row, number, settings) for number, row in enumerate(rows)]
    with concurrent.futures.ThreadPoolExecutor(AT_ONCE) as pool:
        for future in concurrent.futures.as_completed([pool.submit(trial.run) for trial in trials]):
            future.result().show()
    return trials


def counted_again(trials: Sequence[Trial]) -> None:
    """Looks once more for copies that came later."""
    for trial in trials:
        if not trial.fault and (fault := trial.found()):
            trial.fault = f"{fault}, later"
            trial.show()


def table(trials: Sequence[Trial]) -> None:
    """Prints the table: the rows that weren't as wanted, of all of a line, a way and an event."""
    servers = list(dict.fromkeys(trial.row.server for trial in trials))
    print("\n| " + " | ".join(["Line", "Over it", "What happens", *servers]) + " |")
    print("|---" * (3 + len(servers)) + "|")
    for what in dict.fromkeys((trial.row.line, trial.row.way, trial.row.event) for trial in trials):
        of = [trial for trial in trials if (trial.row.line, trial.row.way, trial.row.event) == what]
        cells = [cell([trial for trial in of if trial.row.server == server]) for server in servers]
        print("| " + " | ".join([*what, *cells]) + " |")


def cell(trials: Sequence[Trial]) -> str:
    """How many of these rows weren't as wanted, of how many."""
    bad = sum(bool(trial.fault) for trial in trials)
    return f"{f'**{bad}**' if bad else 0} of {len(trials)}" if trials else ""


class Wanted(NamedTuple):
    """What is to be tried: the rows, the checkout whose front is tried, the program, whether with the helper for the line, and where
    the rows' folders are kept."""

    rows: Sequence[Row]
    source: pathlib.Path
    program: pathlib.Path
    is_linked: bool
    kept: Optional[pathlib.Path]


def run(wanted: Wanted) -> Tuple[int, int]:
    """Tries these rows, and prints the table: how many were as wanted, and how many not."""
    has_lines = lines.in_own_network()
    if not has_lines:
        print("skipped: real lines, since no name spaces of the network can be had")
    address = lines.SERVER_ADDRESS if has_lines else "127.0.0.1"
    with contextlib.ExitStack() as stack:
        home = stack.enter_context(scratch())
        front = Front(home / "tree", wanted.source, wanted.program)
        settings = Settings(home, front, kinds.Certificate(home, ["127.0.0.1", lines.SERVER_ADDRESS]), wanted.is_linked)
        for which in dict.fromkeys((row.kind, row.has_catenate) for row in wanted.rows):
            settings.start(stack, which, address)
        if wanted.kept:
            stack.callback(shutil.copytree, home, wanted.kept, ignore=shutil.ignore_patterns("trace", "tree", "journal.*"))
        trials = tried([row for row in wanted.rows if settings.can(row, has_lines)], settings)
        counted_again(trials)
        table(trials)
    failed = sum(bool(trial.fault) for trial in trials)
    return len(trials) - failed, failed
