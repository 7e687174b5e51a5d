"""What link holds of the system: the mark of a letter, the notes of large texts, the log, the two connections, and what ends a session
from outside."""
import array
import contextlib
import fcntl
import math
import os
import re
import select
import signal
import socket
import ssl
import stat
import struct
import sys
import time
from typing import Dict, List, NamedTuple, Optional

from link_words import LINE_LIMIT, SENT_PER_SECOND, Ended, Letter, Status, Way, printable

READ_AHEAD = 16_384  # Octets that a socket may hold ahead of its reader.
CONNECT_TIME = 30.0  # For all addresses of the host together, and the way to TLS.
SIOCOUTQ = 0x5411  # Of Linux: how many octets the peer hasn't acknowledged.
RESET, IN_ORDER = struct.pack("ii", 1, 0), struct.pack("ii", 0, 0)
MARK = re.compile(rb"([A-Z][0-9]{1,18}) ([0-9]{1,18}) (catenate|crlf) [0-9]{1,18}\n\Z")


class Mark:
    """The file `mowerbean.line`: a letter whose last part may be out, and whose answer hasn't come."""

    NAME = "mowerbean.line"

    def __init__(self, folder: str) -> None:
        if not os.path.isdir(folder):
            raise Ended(Status.WORDS, f"{folder} is no folder")
        self.folder, self.path = folder, os.path.join(folder, self.NAME)
        self.tag: Optional[bytes] = None  # Without one a mark that is there stands for any letter.
        self.size, self.way = 0, Way.CRLF
        self.was_there = self._read()

    def _read(self) -> bool:
        """Whether there is one."""
        try:
            handle = os.open(self.path, os.O_RDONLY | os.O_NOFOLLOW | os.O_NONBLOCK)
        except FileNotFoundError:
            return False
        except OSError as error:
            raise Ended(Status.WORDS, f"{self.path} can't be read: {error.strerror}") from error
        with os.fdopen(handle, "rb") as file:
            if not stat.S_ISREG(os.fstat(handle).st_mode):
                raise Ended(Status.WORDS, f"{self.path} is no plain file")
            words = MARK.match(file.read(100))
        if words:
            self.tag, self.size, self.way = words[1], int(words[2]), Way(words[3].decode())
        return True

    def stands_for(self, tag: bytes) -> bool:
        """Whether an earlier session may have sent the letter of this tag."""
        return self.was_there and self.tag in (None, tag)

    def write(self, letter: Letter) -> None:
        """Names a letter whose last part is about to go out."""
        try:
            self._put(letter.tag, letter.size, letter.way)
        except OSError as error:
            raise Ended(Status.LINE, f"a letter isn't sent, as {self.path} can't be written: {error.strerror}") from error

    def shorten(self, lived: float) -> None:
        """A second look ended early. The seconds that it had for the letter's octets needn't be waited for once more."""
        if self.tag and self.way is Way.CRLF and self.size:
            with contextlib.suppress(OSError):
                self._put(self.tag, max(0, self.size - int(lived * SENT_PER_SECOND)), self.way)

    def _put(self, tag: bytes, size: int, way: Way) -> None:
        """Writes the file."""
        put(self.path, b"%s %d %s %d\n" % (tag, size, way.value.encode(), int(time.time())))

    def remove(self) -> Optional[str]:
        """The letter was answered, or looked for. Why the mark stays, where it does."""
        self.was_there = False
        try:
            os.unlink(self.path)
            sync_name(self.path)
        except FileNotFoundError:
            pass
        except OSError as error:
            return f"{self.path} can't be removed: {error.strerror}"
        return None


def put(path: str, data: bytes) -> None:
    """Writes a file, so that it is there as a whole or as it was."""
    beside = path + ".new"
    with contextlib.suppress(FileNotFoundError):
        os.unlink(beside)
    handle = os.open(beside, os.O_WRONLY | os.O_CREAT | os.O_EXCL, 0o600)
    with os.fdopen(handle, "wb") as file:
        file.write(data)
        file.flush()
        os.fsync(handle)
    os.replace(beside, path)
    sync_name(path)


def sync_name(path: str) -> None:
    """Makes sure of a name in its folder."""
    handle = os.open(os.path.dirname(path), os.O_RDONLY)
    try:
        os.fsync(handle)
    finally:
        os.close(handle)


class Note(NamedTuple):
    """A message whose text was left out for its size: its mailbox, with the UIDVALIDITY, its UID, and how many bytes it has."""

    box: bytes
    validity: int
    uid: int
    size: int


class Large:
    """The file `mowerbean.large`: a line `VALIDITY.UID.BOX SIZE` for each text that a sync left out, so that no later one asks for it.

    Only the server tells a UIDVALIDITY, and each play selects each mailbox. So a note of a mailbox that was made anew goes before
    anybody could take it for one of a new message.
    """

    NAME = "mowerbean.large"
    LINE = re.compile(rb"([0-9]{1,10})\.([0-9]{1,10})\.(.+) ([0-9]{1,18})")

    def __init__(self, folder: str, most: Optional[int]) -> None:
        self.path, self.most = os.path.join(folder, self.NAME), most

    def is_too_large(self, size: int) -> bool:
        """Whether a text of so many bytes is to be left out."""
        return self.most is not None and size > self.most

    def add(self, note: Note) -> Optional[str]:
        """Notes a message. Why it isn't noted, where it isn't; it is asked for once more then."""
        return self._keep([*self._notes(), note])

    def renew(self, box: bytes, validity: int) -> Optional[str]:
        """The mailbox has this UIDVALIDITY. Notes under another one go, and those that the limit no longer holds back."""
        notes = self._notes()
        left = [note for note in notes if note.box != box or (note.validity == validity and not self._may_come(note))]
        return self._keep(left) if left != notes else None

    def _may_come(self, note: Note) -> bool:
        """Whether a text that was left out may be fetched by the limit of today."""
        return self.most is not None and note.size <= self.most

    def _notes(self) -> List[Note]:
        """All notes. What is no plain file, or has another form, notes nothing."""
        with contextlib.suppress(OSError):
            handle = os.open(self.path, os.O_RDONLY | os.O_NOFOLLOW | os.O_NONBLOCK)
            with os.fdopen(handle, "rb") as file:
                if stat.S_ISREG(os.fstat(handle).st_mode):
                    found = [self.LINE.fullmatch(line) for line in file.read().splitlines()]
                    return [Note(line[3], int(line[1]), int(line[2]), int(line[4])) for line in found if line]
        return []

    def _keep(self, notes: List[Note]) -> Optional[str]:
        """Writes these notes, each once."""
        lines = [b"%d.%d.%s %d\n" % (note.validity, note.uid, note.box, note.size) for note in dict.fromkeys(notes)]
        try:
            put(self.path, b"".join(lines))
        except OSError as error:
            return f"{self.path} can't be written: {error.strerror}"
        return None


class Log:
    """What a person sees: reasons, the lines of --verbose, the line of progress, and the trace."""

    STEP = 0.2
    LOG_STEP = 10.0  # Between two lines of a log in which no action was done.

    def __init__(self, trace: Optional[int], is_verbose: bool, is_progress: bool, actions: Optional[int]) -> None:
        self.trace, self.is_verbose, self.is_progress, self.actions = trace, is_verbose, is_progress, actions
        self.began = time.monotonic()
        self.shown, self.shown_at = "", 0.0
        self.logged, self.logged_at, self.logged_done = "", self.began, 0

    def say(self, text: str) -> None:
        """Prints a line for people."""
        self.clear()
        with contextlib.suppress(OSError):
            print(f"mowerbean: {text}", file=sys.stderr, flush=True)

    def line(self, way: str, line: bytes, for_verbose: bool = False) -> None:
        """A line, secrets hidden, of C (the client) or S (the server)."""
        is_shown = self.is_verbose and for_verbose
        if self.trace is None and not is_shown:
            return
        text = way + ": " + printable(line.rstrip(b"\r\n"))
        self.note(text)
        if is_shown:
            self.clear()
            with contextlib.suppress(OSError):
                print(text[:200], file=sys.stderr, flush=True)

    def octets(self, way: str, count: int) -> None:
        """A literal, or a part of a letter."""
        self.note(f"{way}: [{count} octets]")

    def note(self, text: str) -> None:
        """Puts a line into the trace."""
        if self.trace is None:
            return
        try:
            os.write(self.trace, f"{time.monotonic() - self.began:8.3f} {text}\n".encode())
        except OSError as error:
            self.trace = None
            self.say(f"the trace ends, as it can't be written: {error.strerror}")

    def progress(self, done: int, moved: int, now: float) -> None:
        """Shows how far the session is: on a terminal in one line, in a log in a line after each action, and where one takes long."""
        of = "" if self.actions is None else f" of {self.actions}"
        text = f"{done}{of} actions, {moved // 1000} KB"
        self.show(text, now)
        if not self.is_verbose or self.is_progress:
            return
        if done != self.logged_done or (text != self.logged and now - self.logged_at >= self.LOG_STEP):
            self.logged, self.logged_at, self.logged_done = text, now, done
            with contextlib.suppress(OSError):
                print(f"-- {text}, {now - self.began:.0f} s", file=sys.stderr, flush=True)

    def show(self, text: str, now: float) -> None:
        """Rewrites the line of progress, where there is one and the last one has stood long enough to be read."""
        if not self.is_progress or text == self.shown or now - self.shown_at < self.STEP:
            return
        with contextlib.suppress(OSError):
            print(f"\r{text:<{len(self.shown)}}", end="", file=sys.stderr, flush=True)
        self.shown, self.shown_at = text, now

    def end_progress(self) -> None:
        """Takes the line of progress away for good: the program may print from now on."""
        self.clear()
        self.is_progress = False

    def clear(self) -> None:
        """Takes the line of progress away."""
        if self.shown:
            with contextlib.suppress(OSError):
                print(f"\r{'':<{len(self.shown)}}\r", end="", file=sys.stderr, flush=True)
            self.shown = ""


class Door:
    """The port of this machine at which the program comes in."""

    def __init__(self) -> None:
        self.socket = socket.socket(socket.AF_INET, socket.SOCK_STREAM)
        self.socket.setsockopt(socket.SOL_SOCKET, socket.SO_RCVBUF, READ_AHEAD)
        self.socket.bind(("127.0.0.1", 0))
        self.socket.listen(8)
        self.socket.setblocking(False)
        self.port: int = self.socket.getsockname()[1]
        self.has_refused = False  # Said once, however often another user comes.

    def take(self, log: Log) -> Optional[socket.socket]:
        """The program's connection, where it has come. Another user's is closed."""
        try:
            link, peer = self.socket.accept()
        except (BlockingIOError, ConnectionError):
            return None
        try:
            owner = owner_of(peer[1], self.port)
        except OSError as error:
            log.say(f"the connection may be another user's: /proc/net/tcp can't be read ({error.strerror})")
            owner = os.geteuid()
        if owner != os.geteuid():
            if not self.has_refused:
                log.say("another user's connection was refused")
            self.has_refused = True
            link.close()
            return None
        link.setblocking(False)
        link.setsockopt(socket.IPPROTO_TCP, socket.TCP_NODELAY, 1)
        self.socket.close()
        return link


def owner_of(port: int, to: int) -> Optional[int]:
    """The user whose socket at a port of this machine is connected to another one; none where there is no such socket."""
    address = int.from_bytes(socket.inet_aton("127.0.0.1"), sys.byteorder)
    ends, established = [f"{address:08X}:{port:04X}", f"{address:08X}:{to:04X}"], "01"
    with open("/proc/net/tcp", encoding="ascii") as rows:
        for row in rows:
            words = row.split()
            if words[1:4] == [*ends, established]:
                return int(words[7])
    return None


class Address(NamedTuple):
    """Where the server is, and how it is spoken to: server (plain), tls or starttls."""

    host: str
    port: int
    way: str

    def __str__(self) -> str:
        return f"[{self.host}]:{self.port}" if ":" in self.host else f"{self.host}:{self.port}"


class Line:
    """The connection to the server. Its socket is reset at close, unless it is closed in order."""

    def __init__(self, link: socket.socket, first: bytes = b"") -> None:
        self.socket, self.first = link, first
        self.read_events, self.write_events = select.POLLIN, select.POLLOUT
        link.setblocking(False)

    def recv(self) -> Optional[bytes]:
        """What has come, no octets at the end, and nothing where nothing has come."""
        if self.first:
            first, self.first = self.first, b""
            return first
        self.read_events = select.POLLIN
        try:
            return self.socket.recv(READ_AHEAD)
        except ssl.SSLWantWriteError:
            self.read_events = select.POLLIN | select.POLLOUT
        except (BlockingIOError, ssl.SSLWantReadError):
            pass
        return None

    def send(self, data: bytes) -> int:
        """Sends what the socket takes."""
        self.write_events = select.POLLOUT
        try:
            return self.socket.send(data)
        except ssl.SSLWantReadError:
            self.write_events = select.POLLOUT | select.POLLIN
        except (BlockingIOError, ssl.SSLWantWriteError):
            pass
        return 0

    def has_more(self) -> bool:
        """Whether octets wait that the system doesn't know of."""
        return bool(self.first) or (isinstance(self.socket, ssl.SSLSocket) and self.socket.pending() > 0)

    def queued(self) -> int:
        """The octets that the server's side hasn't acknowledged; 0 where the system can't be asked."""
        if not sys.platform.startswith("linux"):
            return 0
        size = array.array("i", [0])
        try:
            fcntl.ioctl(self.socket.fileno(), SIOCOUTQ, size)
        except OSError:
            return 0
        return size[0]

    def close(self, in_order: bool) -> None:
        """Ends the connection; what the system holds of it is dropped, unless in order."""
        with contextlib.suppress(OSError):
            self.socket.setsockopt(socket.SOL_SOCKET, socket.SO_LINGER, IN_ORDER if in_order else RESET)
        self.socket.close()


def connect(address: Address, context: Optional[ssl.SSLContext]) -> Line:
    """Connects to the server, within CONNECT_TIME."""
    deadline = time.monotonic() + CONNECT_TIME
    link = connect_any(address, deadline)
    try:
        return secure(link, address, context, deadline)
    except (OSError, ValueError) as error:
        link.close()
        raise why_no_tls(error, address) from error
    except Ended:
        link.close()
        raise


def secure(link: socket.socket, address: Address, context: Optional[ssl.SSLContext], deadline: float) -> Line:
    """The connection over TLS where it is asked for; then nothing that came before TLS is handed on."""
    if not context:
        return Line(link)
    first = ask_for_tls(link, address, deadline) if address.way == "starttls" else b""
    link.settimeout(max(0.01, deadline - time.monotonic()))
    return Line(context.wrap_socket(link, server_hostname=address.host), first)


def why_no_tls(error: Exception, address: Address) -> Ended:
    """Why TLS couldn't be set up, for people."""
    if isinstance(error, ssl.SSLCertVerificationError):
        return Ended(Status.ADDRESS, f"the certificate of {address} isn't valid: {printable(error.verify_message.encode())}")
    if isinstance(error, (ssl.SSLEOFError, ssl.SSLZeroReturnError, ConnectionError)):
        return Ended(Status.LINE, f"{address} ended the connection before TLS was set up")
    if isinstance(error, socket.timeout):
        return Ended(Status.LINE, f"no bytes from {address} for {CONNECT_TIME:.0f} seconds")
    reason = error.reason if isinstance(error, ssl.SSLError) else None
    is_address = isinstance(error, (ssl.SSLError, ValueError))
    return Ended(Status.ADDRESS if is_address else Status.LINE, f"no TLS with {address}: {printable((reason or str(error)).encode())}")


def connect_any(address: Address, deadline: float) -> socket.socket:
    """A connection to one of the host's addresses, each of which is given its share of the time."""
    try:
        found = socket.getaddrinfo(address.host, address.port, type=socket.SOCK_STREAM)
    except socket.gaierror as error:
        is_later = error.errno == socket.EAI_AGAIN
        reason = f"no such host: {address.host}" if not is_later else f"the name {address.host} can't be looked up now"
        raise Ended(Status.LINE if is_later else Status.ADDRESS, reason) from error
    except (OSError, UnicodeError) as error:
        raise Ended(Status.ADDRESS, f"no such host: {address.host}") from error
    reasons: List[str] = []
    for count, (family, kind, protocol, _, where) in enumerate(found):
        link: Optional[socket.socket] = None
        share = (deadline - time.monotonic()) / (len(found) - count)
        try:
            link = socket.socket(family, kind, protocol)
            link.setsockopt(socket.SOL_SOCKET, socket.SO_LINGER, RESET)
            link.setsockopt(socket.SOL_SOCKET, socket.SO_SNDBUF, READ_AHEAD)
            link.setsockopt(socket.IPPROTO_TCP, socket.TCP_NODELAY, 1)
            link.settimeout(max(0.01, share))
            link.connect(where)
            return link
        except OSError as error:
            if link:
                link.close()
            is_timeout = isinstance(error, socket.timeout)
            reasons.append(f"no answer for {share:.0f} seconds" if is_timeout else (error.strerror or str(error)))
    raise Ended(Status.LINE, f"no connection to {address}: {' and '.join(dict.fromkeys(reasons))}")


def ask_for_tls(link: socket.socket, address: Address, deadline: float) -> bytes:
    """STARTTLS (RFC 9051, sections 6.2.1 and 11.1); the greeting that the program gets.

    It is a greeting of our own: what came in clear could be anybody's, and must not count as said over TLS.
    """
    greeting = clear_line(link, deadline)
    if not greeting.upper().startswith(b"* OK"):
        is_bye = greeting.upper().startswith(b"* BYE")
        raise Ended(Status.LINE if is_bye else Status.ADDRESS, f"no STARTTLS with {address}: it greets with {printable(greeting)[:100]}")
    link.sendall(b"X0 STARTTLS\r\n")
    line = clear_line(link, deadline)
    for _ in range(100):
        if line.startswith(b"X0 "):
            break
        line = clear_line(link, deadline)
    if not line.upper().startswith(b"X0 OK"):
        raise Ended(Status.ADDRESS, f"no STARTTLS with {address}: {printable(line)[:100]}")
    link.setblocking(False)
    try:
        injected = link.recv(1, socket.MSG_PEEK)
    except BlockingIOError:
        injected = b""
    if injected:
        raise Ended(Status.ADDRESS, f"no STARTTLS with {address}: it, or somebody between, sent more in clear after its answer")
    return b"* OK TLS is on\r\n"


def clear_line(link: socket.socket, deadline: float) -> bytes:
    """A line before TLS, without its end. It is read octet by octet, so that nothing after it is."""
    line = bytearray()
    while not line.endswith(b"\n") and len(line) < LINE_LIMIT:
        link.settimeout(max(0.01, deadline - time.monotonic()))
        octet = link.recv(1)
        if not octet:
            raise ConnectionResetError
        line += octet
    return bytes(line).rstrip(b"\r\n")


class Guard:
    """What ends a session from outside: signals, the end of the script that started it, the limit of time."""

    def __init__(self, owner: Optional[int], seconds: float) -> None:
        self.deadline, self.seconds = time.monotonic() + seconds, seconds
        self.is_asked_to_end = False
        self.is_program_gone = False
        self.signals: List[int] = []
        self.bell, self.ring = socket.socketpair()
        self.bell.setblocking(False)
        self.ring.setblocking(False)
        signal.set_wakeup_fd(self.ring.fileno(), warn_on_full_buffer=False)
        for number in (signal.SIGUSR1, signal.SIGUSR2, signal.SIGTERM, signal.SIGINT, signal.SIGHUP):
            # A script in the background ignores INT for its children, and nohup ignores HUP: so it stays.
            if signal.getsignal(number) is not signal.SIG_IGN or number not in (signal.SIGINT, signal.SIGHUP):
                signal.signal(number, lambda got, _: self.signals.append(got))
        self.owner = owner
        self.owner_handle: Optional[int] = None
        if owner is not None and hasattr(os, "pidfd_open"):
            with contextlib.suppress(OSError):
                self.owner_handle = os.pidfd_open(owner)

    def wait(self, wanted: Dict[int, int], seconds: float) -> Dict[int, int]:
        """Waits for events of these sockets; what came. Ends the session where it has to."""
        now = time.monotonic()
        seconds = min(seconds, self.deadline - now, 1.0 if self.owner is not None and self.owner_handle is None else 3_600.0)
        poll = select.poll()
        for handle, events in wanted.items():
            poll.register(handle, events)
        poll.register(self.bell, select.POLLIN)
        if self.owner_handle is not None:
            poll.register(self.owner_handle, select.POLLIN)
        ready = dict(poll.poll(max(0.0, seconds * 1000 + 1 if seconds > 0 else 0)))
        if self.bell.fileno() in ready:
            self.bell.recv(1024)
        self._check(ready)
        return ready

    def _check(self, ready: Dict[int, int]) -> None:
        """Ends the session where a signal, the owner's end or the limit of time asks for it."""
        for number in self.signals:
            if number == signal.SIGUSR1:
                self.is_asked_to_end = True
            elif number == signal.SIGUSR2:
                self.is_program_gone = True
            else:
                raise Ended(Status.LINE, f"ended by {signal.Signals(number).name}")
        self.signals.clear()
        if self._is_owner_gone(ready):
            raise Ended(Status.LINE, "the script that started it is gone")
        if time.monotonic() >= self.deadline:
            raise Ended(Status.LINE, f"the session took longer than {self.seconds:.0f} seconds")

    def _is_owner_gone(self, ready: Dict[int, int]) -> bool:
        if self.owner is None:
            return False
        return self.owner_handle in ready if self.owner_handle is not None else not is_there(self.owner)

    def lift(self) -> None:
        """The limit of time counts no longer: what takes its time now would have to begin anew in each session."""
        self.deadline = math.inf

    def wake(self) -> None:
        """Ends a wait, from another thread."""
        self.ring.send(b"x")


def is_there(process: int) -> bool:
    """Whether there is such a process."""
    try:
        os.kill(process, 0)
    except ProcessLookupError:
        return False
    except PermissionError:
        pass
    return True
