"""An account at a real server with TLS: its front as it is installed, its Maildir, and what stands in each."""
import email.parser
import fcntl
import hashlib
import imaplib
import os
import pathlib
import re
import ssl
import subprocess
from typing import Dict, FrozenSet, List, NamedTuple, Tuple

from servers import kinds

TOP = pathlib.Path(__file__).resolve().parent.parent.parent
BOXES = ("INBOX", "Archive", "Sent", "Drafts", "Trash")
LETTERS = {"D": "draft", "F": "flagged", "R": "answered", "S": "seen", "T": "deleted"}
# What a reader that copies a message adds to its header, or takes away.
OF_READERS = ("content-length", "lines", "status", "x-status")


class Message(NamedTuple):
    """A message wherever it stands: its Message-ID, its subject, the flags that a Maildir can say, and a sum of its text."""

    ident: str
    subject: str
    flags: FrozenSet[str]
    sum: str


Rows = Dict[str, Message]


def message_of(text: bytes, flags: FrozenSet[str]) -> Message:
    """A message of this text. Its sum is of what a reader leaves alone as it copies one."""
    head, _, body = text.replace(b"\r\n", b"\n").partition(b"\n\n")
    fields = email.parser.BytesHeaderParser().parsebytes(head + b"\n\n")
    kept = sorted(f"{name.lower()}: {str(value).strip()}" for name, value in fields.items() if name.lower() not in OF_READERS)
    total = hashlib.sha256("\n".join(kept).encode() + b"\n\n" + body.strip(b"\n")).hexdigest()
    return Message(str(fields["Message-ID"] or "").strip(), str(fields["Subject"]), flags, total)


class Other:
    """Another client of the same user, by TLS."""

    def __init__(self, server: kinds.Server, certificate: kinds.Certificate) -> None:
        context = ssl.create_default_context(cafile=str(certificate.cert))
        self.link = imaplib.IMAP4_SSL(server.address, server.tls_port, ssl_context=context, timeout=60)
        self.link.login(kinds.USER, kinds.PASSWORD)

    def __enter__(self) -> "Other":
        return self

    def __exit__(self, *_: object) -> None:
        self.link.logout()

    def put(self, box: str, text: bytes, flags: str = "") -> None:
        """Puts a message into a mailbox."""
        self.link.append(box, flags, None, text)  # type: ignore[arg-type]

    def change(self, box: str, subject: str, flags: str) -> None:
        """Sets flags on a message."""
        self.link.select(box)
        self.link.uid("STORE", self.find(subject), "+FLAGS.SILENT", f"({flags})")

    def remove(self, box: str, subject: str) -> None:
        """Takes a message away."""
        self.change(box, subject, "\\Deleted")
        self.link.expunge()

    def find(self, subject: str) -> str:
        """The UID of a message of the selected mailbox."""
        return self.link.uid("SEARCH", "SUBJECT", f'"{subject}"')[1][0].split()[0].decode()

    def rows(self, box: str) -> Rows:
        """The messages of a mailbox, by UID."""
        self.link.select(box, readonly=True)
        found: Rows = {}
        for part in self.link.uid("FETCH", "1:*", "(UID FLAGS BODY.PEEK[])")[1]:
            if isinstance(part, tuple):
                said = part[0].decode()
                flags = frozenset(flag.lower() for flag in re.findall(r"\\(\w+)", re.findall(r"FLAGS \(([^)]*)\)", said)[0]))
                found[re.findall(r"UID ([0-9]+)", said)[0]] = message_of(part[1], flags & set(LETTERS.values()))
        return found


class Account:
    """The front as it is installed, with a program, for one user at a server that may be away."""

    def __init__(self, home: pathlib.Path, program: pathlib.Path, server: kinds.Server, certificate: kinds.Certificate) -> None:
        self.home, self.server, self.certificate = home, server, certificate
        tree = home / "tree"
        words = {**os.environ, "DESTDIR": str(tree), "MOWERBEAN_PROGRAM": str(program)}
        subprocess.run([str(TOP / "install"), "/usr"], env=words, check=True, stdout=subprocess.DEVNULL)
        self.bin = tree / "usr/bin"
        config = home / ".config/mowerbean/default.conf"
        config.parent.mkdir(parents=True, mode=0o700)
        lines = [f"tls={server.address}:{server.tls_port}", f"cafile={certificate.cert}", f"user={kinds.USER}"]
        lines += [f"password_command=echo {kinds.PASSWORD}", "pause=0", "maildir=~/Mail", "trash=Trash", ""]
        config.write_text("\n".join(lines), encoding="utf-8")
        config.chmod(0o600)

    def environment(self) -> Dict[str, str]:
        """What a command is given: the home, and the front on the path."""
        return {"HOME": str(self.home), "PATH": f"{self.bin}:{os.environ['PATH']}", "LANG": "C.UTF-8", "TZ": "UTC0"}

    def run(self, *words: str) -> Tuple[int, str, str]:
        """The status of mowerbean with these words, what it prints, and what it says besides."""
        line = [str(self.bin / "mowerbean"), *words]
        done = subprocess.run(line, env=self.environment(), stdin=subprocess.DEVNULL, capture_output=True, timeout=300, check=False)
        return done.returncode, done.stdout.decode("utf-8", "replace"), done.stderr.decode("utf-8", "replace")

    def is_syncing(self) -> bool:
        """Whether a sync is at work."""
        with open(self.home / ".local/share/mowerbean/default/mowerbean.sync", "rb") as lock:
            try:
                fcntl.flock(lock, fcntl.LOCK_EX | fcntl.LOCK_NB)
            except BlockingIOError:
                return True
        return False

    def lines(self, *words: str) -> List[str]:
        """What it prints."""
        return self.run(*words)[1].splitlines()

    def listed(self, box: str) -> Dict[str, FrozenSet[str]]:
        """What `list` shows: the flags of each message that a Maildir can say."""
        words = map(str.split, self.lines("list", box))
        return {row[0]: frozenset(flag.lstrip("\\") for flag in row[2:]) & set(LETTERS.values()) for row in words}

    def files(self, box: str) -> List[pathlib.Path]:
        """The files of a mailbox's folder."""
        return sorted(path for part in ("cur", "new") for path in (self.home / "Mail" / box / part).iterdir())

    def filed(self, box: str) -> Rows:
        """The messages of a mailbox's folder, by the UID in the file's name."""
        found: Rows = {}
        for path in self.files(box):
            front, _, letters = path.name.partition(":2,")
            words = front.split(".")
            key = words[1] if len(words) == 3 and words[0].isdigit() else front
            found[key] = message_of(path.read_bytes(), frozenset(LETTERS[letter] for letter in letters if letter in LETTERS))
        return found
