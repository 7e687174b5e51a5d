"""A small client and server in memory, and a reader's hands, by which mowerbean-maildir is tried (test_maildir.py)."""
import contextlib
import email
import importlib.machinery
import importlib.util
import io
import os
import pathlib
import random
import shutil
import sys
import tempfile
import unittest
from typing import Any, Dict, List, Optional, Set, Tuple

sys.dont_write_bytecode = True
LOADER = importlib.machinery.SourceFileLoader("maildir", str(pathlib.Path(__file__).with_name("maildir")))
SPEC = importlib.util.spec_from_loader("maildir", LOADER)
assert SPEC
maildir = importlib.util.module_from_spec(SPEC)
sys.modules["maildir"] = maildir
LOADER.exec_module(maildir)
maildir.ON_ITS_WAY = 0
import maildir_files  # noqa: E402  # the tool has made known where they are
import maildir_words  # noqa: E402

BOXES = ["INBOX", "Sent Items", "Old/2024"]


class Killed(BaseException):
    """The run is killed."""


class Message:
    """A message of a mailbox."""

    def __init__(self, text: bytes, letters: str) -> None:
        self.text, self.letters = text, letters

    def copy(self) -> "Message":
        return Message(self.text, self.letters)


class Asked:
    """An action."""

    def __init__(self, verb: str, box: str, message: str, target: str, letters: str, text: bytes) -> None:
        self.verb, self.box, self.message, self.target, self.letters, self.text = verb, box, message, target, letters, text
        self.stands = "waiting"
        self.validity = 0


class World(maildir.Mowerbean):  # type: ignore[misc,name-defined]
    """A server, and a client that knows it as it was at the last play."""

    def __init__(self, folder: str) -> None:
        super().__init__([])
        self.place = folder
        self.server: Dict[str, Dict[int, Message]] = {box: {} for box in BOXES}
        self.cache: Dict[str, Dict[int, Message]] = {box: {} for box in BOXES}
        self.next = {box: 1 for box in BOXES}
        # The UIDVALIDITY of each mailbox, on the server and as the client knows it.
        self.validity, self.known = {box: 7 for box in BOXES}, {box: 7 for box in BOXES}
        self.asked: List[Asked] = []
        os.makedirs(os.path.join(folder, "bodies"))

    # -- What the tool asks --

    def folder(self) -> str:
        return self.place

    def boxes(self) -> List[str]:
        return BOXES

    def view(self, box: str) -> Dict[str, Message]:
        """A mailbox as it will be."""
        views = {each: {str(uid): message.copy() for uid, message in self.cache[each].items()} for each in BOXES}
        for number, asked in enumerate(self.asked, 1):
            if asked.stands != "waiting":
                continue
            if asked.verb == "append":
                views[asked.target][f"d{number}"] = Message(asked.text, asked.letters)
                continue
            found = views[asked.box].get(self.now(asked.message))
            if not found:
                continue
            if asked.verb == "move":
                views[asked.target][f"d{number}"] = views[asked.box].pop(self.now(asked.message))
            else:
                found.letters = changed(found.letters, asked.letters)
        return views[box]

    def now(self, message: str) -> str:
        """The ID that a message has now."""
        if message.startswith("d"):
            words = self.asked[int(message[1:]) - 1].stands.split()
            return words[2] if words[0] == "done" and len(words) == 3 else message
        return message

    def rows(self, box: str) -> Dict[str, str]:
        return {message: it.letters for message, it in self.view(box).items()}

    def kept(self, box: str) -> Set[str]:
        names = os.listdir(os.path.join(self.place, "bodies"))
        return {str(uid) for uid in self.cache[box] if self.text_name(box, uid) in names}

    def text_name(self, box: str, uid: int) -> str:
        """The name of a kept text."""
        return f"{self.known[box]}.{uid}.{box.replace('/', '%')}"

    def history(self) -> List[str]:
        quote = lambda name: f'"{name}"' if " " in name else name
        lines = []
        for number, asked in enumerate(self.asked, 1):
            if asked.verb == "append":
                what = f"append {quote(asked.target)} {ident(asked.text)}"
            elif asked.verb == "move":
                what = f"move {quote(asked.box)} {asked.message} {quote(asked.target)}"
            else:
                what = f"flag {quote(asked.box)} {asked.message} {asked.letters[0]} \\x"
            lines.append(f"{number} {asked.stands} {what}")
        return lines

    def run(self, *words: str, given: Optional[bytes] = None) -> bytes:
        assert words[0] == "letter"
        return self.asked[int(words[1]) - 1].text

    def ask(self, *words: str, given: Optional[bytes] = None) -> int:
        verb, box, *rest = words
        if verb == "append":
            letters = "".join(sorted(letter_of(flag) for flag in rest))
            assert given and ident(given)
            self.asked.append(Asked(verb, "", "", box, letters, given.replace(b"\r\n", b"\n").replace(b"\n", b"\r\n")))
        else:
            if rest[0] not in self.view(box):
                raise maildir.Refused(10, f"{verb} {box} {rest[0]}: refused no-message")
            target = rest[1] if verb == "move" else ""
            letters = "" if verb == "move" else rest[1] + "".join(letter_of(flag) for flag in rest[2:])
            self.asked.append(Asked(verb, box, rest[0], target, letters, b""))
            self.asked[-1].validity = self.known[box]
        return len(self.asked)

    # -- The server --

    def put(self, box: str, message: Message) -> int:
        """Puts a message into a mailbox of the server."""
        uid = self.next[box]
        self.next[box] += 1
        self.server[box][uid] = message
        return uid

    def recreate(self, box: str) -> None:
        """A mailbox is made anew: its messages get other UIDs, in another order."""
        messages = list(self.server[box].values())[::-1]
        self.server[box] = dict(enumerate(messages, 1))
        self.validity[box], self.next[box] = self.validity[box] + 1, len(messages) + 1

    def play(self, chance: random.Random, most: int = 1000) -> None:
        """Plays what waits, or the first so many actions; then the client knows the server, where the play came to its end."""
        for asked in [asked for asked in self.asked if asked.stands == "waiting"]:
            if not most:
                return
            most -= 1
            if asked.verb == "append":
                asked.stands = f"done {self.validity[asked.target]} {self.put(asked.target, Message(asked.text, asked.letters))}"
                continue
            message = self.now(asked.message)
            if asked.message.startswith("d") and message != asked.message:
                asked.validity = int(self.asked[int(asked.message[1:]) - 1].stands.split()[1])
            found = None if message.startswith("d") else self.server[asked.box].get(int(message))
            if not message.startswith("d") and asked.validity < self.validity[asked.box]:
                asked.stands = f"nothing validity-changed {asked.validity} {self.validity[asked.box]}"
            elif message.startswith("d"):
                asked.stands = "nothing target-unknown 1"
            elif not found:
                asked.stands = "nothing message-gone"
            elif asked.verb == "move":
                asked.stands = "nothing refused-no" if chance.random() < 0.1 else self.moved(asked, int(message))
            elif chance.random() < 0.1:
                asked.stands = "nothing flags-changed 9"
            else:
                found.letters = changed(found.letters, asked.letters)
                asked.stands = "done"
        self.cache = {box: {uid: message.copy() for uid, message in messages.items()} for box, messages in self.server.items()}
        self.known = dict(self.validity)

    def moved(self, asked: Asked, uid: int) -> str:
        """Moves a message; how the action stands then."""
        return f"done {self.validity[asked.target]} {self.put(asked.target, self.server[asked.box].pop(uid))}"

    def fetch(self) -> None:
        """Keeps each text."""
        for box, messages in self.cache.items():
            for uid, message in messages.items():
                pathlib.Path(self.place, "bodies", self.text_name(box, uid)).write_bytes(message.text)


def letter_of(flag: str) -> str:
    """The letter of a flag, as it is asked for."""
    return next(letter for letter, name in maildir_words.LETTERS.items() if name.lstrip("\\") == flag)


def ident(text: bytes) -> str:
    """A message's Message-ID."""
    found = email.message_from_bytes(text).get_all("Message-ID", [])
    assert len(found) == 1
    return str(found[0])


def changed(letters: str, by: str) -> str:
    """Letters with others on or off."""
    return "".join(sorted(set(letters) | set(by[1:]) if by[0] == "+" else set(letters) - set(by[1:])))


class Bench:
    """A world, a root for Maildirs, and a reader's hands on them."""

    def __init__(self, seed: int = 1) -> None:
        self.place = tempfile.mkdtemp()
        self.root = os.path.join(self.place, "mail")
        self.world = World(os.path.join(self.place, "journal"))
        self.chance = random.Random(seed)
        self.made = 0
        self.calls = -1
        self.said = self.printed = ""

    def close(self) -> None:
        shutil.rmtree(self.place)

    def sync(self, what: str, trash: str = "", is_played: bool = False) -> None:
        """One run of the tool."""
        os.makedirs(os.path.join(self.root, maildir_files.OWN), exist_ok=True)
        said, printed = io.StringIO(), io.StringIO()
        with contextlib.redirect_stderr(said), contextlib.redirect_stdout(printed):
            try:
                run = maildir.Sync(self.world, maildir_files.Maildirs(self.root, BOXES), maildir_files.State(self.root))
                run.write(is_played) if what == "write" else run.ask(trash)
            finally:
                self.said, self.printed = said.getvalue(), printed.getvalue()

    def whole(self, trash: str = "") -> None:
        """Wishes, a play, and what came."""
        self.sync("wishes", trash)
        wished = self.said
        self.world.play(self.chance)
        self.world.fetch()
        self.sync("write", is_played=True)
        self.said = wished + self.said

    def text(self, with_id: bool = True) -> bytes:
        """A new message."""
        self.made += 1
        return (f"Message-ID: <m{self.made}@x>\r\n" if with_id else "").encode() + f"Subject: {self.made}\r\n\r\ntoken{self.made}.\r\n".encode()

    def files(self, box: str) -> List[pathlib.Path]:
        folder = pathlib.Path(maildir_words.folder_of(self.root, box))
        return sorted((path for part in ("new", "cur") for path in (folder / part).iterdir()), key=lambda path: token(path.read_bytes()))

    def put(self, box: str, text: bytes, letters: str = "") -> None:
        """A reader's new file."""
        self.made += 1
        folder = pathlib.Path(maildir_words.folder_of(self.root, box))
        (folder / "cur" / f"{self.made}.P1.host:2,{letters}").write_bytes(text)

    def flag(self, path: pathlib.Path, letters: str) -> None:
        """A reader's flags."""
        path.rename(path.parent.parent / "cur" / f"{path.name.partition(':2,')[0]}:2,{letters}")

    def move(self, path: pathlib.Path, box: str, keeps_name: bool) -> None:
        """A reader's move."""
        folder = pathlib.Path(maildir_words.folder_of(self.root, box)) / "cur"
        if keeps_name:
            path.rename(folder / path.name)
        else:
            self.made += 1
            letters = path.name.partition(":2,")[2]
            (folder / f"{self.made}.R2.host:2,{letters}").write_bytes(path.read_bytes())
            path.unlink()

    def shown(self) -> Dict[str, List[Tuple[str, str]]]:
        """What a reader sees: the tokens and the letters of each folder, but for what stays here alone."""
        return {
            box: sorted((token(path.read_bytes()), path.name.partition(":2,")[2]) for path in self.files(box) if not path.name.startswith("c"))
            for box in BOXES
        }

    def there(self) -> Dict[str, List[Tuple[str, str]]]:
        """What the server has."""
        return {box: sorted((token(message.text), message.letters) for message in messages.values()) for box, messages in self.world.server.items()}


class Case(unittest.TestCase):
    """A test with three messages that are in the Maildir."""

    def setUp(self) -> None:
        self.bench = Bench()
        self.world = self.bench.world
        self.world.put("INBOX", Message(self.bench.text(), "S"))
        self.world.put("INBOX", Message(self.bench.text(), ""))
        self.world.put("Old/2024", Message(self.bench.text(), "F"))
        self.bench.whole()
        self.chance = self.bench.chance
        self.chance.random = lambda: 0.9  # type: ignore[method-assign]

    def tearDown(self) -> None:
        self.bench.close()

    def agrees(self) -> None:
        self.assertEqual(self.bench.shown(), self.bench.there())

    def said_once(self, line: str) -> None:
        """The run said this, and the next one says nothing."""
        self.assertIn(line, self.bench.said)
        self.bench.whole()
        self.assertEqual(self.bench.said, "")

    def wishes_and_die(self, most: int = 1) -> None:
        """A run that is killed right after so many actions were accepted."""
        ask = self.world.ask

        def ask_and_die(*words: str, given: Optional[bytes] = None) -> int:
            number = int(ask(*words, given=given))
            if number < most:
                return number
            raise Killed

        self.world.ask = ask_and_die  # type: ignore[method-assign]
        try:
            with self.assertRaises(Killed):
                self.bench.sync("wishes")
        finally:
            self.world.ask = ask  # type: ignore[method-assign]


def token(text: bytes) -> str:
    """By what a message is known."""
    return text.rsplit(b"token", 1)[1].split(b".")[0].decode()
