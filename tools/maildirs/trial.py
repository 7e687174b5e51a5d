"""Rounds of wishes and changes, with syncs that fail in between; after each of them server, Maildir and `list` have to agree with the model."""
import collections
import contextlib
import hashlib
import os
import pathlib
import random
import re
import subprocess
import sys
import time
from typing import Counter, Dict, List, NamedTuple, Optional, Set, Tuple

from servers import kinds

from . import faults
from .hands import IDENTS, REFUSED, Filed, Other, Reader, Row, letter, places, token_of
from .model import BOX, LETTERS, Place, Thing

TOP = pathlib.Path(__file__).resolve().parent.parent.parent
# The mailboxes, each with its folder: names that could lead elsewhere, or be read in another way.
BOXES = {"INBOX": "INBOX", "Archive": "Archive", "x <y> 5 z": "x <y> 5 z", "cur": "%cur", "Trash": "Trash"}
WELL = (0, 1, 10)
IN_USE = 75
# The seconds that a command may take, also on a machine full of other work.
LONGEST = 900
FLAGS = {"\\draft": "D", "\\flagged": "F", "\\answered": "R", "\\seen": "S", "\\deleted": "T"}
# A second look for a letter waits for a tunnel that may hold it. Here is none.
LOOK, SHORT_LOOK = "LOOK_CATENATE, LOOK_CRLF = 130.0, 130.0", "LOOK_CATENATE, LOOK_CRLF = 1.0, 1.0"


class Fault(Exception):
    """Something isn't as it has to be."""


class Asked(NamedTuple):
    """An action: its verb, which messages it may be about, and of a flag action which letters are to be on or off."""

    verb: str
    tokens: Set[str]
    letters: str = ""
    is_on: bool = False

    def about(self) -> Set[str]:
        """What can't be as it was wished, where it ended as a conflict."""
        return set(self.letters) if self.verb == "flag" else {BOX, *LETTERS}


class Account:
    """The front as it is installed, with an account at the server behind the line, and a home in which nothing else may change."""

    def __init__(self, home: pathlib.Path, program: pathlib.Path, line: faults.Line, certificate: kinds.Certificate) -> None:
        self.home, self.mail = home, home / "Mail"
        tree = home / "tree"
        words = {**os.environ, "DESTDIR": str(tree), "MOWERBEAN_PROGRAM": str(program)}
        subprocess.run([str(TOP / "install"), "/usr"], env=words, check=True, stdout=subprocess.DEVNULL)
        waits = tree / "usr/libexec/mowerbean/link_words.py"
        text = waits.read_text()
        assert LOOK in text
        waits.write_text(text.replace(LOOK, SHORT_LOOK))
        self.front = tree / "usr/bin/mowerbean"
        config = home / ".config/mowerbean/default.conf"
        config.parent.mkdir(parents=True, mode=0o700)
        lines = [f"tls=localhost:{line.port}", f"cafile={certificate.cert}", f"user={kinds.USER}", f"password_command=echo {kinds.PASSWORD}"]
        config.write_text("\n".join([*lines, "pause=0", "dir=~/journal", "maildir=~/Mail", "trash=Trash", ""]))
        config.chmod(0o600)
        for name in ("outside/cur/1.host:2,S", "Mail/notes.txt", "Mail/INBOX/.mh_sequences"):
            (home / name).parent.mkdir(parents=True, exist_ok=True)
            (home / name).write_text("not to be touched\n")
        self.environment = {"HOME": str(home), "PATH": os.environ["PATH"], "LANG": "C.UTF-8"}

    def run(self, *words: str) -> List[str]:
        """What mowerbean prints."""
        command = [str(self.front), "-q", *words]
        done = subprocess.run(command, env=self.environment, stdin=subprocess.DEVNULL, capture_output=True, timeout=LONGEST, check=False)
        if done.returncode:
            raise Fault(f"{words}: status {done.returncode}, {done.stdout!r} {done.stderr!r}")
        return done.stdout.decode("utf-8", "replace").splitlines()

    def start(self, said: pathlib.Path, room: Optional[int]) -> "subprocess.Popen[bytes]":
        """A sync, with all that it starts in a group of its own. Where no file may grow beyond a size what it says is in a pipe."""
        command, first = [str(self.front), "-q", "sync"], faults.begin(room)
        with open(said, "ab") as file:
            out, env = file if room is None else subprocess.PIPE, self.environment
            return subprocess.Popen(command, env=env, stdin=subprocess.DEVNULL, stdout=out, stderr=subprocess.STDOUT, preexec_fn=first)

    def surroundings(self) -> Dict[str, str]:
        """All files but those that a sync may write, each with a sum of its bytes and its time."""
        found = {}
        folders = {self.mail / folder / part for folder in BOXES.values() for part in ("cur", "new", "tmp")}
        own = {self.mail / ".mowerbean", self.home / "journal", self.home / "tree", *folders}
        for place, _, names in os.walk(self.home):
            path = pathlib.Path(place)
            if not own & {path, *path.parents}:
                for name in names:
                    found[str(path / name)] = f"{hashlib.sha256((path / name).read_bytes()).hexdigest()} {(path / name).stat().st_mtime_ns}"
        return found


def letters_of(flags: List[str]) -> str:
    """The letters of flags."""
    return "".join(sorted(FLAGS[flag] for flag in flags if flag in FLAGS))


class Trial:
    """The rounds, and what came of them, counted."""

    def __init__(self, account: Account, line: faults.Line, other: Other, chance: random.Random) -> None:
        self.account, self.line, self.other, self.chance = account, line, other, chance
        self.reader = Reader(account.mail, BOXES, chance)
        self.boxes = list(BOXES)
        self.count: Counter[str] = collections.Counter()
        self.made = 0
        self.things: Dict[str, Thing] = {}
        # Which messages had a UID in a mailbox, and which ones the actions are about. A mailbox that was made anew has another one under a UID.
        self.names: Dict[str, Set[str]] = {}
        self.actions: Dict[str, Asked] = {}
        self.said = account.home / "tree/said"
        # The processes of the last sync.
        self.group = 0
        self.took = 2.0
        # How many messages there are to be at least, so that not all is done to a few.
        self.least = 30
        # How many messages the other client has put into mailboxes in this round; and how many have come into each that was made anew before it was.
        self.put = self.came = 0
        self.is_countable = True
        self.next: Dict[str, int] = {}
        self.account.run("init", *self.boxes)
        self.settle()
        self.before = account.surroundings()
        self.begin()

    def begin(self) -> None:
        """A round begins."""
        self.put = self.came = 0
        self.is_countable = True
        self.next = {box: self.other.next_uid(box) for box in self.boxes}

    # -- What both sides do --

    def token(self) -> str:
        """A word for a new message."""
        self.made += 1
        return f"m{self.made}"

    def act(self, is_beside: bool) -> None:
        """Something that the reader or the other client does. Beside a sync a reader does what can't be half done."""
        # Of a sync of which one process was killed another one may go on.
        is_beside = is_beside or faults.is_at_work(self.group)
        if self.chance.random() < 0.3:
            self.act_elsewhere(is_beside)
            return
        with contextlib.suppress(FileNotFoundError):
            self.act_here(is_beside)

    def act_here(self, is_beside: bool) -> None:
        """Something that the reader does."""
        files = [file for file in self.reader.files() if file.token in self.things and not file.is_alone() and not self.things[file.token].is_refused]
        what = self.chance.random()
        if what < 0.08 or not files:
            self.write()
            return
        file = self.chance.choice(files)
        thing = self.things[file.token]
        box = self.chance.choice([box for box in self.boxes if box != file.box])
        if what < 0.7:
            letter = self.chance.choice(LETTERS)
            is_on = letter not in file.letters
            self.reader.flag(file, "".join(sorted(set(file.letters) ^ {letter})))
            thing.wish_letter(letter, is_on)
            self.count["flag"] += 1
        elif what < 0.8 or (is_beside and what < 0.92):
            self.reader.move(file, box)
            thing.wish_box(box)
            self.count["move, as aerc does"] += 1
        elif what < 0.88:
            self.reader.save(file, box)
            thing.wish_box(box)
            self.count["move, as mutt does"] += 1
        elif what < 0.92:
            self.reader.rename(file)
            self.count["other name"] += 1
        elif file.box != "Trash":
            self.reader.delete(file)
            thing.delete()
            self.count["delete"] += 1

    def write(self) -> None:
        """The reader writes a new letter, mostly with a Message-ID that is allowed."""
        token, box, letters = self.token(), self.chance.choice(self.boxes), self.chance.choice(["", "S", "FS", "DS"])
        what = self.chance.random()
        form = None if what < 0.3 else self.chance.choice(REFUSED if what < 0.35 else IDENTS)
        thing = Thing(token, None)
        thing.is_refused = form in REFUSED
        thing.wish_box(box)
        for each in letters:
            thing.wish_letter(each, True)
        text = letter(token, self.chance, form)
        self.things[token] = thing
        self.reader.put(box, text if self.chance.random() < 0.5 else text.replace(b"\r\n", b"\n"), letters)
        self.count["letter without a Message-ID" if form is None else "letter that is refused" if thing.is_refused else "letter"] += 1

    def act_elsewhere(self, is_beside: bool) -> None:
        """Something that the other client does."""
        what = self.chance.random()
        if what < 0.12 or len(self.things) < self.least:
            token, box = self.token(), self.chance.choice(self.boxes)
            self.other.put(box, letter(token, self.chance, "<{}@y>"))
            self.put += 1
            self.rows(box)
            self.things[token] = Thing(token, Place(box, ""))
            self.count["other: new message"] += 1
            return
        if what < 0.13:
            self.renew(self.chance.choice(self.boxes[1:]), is_beside)
            return
        token = self.chance.choice(list(self.things))
        found = self.other.find(token, self.boxes)
        if not found:
            return
        box, uid = found
        thing = self.things[token]
        if what < 0.24:
            self.other.remove(uid)
            thing.is_removed = True
            self.count["other: removal"] += 1
        elif what < 0.36:
            target = self.chance.choice([each for each in self.boxes if each != box])
            self.other.move(uid, target)
            self.put += 1
            self.rows(target)
            thing.move(target)
            self.count["other: move"] += 1
        else:
            letter_, is_on = self.chance.choice(LETTERS), self.chance.random() < 0.6
            self.other.change(uid, letter_, is_on)
            thing.change(letter_, is_on)
            self.count["other: flag"] += 1

    def renew(self, box: str, is_beside: bool) -> None:
        """The other client makes a mailbox anew. What waits for its messages is a conflict then."""
        for _, token, _ in self.rows(box):
            self.things[token].move(box)
        self.came += self.other.renew(box) - self.next[box]
        self.next[box] = self.other.next_uid(box)
        self.rows(box)
        # Beside a sync it isn't known what came between these calls.
        self.is_countable = self.is_countable and not is_beside
        self.count["other: mailbox made anew"] += 1

    def rows(self, box: str) -> List[Row]:
        """The messages of a mailbox on the server, of which the UIDs are kept."""
        rows = self.other.rows(box)
        for uid, token, _ in rows:
            self.names.setdefault(f"{box} {uid}", set()).add(token)
        return rows

    # -- Syncs --

    def sync(self, fault: str) -> Optional[int]:
        """A sync to which this is done. Its status, where it wasn't killed."""
        self.line.cut_behind(int(self.chance.expovariate(1 / 8_000)) if fault == "cut" else None)
        self.line.rate = self.chance.randint(10_000, 50_000) if fault == "slow" else None
        room = int(self.chance.expovariate(1 / 30_000)) if fault == "full" else None
        began = time.monotonic()
        process = self.account.start(self.said, room)
        self.group = process.pid
        if fault == "kill":
            self._wait(process, self.chance.random() * self.took * 1.3)
            if process.poll() is None:
                faults.kill(process, self.chance)
                self.count["kills"] += 1
        elif fault:
            self._wait(process, self.chance.random() * self.took)
        try:
            status = process.wait(timeout=LONGEST)
        except subprocess.TimeoutExpired:
            raise Fault(f"a sync takes more than {LONGEST} seconds") from None
        finally:
            self.line.cut_behind(None)
            self.line.rate = None
        if process.stdout:
            self._take_said(process.stdout.read(), status)
        self.count["syncs"] += 1
        self.count[f"syncs: {fault or 'whole'}"] += 1
        if not fault and status in WELL:
            self.took = 0.8 * self.took + 0.2 * (time.monotonic() - began)
        return status if fault != "kill" else None

    def _take_said(self, said: bytes, status: int) -> None:
        """Keeps what a sync without room said. It doesn't end without a line."""
        if status not in WELL:
            self.count["no room"] += 1
            if not said.strip():
                raise Fault(f"a sync without room ended with {status}, and said nothing")
        with open(self.said, "ab") as file:
            file.write(said)

    def _wait(self, process: "subprocess.Popen[bytes]", seconds: float) -> None:
        """Waits while a sync is at work; now and then somebody does something meanwhile."""
        ends = time.monotonic() + seconds
        while process.poll() is None and time.monotonic() < ends:
            time.sleep(min(0.2, max(0.0, ends - time.monotonic())))
            if self.chance.random() < 0.1:
                self.act(is_beside=True)
                self.count["beside a sync"] += 1

    def settle(self) -> None:
        """Syncs until nothing is left to be done."""
        for _ in range(20):
            status = self.sync("")
            if status == IN_USE:
                time.sleep(0.3)
            elif status not in WELL:
                raise Fault(f"a sync without a fault ended with {status}")
            elif not self.account.run("queue") and self.differs() == "":
                return
        raise Fault(f"the sync doesn't settle: {self.differs()}")

    # -- What came of it --

    def differs(self) -> str:
        """How the Maildir or `list` differs from the server, if they do."""
        files = [file for file in self.reader.files() if not file.is_alone() and not self._is_refused(file)]
        for box in self.boxes:
            rows = self.rows(box)
            here = sorted((file.token, file.letters) for file in files if file.box == box)
            there = sorted((token, letters) for _, token, letters in rows)
            if here != there:
                return f"{box}: the Maildir has {here}, and the server {there}"
            lines = map(str.split, self.account.run("list", box))
            listed = sorted((words[0], letters_of(words[2:])) for words in lines)
            if listed != sorted((uid, letters) for uid, _, letters in rows):
                return f"{box}: list has {listed}, and the server {rows}"
        return ""

    def _is_refused(self, file: Filed) -> bool:
        return file.token in self.things and self.things[file.token].is_refused

    def told(self, said: str, history: Dict[str, str]) -> Dict[str, Set[str]]:
        """What was told of each message: by the actions that are named, by the files, and by their UIDs."""
        told: Dict[str, Set[str]] = {}
        named = set(re.findall(r"action ([0-9]+) ended as", said))
        for asked in map(self.actions.__getitem__, named):
            for token in asked.tokens:
                told.setdefault(token, set()).update(asked.about())
        conflicts = {number for number, how in history.items() if how.startswith(("nothing", "unsure"))}
        if conflicts - named - self.seen_conflicts:
            raise Fault(f"the conflicts {conflicts - named - self.seen_conflicts} were not told")
        self.count["conflicts told"] += len(named - self.seen_conflicts)
        self.seen_conflicts |= conflicts
        for box, uid in re.findall(rf"mowerbean-maildir: ({'|'.join(map(re.escape, self.boxes))}) ([0-9]+)\b", said):
            for token in self.names.get(f"{box} {uid}", set()):
                told.setdefault(token, set()).update({BOX, *LETTERS})
        return told

    seen_conflicts: Set[str] = set()

    def take_history(self) -> Dict[str, str]:
        """How each action stands. Those of this round are counted, and what they are about is kept."""
        history, begun = {}, len(self.actions)
        for line in self.account.run("history"):
            number, how, verb, rest = re.fullmatch(r"([0-9]+) (.*?) ?\b(append|move|flag) (.*)", line).groups()  # type: ignore[union-attr]
            history[number] = how
            if number not in self.actions:
                self.actions[number] = self._asked(number, verb, rest)
                self.count[f"action {verb}"] += 1
            done = re.search(r"done [0-9]+ ([0-9]+)$", how)
            if done:
                box = re.findall("|".join(re.escape(each) for each in self.boxes), rest)[-1 if verb == "move" else 0]
                self.names.setdefault(f"{box} {done[1]}", set()).update(self.actions[number].tokens)
        self._look_at_counts([number for number in history if int(number) > begun], history)
        return history

    def _asked(self, number: str, verb: str, rest: str) -> Asked:
        """An action, and which messages it may be about."""
        if verb == "append":
            token = token_of("\n".join(self.account.run("letter", number)).encode())
            self.count[f"append of {token}"] += 1
            if self.count[f"append of {token}"] > 1:
                raise Fault(f"the letter {token} was asked for twice")
            return Asked(verb, {token})
        boxes = "|".join(map(re.escape, self.boxes))
        box, message, what = re.match(rf'"?({boxes})"? (d?[0-9]+) (.*)', rest).groups()  # type: ignore[union-attr]
        tokens = self.actions[message[1:]].tokens if message.startswith("d") else set(self.names.get(f"{box} {message}", set()))
        return Asked(verb, tokens) if verb == "move" else Asked(verb, tokens, letters_of(what.split()[1:]), what.startswith("+"))

    def _look_at_counts(self, numbers: List[str], history: Dict[str, str]) -> None:
        """No wish was asked for twice, and each message that came into a mailbox is one of the other client's or of an action that says so."""
        moves: Counter[str] = collections.Counter()
        letters: Dict[str, Counter[Tuple[str, bool]]] = {}
        for asked in map(self.actions.__getitem__, numbers):
            if asked.verb != "append" and len(asked.tokens) == 1:
                (token,) = asked.tokens
                moves[token] += asked.verb == "move"
                letters.setdefault(token, collections.Counter()).update((each, asked.is_on) for each in asked.letters)
        for token, thing in self.things.items():
            often = thing.asked_too_often(moves[token], letters.get(token, {}))
            if often:
                raise Fault(f"{thing} {often}")
        came = self.came + sum(self.other.next_uid(box) - self.next[box] for box in self.boxes)
        due = self.put + sum(re.fullmatch("done [0-9]+ [0-9]+", history[number]) is not None for number in numbers)
        unsure = sum(history[number].startswith("unsure") for number in numbers)
        if self.is_countable and not due <= came <= due + unsure:
            raise Fault(f"{came} messages came into the mailboxes, and {due} to {due + unsure} were put there")
        self.count["rounds whose messages were counted"] += self.is_countable

    def check(self) -> None:
        """Each message is as the model says, or it was told."""
        said = self.said.read_text(errors="replace") if self.said.exists() else ""
        told, found = self.told(said, self.take_history()), places(self.other, self.boxes)
        files = self.reader.files()
        alone = {file.token for file in files if file.is_alone()}
        for token, thing in self.things.items():
            wrong = thing.fault(found.get(token, []), told.get(token, set()), token in alone)
            if wrong:
                raise Fault(f"{thing} is {wrong}; on the server it is {found.get(token)}")
            if thing.is_refused and "refused no-message-id" not in said:
                raise Fault(f"{thing} was not refused")
        if self.account.surroundings() != self.before:
            raise Fault(f"files outside were touched: {set(self.account.surroundings().items()) ^ set(self.before.items())}")
        for file in files:
            if file.is_alone() or self._is_refused(file):
                file.path.unlink()
        self.said.unlink(missing_ok=True)
        self.things = {token: Thing(token, where[0]) for token, where in found.items()}
        self.begin()

    def round(self, most: int) -> None:
        """One round: so many wishes and changes at most, with a few syncs that fail between them, and then all is to be well."""
        self.least = max(30, most // 2)
        events = self.chance.randint(1, most)
        for _ in range(self.chance.choice([1, 1, 2, 3])):
            for _ in range(self.chance.randint(0, events)):
                self.act(is_beside=False)
                events -= 1
            self.sync(self.chance.choice(["cut", "cut", "kill", "kill", "kill", "beside", "full", "slow"]))
        for _ in range(events):
            self.act(is_beside=False)
        self.settle()
        self.check()
        self.count["rounds"] += 1

    def done(self) -> int:
        """How many wishes and changes there were."""
        words = ("flag", "move, ", "other", "delete", "letter")
        return sum(count for name, count in self.count.items() if name.startswith(words))

    def show(self) -> None:
        """Prints the tally."""
        for name, count in sorted(self.count.items()):
            if not name.startswith("append of"):
                print(f"  {count:>6} {name}")
        print(f"  {self.line.cuts:>6} cuts of the line", flush=True)


def tried(trial: Trial, wishes: int, seconds: float, most: int) -> str:
    """Rounds until there were so many wishes and changes, or the time is up. What was wrong, if anything."""
    ends = time.monotonic() + seconds
    try:
        while trial.done() < wishes and time.monotonic() < ends:
            trial.round(most)
            if sys.stdout.isatty() or trial.count["rounds"] % 20 == 0:
                print(f"  {trial.count['rounds']} rounds, {trial.done()} wishes and changes", flush=True)
    except Fault as fault:
        return str(fault)
    return ""
