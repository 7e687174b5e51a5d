"""What mowerbean-maildir holds of the system: the files of the Maildirs, what was written last, and the texts that mowerbean keeps."""
import contextlib
import errno
import json
import os
import re
from typing import Any, Callable, Dict, Iterator, List, NamedTuple, Optional, Tuple

from maildir_words import STANDS, folder_of, id_of, keywords_in, letters_in, name_of, sum_of, sum_of_lines, tag_of

OWN = ".mowerbean"
# A name of ours, but for its flags.
NAME = re.compile(r"([0-9]+\.[0-9]+|[dc][0-9]+)\.([0-9a-f]{8})")
# How the names begin under which texts are written beside.
BESIDE = "mowerbean."
TWO_DISKS = "{} and {} are on two disks, and a Maildir's folders have to be on one"
# How many wishes may be asked before the state is saved.
MOST_INTENTS = 100


class Intent(NamedTuple):
    """What is about to be asked of a message: that it gets the flags which its file has, or that it goes to another mailbox."""

    box: str
    key: str
    letters: str
    to: str


class Unreadable(OSError):
    """A file of a Maildir is there, and can't be read."""


class File(NamedTuple):
    """A file of a Maildir. Its owner and key are those of the message for which it was written, if it has such a name. The keywords are letters of
    its name that say something to another program alone."""

    box: str
    folder: str
    name: str
    owner: str
    key: str
    letters: str
    keywords: str = ""

    def path(self) -> str:
        """Where it is."""
        return os.path.join(self.folder, self.name)

    def read(self) -> bytes:
        """Its text. It is gone (FileNotFoundError) where a reader was faster."""
        try:
            with open(self.path(), "rb") as file:
                return file.read()
        except FileNotFoundError:
            raise
        except OSError as error:
            raise Unreadable(f"{self.path()} can't be read, and waits ({error.strerror})") from None

    def is_alone(self) -> bool:
        """Whether it stays here alone."""
        return self.key.startswith("c")


def is_bound(root: str, folder: str) -> bool:
    """Whether a root is the Maildir of the journal in this folder: both have the same word in a file. Where the root has none it is given the
    journal's, which is made up once, and goes wherever the folder goes."""
    here, there = os.path.join(root, OWN, "journal"), os.path.join(folder, "mowerbean.maildir")
    word = word_in(there)
    if os.path.lexists(here):
        return word != "" and word_in(here) == word
    if not word:
        word = os.urandom(16).hex()
        put_word(there, word)
    put_word(here, word)
    return True


def word_in(path: str) -> str:
    """The word in a file, or nothing."""
    with contextlib.suppress(FileNotFoundError):
        with open(path, encoding="ascii") as file:
            return file.read().strip()
    return ""


def put_word(path: str, word: str) -> None:
    """Puts a word into a file, so that all of it is there or nothing."""
    with open(path + ".new", "w", encoding="ascii") as file:
        file.write(word + "\n")
    os.rename(path + ".new", path)


class Entry(NamedTuple):
    """A message that was written: the sum of its text, the letters of its file then, and those that it was to get; whether its file isn't there
    and is to be written; and whether an action has put it there since the list was made."""

    sum: str
    letters: str
    coming: str
    is_back: bool = False
    is_put: bool = False

    def with_letters(self, letters: str) -> "Entry":
        """With these letters, which its file has and is to keep."""
        return self._replace(letters=letters, coming=letters)

    def found_with(self, letters: str) -> "Entry":
        """As its file was found. A run that was cut off may have given it the letters that were to come: in which of these two it is tells the
        file alone, so none of those in which they differ is a wish."""
        was, coming = set(self.letters), set(self.coming)
        return self._replace(letters="".join(sorted(was & coming | (was ^ coming) & set(letters))), is_back=False)


def entry_of(file: File) -> Entry:
    """What there is to know of a file."""
    return Entry(sum_in(file), file.letters, file.letters)


def sum_in(file: File) -> str:
    """The sum of a file's text, or nothing, where it can't be read."""
    try:
        return sum_of(file.read())
    except Unreadable:
        return ""


class Entries(Dict[str, Entry]):
    """What was written of a mailbox, by key: `VALIDITY.UID` of a message on the server, `dN` of one that action N is to make.

    It is a dictionary that knows whether it was changed, so that a run in which nothing happened writes nothing. An entry is there from just
    before its file is written until the list no longer has its message, or until an action has taken the message elsewhere.
    """

    is_changed = False

    def __setitem__(self, key: str, entry: Entry) -> None:
        if self.get(key) != entry:
            self.is_changed = True
            super().__setitem__(key, entry)

    def __delitem__(self, key: str) -> None:
        self.is_changed = True
        super().__delitem__(key)

    def pop(self, key: str, *default: Any) -> Any:
        self.is_changed = self.is_changed or key in self
        return super().pop(key, *default)


class State:
    """What was written last: the entries of each mailbox; up to which action the files have their names (`seen`), and conflicts are told (`told`);
    and by what the journal is known, so that a number of an older journal isn't taken for one of a new one.

    It is a file beside the Maildirs, written beside and renamed, so a kill leaves the one of before or the new one. It may be ahead of the files,
    never behind them in what counts:

    - Before a file is written or renamed its entry is saved. Behind a kill between the two the entry has no file in its folder: the file is found
      under its old name or by its text, or, where it never was, is written by the next run (`is_back`).
    - Before the state says that an action was asked for, mowerbean has accepted it. Behind a kill between the two the action is in `history` with
      a number above `seen`, and the next run gives its file the name.
    - `told` is saved behind the line: a kill between tells a conflict twice, never not at all.

    An action that the state doesn't know may be a user's, typed beside a reader: then the file follows it. Or a run asked for it because of the
    file, and was cut off: then what the reader has done to the file since is a further wish. Which of the two it is tell the intents, a file of
    their own. Each stands there from before a run asks until its answer is in the state, which need not be saved for each flag then.
    """

    def __init__(self, root: str) -> None:
        self.path = os.path.join(root, OWN, "state.json")
        self.seen = self.told = self.known = 0
        # The sum of what the first `known` actions ask for.
        self.journal = ""
        self.boxes: Dict[str, Entries] = {}
        with contextlib.suppress(FileNotFoundError):
            with open(self.path, encoding="utf-8") as file:
                kept = json.load(file)
            self.seen, self.told, self.known, self.journal = kept["seen"], kept["told"], kept["known"], kept["journal"]
            self.boxes = {box: Entries((key, Entry(*entry)) for key, entry in entries.items()) for box, entries in kept["boxes"].items()}
        self.is_new = not os.path.exists(self.path)
        self.intents: List[Intent] = []
        with contextlib.suppress(FileNotFoundError, ValueError):
            with open(os.path.join(root, OWN, "intents.json"), encoding="utf-8") as file:
                self.intents = [Intent(*each) for each in json.load(file)]
        self.kept = self._numbers()

    def _numbers(self) -> Tuple[int, int, int]:
        return self.seen, self.told, self.known

    def of(self, box: str) -> Entries:
        """What was written of a mailbox."""
        return self.boxes.setdefault(box, Entries())

    def take_journal(self, lines: List[str]) -> bool:
        """Takes the journal's actions. Whether it is the one of before: what an action asks for never changes, and none goes."""
        asked = [line.replace('"', "") for line in (STANDS.sub(r"\1 \3", line) for line in lines)]
        is_same = sum_of_lines(asked[: self.known]) == self.journal if self.known else True
        if not is_same or len(asked) < self.seen:
            self.seen = self.told = 0
            is_same = False
        self.known, self.journal = len(asked), sum_of_lines(asked)
        return is_same

    def intend(self, intent: Intent) -> None:
        """Keeps what is about to be asked, beside what was asked since the state was saved last."""
        if len(self.intents) >= MOST_INTENTS:
            self.save()
            self.intents = []
        self.intents.append(intent)
        self._write("intents.json", self.intents)

    def intent_of(self, box: str, message: str, to: str) -> Optional[Intent]:
        """What was about to be asked of a message: to move it to a mailbox, or to change its flags."""
        return next((each for each in self.intents if (each.box, id_of(each.key), each.to) == (box, message, to)), None)

    def _write(self, name: str, kept: Any) -> None:
        """Writes a file, so that it is there as a whole or as it was."""
        path = os.path.join(os.path.dirname(self.path), name)
        with open(path + ".new", "w", encoding="utf-8") as file:
            # In one piece: json.dump takes ten times as long.
            file.write(json.dumps(kept))
            file.flush()
            os.fsync(file.fileno())
        os.rename(path + ".new", path)

    def forget_intents(self) -> None:
        """What was asked is known."""
        if self.intents:
            self.intents = []
            os.unlink(os.path.join(os.path.dirname(self.path), "intents.json"))

    def save(self) -> None:
        """Keeps it, where it was changed."""
        if not self.is_new and self.kept == self._numbers() and not any(entries.is_changed for entries in self.boxes.values()):
            return
        kept = {"seen": self.seen, "told": self.told, "known": self.known, "journal": self.journal, "boxes": self.boxes}
        self._write("state.json", kept)
        self.kept, self.is_new = self._numbers(), False
        for entries in self.boxes.values():
            entries.is_changed = False


class Files:
    """The files of all folders as one look found them: those with a name of ours by the message for which they were written, the others by the
    sums of their texts, which are read once and only where somebody asks.

    It is a picture and no more. A reader may have renamed any of them since, so whoever acts on one must bear that it is gone: a rename then
    fails and changes nothing, and the next run looks anew.
    """

    def __init__(self, files: List[File], is_known: Callable[[File], bool] = lambda file: True) -> None:
        # Whether the state has the message for which a file of ours was written.
        self.is_known = is_known
        self.all = dict.fromkeys(files)
        self.named: Dict[Tuple[str, str], List[File]] = {}
        self.sums: Optional[Dict[str, List[File]]] = None
        # Whether a reader has taken one elsewhere since, so that a message which isn't found may be there.
        self.is_stale = False
        # What is said of those that can't be read, each of which may be a message that isn't found.
        self.unread: Dict[str, None] = {}
        for file in files:
            if file.key:
                self.named.setdefault((file.owner, file.key), []).append(file)

    def find(self, owner: str, key: str, box: Optional[str] = None) -> Optional[File]:
        """The file of a message, in this folder; or, where none is named, in its own or else in any."""
        found = self.named.get((owner, key), [])
        if box is None:
            return next((file for file in found if file.box == owner), found[0] if found else None)
        return next((file for file in found if file.box == box), None)

    def like(self, its_sum: str) -> List[File]:
        """The files with this sum that a reader has put there, that stand elsewhere than they were written, that stay here alone, or are unknown."""
        if self.sums is None:
            self.sums = {}
            for file in self.all:
                if not file.key or file.is_alone() or file.owner != file.box or not self.is_known(file):
                    try:
                        self.sums.setdefault(sum_of(file.read()), []).append(file)
                    except FileNotFoundError:
                        self.is_stale = True
                    except Unreadable as error:
                        self.unread[str(error)] = None
        return [file for file in self.sums.get(its_sum, []) if file in self.all]

    def remove(self, file: File) -> None:
        """It isn't there any more, or isn't looked at again."""
        self.all.pop(file, None)
        named = self.named.get((file.owner, file.key), [])
        if file in named:
            named.remove(file)

    def add(self, file: File) -> None:
        """It is there now."""
        self.all[file] = None
        self.named.setdefault((file.owner, file.key), []).append(file)
        if file.is_alone():
            self.sums = None

    def seconds(self) -> List[File]:
        """Those beside which another one of the same message stands in the same folder, as a reader has copied it there."""
        firsts = {(file.box, file.owner, file.key): file for file in reversed(self.all)}
        return [file for file in self.all if file.key and firsts[file.box, file.owner, file.key] != file]

    def strays(self) -> List[File]:
        """Those that a reader has put there."""
        return [file for file in self.all if not file.key]

    def elsewhere(self) -> List[File]:
        """Those that stand in another folder than the one for which they were written."""
        return [file for file in self.all if file.key and file.owner != file.box]

    def of(self, box: str) -> Dict[str, File]:
        """Those that stand in the folder for which they were written, by their keys: where a reader has copied one, the first, as `find` has it."""
        return {file.key: file for file in reversed(self.all) if file.box == box == file.owner}


class Maildirs:
    """The Maildirs under a root, one for each mailbox of the journal. What this tool puts into them is done here, in one of three ways:

    - A rename, from one name to another one in a folder `cur` or `new` under the root. The message is under one of the two at each moment, and
      nothing is written over: our names have a key that no other file has.
    - A text that is put in place: written under `tmp`, synced, and renamed. A kill leaves a file in `tmp`, where no reader looks, and which the
      next run takes away; what stood in the place stays whole until then.
    - A letter that is given a Message-ID. What the journal has is put in place of its file, which a reader may just have taken elsewhere.

    A mailbox's name becomes folders under the root, and none that leads out of it or into another Maildir's own folders. A message's subject and
    Message-ID are never part of a name. What is no plain file is left alone.
    """

    def __init__(self, root: str, boxes: List[str]) -> None:
        self.root, self.boxes = root, boxes
        self.tags = {tag_of(box): box for box in boxes}
        # Those whose folders had to be made: what isn't there wasn't taken away message by message.
        self.made = {box for box in boxes if not all(os.path.isdir(os.path.join(folder_of(root, box), part)) for part in ("new", "cur"))}

    def make(self, state: State) -> List[str]:
        """Makes the folders that aren't there; the mailboxes whose messages come back. That they do is kept first: behind a run that ends early the
        folders would look as if each message had been deleted there."""
        back = [box for box in self.boxes if box in self.made and state.of(box)]
        for box in back:
            for key, entry in list(state.of(box).items()):
                state.of(box)[key] = entry._replace(is_back=True)
        if back:
            state.save()
        for box in self.boxes:
            for part in ("tmp", "new", "cur"):
                os.makedirs(os.path.join(folder_of(self.root, box), part), exist_ok=True)
            self._clean(os.path.join(folder_of(self.root, box), "tmp"))
        self._look_at_disks()
        return back

    def _look_at_disks(self) -> None:
        """A message goes from one folder to another by a rename, which no system does between two disks."""
        folders = [os.path.join(folder_of(self.root, box), part) for box in self.boxes for part in ("tmp", "new", "cur")]
        disks = {os.stat(folder).st_dev: folder for folder in folders}
        if len(disks) > 1:
            raise OSError(TWO_DISKS.format(*disks.values()))

    @staticmethod
    def _clean(folder: str) -> None:
        """Takes away what a run that was cut off left half written. One run at a time has the lock. Of a link nothing is taken."""
        for name in [] if os.path.islink(folder) else os.listdir(folder):
            if name.startswith(BESIDE):
                os.unlink(os.path.join(folder, name))

    def files(self, box: str) -> Iterator[File]:
        """The messages of a mailbox's folder. What is no plain file is none."""
        for part in ("new", "cur"):
            folder = os.path.join(folder_of(self.root, box), part)
            with os.scandir(folder) as found:
                names = sorted(each.name for each in found if not each.name.startswith(".") and each.is_file(follow_symlinks=False))
            for name in names:
                front, _, flags = name.partition(":2,")
                words = NAME.fullmatch(front)
                owner = self.tags.get(words[2], "") if words else ""
                key = words[1] if words and owner else ""
                yield File(box, folder, name, owner, key, letters_in(flags), keywords_in(flags))

    def all_files(self) -> List[File]:
        """The messages of all folders."""
        return [file for box in self.boxes for file in self.files(box)]

    def rename(self, file: File, box: str, key: str, letters: str, owner: str) -> Optional[File]:
        """Gives a file another name, or another folder: that of the message of this key, of the owner's mailbox. It stays where a reader was
        faster, or has put a file of this name. What no reader has seen yet stays new. Keywords stay while the folder does: in another one their
        letters stand for others."""
        keywords = file.keywords if box == file.box else ""
        is_new = not letters + keywords and os.path.basename(file.folder) == "new"
        name = f"{key}.{tag_of(owner)}" if is_new else name_of(key, owner, letters + keywords)
        folder = os.path.join(folder_of(self.root, box), "new" if is_new else "cur")
        renamed = File(box, folder, name, owner, key, letters, keywords)
        if renamed.path() != file.path() and os.path.lexists(renamed.path()):
            return None
        try:
            os.rename(file.path(), renamed.path())
        except FileNotFoundError:
            return None
        except OSError as error:
            # One disk that is mounted twice is two as well.
            raise OSError(TWO_DISKS.format(file.folder, folder)) if error.errno == errno.EXDEV else error from None
        return renamed

    def write(self, box: str, key: str, letters: str, text: bytes) -> None:
        """Writes a message: beside, then into its place. One without a flag is new to a reader."""
        place = os.path.join("cur", name_of(key, box, letters)) if letters else os.path.join("new", f"{key}.{tag_of(box)}")
        os.rename(self.beside(box, text), os.path.join(folder_of(self.root, box), place))

    def exchange(self, file: File, text: bytes) -> None:
        """Puts a text in place of a file's. One that a reader has taken elsewhere stays as it is there, and is the message. Behind a kill between the
        two calls there is neither, so the state has to say first that it is to be written."""
        beside = self.beside(file.box, text)
        with contextlib.suppress(FileNotFoundError):
            os.unlink(file.path())
            os.rename(beside, file.path())

    def beside(self, box: str, text: bytes) -> str:
        """A file with a text beside those of a mailbox, which is to get its place by a rename: the text is there as a whole, or not yet."""
        beside = os.path.join(folder_of(self.root, box), "tmp", f"{BESIDE}{os.getpid()}")
        with open(beside, "wb") as file:
            file.write(text)
            file.flush()
            os.fsync(file.fileno())
        return beside


class Texts:
    """The texts that mowerbean keeps, a file each: `VALIDITY.UID.NAME` in the folder `bodies` of the journal's. They are only read here, and each is
    whole from the moment at which it has its name. So the texts are what a Maildir is written from again, whatever became of its files.
    """

    def __init__(self, folder: str) -> None:
        self.folder = os.path.join(folder, "bodies")
        self.places: Dict[Tuple[str, str], int] = {}
        # The greatest UIDVALIDITY of each mailbox's texts.
        self.newest: Dict[str, int] = {}
        with contextlib.suppress(FileNotFoundError):
            for name in os.listdir(self.folder):
                validity, _, rest = name.partition(".")
                uid, _, box = rest.partition(".")
                if box and validity.isdecimal() and uid.isdecimal():
                    key = box.replace("%", "/"), uid
                    self.places[key] = max(self.places.get(key, 0), int(validity))
                    self.newest[key[0]] = max(self.newest.get(key[0], 0), int(validity))

    def key(self, box: str, uid: str) -> str:
        """What a kept message is called here. A UIDVALIDITY only grows, so the greatest is the mailbox's."""
        return f"{self.places[box, uid]}.{uid}" if (box, uid) in self.places else ""

    def read(self, box: str, uid: str) -> bytes:
        """A kept text."""
        with open(os.path.join(self.folder, f"{self.places[box, uid]}.{uid}.{box.replace('/', '%')}"), "rb") as file:
            return file.read()
