"""What mowerbean-maildir knows of words: flags and their letters, the names of files and folders, what makes two texts one message, and
the lines of `mowerbean history`.

Nothing here touches a file.
"""
import hashlib
import os
import re
import string
from typing import Dict, Iterable, List, NamedTuple, Optional, Set, Tuple

LETTERS = {"D": "\\draft", "F": "\\flagged", "P": "$forwarded", "R": "\\answered", "S": "\\seen", "T": "\\deleted"}
FLAGS = {flag: letter for letter, flag in LETTERS.items()}
KEYWORDS = set(string.ascii_lowercase)
# What mail readers write into a message as they copy it.
READERS_OWN = {b"content-length", b"lines", b"status", b"x-status", b"x-keywords"}
STANDS = re.compile(r"([0-9]+) (waiting|begun|done(?: [0-9]+ [0-9]+)?|(?:nothing|unsure) [a-z-]+(?: [0-9]+)*) (.*)")


class Action(NamedTuple):
    """A line of `history`: how it stands, its verb, and the mailbox where it puts or changes a message. A move has a source besides, it and a
    flag action the message's ID, and the latter a sign."""

    number: int
    stands: str
    verb: str
    box: str
    source: str = ""
    message: str = ""
    sign: str = ""

    def place(self) -> Optional[str]:
        """Where a done action put its message: UIDVALIDITY and UID, with a dot between."""
        words = self.stands.split()
        return f"{words[1]}.{words[2]}" if words[0] == "done" and len(words) == 3 else None

    def is_conflict(self) -> bool:
        """Whether it ended as a conflict."""
        return self.stands.startswith(("nothing", "unsure"))


def tag_of(box: str) -> str:
    """What the names of a mailbox's files end with, as its UIDs may be another mailbox's too."""
    return hashlib.sha256(box.encode()).hexdigest()[:8]


def letters_of(flags: List[str]) -> str:
    """The letters of the flags that a file's name can have."""
    return "".join(sorted(FLAGS[flag] for flag in flags if flag in FLAGS))


def letters_in(flags: str) -> str:
    """The letters that count among those of a file's name."""
    return "".join(sorted(set(flags) & set(LETTERS)))


def keywords_in(flags: str) -> str:
    """The letters of a file's name that stand for keywords of another program, as Dovecot's."""
    return "".join(sorted(set(flags) & KEYWORDS))


def flags_of(letters: Iterable[str]) -> List[str]:
    """The flags of letters, as mowerbean is asked for them."""
    return [LETTERS[letter].lstrip("\\") for letter in sorted(letters)]


def name_of(key: str, box: str, letters: str) -> str:
    """The name of the file of a message: `VALIDITY.UID.TAG:2,LETTERS`, or with `dN` in front where it waits."""
    return f"{key}.{tag_of(box)}:2,{letters}"


def folder_of(root: str, box: str) -> str:
    """The Maildir of a mailbox. No name leads out of the root, or into another Maildir's own folders."""
    parts = ["%" + part if part in ("", "cur", "new", "tmp") or part.startswith(".") else part for part in box.split("/")]
    return os.path.join(root, *parts)


def wanted(now: str, base: str) -> Tuple[Set[str], Set[str]]:
    """Which letters are asked on and off: what was changed in the file. What the list has so already is asked for too, as a play that was cut off
    may have done more than the list knows."""
    return set(now) - set(base), set(base) - set(now)


def changed(letters: str, sign: str, by: Set[str]) -> str:
    """Letters with these on or off."""
    return "".join(sorted(set(letters) | by if sign == "+" else set(letters) - by))


def quoted(word: str) -> str:
    """A word of an action as `queue` prints it."""
    return f'"{word}"' if " " in word else word


def id_of(key: str) -> str:
    """A message's ID, as list has it."""
    return key if key.startswith("d") else key.partition(".")[2]


def fields_of(text: bytes) -> List[Tuple[bytes, bytes]]:
    """The fields of a message's header: each one's name in lower case, and the field."""
    head = re.split(rb"\r?\n\r?\n", text[: 1 << 20], maxsplit=1)[0].replace(b"\r\n", b"\n")
    return [(field.partition(b":")[0].strip().lower(), field) for field in re.split(rb"\n(?![ \t])", head)]


def sum_of(text: bytes) -> str:
    """A sum of a message, which is the same however a reader that copied it ended its lines, whatever it noted in the header, and whether the
    message was given a Message-ID here."""
    _, _, body = text.replace(b"\r\n", b"\n").partition(b"\n\n")
    kept = [(name, field) for name, field in fields_of(text) if name not in READERS_OWN]
    idents = [field for name, field in kept if name == b"message-id"]
    bare = sum_of_parts([field for name, field in kept if name != b"message-id"], body)
    is_given = len(idents) == 1 and idents[0].startswith(f"Message-ID: <{bare}@".encode())
    return bare if is_given or not idents else sum_of_parts([field for _, field in kept], body)


def sum_of_parts(fields: List[bytes], body: bytes) -> str:
    """A sum of a header and a body."""
    return hashlib.sha256(b"\n".join(fields) + b"\n\n" + body.rstrip(b"\n")).hexdigest()[:32]


def sum_of_lines(lines: List[str]) -> str:
    """A sum of lines."""
    return hashlib.sha256("\n".join(lines).encode("utf-8", "surrogateescape")).hexdigest()[:32]


def with_message_id(text: bytes) -> bytes:
    """A message with a Message-ID, which is given to one that has none. Whoever gives it once more here gives the same."""
    if any(name == b"message-id" for name, _ in fields_of(text)):
        return text
    machine = re.sub("[^A-Za-z0-9.-]", "", os.uname().nodename)
    return f"Message-ID: <{sum_of(text)}@{machine}>\r\n".encode() + text


def actions_of(lines: List[str], boxes: List[str]) -> Dict[int, Action]:
    """The actions in the lines of `history`, by their numbers. Their mailboxes are some of these, and may stand in quotes."""
    name = "|".join(f'"?{re.escape(box)}"?' for box in sorted(boxes, key=len, reverse=True))
    asked = re.compile(rf"(move) ({name}) (d?[0-9]+) ({name})|(append) ({name}) <.*>|(flag) ({name}) (d?[0-9]+) ([+-]) .*")
    actions = {}
    for line in lines:
        found = STANDS.fullmatch(line)
        words = asked.fullmatch(found[3]) if found else None
        if found and words:
            number, stands = int(found[1]), found[2]
            verb = words[1] or words[5] or words[7]
            box = (words[4] or words[6] or words[8]).strip('"')
            actions[number] = Action(number, stands, verb, box, (words[2] or "").strip('"'), words[3] or words[9] or "", words[10] or "")
    return actions
