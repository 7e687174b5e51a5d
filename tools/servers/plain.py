"""A small IMAP server, of what this client's sessions need and no more. It keeps its mailboxes, counts what each action's command did, and words
what it tells as RFC 9051 has it, as Dovecot 2.3 does, or as Cyrus 3.6. It uses nothing of `model`, so that program and models are compared
with one that knows no rule of playback."""
import collections
import contextlib
import re
import socket
import threading
from typing import Callable, Counter, Dict, Iterable, List, NamedTuple, Optional, Set, Tuple

SYSTEM = r"\Answered \Flagged \Deleted \Seen \Draft"


def of_action(tag: str) -> str:
    """The tag of the first try of an action, whose others have R2 and R3 behind it."""
    return tag.partition("R")[0]


class Row:
    """A message: its mod-sequence, its flags and its text."""

    def __init__(self, mark: int, flags: Iterable[str], text: bytes) -> None:
        self.mark, self.flags, self.text = mark, set(flags), text


class Box:
    """A mailbox: its rows by UID, and the UIDs that went, by their mod-sequences."""

    def __init__(self, validity: int, next_uid: int, highest: int) -> None:
        self.validity, self.next_uid, self.highest = validity, next_uid, highest
        self.rows: Dict[int, Row] = {}
        self.gone: Dict[int, int] = {}
        self.permanent = SYSTEM + r" \*"

    def tick(self) -> int:
        """The next mod-sequence."""
        self.highest += 1
        return self.highest

    def put(self, flags: Iterable[str], text: bytes) -> int:
        """Puts a message here, and gives its UID."""
        uid, self.next_uid = self.next_uid, self.next_uid + 1
        self.rows[uid] = Row(self.tick(), flags, text)
        return uid

    def drop(self, uid: int) -> Row:
        """Takes a message away."""
        self.gone[uid] = self.tick()
        return self.rows.pop(uid)

    def change(self, uid: int, is_added: bool, flags: Set[str]) -> None:
        """Sets or clears flags of a message."""
        row = self.rows[uid]
        row.mark, row.flags = self.tick(), (row.flags | flags if is_added else row.flags - flags)

    def recreate(self) -> None:
        """Is there again with its messages, under the next UIDVALIDITY: they get UIDs from 1 on, in their order, and one mod-sequence."""
        mark = self.tick()
        rows = [row for _, row in sorted(self.rows.items())]
        self.rows = {uid: Row(mark, row.flags, row.text) for uid, row in enumerate(rows, 1)}
        self.validity, self.next_uid, self.gone = self.validity + 1, len(rows) + 1, {}

    def place(self, uid: int) -> int:
        """The number of a message."""
        return sorted(self.rows).index(uid) + 1

    def listed(self) -> List[str]:
        """The rows, as `list` prints them."""
        return [" ".join([str(uid), str(row.mark), *sorted(flag.lower() for flag in row.flags)]) for uid, row in sorted(self.rows.items())]

    def having(self, ident: bytes) -> int:
        """How many messages have this Message-ID."""
        return sum(ident in row.text for row in self.rows.values())


class Words:
    """How a server words what it tells: this one as RFC 9051 has it, and no more than it has to."""

    name = "plain"
    greeting = "* OK ready"
    # What is offered before the log-in, and after it.
    offered = ("IMAP4rev2 QRESYNC AUTH=PLAIN", "IMAP4rev2 QRESYNC AUTH=PLAIN")
    enabled = "IMAP4rev2 QRESYNC"
    go_on = "+ go on"
    copied = "done"
    select: Tuple[str, ...] = (
        "* {exists} EXISTS",
        "* OK [PERMANENTFLAGS ({permanent})] done",
        "* OK [UIDVALIDITY {validity}] done",
        "* OK [UIDNEXT {next_uid}] done",
        "* OK [HIGHESTMODSEQ {highest}] done",
    )
    # What is told of the selected mailbox, once a message was put there.
    appended: Tuple[str, ...] = ()
    closed = "* OK [CLOSED] done"

    def logged_in(self) -> Tuple[List[str], str]:
        """What is told as a user logs in, and the code of the completion."""
        return [], ""

    def done(self, verb: str) -> str:
        """The text of a completion."""
        return "done"

    def row(self, box: Box, uid: int, is_new: bool) -> str:
        """The data of a message, which are new where the command changed them."""
        row = box.rows[uid]
        return f"* {box.place(uid)} FETCH (UID {uid} FLAGS ({' '.join(sorted(row.flags))}) MODSEQ ({row.mark}))"

    def found(self, tag: str, uids: List[str]) -> str:
        """What a search found."""
        return f'* ESEARCH (TAG "{tag}") UID{" ALL " + ",".join(uids) if uids else ""}'

    def of(self, box: Box, forms: Iterable[str]) -> List[str]:
        """What is told of a mailbox in these forms."""
        seen = [uid for uid, row in sorted(box.rows.items()) if r"\Seen" not in row.flags]
        unseen = box.place(seen[0]) if seen else 0
        facts = {"exists": len(box.rows), "permanent": box.permanent, "unseen": unseen, "flags": box.permanent.replace(r" \*", "")}
        facts.update(validity=box.validity, next_uid=box.next_uid, highest=box.highest)
        return [form.format(**facts) for form in forms if unseen or "{unseen}" not in form]


class DovecotWords(Words):
    """As Dovecot 2.3 words it."""

    name = "Dovecot"
    greeting = "* OK [CAPABILITY IMAP4rev1 SASL-IR LOGIN-REFERRALS ID ENABLE IDLE LITERAL+ AUTH=PLAIN] Dovecot (Debian) ready."
    offered = (
        "IMAP4rev1 SASL-IR LOGIN-REFERRALS ID ENABLE IDLE LITERAL+ AUTH=PLAIN",
        "IMAP4rev1 SASL-IR LOGIN-REFERRALS ID ENABLE IDLE SORT SORT=DISPLAY THREAD=REFERENCES MULTIAPPEND CATENATE UNSELECT CHILDREN NAMESPACE"
        " UIDPLUS LIST-EXTENDED I18NLEVEL=1 CONDSTORE QRESYNC ESEARCH SEARCHRES BINARY MOVE PREVIEW=FUZZY STATUS=SIZE LITERAL+ NOTIFY SPECIAL-USE",
    )
    enabled = "QRESYNC"
    go_on = "+ OK"
    copied = "Moved UIDs."
    select: Tuple[str, ...] = (
        "* FLAGS ({flags})",
        "* OK [PERMANENTFLAGS ({permanent})] Flags permitted.",
        "* {exists} EXISTS",
        "* 0 RECENT",
        "* OK [UNSEEN {unseen}] First unseen.",
        "* OK [UIDVALIDITY {validity}] UIDs valid",
        "* OK [UIDNEXT {next_uid}] Predicted next UID",
        "* OK [HIGHESTMODSEQ {highest}] Highest",
    )
    appended: Tuple[str, ...] = ("* {exists} EXISTS", "* 1 RECENT", "* OK [HIGHESTMODSEQ {highest}] Highest")
    closed = "* OK [CLOSED] Previous mailbox closed."

    def logged_in(self) -> Tuple[List[str], str]:
        return [f"* CAPABILITY {self.offered[1]}"], ""

    def done(self, verb: str) -> str:
        return "Logged in" if verb == "AUTHENTICATE" else f"{verb.capitalize()} completed (0.001 + 0.000 secs)."

    def row(self, box: Box, uid: int, is_new: bool) -> str:
        row = box.rows[uid]
        flags, mark = f"FLAGS ({' '.join(sorted(row.flags))})", f"MODSEQ ({row.mark})"
        return f"* {box.place(uid)} FETCH (UID {uid} {mark} {flags})" if is_new else f"* {box.place(uid)} FETCH (UID {uid} {flags} {mark})"

    def found(self, tag: str, uids: List[str]) -> str:
        return " ".join(["* SEARCH", *uids])


class CyrusWords(Words):
    """As Cyrus 3.6 words it."""

    name = "Cyrus"
    greeting = "* OK [CAPABILITY IMAP4rev1 LITERAL+ ID ENABLE AUTH=PLAIN SASL-IR] lab Cyrus IMAP 3.6.1-Debian-3.6.1-4+deb12u5 server ready"
    offered = (
        "IMAP4rev1 LITERAL+ ID ENABLE ACL CATENATE CONDSTORE ESEARCH MOVE MULTIAPPEND QRESYNC UIDPLUS UNSELECT AUTH=PLAIN SASL-IR IDLE",
        "IMAP4rev1 LITERAL+ ID ENABLE ACL CATENATE CONDSTORE ESEARCH MOVE MULTIAPPEND QRESYNC UIDPLUS UNSELECT LOGINDISABLED APPENDLIMIT=4294967295",
    )
    enabled = "CONDSTORE QRESYNC"
    go_on = "+ go ahead"
    copied = "Completed"
    select: Tuple[str, ...] = (
        "* {exists} EXISTS",
        "* 0 RECENT",
        "* FLAGS ({flags})",
        "* OK [PERMANENTFLAGS ({permanent})] Ok",
        "* OK [UNSEEN {unseen}] Ok",
        "* OK [UIDVALIDITY {validity}] Ok",
        "* OK [UIDNEXT {next_uid}] Ok",
        "* OK [HIGHESTMODSEQ {highest}] Ok",
        "* OK [MAILBOXID (fsrxk2n64gcmbjvkpjyia6ci)] Ok",
        "* OK [URLMECH INTERNAL] Ok",
        "* OK [ANNOTATIONS 65536] Ok",
    )
    appended: Tuple[str, ...] = ("* {exists} EXISTS", "* 1 RECENT")
    closed = "* OK [CLOSED] Ok"

    def logged_in(self) -> Tuple[List[str], str]:
        return [], f"[CAPABILITY {self.offered[1]}] "

    def done(self, verb: str) -> str:
        return {"AUTHENTICATE": "Success (no protection) SESSIONID=<lab-1-1-1-1>", "FETCH": "Completed (0.000 sec)"}.get(verb, "Completed")

    def row(self, box: Box, uid: int, is_new: bool) -> str:
        row = box.rows[uid]
        return f"* {box.place(uid)} FETCH (FLAGS ({' '.join(sorted(row.flags))}) UID {uid} MODSEQ ({row.mark}))"

    def found(self, tag: str, uids: List[str]) -> str:
        return " ".join(["* SEARCH", *uids])


class Reply(NamedTuple):
    """What is told, how the completion answers, and its code with a space behind it."""

    told: List[str]
    answer: str = "OK"
    code: str = ""


class Talk:
    """One connection: the mailbox that is selected in it, and the way to the client."""

    def __init__(self, link: socket.socket) -> None:
        self.link, self.lines = link, link.makefile("rb")
        self.box: Optional[Box] = None
        self.is_logged_in = False
        # The command under way, and its word.
        self.command = self.verb = ""

    def tell(self, tag: str, lines: List[str]) -> None:
        """Tells lines, in answer to the command of this tag. A letter of them is a byte."""
        self.link.sendall("".join(f"{line}\r\n" for line in lines).encode("latin-1"))

    def end(self) -> None:
        """Ends the connection."""
        self.lines.close()
        with contextlib.suppress(OSError):
            self.link.shutdown(socket.SHUT_RDWR)
        self.link.close()


def first_boxes() -> Dict[str, Box]:
    """INBOX with the messages 40, which is seen, and 42; and Archive without any."""
    inbox, archive = Box(5, 44, 715), Box(9, 7, 300)
    inbox.rows = {40: Row(700, [r"\Seen"], b""), 42: Row(715, [], b"")}
    return {"INBOX": inbox, "Archive": archive}


class Server:
    """The server, at a free port of this machine."""

    def __init__(self, boxes: Optional[Dict[str, Box]] = None, words: Optional[Words] = None) -> None:
        self.boxes, self.words = boxes or first_boxes(), words or Words()
        # How the command of a tag is refused, where it is; and a letter that has come.
        self.refused: Callable[[str], Optional[str]] = lambda tag: None
        self.unkept: Callable[[str], Optional[str]] = lambda tag: None
        # What another client does as the command of an action comes.
        self.meanwhile: Callable[[], None] = lambda: None
        # How often the commands of each tag changed something.
        self.deeds: Counter[str] = collections.Counter()
        self.socket = socket.create_server(("127.0.0.1", 0))
        self.port: int = self.socket.getsockname()[1]
        self.serving = threading.Thread(target=self.serve, daemon=True)
        self.serving.start()

    def serve(self) -> None:
        """Takes connections until the socket is closed."""
        while True:
            try:
                link, _ = self.socket.accept()
            except OSError:
                return
            self.welcome(link)

    def welcome(self, link: socket.socket) -> None:
        """Talks to a client, beside others."""
        threading.Thread(target=self.talk, args=(Talk(link),), daemon=True).start()

    def close(self) -> None:
        """Takes no more connections. The socket is closed once nobody waits at it: its number may be another socket's then."""
        with contextlib.suppress(OSError):
            self.socket.shutdown(socket.SHUT_RDWR)
        self.serving.join()
        self.socket.close()

    def talk(self, talk: Talk) -> None:
        """Greets a client, and answers its commands to the end of the connection."""
        try:
            talk.tell("", [self.words.greeting])
            for line in talk.lines:
                # What is no whole line is no command.
                if not line.endswith(b"\r\n"):
                    break
                tag, command = line.decode().rstrip("\r\n").split(" ", 1)
                self.answer(talk, tag, command)
                if command == "LOGOUT":
                    break
        except (OSError, ValueError):
            pass
        talk.end()

    def answer(self, talk: Talk, tag: str, command: str) -> None:
        """Answers a command."""
        words = command.split(" ")
        talk.command, talk.verb = command, words[1] if words[0] == "UID" else words[0]
        if tag.startswith("P"):
            meanwhile, self.meanwhile = self.meanwhile, lambda: None
            meanwhile()
        refusal = self.refused(tag)
        if refusal:
            talk.tell(tag, [f"{tag} {refusal}"])
            return
        told, answer, code = self.acted(talk, tag, command) if tag.startswith("P") else self.asked(talk, tag, command)
        talk.tell(tag, [*told, f"{tag} {answer} {code}{self.words.done(talk.verb)}"])

    def asked(self, talk: Talk, tag: str, command: str) -> Reply:
        """Answers a command that changes no mailbox."""
        verb = talk.verb
        if verb == "CAPABILITY":
            return Reply([f"* CAPABILITY {self.words.offered[talk.is_logged_in]}"])
        if verb == "AUTHENTICATE":
            talk.tell(tag, ["+ "])
            talk.lines.readline()
        if verb in ("AUTHENTICATE", "LOGIN"):
            talk.is_logged_in = True
            told, code = self.words.logged_in()
            return Reply(told, code=code)
        if verb == "ENABLE":
            return Reply([f"* ENABLED {self.words.enabled}"])
        if verb == "SELECT":
            return self.selected(talk, command)
        if verb == "LOGOUT":
            return Reply(["* BYE bye"])
        return Reply(self.question(talk.box, tag, command))

    def selected(self, talk: Talk, command: str) -> Reply:
        """Selects a mailbox, and tells what changed since a mark, if one is named."""
        found = re.fullmatch(r"SELECT (\S+)(?: \(QRESYNC \((\d+) (\d+)\)\))?", command)
        if not found or found[1] not in self.boxes:
            return Reply([], "NO", "[NONEXISTENT] ")
        told = [self.words.closed] if talk.box else []
        talk.box = box = self.boxes[found[1]]
        told += self.words.of(box, self.words.select)
        if found[2] == str(box.validity):
            gone = [str(uid) for uid, at in sorted(box.gone.items()) if at > int(found[3])]
            told += [f"* VANISHED (EARLIER) {','.join(gone)}"] if gone else []
            told += [self.words.row(box, uid, False) for uid, row in sorted(box.rows.items()) if row.mark > int(found[3])]
        return Reply(told, code="[READ-WRITE] ")

    def question(self, box: Optional[Box], tag: str, command: str) -> List[str]:
        """What is told of the selected mailbox."""
        if not box:
            raise ValueError("nothing is selected")
        if found := re.fullmatch(r"UID SEARCH UID (\d+):\* HEADER Message-ID (.*)", command):
            uids = [str(uid) for uid, row in sorted(box.rows.items()) if uid >= int(found[1]) and found[2].encode() in row.text]
            return [self.words.found(tag, uids)]
        asked = re.fullmatch(r"UID FETCH (\S+) \((.*)\)", command)
        if not asked:
            raise ValueError(command)
        ranges = [(int(low), int(high or low)) for low, _, high in (it.partition(":") for it in asked[1].replace("*", "4294967295").split(","))]
        wanted = [uid for uid in sorted(box.rows) if any(low <= uid <= high for low, high in ranges)]
        if "BODY" not in asked[2]:
            return [self.words.row(box, uid, False) for uid in wanted]
        told = []
        for uid in wanted:
            text, item = box.rows[uid].text.decode("latin-1"), "BODY[]"
            if "HEADER" in asked[2]:
                text, item = "".join(re.findall(r"(?im)^message-id:.*\r\n", text)) + "\r\n", "BODY[HEADER.FIELDS (MESSAGE-ID)]"
            told.append(f"* {box.place(uid)} FETCH (UID {uid} {item} {{{len(text)}}}\r\n{text})")
        return told

    def acted(self, talk: Talk, tag: str, command: str) -> Reply:
        """Carries out the command of an action."""
        box = talk.box
        if found := re.fullmatch(r"UID STORE (\d+) \(UNCHANGEDSINCE (\d+)\) ([+-])FLAGS \((.*)\)", command):
            uid = int(found[1])
            if not box or uid not in box.rows:
                return Reply([])
            if box.rows[uid].mark > int(found[2]):
                return Reply([], code=f"[MODIFIED {uid}] ")
            box.change(uid, found[3] == "+", set(found[4].split()))
            self.deeds[of_action(tag)] += 1
            return Reply([self.words.row(box, uid, True)])
        if found := re.fullmatch(r"UID MOVE (\d+) (\S+)", command):
            uid, target = int(found[1]), self.boxes[found[2]]
            if not box or uid not in box.rows:
                return Reply([])
            row = box.drop(uid)
            self.deeds[of_action(tag)] += 1
            return Reply([f"* OK [COPYUID {target.validity} {uid} {target.put(row.flags, row.text)}] {self.words.copied}", f"* VANISHED {uid}"])
        return self.put(talk, tag, command)

    def put(self, talk: Talk, tag: str, command: str) -> Reply:
        """Takes a letter."""
        found = re.fullmatch(r"APPEND (\S+) \((.*)\) \{(\d+)\}", command)
        if not found:
            raise ValueError(command)
        talk.tell(tag, [self.words.go_on])
        text = talk.lines.read(int(found[3]))
        # A letter that doesn't come whole isn't put there.
        if talk.lines.readline() != b"\r\n":
            raise ConnectionAbortedError
        refusal = self.unkept(tag)
        if refusal:
            return Reply([], refusal)
        target = self.boxes[found[1]]
        uid = target.put(found[2].split(), text)
        self.deeds[of_action(tag)] += 1
        told = self.words.of(target, self.words.appended) if target is talk.box else []
        return Reply(told, code=f"[APPENDUID {target.validity} {uid}] ")


WORDS: List[Words] = [Words(), DovecotWords(), CyrusWords()]
