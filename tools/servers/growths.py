"""Runs of the program in which one growth of its memory is refused, each in turn, in three worked rows: a new journal; a move, and a flag of the
message that it makes, played; and a letter whose answer is lost, and which is looked for.

The program is run as it is, with a small library before the system's that counts what is asked for, and refuses one. Behind each such run:

    line       it says what it says otherwise, or ends with 11 and `error memory`, 3 and `error disk`, or 4 and `error link`
    journal    what reads ends with 0, and shows the actions that were accepted before, and none that ended otherwise; one that the run accepted
               is there, and the files are as before where it only reads
    end        the row then goes on to its end, where nothing waits, `list` is the server's, and each action that is done was done once, one that
               is `nothing` never, and none twice
"""
import collections
import copy
import mmap
import os
import pathlib
import shutil
import socket
import subprocess
import threading
from typing import Counter, Dict, Iterator, List, NamedTuple, Optional, Set, Tuple

from . import plain

LIBRARY = r"""
#include <errno.h>
#include <fcntl.h>
#include <stdlib.h>
#include <sys/mman.h>

extern void *__libc_malloc(size_t), *__libc_calloc(size_t, size_t), *__libc_realloc(void *, size_t), *__libc_memalign(size_t, size_t);

static long unseen, *count = &unseen, fails;

__attribute__((constructor)) static void begin(void) {
    const char *number = getenv("GROWTH_FAILS"), *told = getenv("GROWTH_TOLD");
    int file = told ? open(told, O_RDWR) : -1;
    void *page = file < 0 ? MAP_FAILED : mmap(0, sizeof(long), PROT_READ | PROT_WRITE, MAP_SHARED, file, 0);
    if (page != MAP_FAILED) count = page;
    fails = number ? atol(number) : 0;
    *count = 0;
}

static int refused(void) {
    if (++*count != fails) return 0;
    errno = ENOMEM;
    return 1;
}

void *malloc(size_t size) { return refused() ? 0 : __libc_malloc(size); }
void *calloc(size_t many, size_t size) { return refused() ? 0 : __libc_calloc(many, size); }
void *realloc(void *old, size_t size) { return size && refused() ? 0 : __libc_realloc(old, size); }
void *aligned_alloc(size_t by, size_t size) { return refused() ? 0 : __libc_memalign(by, size); }
"""

BOXES = ("INBOX", "Archive")
LETTER = b"Message-ID: <a1@x>\r\nSubject: hi\r\n\r\nhello\r\n"
PLAY, READS = "play", ("list", "queue", "report", "history")
Said = Tuple[str, int]
REFUSED: Set[Said] = {("error memory\n", 11), ("error disk\n", 3), ("error link\n", 4)}


class Step(NamedTuple):
    """A run of a row: its words, its input, what it says where nothing is refused, and the tag of the command whose answer is lost, if any."""

    words: Tuple[str, ...]
    said: Said
    given: bytes = b""
    lost: str = ""


# Each row, and whether a play stands before it.
ROWS: Dict[str, Tuple[bool, List[Step]]] = {
    "a new journal": (False, [Step(("init", *BOXES), ("ready\n", 0)), Step(("queue",), ("", 0))]),
    "a move, and a flag of the message that it makes": (True, [
        Step(("move", "INBOX", "42", "Archive"), ("accepted 1\n", 0)),
        Step(("flag", "Archive", "d1", "+", r"\Flagged"), ("accepted 2\n", 0)),
        Step((PLAY,), ("played 2 conflicts 0\n", 0)),
        Step(("list", "Archive"), ("7 302 \\flagged\n", 0)),
    ]),
    "a letter whose answer is lost": (True, [
        Step(("append", "Archive", r"\Seen"), ("accepted 1\n", 0), LETTER),
        Step((PLAY,), ("error link\n", 4), lost="P1"),
        Step((PLAY,), ("played 1 conflicts 0\n", 0)),
    ]),
}


class Server(plain.Server):
    """The small server, which can lose the answer to a command, and tells when it has done all that it was sent."""

    def __init__(self, state: "State", lost: str = "") -> None:
        self.lost = lost
        self.talks: List[threading.Thread] = []
        super().__init__(copy.deepcopy(state.boxes))
        self.deeds.update(state.deeds)

    def welcome(self, link: socket.socket) -> None:
        self.talks.append(threading.Thread(target=self.talk, args=(plain.Talk(link),), daemon=True))
        self.talks[-1].start()

    def answer(self, talk: plain.Talk, tag: str, command: str) -> None:
        if tag != self.lost:
            super().answer(talk, tag, command)
            return
        talk.command, talk.verb = command, command.split()[0]
        self.acted(talk, tag, command)
        raise ConnectionAbortedError

    def close(self) -> None:
        super().close()
        for talk in self.talks:
            talk.join()


class State(NamedTuple):
    """Where a row stands: the folder with its journal, the server's mailboxes, and what was done there."""

    folder: pathlib.Path
    boxes: Dict[str, plain.Box]
    deeds: Counter[str]


class Look(NamedTuple):
    """What the commands that read print, and how each action stands by `history`."""

    said: Dict[str, Said]
    stands: List[str]


class Growths:
    """The program under the library, and the folders in which its rows are played."""

    def __init__(self, program: pathlib.Path, home: pathlib.Path) -> None:
        self.program, self.home = program, home
        self.library, self.count = home / "growths.so", home / "count"
        self.count.write_bytes(bytes(8))
        source = home / "growths.c"
        source.write_text(LIBRARY)
        subprocess.run(["cc", "-O1", "-shared", "-fPIC", "-fno-builtin", "-o", str(self.library), str(source)], check=True)
        self.folders = 0

    def folder(self, state: Optional[State] = None) -> pathlib.Path:
        """A new folder, with a copy of the state's journal."""
        self.folders += 1
        made = self.home / f"folder{self.folders}"
        if state:
            shutil.copytree(state.folder, made)
        else:
            made.mkdir()
        return made

    def run(self, state: State, step: Step, refused: int = -1) -> Said:
        """What this run says, with no growth refused (0 counts them) or with this one. Server and journal go on from it."""
        own = {"PATH": os.environ["PATH"], "MAIL_DIR": str(state.folder), "MAIL_USER": "ann", "MAIL_PASSWORD": "pw"}
        if refused >= 0:
            own.update(LD_PRELOAD=str(self.library), GROWTH_FAILS=str(refused), GROWTH_TOLD=str(self.count))
        server = Server(state, step.lost)
        own["MAIL_SERVER"] = f"127.0.0.1:{server.port}"
        ran = subprocess.run([str(self.program), *step.words], env=own, input=step.given, stdout=subprocess.PIPE,
                             stderr=subprocess.DEVNULL, timeout=120)
        server.close()
        state.boxes.update(server.boxes)
        state.deeds.update({tag: many - state.deeds[tag] for tag, many in server.deeds.items()})
        return ran.stdout.decode(errors="replace"), ran.returncode

    def counted(self) -> int:
        """How many growths the last run under the library asked for."""
        with self.count.open("rb") as file, mmap.mmap(file.fileno(), 8, prot=mmap.PROT_READ) as page:
            return int.from_bytes(page[:8], "little")

    def copied(self, state: State) -> State:
        """A copy of the state."""
        return State(self.folder(state), copy.deepcopy(state.boxes), collections.Counter(state.deeds))

    def say(self, state: State, *words: str, given: bytes = b"") -> Said:
        """What a run says in which nothing is refused or lost."""
        return self.run(state, Step(words, ("", 0), given))

    def look(self, state: State) -> Look:
        """What the journal shows."""
        words = [("list", name) for name in BOXES] + [(word,) for word in READS[1:]]
        said = {" ".join(it): self.say(state, *it) for it in words}
        stands = [line.split(" flag ")[0].split(" move ")[0].split(" append ")[0] for line in said["history"][0].splitlines()]
        return Look(said, stands)


def is_over(how: str) -> bool:
    """Whether an action has ended that stands so."""
    return how.split()[1] not in ("waiting", "begun")


def files_of(state: State) -> List[bytes]:
    """The bytes of the journal's files."""
    return [path.read_bytes() for path in sorted(state.folder.glob("journal.*"))]


def fault_of_journal(step: Step, said: Said, before: Look, after: Look) -> str:
    """What is wrong with the journal behind this run."""
    wrong = [word for word, told in after.said.items() if told[1]]
    if wrong:
        return f"{wrong} don't end with 0"
    accepts = step.words[0] in ("flag", "move", "append")
    more = len(after.stands) - len(before.stands)
    if more not in ((0, 1) if accepts else (0,)) or said[0].startswith("accepted") and more != 1:
        return f"there were {len(before.stands)} actions and are {len(after.stands)}"
    if any(is_over(old) and old != new for old, new in zip(before.stands, after.stands)):
        return f"{before.stands} became {after.stands}"
    return ""


def fault_of_end(growths: Growths, state: State) -> str:
    """What is wrong where a row has ended."""
    look = growths.look(state)
    waits = [how for how in look.stands if not is_over(how)]
    if waits:
        return f"there waits {waits}"
    for number, how in enumerate(look.stands, 1):
        done, word = state.deeds[f"P{number}"], how.split()[1]
        if done > 1 or word == "done" and done != 1 or word == "nothing" and done:
            return f"action {how} was done {done} times"
    for name in BOXES:
        if look.said[f"list {name}"][0].splitlines() != state.boxes[name].listed():
            return f"list {name} prints {look.said[f'list {name}'][0]!r}"
    return ""


def fault_behind(growths: Growths, state: State, said: Said, steps: List[Step], before: Optional[Look], files: List[bytes]) -> str:
    """What is wrong behind a run of the first of these steps that said this, once the row was played to its end."""
    step, rest = steps[0], steps[1:]
    if said != step.said and said not in REFUSED:
        return f"it says {said}"
    if before is None:
        again = growths.say(state, *step.words)
        if again not in (step.said, ("error journal exists\n", 9)):
            return f"once more it says {again}"
    else:
        after = growths.look(state)
        if step.words[0] in READS and files_of(state) != files:
            return "the journal was changed"
        fault = fault_of_journal(step, said, before, after)
        if fault:
            return fault
        if step.words[0] not in (PLAY, *READS) and len(after.stands) == len(before.stands):
            rest = [step, *rest]
    for then in rest:
        told = growths.say(state, *then.words, given=then.given)
        if then.words[0] not in (PLAY, *READS) and told != then.said:
            return f"{then.words} says {told} behind it"
    told = growths.say(state, PLAY)
    return fault_of_end(growths, state) if told[1] in (0, 1) else f"the last play says {told}"


def tried(growths: Growths, state: State, steps: List[Step]) -> Tuple[int, Counter[str], List[str]]:
    """Refuses each growth of the first of these steps. How many there are, what was said how often, and what was wrong."""
    once = growths.copied(state)
    has_journal = any(state.folder.glob("journal.*"))
    before = growths.look(state) if has_journal else None
    growths.run(once, steps[0], 0)
    count = growths.counted()
    said: Counter[str] = collections.Counter()
    wrong: List[str] = []
    shutil.rmtree(once.folder)
    for number in range(1, count + 1):
        mine = growths.copied(state)
        told = growths.run(mine, steps[0], number)
        said[told[0].strip() if told != steps[0].said else "as if it were given"] += 1
        fault = fault_behind(growths, mine, told, steps, before, files_of(state))
        wrong += [f"growth {number}: {told[0].strip()}: {fault}"] if fault else []
        shutil.rmtree(mine.folder)
    return count, said, wrong


def rows(growths: Growths) -> Iterator[Tuple[str, List[str]]]:
    """The title of each run of each row, with its figures, and what was wrong in it."""
    for name, (is_played, steps) in ROWS.items():
        state = State(growths.folder(), plain.first_boxes(), collections.Counter())
        if is_played:
            growths.say(state, "init", *BOXES)
            growths.say(state, PLAY)
        for place, step in enumerate(steps):
            count, said, wrong = tried(growths, state, steps[place:])
            told = growths.run(state, step)
            wrong += [f"it says {told} in place of {step.said}"] if told != step.said else []
            figures = ", ".join(f"{many} {line}" for line, many in said.most_common())
            yield f"{name}: {step.words[0]}: {count} growths, each refused once: {figures}", wrong
