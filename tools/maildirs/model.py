"""What the wishes of a reader and the changes of another client have to come to. It knows neither mowerbean nor a Maildir nor IMAP, but what people
expect: each wish is done once, or told; and what only one side has changed is as that side has it."""
from typing import Dict, List, NamedTuple, Optional, Set, Tuple

LETTERS = "DFRST"
# What may be told of a message beside its letters: where it is.
BOX = "box"


class Place(NamedTuple):
    """Where a message is, and its flags, as the letters of a Maildir."""

    box: str
    letters: str


class Thing:
    """A message in one round: how it was as the round began, and what each side did with it since."""

    def __init__(self, token: str, start: Optional[Place]) -> None:
        self.token, self.start = token, start
        # Where it was or was to be, in the order in which both sides had it so; and whether the last one was the other client.
        self.boxes: List[str] = [start.box] if start else []
        self.is_last_other = False
        self.other_box = ""
        # How each flag was set or cleared, one after another.
        self.wished: Dict[str, List[bool]] = {}
        self.changed: Dict[str, List[bool]] = {}
        # How often the reader put it elsewhere.
        self.moves = 0
        self.is_removed = False
        # The reader took its file away, and with it what was changed there and not asked for yet.
        self.is_deleted = False
        # Mowerbean can't take it: it has no right Message-ID.
        self.is_refused = False

    def wish_box(self, box: str) -> None:
        """The reader put it there."""
        self.boxes.append(box)
        self.moves += 1
        self.is_last_other = False

    def delete(self) -> None:
        """The reader took it away: it goes to the trash."""
        self.wish_box("Trash")
        self.is_deleted = True

    def wish_letter(self, letter: str, is_on: bool) -> None:
        """The reader changed a flag."""
        self.wished.setdefault(letter, []).append(is_on)

    def move(self, box: str) -> None:
        """The other client moved it."""
        self.boxes.append(box)
        self.other_box = box
        self.is_last_other = True

    def change(self, letter: str, is_on: bool) -> None:
        """The other client changed a flag."""
        self.changed.setdefault(letter, []).append(is_on)

    def asked_too_often(self, moves: int, letters: Dict[Tuple[str, bool], int]) -> str:
        """What was asked more often than the reader wished it, if anything. A letter is asked for as its new file is put there."""
        if moves > self.moves - (self.start is None):
            return f"was to be moved {moves} times"
        often = [letter for (letter, is_on), count in letters.items() if count > self.wished.get(letter, []).count(is_on)]
        return f"was to get or lose {''.join(often)} more often than it was wished" if often else ""

    def fault(self, found: List[Place], told: Set[str], is_alone: bool) -> str:
        """What is wrong with what the server has in the end, if anything. Conflicts of these letters, or of its place (BOX), were told; or the
        message stays in the Maildir alone."""
        if len(found) > 1:
            return "twice"
        if self.is_removed or self.is_refused:
            return "there, though it was taken away or refused" if found else ""
        if not found:
            return "" if self.start is None and (self.is_deleted or (BOX in told and is_alone)) else "lost"
        if found[0].box not in self._may_be_in(BOX in told):
            return f"in {found[0].box}"
        wrong = [letter for letter in LETTERS if (letter in found[0].letters) not in self._may_be(letter, letter in told)]
        return f"has the letters {found[0].letters!r}, of which {''.join(wrong)} is wrong" if wrong else ""

    def _may_be_in(self, is_told: bool) -> Set[str]:
        """Where it may be. What the reader has moved and moved back is where the other client has put it meanwhile, or is moved back there."""
        if self.is_last_other:
            return {self.boxes[-1]}
        is_back = self.start is not None and self.boxes[-1] == self.start.box
        return {self.boxes[-1], *(self.boxes if is_told else []), *([self.other_box] if is_back else [])}

    def _may_be(self, letter: str, is_told: bool) -> Set[bool]:
        """Whether it may have a flag, or lack it."""
        before = self.start is not None and letter in self.start.letters
        wished, changed = self.wished.get(letter, []), self.changed.get(letter, [])
        if wished and (changed or self.is_deleted):
            # Which of the two was the last isn't known. Where they agree all the time nothing else may come of it.
            return {*wished, *changed, *([before] if self.is_deleted or is_told else [])}
        if changed:
            return {changed[-1]}
        if wished:
            return {*wished, before} if is_told else {wished[-1]}
        return {before}

    def __repr__(self) -> str:
        return f"{self.token}: {self.start}, {self.boxes}, wished {self.wished}, changed {self.changed}, removed {self.is_removed}"
