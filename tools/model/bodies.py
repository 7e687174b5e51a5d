"""A plain reader of the bodies of an ended action, a reset, a taken back try and an outcome (docs/JOURNAL.md): what a body says, in the
words of cases (docs/CASES.md), or the place of its first field that doesn't fit."""
from typing import Callable, List, Tuple

from .words import SPELLED, message_id, word

# The words of each kind of conflict, and the bytes of each of its numbers.
KINDS = {1: ('message-gone',), 2: ('already-so',), 3: ('flags-changed', 8), 4: ('refused-no',), 5: ('refused-bad',), 6: ('not-permanent',),
         7: ('target-unknown', 4), 8: ('found-so',), 9: ('store-unsure', 8, 8), 10: ('source-gone',), 11: ('gone-after-loss',),
         12: ('ambiguous', 4, 4), 13: ('validity-changed', 4, 4), 14: ('reset-after-loss', 4, 4)}


class Misfit(Exception):
    """A field doesn't fit. It begins at this place."""


def is_name(data: bytes) -> bool:
    is_text = 1 <= len(data) <= 128 and all(32 <= byte <= 126 and byte not in b'"%&*\\' for byte in data)
    return is_text and (data.lower() != b'inbox' or data == b'INBOX')


def is_key(data: bytes) -> bool:
    name = data[1:] if data[:1] == b'\\' else data
    is_atom = len(name) > 0 and all(33 <= byte <= 126 and byte not in b'(){%*"\\]' for byte in name)
    return is_atom and len(data) <= 255 and data == data.lower()


class Body:
    """A body that is read from its front."""

    def __init__(self, data: bytes):
        self.data, self.at = data, 0

    def field(self, width: int, fits: Callable[[bytes], bool]) -> bytes:
        """The next bytes as one field."""
        found = self.data[self.at:self.at + width]
        if len(found) < width or not fits(found):
            raise Misfit(self.at)
        self.at += width
        return found

    def letter(self, letters: bytes) -> str:
        return self.field(1, lambda found: found in letters).decode()

    def number(self, width: int = 4) -> int:
        """A number that isn't zero; one of eight bytes is below 2 ^ 63."""
        return int.from_bytes(self.field(width, lambda found: any(found) and (width < 8 or found[0] < 128)), 'big')

    def counted(self, fits: Callable[[bytes], bool]) -> bytes:
        """A text behind its length in one byte."""
        width = self.data[self.at] if self.at < len(self.data) else 0
        return self.field(1 + width, lambda found: fits(found[1:]))[1:]

    def target(self) -> str:
        if self.letter(b'RD') == 'D':
            return f'd{self.number()}'
        return f'{word(self.counted(is_name))} {self.number()} {self.number()}'

    def flags(self, least: int) -> List[str]:
        count = int.from_bytes(self.field(2, lambda found: least <= int.from_bytes(found, 'big') <= 1024), 'big')
        keys: List[bytes] = []
        for _ in range(count):
            keys.append(self.counted(lambda found: is_key(found) and (not keys or keys[-1] < found)))
        return [SPELLED.get(key.decode(), key.decode()) for key in keys]

    def letters_text(self) -> str:
        """A letter's text behind its size in four bytes, with its one Message-ID."""
        size = int.from_bytes(self.field(4, lambda found: True), 'big')
        text = self.field(size, lambda found: message_id(found) is not None)
        return f'{word(text)} {word(message_id(text) or b"")}'

    def action(self) -> str:
        letter = self.letter(b'FMP')
        if letter == 'F':
            return ' '.join(['flag', self.target(), self.letter(b'+-'), *self.flags(1)])
        if letter == 'M':
            return f'move {self.target()} {word(self.counted(is_name))}'
        to, flags, text = word(self.counted(is_name)), self.flags(0), self.letters_text()
        return ' '.join(['append', to, text, *flags])

    def outcome(self) -> str:
        if self.letter(b'DC') == 'D':
            return f'done {self.number()} {self.number()}' if self.letter(b'\0\1') == '\1' else 'done'
        kind, *widths = KINDS[ord(self.letter(bytes(KINDS)))]
        return ' '.join([kind] + [str(self.number(width)) for width in widths])

    def event(self) -> str:
        letter = self.letter(b'ORWS')
        if letter == 'O':
            return f'old {self.number()} {self.action()} ; {self.outcome()}'
        if letter == 'R':
            return f'reset {word(self.counted(is_name))} {self.number()} {self.number()}'
        if letter == 'W':
            return f'withdraw {self.number()} {self.field(1, lambda found: True)[0]}'
        return f'settle {self.number()} {self.outcome()}'


def read(data: bytes) -> Tuple[str, bool]:
    """What the body says, or where it doesn't fit; and which of these it is."""
    body = Body(data)
    try:
        told = body.event()
        if body.at < len(data):
            raise Misfit(body.at)
    except Misfit as misfit:
        return f'bad form at {misfit}', False
    return told, True
