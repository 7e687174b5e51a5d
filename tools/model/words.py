"""Words of a command and of a scenario; flags, sets of UIDs, messages, and how IMAP spells them."""
import re
from typing import Iterable, List, Optional, Tuple, Union

# What a user calls a message: ('real', its UID), or ('dummy', the number of the action that is to make it).
Ident = Tuple[str, int]

# Words of a scenario.

ESCAPES = {34: '\\"', 92: '\\\\', 13: '\\r', 10: '\\n'}


def word(text: Union[str, bytes]) -> str:
    """A word of a scenario as it is printed: bare where it can be, and else quoted; many equal bytes by their count."""
    data = text.encode() if isinstance(text, str) else text
    if len(data) >= 100 and len(set(data)) == 1:
        return quoted(data[:1]) + '*%d' % len(data)
    if data and data not in (b';', b'=') and all(33 <= byte <= 126 and byte != 34 for byte in data):
        return data.decode()
    return quoted(data)


def quoted(data: bytes) -> str:
    shown = [ESCAPES.get(byte) or (chr(byte) if 32 <= byte <= 126 else '\\x%02x' % byte) for byte in data]
    return '"' + ''.join(shown) + '"'


def words(*texts: Union[str, bytes]) -> str:
    return ' '.join(word(text) for text in texts)


def hexed(data: bytes) -> str:
    return data.hex() or '-'


# Words of a command.

def name_of(text: str) -> str:
    """A mailbox's name: INBOX in any case is one."""
    return 'INBOX' if text.upper() == 'INBOX' else text


def is_box(text: str) -> bool:
    data = text.encode()
    return 1 <= len(data) <= 128 and all(32 <= byte <= 126 and chr(byte) not in '"\\&*%' for byte in data)


def number_of(text: str) -> Optional[int]:
    is_number = text.isascii() and text.isdigit() and text[0] != '0' and int(text) < 2**32
    return int(text) if is_number else None


def ident_of(text: str) -> Optional[Ident]:
    is_dummy = text[:1] == 'd'
    number = number_of(text[1:] if is_dummy else text)
    return None if number is None else ('dummy' if is_dummy else 'real', number)


def asked(command: Iterable[str]) -> Optional[tuple]:
    """What the words ask for, or None where they are none of a command."""
    verb, *rest = list(command) or [None]
    if verb == 'init' and 1 <= len(rest) <= 32 and all(map(is_box, rest)):
        names = [name_of(name) for name in rest]
        return (verb, names) if len(set(names)) == len(names) else None
    if verb == 'flag' and 4 <= len(rest) <= 35 and is_box(rest[0]) and ident_of(rest[1]) and rest[2] in ('+', '-'):
        return (verb, name_of(rest[0]), ident_of(rest[1]), rest[2], rest[3:])
    if verb == 'move' and len(rest) == 3 and is_box(rest[0]) and ident_of(rest[1]) and is_box(rest[2]):
        return (verb, name_of(rest[0]), ident_of(rest[1]), name_of(rest[2]))
    if verb == 'append' and 1 <= len(rest) <= 33 and is_box(rest[0]):
        return (verb, name_of(rest[0]), rest[1:])
    if verb == 'list' and len(rest) == 1 and is_box(rest[0]):
        return (verb, name_of(rest[0]))
    if verb in ('queue', 'report', 'play') and not rest:
        return (verb,)
    return None


def looked_at(command: Iterable[str]) -> Optional[tuple]:
    """What the words ask to see of all actions, or None where they are neither `history` nor `letter N`."""
    verb, *rest = list(command) or [None]
    if verb == 'history' and not rest:
        return (verb,)
    if verb == 'letter' and len(rest) == 1 and number_of(rest[0]):
        return (verb, number_of(rest[0]))
    return None


def read_by(command: Iterable[str]) -> Optional[tuple]:
    """What the words ask for of a text, or None where they are none of `fetch BOX ID`, `show BOX ID` and `dates BOX`."""
    verb, *rest = list(command) or [None]
    if verb in ('fetch', 'show') and len(rest) == 2 and is_box(rest[0]) and number_of(rest[1]):
        return (verb, name_of(rest[0]), number_of(rest[1]))
    if verb == 'dates' and len(rest) == 1 and is_box(rest[0]):
        return (verb, name_of(rest[0]))
    return None


# Flags.

SPELLED = {'\\answered': '\\Answered', '\\flagged': '\\Flagged', '\\deleted': '\\Deleted', '\\seen': '\\Seen', '\\draft': '\\Draft'}


def keys(flags: Iterable[str]) -> List[str]:
    """The keys of flags, rising by their bytes: in lower case, without \\Recent."""
    found = {flag.lower() for flag in flags} - {'\\recent'}
    return sorted(found, key=lambda key: key.encode())


def spelled(flags: Iterable[str]) -> List[str]:
    """Keys as a command and a scenario have them."""
    return [SPELLED.get(key, key) for key in flags]


def flag_text(flags: Iterable[str]) -> str:
    return ' '.join(spelled(flags))


def may_be_asked(flag: str) -> bool:
    """Whether a user may ask for the flag: a keyword of atom bytes, or one of the five."""
    data = flag.encode()
    has_backslash = data[:1] == b'\\'
    name = data[1:] if has_backslash else data
    is_atom = len(name) > 0 and all(33 <= byte <= 126 and chr(byte) not in '(){%*"\\]' for byte in name)
    return 1 <= len(data) <= 255 and is_atom and (not has_backslash or flag.lower() in SPELLED)


# Sets of UIDs.

def ranges_of(uids: Iterable[int]) -> List[List[int]]:
    """The fewest ranges, each a first and a last UID, rising."""
    ranges: List[List[int]] = []
    for uid in sorted(uids):
        if ranges and ranges[-1][1] + 1 == uid:
            ranges[-1][1] = uid
        else:
            ranges.append([uid, uid])
    return ranges


def set_text(uids: Iterable[int]) -> str:
    return ','.join(str(low) if low == high else f'{low}:{high}' for low, high in ranges_of(uids))


# Strings of a command.

def astring(text: str) -> str:
    is_atom = text and text.upper() != 'NIL' and all(33 <= ord(c) <= 126 and c not in '(){%*"\\' for c in text)
    return text if is_atom else '"%s"' % text.replace('\\', '\\\\').replace('"', '\\"')


def login_parts(user: str, password: str) -> Tuple[str, List[bytes]]:
    """The text of LOGIN in parts: one that isn't ASCII is a literal, which begins a part of its own."""
    parts = ['LOGIN']
    for text in (user, password):
        if all(1 <= ord(c) <= 127 and c not in '\r\n' for c in text):
            parts[-1] += ' ' + astring(text)
        else:
            parts[-1] += ' {%d}' % len(text.encode())
            parts.append(text)
    return parts[0], [(part + '\r\n').encode() for part in parts[1:]]


# Messages.

def crlf_of(text: bytes) -> bytes:
    """The text with a CR in front of each LF that had none."""
    return re.sub(rb'(?<!\r)\n', b'\r\n', text)


def fields(text: bytes) -> List[Tuple[bytes, bytes]]:
    """The fields of the header, which are the lines up to the first empty one: one that begins with a blank goes on with the one before."""
    whole: List[bytes] = []
    for line in text.split(b'\r\n'):
        if not line:
            break
        if whole and line[:1] in (b' ', b'\t'):
            whole[-1] += b'\r\n' + line
        else:
            whole.append(line)
    named = [line.partition(b':') for line in whole if b':' in line[1:] and line[:1] != b':']
    return [(name, body) for name, _, body in named]


def message_id(text: bytes) -> Optional[bytes]:
    """The one Message-ID, or None."""
    found = [body.replace(b'\r\n', b'').strip(b' \t') for name, body in fields(text) if name.lower() == b'message-id']
    is_one = len(found) == 1 and len(found[0]) <= 512 and re.fullmatch(rb'<[!-;=?-~]+>', found[0])
    return found[0] if is_one else None
