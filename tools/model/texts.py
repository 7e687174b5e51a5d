"""What `fetch`, `show` and `dates` do with the journal, the server and the texts that are kept (docs/PROTOCOL.md, "One `fetch`"), and what
they print."""
import calendar
import re
from typing import Any, List, Optional

from .commands import opened, refused
from .journal import Book
from .playing import Run
from .words import astring, fields
from .world import Fault, Key, World

MONTHS = b'Jan Feb Mar Apr May Jun Jul Aug Sep Oct Nov Dec'.split()
DATE = rb'(?:[A-Z][a-z]{2}, )?(\d{1,2}) ([A-Z][a-z]{2}) (\d{4}) (\d\d):(\d\d)(?::(\d\d))? ([+-])(\d\d)(\d\d)'


def key_of(book: Book, box: str, uid: int) -> Key:
    """What the text of a message is kept under: the UIDVALIDITY is its cache's."""
    cache = book.boxes[box]
    if cache is None or uid not in cache['rows']:
        raise refused('no-message')
    return (box, cache['validity'], uid)


def fetch(world: World, box: str, uid: int) -> List[str]:
    """One connection, in which nothing is recorded and nothing is asked for but the text."""
    store = opened(world, box)
    key = key_of(store.book, box, uid)
    run = Run(world, store)
    run.enter()
    told = run.ask('SELECT ' + astring(box), carried=lambda: run.told_of(box, None))
    if told is None:
        raise Fault(5, 'error refused: C%d NO [TRYCREATE] done' % run.count)
    if told['validity'] != key[1]:
        raise Fault(8, 'error validity %s %d %d' % (box, key[1], told['validity']))

    def carried() -> Any:
        message = world.box(box).at(uid)
        return None if message is None else message['text']
    text = run.ask('UID FETCH %d (UID BODY.PEEK[])' % uid, carried=carried)
    if text is None:
        raise refused('gone')
    run.ask('LOGOUT')
    world.put_text(key, text)
    return ['kept %d' % len(text)]


def lines_of(text: bytes) -> List[str]:
    """Its lines; the last one may be without its end."""
    if not text:
        return []
    return (text[:-1] if text.endswith(b'\n') else text).decode('ascii').split('\n')


def show(world: World, box: str, uid: int) -> List[str]:
    text = world.kept_text(key_of(opened(world, box).book, box, uid))
    if text is None:
        raise refused('not-kept')
    return lines_of(text)


def seconds_of(text: bytes) -> Optional[int]:
    """Those since 1970 that the one Date field tells."""
    found = [body for name, body in fields(text) if name.lower() == b'date']
    told = re.fullmatch(DATE, found[0].replace(b'\r\n', b'').strip(b' \t')) if len(found) == 1 else None
    if told is None or told[2] not in MONTHS:
        return None
    day, month, year, hour, minute, second, sign, hours, minutes = told.groups()
    at = calendar.timegm((int(year), MONTHS.index(month) + 1, int(day), int(hour), int(minute), int(second or 0)))
    away = 3600 * int(hours) + 60 * int(minutes)
    return at - away if sign == b'+' else at + away


def dates(world: World, box: str) -> List[str]:
    cache = opened(world, box).book.boxes[box]
    lines = []
    for uid in sorted(cache['rows']) if cache else []:
        text = world.kept_text((box, cache['validity'], uid))
        if text is not None:
            seconds = seconds_of(text)
            lines.append('%d %s' % (uid, '-' if seconds is None else seconds))
    return lines
