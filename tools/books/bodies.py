"""Makes bodies.txt of crates/value_cases: bodies of the events that tell a book anew, each byte of each of them changed in turn.

usage: tools/books/bodies.py > crates/value_cases/data/bodies.txt
"""
import pathlib
import sys

sys.path.insert(0, str(pathlib.Path(__file__).resolve().parent.parent))
from model.bodies import read  # noqa: E402
from model.words import word  # noqa: E402

HEAD = """# Made by tools/make-cases (tools/books/bodies.py): a case that is added here by hand is lost when it runs again.
# Bodies of an action that ended, of a cache that is taken away, of a try that is taken back and of the two outcomes of a mailbox that
# was recreated: each as it is, cut off at each place, with a byte behind it, and with each byte changed in turn, from
# a plain reader of bodies.
each line is a case
"""
ID, UID, INBOX = b'\0\0\0\1', b'\0\0\0\x2a', b'R\x05INBOX\0\0\0\x05'
TEXT = b'Message-ID: <a@x>\r\n\r\n'
BODIES = [
    b'O' + ID + b'M' + INBOX + UID + b'\x07ArchiveD\1\0\0\0\x09\0\0\0\x07',
    b'O' + ID + b'FD' + ID + b'-\0\2\x05\\seen\x04workC\x03\0\0\0\0\0\0\x02\xbc',
    b'O' + ID + b'P\x07Archive\0\0\0\0\0' + bytes([len(TEXT)]) + TEXT + b'D\0',
    b'R\x05INBOX\0\0\0\x05\0\0\0\x06',
    b'W' + ID + b'\1',
    b'S' + ID + b'C\x0d\0\0\0\x05\0\0\0\x06',
    b'S' + ID + b'C\x0e\0\0\0\x09\0\0\0\x0a',
]


def line(body: bytes) -> str:
    return f'record {word(body)} = {read(body)[0]}'


def changed(body: bytes) -> list:
    """The body with each byte changed: in its lowest bit, in that of the case of a letter, in all bits, and to a zero."""
    places = [(at, {byte ^ 1, byte ^ 32, byte ^ 255, 0} - {byte}) for at, byte in enumerate(body)]
    return [body[:at] + bytes([byte]) + body[at + 1:] for at, others in places for byte in sorted(others)]


def main() -> None:
    print(HEAD, end='')
    for body in BODIES:
        told, is_event = read(body)
        assert is_event
        print(f'\n== {told}')
        for other in [body] + [body[:at] for at in range(1, len(body))] + [body + b'\0'] + changed(body):
            print(line(other))


main()
