"""Makes flag_lists.txt of crates/value_cases: all lists of at most four letters out of five, as a plain reader of flags reads them.

usage: tools/books/flag_lists.py > crates/value_cases/data/flag_lists.txt
"""
import itertools
import pathlib
import sys

sys.path.insert(0, str(pathlib.Path(__file__).resolve().parent.parent))
from model.words import flag_text, keys, word  # noqa: E402

HEAD = """# Made by tools/make-cases (tools/books/flag_lists.py): a case that is added here by hand is lost when it runs again.
# All lists of at most four letters out of five (flag_set), as a plain program reads them: it parts them at each space, passes over the
# empty parts inside, and keeps each key once.
each line is a case

"""


def misfit(flag: str) -> int:
    """Where a text is no flag, or -1: a flag is an atom, or one behind a backslash."""
    first = 1 if flag.startswith('\\') else 0
    for at in range(first, len(flag)):
        if flag[at] in '\\(':
            return at
    return -1 if len(flag) > first else first


def answer(text: str) -> str:
    parts = text.split(' ') if text else []
    kept = [part for at, part in enumerate(parts) if part or at in (0, len(parts) - 1)]
    for part in kept:
        if misfit(part) >= 0:
            return f'bad flag at {misfit(part)}'
    return flag_text(keys(kept))


def main() -> None:
    print(HEAD, end='')
    for size in range(5):
        for letters in itertools.product('aB \\(', repeat=size):
            text = ''.join(letters)
            print(f'flags {word(text)} = {answer(text)}'.rstrip())


main()
