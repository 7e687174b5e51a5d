"""Makes flag_pairs.txt of crates/value_cases: all pairs of sets of four flags, and each of the flags beside each set.

usage: tools/books/flag_pairs.py > crates/value_cases/data/flag_pairs.txt
"""
import pathlib
import sys
from typing import List

sys.path.insert(0, str(pathlib.Path(__file__).resolve().parent.parent))
from model.words import flag_text, keys  # noqa: E402

HEAD = """# Made by tools/make-cases (tools/books/flag_pairs.py): a case that is added here by hand is lost when it runs again.
# All pairs of sets of four flags (flag_set): how many the first one has, whether they are equal, whether the first one holds all
# and whether it holds none of the second one, and what is in either and in the first one alone; and each of the flags beside each set.
each line is a case

"""
FLAGS = ['\\Seen', 'a', 'aa', 'b']


def set_of(number: int) -> List[str]:
    """The set of a number below sixteen, the last of the flags first."""
    return [flag for at, flag in reversed(list(enumerate(FLAGS))) if number >> at & 1]


def yes(is_so: bool) -> str:
    return 'yes' if is_so else 'no'


def line(*words: str) -> None:
    print(' '.join(word for word in words if word))


def pair(left: List[str], right: List[str]) -> None:
    one, other = set(left), set(right)
    told = f'count {len(one)} equal {yes(one == other)} all {yes(other <= one)} none {yes(not one & other)}'
    line('pair-of-flags', *left, ';', *right, '=', told, '; with', flag_text(keys(one | other)), '; without', flag_text(keys(one - other)))


def main() -> None:
    print(HEAD, end='')
    for left in range(16):
        for right in range(16):
            pair(set_of(left), set_of(right))
    print('\n== whether a set holds a flag')
    for number in range(16):
        for flag in reversed(FLAGS):
            line('flag-among-flags', flag, *set_of(number), '=', yes(flag in set_of(number)))


main()
