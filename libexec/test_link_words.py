#!/usr/bin/env python3
"""Tries the words of link with octets and made-up times alone: lines and literals, letters, the second look, limits, secrets."""
import os
import sys
import unittest
from typing import Iterator, List, Optional, Tuple

sys.dont_write_bytecode = True
sys.path.insert(0, os.path.dirname(os.path.abspath(__file__)))
import link_words  # noqa: E402
from link_words import Ended, Letter, Look, Part, Scanner, Secrets, Stage, Watch, Way  # noqa: E402


def parts_of(scanner: Scanner, pieces: List[bytes]) -> List[Part]:
    """The parts of a stream that comes in these pieces."""
    return [part for piece in pieces for part in scanner.feed(piece)]


def cuts_of(stream: bytes) -> Iterator[List[bytes]]:
    """A stream cut in two at each place, and into single octets."""
    for place in range(len(stream) + 1):
        yield [stream[:place], stream[place:]]
    yield [stream[place : place + 1] for place in range(len(stream))]


class Scanners(unittest.TestCase):
    """Lines and literals, cut at every octet."""

    SERVER = (
        b"* OK hi {5\r\n* 1 FETCH (BODY[] {12}\r\nP1 OK no\r\n+\n X {0}\r\n UID 7)\r\n+ go\r\nP1 OK [APPENDUID 1 2] done\r\n"
        b"* 2 FETCH (A {3}\r\n\r\n* B {1}\r\n\n)\r\n* a\n"
    )
    PROGRAM = b'C2 LOGIN ann {6}\r\nse\r\n{}1\r\nP1 APPEND "a {3}" () {9}\r\n+ A\r\nB\r\n\xff\r\nC3 NOOP\r\n'

    def lines(self, parts: List[Part]) -> List[Tuple[bytes, bool, Optional[int]]]:
        """The lines at whose end these parts are."""
        return [(part.line, part.is_first, part.size) for part in parts if part.ends and not part.is_literal]

    def test_server_cut_at_every_octet(self) -> None:
        wanted = [
            (b"* OK hi {5\r\n", True, None),
            (b"* 1 FETCH (BODY[] {12}\r\n", True, 12),
            (b" X {0}\r\n", False, 0),
            (b" UID 7)\r\n", False, None),
            (b"+ go\r\n", True, None),
            (b"P1 OK [APPENDUID 1 2] done\r\n", True, None),
            (b"* 2 FETCH (A {3}\r\n", True, 3),
            (b" B {1}\r\n", False, 1),
            (b")\r\n", False, None),
            (b"* a\n", True, None),
        ]
        for pieces in cuts_of(self.SERVER):
            parts = parts_of(Scanner(b"*"), pieces)
            self.assertEqual(b"".join(part.data for part in parts), self.SERVER)
            self.assertEqual(self.lines(parts), wanted)

    def test_program_cut_at_every_octet(self) -> None:
        wanted = [
            (b"C2 LOGIN ann {6}\r\n", True, 6),
            (b"1\r\n", False, None),
            (b'P1 APPEND "a {3}" () {9}\r\n', True, 9),
            (b"\r\n", False, None),
            (b"C3 NOOP\r\n", True, None),
        ]
        for pieces in cuts_of(self.PROGRAM):
            parts = parts_of(Scanner(b""), pieces)
            self.assertEqual(b"".join(part.data for part in parts), self.PROGRAM)
            self.assertEqual(self.lines(parts), wanted)
            self.assertTrue(all(part.is_whole for part in parts if not part.is_literal))

    def test_a_refused_literal_doesnt_come(self) -> None:
        scanner = Scanner(b"")
        parts_of(scanner, [b"P1 APPEND a () {9}\r\n"])
        scanner.refuse()
        self.assertEqual(self.lines(parts_of(scanner, [b"C3 NOOP\r\n"])), [(b"C3 NOOP\r\n", True, None)])

    def test_long_lines_are_handed_on_unkept(self) -> None:
        for streamed in (b"", b"*"):
            scanner, stream = Scanner(streamed), b"P1 " + b"x" * 300_000 + b" {4}\r\nab\r\n\r\nC1 X\r\n"
            parts, most = [], 0
            for at in range(0, len(stream), 16_384):
                parts += parts_of(scanner, [stream[at : at + 16_384]])
                most = max(most, len(scanner.front) + len(scanner.waiting))
            self.assertEqual(b"".join(part.data for part in parts), stream)
            self.assertEqual([size for _, _, size in self.lines(parts)], [4, None, None])
            self.assertLess(most, 3 * link_words.LINE_LIMIT)


class Letters(unittest.TestCase):
    """A letter's octets, however they come."""

    def test_catenate_cut_at_every_octet(self) -> None:
        for text in (b"abc", b"abcd", b"a\r\nb\r\n", bytes(range(1, 60)), b"\r\n\r\n"):
            for pieces in cuts_of(text):
                letter = Letter(b"P1", len(text), Way.CATENATE)
                opening = b"P1 APPEND a () CATENATE (TEXT {%d}\r\n" % (len(text) - 2)
                self.assertEqual(letter.opening(b"P1 APPEND a () {%d}\r\n" % len(text)), opening)
                letter.go()
                out = b"".join(letter.take(piece) for piece in pieces)
                self.assertEqual(out, text[:-2] + b" TEXT {2}\r\n")
                self.assertFalse(letter.is_ready(True))
                letter.has_end = True
                self.assertFalse(letter.is_ready(True))
                letter.is_asked = True
                self.assertTrue(letter.is_ready(False))
                self.assertEqual(letter.last_part(), text[-2:] + b")\r\n")

    def test_crlf(self) -> None:
        letter = Letter(b"P1", 3, Way.CRLF)
        self.assertEqual(letter.opening(b"P1 APPEND a () {3}\r\n"), b"P1 APPEND a () {3}\r\n")
        letter.go()
        self.assertEqual(letter.take(b"ab") + letter.take(b"c"), b"abc")
        letter.has_end = True
        self.assertEqual((letter.is_ready(False), letter.is_ready(True), letter.last_part()), (False, True, b"\r\n"))

    def test_refused(self) -> None:
        letter = Letter(b"P1", 9, Way.CATENATE)
        letter.go()
        letter.take(b"abcdefgh")
        letter.refuse()
        self.assertEqual((letter.take(b"i"), letter.is_unclear, letter.stage), (b"", False, Stage.REFUSED))

    def test_refused_where_the_server_is_owed_octets(self) -> None:
        letter = Letter(b"P1", 3, Way.CATENATE)
        letter.go()
        letter.take(b"abc")
        letter.is_asked = True
        letter.refuse()
        self.assertTrue(letter.is_unclear)


class Limits(unittest.TestCase):
    """The second look and the limit for what is too slow, by a made-up clock."""

    def answer(self, look: Look, at: float, late: float) -> float:
        """The NOOP at this time is answered so late; the time then."""
        out = look.turn(at)
        self.assertRegex(out, rb"\AX[0-9]+ NOOP\r\n\Z")
        look.hear(out.split()[0] + b" OK\r\n", at + late)
        return at + late

    def test_a_look_counts_living_time(self) -> None:
        look = Look(10.0, 0.0)
        now = self.answer(look, 0.0, 0.1)
        while not look.is_over():
            now = self.answer(look, look.next_turn(), 0.1)
        self.assertTrue(10.0 <= now < 11.0, now)

    def test_a_look_leaves_out_dead_time(self) -> None:
        look = Look(10.0, 0.0)
        now = self.answer(look, 0.0, 0.1)
        now = self.answer(look, look.next_turn(), 90.0)
        self.assertEqual(look.left, 10.0 - link_words.LOOK_LATE)
        while not look.is_over():
            now = self.answer(look, look.next_turn(), 0.1)
        self.assertTrue(101.0 <= now < 102.5, now)

    def test_a_look_leaves_out_time_in_which_it_was_stopped(self) -> None:
        look = Look(100.0, 0.0)
        now = self.answer(look, 0.0, 0.1)
        self.answer(look, now + 60.0, 0.1)
        self.assertEqual(look.left, 100.0 - link_words.LOOK_STEP - link_words.LOOK_ANSWER)

    def test_a_look_ends_with_its_line(self) -> None:
        look = Look(10.0, 0.0)
        look.turn(0.0)
        self.assertEqual(look.turn(link_words.LOOK_SILENCE - 1), b"")
        with self.assertRaises(Ended):
            look.turn(link_words.LOOK_SILENCE)

    def test_a_look_hears_its_own_answers_alone(self) -> None:
        look = Look(10.0, 0.0)
        look.turn(0.0)
        for line in (b"* X1 OK\r\n", b"X2 OK\r\n", b"X11 OK\r\n", b""):
            look.hear(line, 1.0)
        self.assertIsNotNone(look.asked)

    def test_too_slow(self) -> None:
        watch = Watch(0.0)
        for now in range(0, 2_000, 20):
            watch.check(now, received=now * 5, sent=0, out=0, is_letter=False)
        watch = Watch(0.0)
        watch.check(900.0, received=45, sent=0, out=0, is_letter=False)
        with self.assertRaises(Ended):
            watch.check(901.0, received=45, sent=0, out=0, is_letter=False)

    def test_a_letter_that_moves_is_never_too_slow(self) -> None:
        watch = Watch(0.0)
        for now in range(0, 20_000, 20):
            watch.check(now, received=0, sent=16_384, out=now // 10, is_letter=True)
        watch.check(40_000.0, received=0, sent=16_384, out=1_998, is_letter=True)
        with self.assertRaises(Ended):
            watch.check(60_000.0, received=0, sent=16_384, out=1_998, is_letter=True)


class Hidden(unittest.TestCase):
    """Secrets in what is shown."""

    def said(self, secrets: Secrets, line: bytes) -> bytes:
        """What is shown of a line that may begin a command."""
        words = link_words.COMMAND.match(line)
        if words:
            secrets.begin(words[1], words[2])
        return secrets.said(line)

    def test_an_early_answer_uncovers_nothing(self) -> None:
        secrets = Secrets()
        self.assertEqual(self.said(secrets, b"C1 CAPABILITY\r\n"), b"C1 CAPABILITY\r\n")
        self.assertEqual(self.said(secrets, b"C2 AUTHENTICATE PLAIN\r\n"), b"C2 AUTHENTICATE PLAIN")
        secrets.is_answered = True
        self.assertEqual(self.said(secrets, b"AGFubgBzM2NyM3RQVw==\r\n"), b"[hidden]")
        self.assertEqual(self.said(secrets, b"C2 AGAIN\r\n"), b"[hidden]")
        self.assertEqual(secrets.heard(b"AGFubgBzM2NyM3RQVw== BAD unknown\r\n"), b"[hidden]")
        self.assertEqual(secrets.heard(b"* BAD what is s3cr3tPW\r\n"), b"[hidden]")
        self.assertEqual(self.said(secrets, b"C3 CAPABILITY\r\n"), b"C3 CAPABILITY\r\n")
        self.assertEqual(secrets.heard(b"* OK ann\r\n"), b"* OK ann\r\n")

    def test_each_try_of_an_action_is_a_command(self) -> None:
        secrets = Secrets()
        for before, after in ((b"P1", b"P1R2"), (b"P1R2", b"P1R3"), (b"P1R3", b"P2")):
            self.said(secrets, before + b" LOGIN ann secret\r\n")
            secrets.is_answered = True
            self.assertEqual(self.said(secrets, before + b" NOOP\r\n"), b"[hidden]")
            self.assertEqual(self.said(secrets, after + b" NOOP\r\n"), after + b" NOOP\r\n")
        self.assertIsNone(link_words.COMMAND.match(b"P1R4 NOOP\r\n"))

    def test_login(self) -> None:
        secrets = Secrets()
        self.assertEqual(self.said(secrets, b'C2 LOGIN ann "s3cr3t"\r\n'), b"C2 LOGIN [hidden]")
        self.assertEqual(secrets.heard(b"C2 NO s3cr3t is wrong\r\n"), b"[hidden]")
        self.assertEqual(self.said(secrets, b"C3 CAPABILITY\r\n"), b"[hidden]")


if __name__ == "__main__":
    unittest.main()
