#!/usr/bin/env python3
"""Tries what link does with texts that are larger than a sync is to fetch, and its notes of them."""
import os
import sys
import unittest
from typing import List, Tuple

sys.dont_write_bytecode = True
sys.path.insert(0, os.path.dirname(os.path.abspath(__file__)))
import test_link  # noqa: E402
from test_link import Peer, Tried  # noqa: E402


class LargeTexts(test_link.Case):
    """A text that the server announces with many bytes."""

    def fetch(self, *words: str, box: bytes = b"INBOX", validity: int = 7) -> Tuple[Tried, Peer, Peer]:
        """A session that only reads, with a mailbox selected, and the text of the message 42 asked for."""
        tried, program, server = self.join("--reading", *words)
        self.ask(program, server, b"C5 SELECT %s\r\n" % box, b"* OK [uidvalidity %d] so\r\nC5 OK done\r\n" % validity)
        asked = b"C6 UID FETCH 42 (UID BODY.PEEK[])\r\n"
        program.say(asked)
        self.assertEqual(server.hear(len(asked)), asked)
        return tried, program, server

    def notes(self, *notes: bytes) -> List[bytes]:
        """The notes of large texts; these are put there before, if any are given."""
        path = os.path.join(self.folder, "mowerbean.large")
        if notes:
            with open(path, "wb") as file:
                file.writelines(note + b"\n" for note in notes)
        if not os.path.exists(path):
            return []
        with open(path, "rb") as file:
            return file.read().splitlines()

    def test_it_is_left_out(self) -> None:
        for count, (box, name) in enumerate(((b"INBOX", "INBOX"), (b'"Sent Items"', '"Sent Items"'), (b"a/b.c", "a/b.c")), 1):
            for told in (b"* 3 FETCH (UID 42 BODY[] {1001}\r\n", b"* 3 FETCH (X {2}\r\nab UID 42 body[] {1001}\r\n"):
                tried, program, server = self.fetch("--largest", "1000", box=box)
                server.say(told + b"text")
                self.assertEqual(server.end(), "reset")
                self.assertNotIn(b"text", program.hear(999))
                said = f"mowerbean: {name} 42 is left out: its text has 1001 bytes, and largest= allows 1000\n"
                self.assertEqual(tried.ended(), (6, said))
            self.assertEqual((len(self.notes()), self.notes()[-1]), (count, b"7.42.%s 1001" % box.strip(b'"')))
        self.assertEqual(os.stat(os.path.join(self.folder, "mowerbean.large")).st_mode & 0o777, 0o600)

    def test_what_is_none_goes_through(self) -> None:
        within = b"* 3 FETCH (UID 42 BODY[] {1000}\r\n" + b"x" * 1000 + b")\r\n"
        for told in (within, b"* 3 FETCH (X {2000}\r\n" + b"y" * 2000 + b")\r\n", b"* OK BODY[] {2000} is large\r\n"):
            tried, program, server = self.fetch("--largest", "1000")
            server.say(told + b"C6 OK done\r\n")
            self.assertEqual(program.hear(len(told) + 12), told + b"C6 OK done\r\n")
            self.leave(tried, program, server)
        self.assertEqual(self.notes(), [])

    def test_one_that_was_not_asked_for(self) -> None:
        tried, program, server = self.join("--reading", "--largest", "5")
        told = b"* 3 FETCH (UID 42 BODY[] {9}\r\n123456789)\r\n"
        self.ask(program, server, b"C5 SELECT INBOX\r\n", b"* OK [UIDVALIDITY 7] so\r\n" + told + b"C5 OK done\r\n")
        self.ask(program, server, b"C6 NOOP\r\n", told + b"C6 OK done\r\n")
        self.leave(tried, program, server)
        self.assertEqual(self.notes(), [])

    def test_without_a_limit(self) -> None:
        tried, program, server = self.fetch()
        told = b"* 3 FETCH (UID 42 BODY[] {2000}\r\n" + b"x" * 2000 + b")\r\nC6 OK done\r\n"
        server.say(told)
        self.assertEqual(program.hear(len(told)), told)
        self.leave(tried, program, server)

    def test_of_no_known_mailbox(self) -> None:
        tried, program, server = self.join("--reading", "--largest", "5")
        self.ask(program, server, b"C5 SELECT INBOX\r\n", b"C5 OK done\r\n")
        program.say(b"C6 UID FETCH 42 (UID BODY.PEEK[])\r\n")
        server.hear(35)
        server.say(b"* 3 FETCH (UID 42 BODY[] {9}\r\n")
        self.assertEqual((tried.ended()[0], self.notes()), (6, []))

    def test_notes_of_a_mailbox_that_was_made_anew_go(self) -> None:
        kept = [b"7.42.INBOX 2000", b"7.42.Sent Items 2000", b"no note", b"7.43.INBOX 900"]
        for validity, left in ((7, kept), (8, [kept[1]])):
            self.notes(*kept)
            tried, program, server = self.join()
            answer = b"* OK [CLOSED] so\r\n* OK [UIDVALIDITY %d] so\r\nC5 OK done\r\n" % validity
            self.ask(program, server, b"C5 SELECT INBOX (QRESYNC (7 300))\r\n", answer)
            self.leave(tried, program, server)
            self.assertEqual(self.notes(), left)

    def test_a_larger_limit_forgets_a_note(self) -> None:
        self.notes(b"7.42.INBOX 2000", b"7.43.INBOX 2001", b"7.42.Sent Items 2000")
        tried, program, server = self.fetch("--largest", "2000")
        server.say(b"C6 OK done\r\n")
        program.hear(12)
        self.leave(tried, program, server)
        self.assertEqual(self.notes(), [b"7.43.INBOX 2001", b"7.42.Sent Items 2000"])

    def test_notes_that_cant_be_written(self) -> None:
        os.mkdir(os.path.join(self.folder, "mowerbean.large"))
        tried, program, server = self.fetch("--largest", "5")
        server.say(b"* 3 FETCH (UID 42 BODY[] {9}\r\n")
        status, said = tried.ended()
        self.assertEqual((status, len(said.splitlines())), (6, 2))
        self.assertIn("mowerbean.large can't be written", said)


if __name__ == "__main__":
    unittest.main()
