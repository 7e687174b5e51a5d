#!/usr/bin/env python3
"""Tries what link shows of a session: its trace, the lines of --verbose, and how far it is."""
import os
import re
import select
import sys
import unittest
from typing import List

sys.dont_write_bytecode = True
sys.path.insert(0, os.path.dirname(os.path.abspath(__file__)))
import test_link  # noqa: E402
from test_link import PATIENCE, Tried  # noqa: E402


class Shown(test_link.Case):
    """What is seen of a session, and what isn't."""

    def test_trace_and_verbose(self) -> None:
        with open(self.trace, "w", encoding="ascii"):
            os.chmod(self.trace, 0o644)
        tried, program, server = self.join("--verbose")
        self.ask(program, server, b"C2 AUTHENTICATE PLAIN\r\n", b"+ \r\nC2 NO early\r\n")
        self.ask(program, server, b"AGFubgBzM2NyM3RQVw==\r\n", b"AGFubgBzM2NyM3RQVw== BAD what\r\n")
        self.ask(program, server, b"C4 LOGIN ann {5}\r\n", b"+ \r\n")
        self.ask(program, server, b"pa\r\nX\r\n", b"C4 OK ann \x1b[31m\r\n")
        self.begin(program, server, b"the text")
        server.say(b"+ OK\r\n")
        server.hear(5)
        server.say(b"* 1 FETCH (X {3}\r\nabc)\r\nP1 OK done\r\n")
        program.hear(36)
        self.ask(program, server, b"C9 LOGOUT\r\n", b"C9 OK done\r\n")
        program.link.close()
        said = tried.ended()[1]
        with open(self.trace, encoding="ascii") as file:
            self.assertEqual(os.fstat(file.fileno()).st_mode & 0o777, 0o600)
            traced = re.sub(r"^ *\d+\.\d+ ", "", file.read(), flags=re.MULTILINE)
        for text in (said, traced):
            for secret in ("AGFub", "pa", "text ", "\x1b", "abc"):
                self.assertNotIn(secret, text)
        self.assertIn("C: C2 AUTHENTICATE PLAIN\nS: + \nS: C2 NO early\nC: [hidden]\nS: [hidden]\n", traced)
        self.assertIn("C: C4 LOGIN [hidden]\nS: + \nC: [hidden]\nC: \nS: C4 OK ann ?[31m\n", traced)
        self.assertIn("CATENATE (TEXT {6}\nS: + OK\nC: [6 octets]\nC:  TEXT {2}\nS: + OK\nC: [2 octets]\nC: )\n", traced)
        self.assertIn("S: * 1 FETCH (X {3}\nS: [3 octets]\nS: )\nS: P1 OK done\n", traced)
        self.assertIn("C: P1 APPEND Archive (\\Seen) CATENATE (TEXT {6}\nS: P1 OK done\n", said)

    def shows(self, tried: Tried, text: str) -> str:
        """What is printed until this text is among it."""
        assert tried.process.stderr
        said = ""
        while text not in said:
            self.assertTrue(select.select([tried.process.stderr], [], [], PATIENCE)[0], f"{text!r} doesn't come, but {said!r}")
            piece = os.read(tried.process.stderr.fileno(), 1_000).decode()
            self.assertTrue(piece, f"{text!r} isn't printed, but {said!r}")
            said += piece
        return said

    def test_progress(self) -> None:
        tried, program, server = self.join("--progress", "--actions", "2")
        said = ""
        for tag, text in ((b"P1", "\r1 of 2 actions, 0 KB"), (b"P1R2", ""), (b"P1R3", ""), (b"P2", "\r2 of 2 actions, 0 KB")):
            self.ask(program, server, tag + b" UID MOVE 1 a\r\n", tag + b" OK done\r\n")
            said += self.shows(tried, text)
        self.ask(program, server, b"C9 LOGOUT\r\n", b"* BYE bye\r\n")
        # What is printed now was printed before the program had the answer.
        assert tried.process.stderr
        while select.select([tried.process.stderr], [], [], 0)[0]:
            said += os.read(tried.process.stderr.fileno(), 1_000).decode()
        self.assertNotIn("3 of 2", said)
        self.assertTrue(said.endswith(" \r"), f"the line of progress still stands when the program may print: {said!r}")
        program.link.close()
        self.assertEqual(tried.ended(), (0, ""))

    def log_of_two(self, step: float) -> List[str]:
        """The lines of progress in a log of two actions, the second of which is a letter, but for their seconds."""
        tried, program, server = self.join("--verbose", "--actions", "2", lowered={"Log.LOG_STEP": step})
        self.ask(program, server, b"P1 UID MOVE 1 a\r\n", b"P1 OK done\r\n")
        self.begin(program, server, b"x" * 100_000, b"P2")
        server.say(b"+ OK\r\n")
        server.hear(5)
        self.ask(program, server, b"", b"P2 OK done\r\n")
        self.ask(program, server, b"C9 LOGOUT\r\n", b"* BYE bye\r\n")
        program.link.close()
        return [line.rpartition(", ")[0] for line in tried.ended()[1].splitlines() if re.fullmatch(r"-- .*, [0-9]+ s", line)]

    def test_progress_in_a_log(self) -> None:
        one, half, two = (f"-- {done} of 2 actions, {moved} KB" for done, moved in ((1, 0), (1, 100), (2, 100)))
        self.assertEqual(self.log_of_two(1_000.0), [one, two])
        lines = self.log_of_two(0.0)
        self.assertIn(one, lines)
        self.assertEqual(lines[-2:], [half, two])


if __name__ == "__main__":
    unittest.main()
