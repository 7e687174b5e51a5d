#!/usr/bin/env python3
"""Tries link, the helper for the line, between a program and a server that stand here, and with it the words of test_link_words.py.

Nothing but this machine's own addresses is used. usage: test_link.py [-v] [-k NAME]
"""
import contextlib
import importlib.machinery
import importlib.util
import os
import re
import signal
import socket
import struct
import subprocess
import sys
import tempfile
import time
import unittest
import unittest.mock
from typing import Any, Dict, List, Optional, Tuple

sys.dont_write_bytecode = True
HERE = os.path.dirname(os.path.abspath(__file__))
sys.path.insert(0, HERE)
import link_ends  # noqa: E402
import link_words  # noqa: E402
from link_ends import Log, Mark  # noqa: E402

PATIENCE = 60.0  # For a machine that has much else to do.
Lowered = Dict[str, float]
RESET = struct.pack("ii", 1, 0)

# Runs link with other values of its constants: `MODULE.NAME=VALUE` each, up to `--`.
RUN = """
import functools, importlib, runpy, sys
sys.path.insert(0, sys.argv.pop(1))
while (word := sys.argv.pop(1)) != "--":
    name, value = word.split("=")
    module, *names, name = name.split(".")
    where = functools.reduce(getattr, names, importlib.import_module(module))
    setattr(where, name, float(value))
runpy.run_path(sys.path[0] + "/link", run_name="__main__")
"""
# However slow the machine is, no stretch counts for more than 0.3 seconds, nor for more than it took.
QUICK_LOOK: Lowered = {"LOOK_CATENATE": 1.0, "LOOK_CRLF": 1.5, "LOOK_STEP": 0.2, "LOOK_ANSWER": 0.1, "LOOK_LATE": 0.2}


def link_module() -> Any:
    """Link itself, as a module: its name has no ending."""
    loader = importlib.machinery.SourceFileLoader("link", os.path.join(HERE, "link"))
    spec = importlib.util.spec_from_loader("link", loader)
    assert spec
    module = importlib.util.module_from_spec(spec)
    loader.exec_module(module)
    return module


class Peer:
    """One end of a connection, which says and expects octets."""

    def __init__(self, link: socket.socket) -> None:
        self.link, self.rest = link, b""
        link.settimeout(PATIENCE)

    def say(self, data: bytes) -> None:
        """Sends all of it."""
        self.link.sendall(data)

    def hear(self, size: int) -> bytes:
        """So many octets; fewer at the end."""
        while len(self.rest) < size:
            data = self.link.recv(65_536)
            if not data:
                break
            self.rest += data
        heard, self.rest = self.rest[:size], self.rest[size:]
        return heard

    def line(self) -> bytes:
        """A line; less at the end."""
        line = self.hear(1)
        while line and not line.endswith(b"\n"):
            octet = self.hear(1)
            if not octet:
                break
            line += octet
        return line

    def hears_nothing(self, seconds: float = 0.3) -> bool:
        """Whether nothing comes for so long."""
        if self.rest:
            return False
        self.link.settimeout(seconds)
        try:
            self.rest = self.link.recv(65_536)
            return False
        except socket.timeout:
            return True
        finally:
            self.link.settimeout(PATIENCE)

    def end(self) -> str:
        """How the other side ended: `reset` or `in order`; or what it said instead."""
        try:
            data = self.rest or self.link.recv(65_536)
        except ConnectionResetError:
            return "reset"
        return f"said {data!r}" if data else "in order"


class Tried:
    """A link under way: its process, and both its ends."""

    def __init__(self, given: List[str], lowered: Lowered) -> None:
        settings = [f"{module_of(name)}.{name}={value}" for name, value in lowered.items()]
        words = [sys.executable, "-c", RUN, HERE, *settings, "--", *given]
        self.process = subprocess.Popen(words, stdin=subprocess.DEVNULL, stdout=subprocess.PIPE, stderr=subprocess.PIPE)
        assert self.process.stdout
        self.port = int(self.process.stdout.read() or 0)
        self.peers: List[Peer] = []

    def program(self) -> Peer:
        """The program, connected."""
        self.peers.append(Peer(socket.create_connection(("127.0.0.1", self.port), PATIENCE)))
        return self.peers[-1]

    def ended(self) -> Tuple[int, str]:
        """The status and what was printed, at the end."""
        _, said = self.process.communicate(timeout=PATIENCE)
        return self.process.returncode, said.decode()

    def close(self) -> None:
        """Ends what still goes."""
        for peer in self.peers:
            peer.link.close()
        if self.process.poll() is None:
            self.process.kill()
        self.process.communicate()


def module_of(name: str) -> str:
    """The module that has a constant."""
    return "link_words" if hasattr(link_words, name.split(".")[0]) else "link_ends"


class Case(unittest.TestCase):
    """What the tries share: link, started between a program and a server that stand here."""

    def setUp(self) -> None:
        self.stack = contextlib.ExitStack()
        self.folder = self.stack.enter_context(tempfile.TemporaryDirectory())
        self.mark, self.trace = os.path.join(self.folder, "mowerbean.line"), os.path.join(self.folder, "trace")
        self.read_ahead = 16_384  # Of the server.
        self.addCleanup(self.stack.close)

    def listen(self) -> socket.socket:
        """The server's port."""
        listening = socket.socket()
        listening.setsockopt(socket.SOL_SOCKET, socket.SO_RCVBUF, self.read_ahead)
        listening.bind(("127.0.0.1", 0))
        listening.listen(4)
        listening.settimeout(PATIENCE)
        return self.stack.enter_context(listening)

    def start(
        self, *words: str, way: str = "server", host: str = "127.0.0.1", lowered: Optional[Lowered] = None
    ) -> Tuple[Tried, socket.socket]:
        """Link, started for a server that listens."""
        listening = self.listen()
        address = f"{host}:{listening.getsockname()[1]}"
        tried = Tried([f"--{way}", address, "--folder", self.folder, "--trace", self.trace, *words], lowered or {})
        self.stack.callback(tried.close)
        return tried, listening

    def accept(self, listening: socket.socket) -> Peer:
        """The server's end of the connection."""
        link, _ = listening.accept()
        self.stack.callback(link.close)
        return Peer(link)

    def join(self, *words: str, catenate: bool = True, lowered: Optional[Lowered] = None) -> Tuple[Tried, Peer, Peer]:
        """Link, the program and the server, after the log-in."""
        tried, listening = self.start(*words, lowered=lowered)
        program = tried.program()
        server = self.accept(listening)
        greeting = b"* OK [CAPABILITY IMAP4rev1%s] hi\r\n" % (b"" if catenate else b" CATENATE")
        server.say(greeting)
        self.assertEqual(program.hear(len(greeting)), greeting)
        answer = b"* CAPABILITY IMAP4rev1%s QRESYNC\r\nC3 OK done\r\n" % (b" Catenate" if catenate else b"")
        self.ask(program, server, b"C3 CAPABILITY\r\n", answer)
        return tried, program, server

    def join_within(self, seconds: int, look: bool = False) -> Tuple[int, Tried, Peer, Peer]:
        """The same with a limit of the whole: so many seconds, or ten times as many where the log-in took longer than these. A second
        look takes a second more than the limit."""
        lowered = {**QUICK_LOOK, "LOOK_CRLF": seconds + 1.0} if look else {}
        try:
            return (seconds, *self.join("--time", str(seconds), lowered=lowered))
        except (AssertionError, OSError):
            if seconds >= PATIENCE:
                raise
            return self.join_within(10 * seconds, look)

    def ask(self, program: Peer, server: Peer, command: bytes, answer: bytes) -> None:
        """A command and its answer go through as they are."""
        program.say(command)
        self.assertEqual(server.hear(len(command)), command)
        server.say(answer)
        self.assertEqual(program.hear(len(answer)), answer)

    def begin(self, program: Peer, server: Peer, text: bytes, tag: bytes = b"P1") -> None:
        """A letter begins: by CATENATE, up to all but its last part."""
        program.say(b"%s APPEND Archive (\\Seen) {%d}\r\n" % (tag, len(text)))
        opening = b"%s APPEND Archive (\\Seen) CATENATE (TEXT {%d}\r\n" % (tag, len(text) - 2)
        self.assertEqual(server.hear(len(opening)), opening)
        server.say(b"+ OK\r\n")
        self.assertEqual(program.hear(6), b"+ OK\r\n")
        program.say(text + b"\r\n")
        rest = text[:-2] + b" TEXT {2}\r\n"
        self.assertEqual(server.hear(len(rest)), rest)

    def leave(self, tried: Tried, program: Peer, server: Peer) -> None:
        """LOGOUT, and the end."""
        self.ask(program, server, b"C9 LOGOUT\r\n", b"* BYE bye\r\nC9 OK done\r\n")
        program.link.close()
        self.assertEqual(server.end(), "in order")
        self.assertEqual(tried.ended(), (0, ""))
        self.assertFalse(os.path.exists(self.mark))

    def words_of_mark(self) -> List[str]:
        """What the mark says, but for the time."""
        with open(self.mark, encoding="ascii") as file:
            self.assertEqual(os.fstat(file.fileno()).st_mode & 0o777, 0o600)
            words = file.read().split()
        self.assertLess(abs(int(words[3]) - time.time()), 1_000)
        return words[:3]


class Sessions(Case):
    """A session: its letters, the second look, and what ends it."""

    # -- A letter --

    def test_catenate(self) -> None:
        tried, program, server = self.join()
        for count, text in enumerate((b"abc", b"ab\r\n", bytes(range(256)) * 300, b"A1 LOGOUT\r\n+\r\nx")):
            tag = b"P%d" % (count + 1)
            self.begin(program, server, text, tag)
            self.assertTrue(server.hears_nothing(), "the last part went out before the server asked for it")
            self.assertFalse(os.path.exists(self.mark))
            server.say(b"* 3 EXISTS\r\n+ OK\r\n")
            last = text[-2:] + b")\r\n"
            self.assertEqual(server.hear(len(last)), last)
            self.assertEqual(self.words_of_mark(), [tag.decode(), str(len(text)), "catenate"])
            self.assertEqual(program.hear(12), b"* 3 EXISTS\r\n")
            self.assertTrue(program.hears_nothing(), "the second + came through")
            server.say(tag + b" OK [APPENDUID 1 2] done\r\n")
            self.assertEqual(program.hear(28), tag + b" OK [APPENDUID 1 2] done\r\n")
            self.assertFalse(os.path.exists(self.mark))
        self.leave(tried, program, server)

    def test_a_plus_that_comes_too_early_is_no_answer(self) -> None:
        tried, program, server = self.join()
        program.say(b"P1 APPEND a () {9}\r\n")
        server.hear(len(b"P1 APPEND a () CATENATE (TEXT {7}\r\n"))
        server.say(b"+ OK\r\n+ again\r\n")
        self.assertEqual(program.hear(15), b"+ OK\r\n+ again\r\n")
        program.say(b"123456789\r\n")
        self.assertEqual(server.hear(18), b"1234567 TEXT {2}\r\n")
        self.assertTrue(server.hears_nothing())

    def test_small_letters_go_plainly(self) -> None:
        tried, program, server = self.join()
        for count, text in enumerate((b"", b"a", b"\r\n")):
            tag = b"P%d" % (count + 1)
            self.ask(program, server, b"%s APPEND a () {%d}\r\n" % (tag, len(text)), b"+ go\r\n")
            self.ask(program, server, text + b"\r\n", tag + b" OK done\r\n")
        self.leave(tried, program, server)

    def test_a_mailbox_as_a_literal(self) -> None:
        tried, program, server = self.join()
        self.ask(program, server, b"P1 APPEND {4}\r\n", b"+ go\r\n")
        program.say(b"a\"b\\ () {5}\r\n")
        self.assertEqual(server.hear(len(b"a\"b\\ () CATENATE (TEXT {3}\r\n")), b"a\"b\\ () CATENATE (TEXT {3}\r\n")

    def test_capabilities_before_the_log_in_dont_count(self) -> None:
        tried, program, server = self.join(catenate=False)
        self.ask(program, server, b"P1 APPEND a () {5}\r\n", b"+ go\r\n")

    def test_no_at_the_first_plus(self) -> None:
        tried, program, server = self.join()
        program.say(b"P1 APPEND a () {9}\r\n")
        server.hear(len(b"P1 APPEND a () CATENATE (TEXT {7}\r\n"))
        server.say(b"P1 NO [TRYCREATE] none\r\n")
        self.assertEqual(program.hear(24), b"P1 NO [TRYCREATE] none\r\n")
        self.leave(tried, program, server)

    def test_a_server_that_reports_catenate_and_doesnt_know_it(self) -> None:
        tried, program, server = self.join()
        for tag in (b"P1", b"P2"):
            plain = tag + b" APPEND a () {9}\r\n"
            program.say(plain)
            if tag == b"P1":
                opening = b"P1 APPEND a () CATENATE (TEXT {7}\r\n"
                self.assertEqual(server.hear(len(opening)), opening)
                server.say(b"P1 BAD what\r\n")
            self.assertEqual(server.hear(len(plain)), plain)
            server.say(b"+ go\r\n")
            self.assertEqual(program.hear(6), b"+ go\r\n")
            self.ask(program, server, b"123456789\r\n", tag + b" OK done\r\n")
        program.say(b"P3 APPEND a () {9}\r\n")
        self.assertEqual(server.hear(len(b"P3 APPEND a () {9}\r\n")), b"P3 APPEND a () {9}\r\n")
        server.say(b"P3 BAD really\r\n")
        self.assertEqual(program.hear(15), b"P3 BAD really\r\n")
        self.leave(tried, program, server)

    def test_no_at_the_second_plus(self) -> None:
        for at in (0, 7, 8, 9, 10, 11):
            with self.subTest(at=at):
                tried, program, server = self.join()
                program.say(b"P1 APPEND a () {9}\r\n")
                server.hear(len(b"P1 APPEND a () CATENATE (TEXT {7}\r\n"))
                server.say(b"+ OK\r\n")
                self.assertEqual(program.hear(6), b"+ OK\r\n")
                whole = b"123456789\r\n"
                first = max(at, 7)
                program.say(whole[:first])
                self.assertEqual(server.hear(18), b"1234567 TEXT {2}\r\n")
                server.say(b"P1 NO [OVERQUOTA] full\r\n")
                self.assertEqual(program.hear(24), b"P1 NO [OVERQUOTA] full\r\n")
                if whole[first:]:
                    program.say(whole[first:])
                self.leave(tried, program, server)

    def test_no_in_the_middle_ends_the_session_after_it(self) -> None:
        for catenate in (True, False):
            with self.subTest(catenate=catenate):
                tried, program, server = self.join(catenate=catenate)
                program.say(b"P1 APPEND a () {9}\r\n")
                server.hear(len(b"P1 APPEND a () CATENATE (TEXT {7}\r\n") if catenate else len(b"P1 APPEND a () {9}\r\n"))
                server.say(b"+ OK\r\n")
                program.hear(6)
                program.say(b"12345")
                self.assertEqual(server.hear(5), b"12345")
                server.say(b"P1 NO full\r\n")
                self.assertEqual(program.hear(12), b"P1 NO full\r\n")
                program.say(b"6789\r\n")
                self.assertTrue(server.hears_nothing())
                program.say(b"C4 NOOP\r\n")
                self.assertEqual(server.end(), "reset")
                self.assertEqual(tried.ended(), (3, "mowerbean: the server answered in the middle of the letter of P1\n"))

    def test_ok_before_the_letter_is_whole(self) -> None:
        tried, program, server = self.join()
        self.begin(program, server, b"123456789")
        server.say(b"P1 OK [APPENDUID 1 2] done\r\n")
        self.assertEqual(program.end(), "in order")
        self.assertEqual(tried.ended(), (3, "mowerbean: the server answered P1 OK before it had the letter\n"))

    def test_given_up_before_the_last_part(self) -> None:
        tried, program, server = self.join()
        self.begin(program, server, b"x" * 40_000)
        program.link.close()
        self.assertEqual(server.end(), "reset")
        self.assertEqual(tried.ended()[0], 0)
        self.assertFalse(os.path.exists(self.mark))

    def test_given_up_while_the_server_takes_nothing(self) -> None:
        tried, program, server = self.join()
        program.say(b"P1 APPEND a () {200000}\r\n")
        server.hear(len(b"P1 APPEND a () CATENATE (TEXT {199998}\r\n"))
        server.say(b"+ OK\r\n")
        program.hear(6)
        program.say(b"x" * 80_000)
        time.sleep(0.5)
        program.link.close()
        tried.ended()
        with self.assertRaises(ConnectionResetError):
            while server.hear(1_000):
                pass

    def test_the_crlf_is_held_back(self) -> None:
        self.read_ahead = 2_048
        tried, program, server = self.join(catenate=False)
        self.ask(program, server, b"P1 APPEND a () {16000}\r\n", b"+ go\r\n")
        program.say(b"x" * 16_000 + b"\r\n")
        time.sleep(1.0)
        self.assertFalse(os.path.exists(self.mark), "the CRLF went out before the server's side had the letter")
        self.assertEqual(server.hear(16_002), b"x" * 16_000 + b"\r\n")
        self.assertEqual(self.words_of_mark(), ["P1", "16000", "crlf"])
        server.say(b"P1 OK done\r\n")
        self.assertEqual(program.hear(12), b"P1 OK done\r\n")
        self.leave(tried, program, server)

    def test_a_plus_before_all_is_out_is_no_answer(self) -> None:
        nobody: Any = None
        session = link_module().Session(nobody, nobody, nobody, Log(None, False, False, None), nobody, nobody, False)
        session.mark = Mark(self.folder)
        session.has_catenate = True
        for said, heard in ((b"P1 APPEND a () {9}\r\n", b"+ go\r\n"), (b"123456789\r\n", b"+ early\r\n")):
            for part in session.from_program.feed(said):
                session._take(part)
            session._hear_all(heard)
        self.assertEqual((bytes(session.to_program), session.letter.is_asked), (b"+ go\r\n+ early\r\n", False))
        session.to_server.clear()
        session._hear_all(b"+ OK\r\n")
        self.assertEqual((bytes(session.to_program), session.letter.is_asked), (b"+ go\r\n+ early\r\n", True))

    def test_a_command_in_the_middle_of_a_letter(self) -> None:
        tried, program, server = self.join()
        program.say(b"P1 APPEND a () {9}\r\nC4 NOOP\r\n")
        self.assertEqual(server.end(), "reset")
        self.assertEqual(tried.ended(), (3, "mowerbean: the program sent the letter of P1 before it was asked to\n"))

    # -- The mark and the second look --

    def test_a_mark_that_cant_be_written(self) -> None:
        tried, program, server = self.join()
        os.mkdir(self.mark)
        self.begin(program, server, b"123456789")
        server.say(b"+ OK\r\n")
        self.assertEqual(server.end(), "reset")
        status, said = tried.ended()
        self.assertEqual(status, 3)
        self.assertRegex(said, r"^mowerbean: a letter isn't sent, as .*/mowerbean.line can't be written: ")

    def test_a_lost_answer_leaves_the_mark(self) -> None:
        tried, program, server = self.join()
        self.begin(program, server, b"123456789")
        server.say(b"+ OK\r\n")
        server.hear(5)
        server.link.setsockopt(socket.SOL_SOCKET, socket.SO_LINGER, RESET)
        server.link.close()
        self.assertEqual(program.end(), "in order")
        status, said = tried.ended()
        self.assertEqual(status, 3)
        self.assertRegex(said, r"^mowerbean: the connection was lost \(.*\) after \d+ bytes, waiting for the answer to P1\n$")
        self.assertEqual(self.words_of_mark(), ["P1", "9", "catenate"])

    def write_mark(self, text: str) -> None:
        """An earlier session left this mark."""
        with open(self.mark, "w", encoding="ascii") as file:
            file.write(text)

    def look(self, mark: str, least: float) -> None:
        """A second look for P1, with a server that lives."""
        self.write_mark(mark)
        tried, program, server = self.join(lowered=QUICK_LOOK)
        program.say(b"P1 APPEND a () {9}\r\n")
        began, heard = time.monotonic(), 0
        server.link.settimeout(PATIENCE)
        with contextlib.suppress(ConnectionResetError):
            while line := server.line():
                self.assertRegex(line, rb"^X\d+ NOOP\r\n$")
                heard += 1
                server.say(b"* 3 EXISTS\r\n%s OK done\r\n" % line.split()[0])
        self.assertGreater(heard, 3)
        self.assertGreaterEqual(time.monotonic() - began, least)
        self.assertEqual(program.end(), "in order")
        self.assertEqual(tried.ended(), (5, "mowerbean: a letter of an earlier play may have come late: it is looked for once more\n"))
        self.assertFalse(os.path.exists(self.mark))

    def test_a_second_look(self) -> None:
        self.look("P1 9 catenate 1795976000\n", 1.0)
        self.look("P1 600 crlf 1795976000\n", 1.8)
        self.look("", 1.5)

    def test_no_second_look_for_another_letter(self) -> None:
        self.write_mark("P2 9 catenate 1795976000\n")
        tried, program, server = self.join()
        self.begin(program, server, b"123456789")
        server.say(b"P1 NO no\r\n")
        self.assertEqual(program.hear(10), b"P1 NO no\r\n")
        self.assertTrue(os.path.exists(self.mark))
        self.leave(tried, program, server)

    def test_a_second_look_goes_on_without_the_program(self) -> None:
        self.write_mark("P1 9 catenate 1795976000\n")
        tried, program, server = self.join(lowered=QUICK_LOOK)
        program.say(b"P1 APPEND a () {9}\r\n")
        self.assertEqual(server.hear(9), b"X1 NOOP\r\n")
        program.link.close()
        with contextlib.suppress(ConnectionResetError):
            server.say(b"X1 OK\r\n")
            while line := server.line():
                server.say(line.split()[0] + b" OK\r\n")
        self.assertEqual(tried.ended()[0], 5)

    def test_a_line_that_dies_in_a_second_look(self) -> None:
        for is_silent in (True, False):
            with self.subTest(is_silent=is_silent):
                self.write_mark("P1 9 catenate 1795976000\n")
                tried, program, server = self.join(lowered={**QUICK_LOOK, "LOOK_SILENCE": 1.0})
                program.say(b"P1 APPEND a () {9}\r\n")
                self.assertEqual(server.hear(9), b"X1 NOOP\r\n")
                if not is_silent:
                    server.link.close()
                self.assertEqual(tried.ended()[0], 3)
                self.assertEqual(self.words_of_old_mark(), "P1 9 catenate 1795976000\n")

    def words_of_old_mark(self) -> str:
        """What the mark says."""
        with open(self.mark, encoding="ascii") as file:
            return file.read()

    def test_what_lived_of_a_second_look_is_kept(self) -> None:
        self.write_mark("P1 9000 crlf 1795976000\n")
        tried, program, server = self.join(lowered=QUICK_LOOK)
        program.say(b"P1 APPEND a () {9}\r\n")
        for _ in range(4):
            server.say(server.line().split()[0] + b" OK\r\n")
        server.line()
        server.link.close()
        self.assertEqual(tried.ended()[0], 3)
        tag, size, way = self.words_of_mark()
        self.assertEqual((tag, way), ("P1", "crlf"))
        self.assertTrue(0 < int(size) < 8_600, size)

    def test_the_limit_of_the_whole_leaves_a_second_look_alone(self) -> None:
        self.write_mark("P1 9 crlf 1795976000\n")
        _, tried, program, server = self.join_within(3, look=True)
        program.say(b"P1 APPEND a () {9}\r\n")
        with contextlib.suppress(ConnectionError):
            while line := server.line():
                server.say(line.split()[0] + b" OK\r\n")
        self.assertEqual(tried.ended()[0], 5)

    def test_a_mark_that_is_no_plain_file(self) -> None:
        os.mkfifo(self.mark)
        listening = self.listen()
        tried = Tried(["--server", f"127.0.0.1:{listening.getsockname()[1]}", "--folder", self.folder], {})
        self.assertEqual(tried.ended(), (2, f"mowerbean: {self.mark} is no plain file\n"))

    # -- Who comes in, and what ends a session --

    @unittest.skipUnless(os.geteuid() == 0, "needs root")
    def test_another_user_is_refused(self) -> None:
        tried, listening = self.start()
        other = os.fork()
        if not other:
            os.setuid(65534)
            with socket.create_connection(("127.0.0.1", tried.port), PATIENCE) as link:
                os._exit(1 if link.recv(9) else 42)
        self.assertEqual(os.waitstatus_to_exitcode(os.waitpid(other, 0)[1]), 42)
        program = tried.program()
        server = self.accept(listening)
        server.say(b"* OK hi\r\n")
        self.assertEqual(program.hear(9), b"* OK hi\r\n")
        server.link.close()
        status, said = tried.ended()
        self.assertEqual(said.split("\n")[0], "mowerbean: another user's connection was refused")

    def test_only_one_connection_is_taken(self) -> None:
        tried, program, server = self.join()
        with self.assertRaises(ConnectionRefusedError):
            tried.program()

    def test_a_program_that_never_connects(self) -> None:
        tried, _ = self.start(lowered={"PROGRAM_TIME": 0.5})
        self.assertEqual(tried.ended(), (3, "mowerbean: the program did not connect within 0 seconds\n"))

    def test_a_program_that_ended_is_not_waited_for(self) -> None:
        tried, _ = self.start()
        tried.process.send_signal(signal.SIGUSR2)
        self.assertEqual(tried.ended(), (0, ""))

    def test_usr2_ends_no_session(self) -> None:
        tried, program, server = self.join()
        tried.process.send_signal(signal.SIGUSR2)
        self.ask(program, server, b"C4 NOOP\r\n", b"C4 OK\r\n")
        self.leave(tried, program, server)

    def test_the_owner_is_killed(self) -> None:
        with subprocess.Popen(["sleep", "100"]) as owner:
            tried, program, server = self.join("--owner", str(owner.pid))
            self.begin(program, server, b"123456789")
            owner.kill()
        self.assertEqual(server.end(), "reset")
        self.assertEqual(tried.ended(), (3, "mowerbean: the script that started it is gone\n"))

    def test_a_kill_resets_the_line(self) -> None:
        tried, program, server = self.join()
        tried.process.kill()
        self.assertEqual(server.end(), "reset")

    def test_usr1_waits_for_the_answer(self) -> None:
        for tag in (b"C4", b"P1R2"):
            with self.subTest(tag):
                tried, program, server = self.join()
                program.say(tag + b" NOOP\r\n")
                server.hear(len(tag) + 7)
                tried.process.send_signal(signal.SIGUSR1)
                self.assertTrue(server.hears_nothing(1.0))
                server.say(b"* 1 EXISTS\r\n" + tag + b" OK\r\n")
                self.assertEqual(program.hear(99), b"* 1 EXISTS\r\n" + tag + b" OK\r\n")
                self.assertEqual(server.end(), "reset")
                self.assertEqual(tried.ended()[0], 3)

    def test_usr1_waits_for_a_letter(self) -> None:
        tried, program, server = self.join()
        self.begin(program, server, b"123456789")
        tried.process.send_signal(signal.SIGUSR1)
        time.sleep(0.5)
        server.say(b"+ OK\r\n")
        self.assertEqual(server.hear(5), b"89)\r\n")
        server.say(b"P1 OK\r\n")
        self.assertEqual(program.hear(99), b"P1 OK\r\n")
        self.assertEqual(server.end(), "reset")
        self.assertEqual(tried.ended(), (3, "mowerbean: the session was ended, as asked; what waits is for the next play\n"))
        self.assertFalse(os.path.exists(self.mark))

    def test_int_stays_ignored(self) -> None:
        before = signal.signal(signal.SIGINT, signal.SIG_IGN)
        try:
            tried, program, server = self.join()
        finally:
            signal.signal(signal.SIGINT, before)
        tried.process.send_signal(signal.SIGINT)
        self.leave(tried, program, server)

    def test_usr1_and_term_at_rest(self) -> None:
        for number in (signal.SIGUSR1, signal.SIGTERM):
            tried, program, server = self.join()
            tried.process.send_signal(number)
            self.assertEqual(server.end(), "reset")
            self.assertEqual(tried.ended()[0], 3)

    def test_a_drip_is_too_slow(self) -> None:
        tried, program, server = self.join(lowered={"TOO_SLOW_TIME": 1.0})
        with contextlib.suppress(ConnectionError):
            for _ in range(100):
                server.say(b"*")
                time.sleep(0.1)
        status, said = tried.ended()
        self.assertEqual(status, 3)
        self.assertRegex(said, r"^mowerbean: the line is too slow: \d+ bytes in \d+ seconds\n$")

    def test_the_limit_of_the_whole(self) -> None:
        seconds, tried, program, server = self.join_within(3)
        self.assertEqual(tried.ended(), (3, f"mowerbean: the session took longer than {seconds} seconds\n"))

    def test_silence_is_reported(self) -> None:
        tried, program, server = self.join(lowered={"SILENCE": 0.1})
        program.say(b"C6 NOOP\r\n")
        self.assertEqual(server.hear(9), b"C6 NOOP\r\n")
        time.sleep(1.0)
        program.link.close()
        status, said = tried.ended()
        self.assertEqual(status, 3)
        self.assertRegex(said, r"^mowerbean: no bytes from the server for \d+ seconds, waiting for the answer to C6\n$")

    def test_read_ahead_is_bounded(self) -> None:
        tried, program, server = self.join()
        program.say(b"P1 APPEND a () {9000002}\r\n")
        server.hear(len(b"P1 APPEND a () CATENATE (TEXT {9000000}\r\n"))
        server.say(b"+ OK\r\n")
        program.hear(6)
        sent = 0
        program.link.setsockopt(socket.SOL_SOCKET, socket.SO_SNDBUF, 4_096)
        program.link.settimeout(1.0)
        with contextlib.suppress(socket.timeout):
            while sent < 9_000_000:
                sent += program.link.send(b"x" * 1_000)
        self.assertLess(sent, 150_000)

    def test_a_lying_server_takes_little_memory(self) -> None:
        tried, program, server = self.join()
        program.say(b"C4 NOOP\r\n")
        server.hear(9)
        pieces = [b"* " + b"x" * 9_998] * 200 + [b"\r\n* X {900000}\r\n"] + [b"y" * 9_000] * 100 + [b"\n" * 10_000] * 2
        pieces += [b"+ " + b"x" * 99_998] * 20
        before = self.memory(tried)
        for piece in pieces:
            server.say(piece)
            self.assertEqual(len(program.hear(len(piece))), len(piece))
        self.assertLess(self.memory(tried) - before, 1_000)

    def memory(self, tried: Tried) -> int:
        """The most memory that link held so far, in kB."""
        with open(f"/proc/{tried.process.pid}/status", encoding="ascii") as file:
            return int(re.findall(r"VmHWM:\s+(\d+) kB", file.read())[0])

    # -- What can't be had --

    def reason(self, *words: str) -> Tuple[int, str]:
        """How a session ends that can't begin."""
        tried = Tried([*words, "--folder", self.folder], {"CONNECT_TIME": 1.0})
        self.stack.callback(tried.close)
        if tried.port:
            self.assertEqual(tried.program().end(), "in order")
        return tried.ended()

    def test_reasons(self) -> None:
        listening = self.listen()
        port = listening.getsockname()[1]
        closed = socket.socket()
        closed.bind(("127.0.0.1", 0))
        self.stack.callback(closed.close)
        free = closed.getsockname()[1]
        refused = f"mowerbean: no connection to 127.0.0.1:{free}: Connection refused\n"
        self.assertEqual(self.reason("--server", f"127.0.0.1:{free}"), (3, refused))
        # Where no answer comes, the system asks each of its name servers for a second.
        with unittest.mock.patch.dict(os.environ, {"RES_OPTIONS": "timeout:1 attempts:1"}):
            self.assertEqual(self.reason("--server", "no-such-host.invalid:143")[0] in (3, 4), True)
        self.assertEqual(self.reason("--tls", f"127.0.0.1:{port}"), (3, f"mowerbean: no bytes from 127.0.0.1:{port} for 1 seconds\n"))
        for wrong in ("host", "host:0", "host:99999", ":143", "::1:1", "h st:1"):
            self.assertEqual(self.reason("--server", wrong), (2, f"mowerbean: {wrong} is no HOST:PORT\n"))
        self.assertEqual(self.reason("--tls", "a:1", "--cafile", "/nowhere")[0], 2)
        for words in (["--largest", "5"], ["--reading", "--largest", "0"]):
            self.assertEqual(self.reason("--server", "a:1", *words)[0], 2)

    def test_an_address_of_a_kind_that_this_machine_has_not(self) -> None:
        listening = self.listen()
        where = listening.getsockname()
        found = [(999, socket.SOCK_STREAM, 0, "", ("::1", 143)), (socket.AF_INET, socket.SOCK_STREAM, 0, "", where)]
        with unittest.mock.patch("socket.getaddrinfo", return_value=found):
            link_ends.connect_any(link_ends.Address("both", 143, "server"), time.monotonic() + PATIENCE).close()

    def test_ended_by_the_server(self) -> None:
        tried, program, server = self.join()
        program.say(b"C6 NOOP\r\n")
        server.hear(9)
        server.say(b"* BYE \x1b[31m idle\r\n")
        server.link.close()
        self.assertEqual(program.hear(99), b"* BYE \x1b[31m idle\r\n")
        status, said = tried.ended()
        self.assertEqual(status, 3)
        self.assertRegex(said, r"^mowerbean: ended by the server after \d+ bytes, waiting for the answer to C6\n$")


if __name__ == "__main__":
    unittest.main(module=None, argv=[sys.argv[0], "discover", "-s", HERE, *sys.argv[1:]])
