#!/usr/bin/env python3
"""Tries link over TLS and STARTTLS, with certificates that are made here."""
import contextlib
import os
import ssl
import subprocess
import sys
import unittest
from typing import Tuple

sys.dont_write_bytecode = True
sys.path.insert(0, os.path.dirname(os.path.abspath(__file__)))
import test_link  # noqa: E402
from test_link import Peer, Tried  # noqa: E402


class OverTls(test_link.Case):
    """A session over TLS."""

    def certificate(self, name: str) -> Tuple[str, ssl.SSLContext]:
        """A certificate that was made for a name, and a server's use of it."""
        path = os.path.join(self.folder, name)
        words = ["openssl", "req", "-x509", "-newkey", "ec", "-pkeyopt", "ec_paramgen_curve:prime256v1", "-nodes", "-days", "9", "-subj"]
        words += [f"/CN={name}", "-addext", f"subjectAltName=DNS:{name}", "-keyout", path, "-out", path + ".pem"]
        subprocess.run(words, check=True, capture_output=True)
        context = ssl.SSLContext(ssl.PROTOCOL_TLS_SERVER)
        context.load_cert_chain(path + ".pem", path)
        return path + ".pem", context

    def over_tls(self, server: Peer, context: ssl.SSLContext) -> Peer:
        """The server's end, over TLS; as it was where the other side wants none."""
        with contextlib.suppress(OSError):
            link = context.wrap_socket(server.link, server_side=True, do_handshake_on_connect=False)
            self.stack.callback(link.close)
            link.do_handshake()
            return Peer(link)
        return server

    def test_tls(self) -> None:
        cafile, context = self.certificate("localhost")
        tried, listening = self.start("--cafile", cafile, way="tls", host="localhost")
        program = tried.program()
        server = self.over_tls(self.accept(listening), context)
        server.say(b"* PREAUTH hi\r\n")
        self.assertEqual(program.hear(14), b"* PREAUTH hi\r\n")
        self.ask(program, server, b"C1 CAPABILITY\r\n", b"* CAPABILITY IMAP4rev1 CATENATE\r\nC1 OK done\r\n")
        text = bytes(range(256)) * 700
        self.begin(program, server, text)
        server.say(b"+ OK\r\n")
        self.assertEqual(server.hear(5), b"\xfe\xff)\r\n")
        many = b"* 1 FETCH (BODY[] {200000}\r\n" + b"y" * 200_000 + b")\r\nP1 OK done\r\n"
        server.say(many)
        self.assertEqual(program.hear(len(many)), many)
        self.leave_tls(tried, program, server)

    def leave_tls(self, tried: Tried, program: Peer, server: Peer) -> None:
        """LOGOUT, and the end."""
        self.ask(program, server, b"C9 LOGOUT\r\n", b"C9 OK done\r\n")
        program.link.close()
        self.assertEqual(tried.ended(), (0, ""))

    def test_tls_given_up(self) -> None:
        cafile, context = self.certificate("localhost")
        tried, listening = self.start("--cafile", cafile, way="tls", host="localhost")
        program = tried.program()
        server = self.over_tls(self.accept(listening), context)
        server.say(b"* PREAUTH hi\r\n")
        program.hear(14)
        program.link.close()
        with self.assertRaises(OSError):
            server.hear(1)
            server.say(b"x")
            server.hear(1)
            server.say(b"x")

    def test_certificates_that_are_wrong(self) -> None:
        cafile, context = self.certificate("other.example")
        for trusted, reason in ((cafile, "Hostname mismatch"), ("", "self.signed certificate")):
            tried, listening = self.start(*(["--cafile", trusted] if trusted else []), way="tls", host="localhost")
            program = tried.program()
            self.over_tls(self.accept(listening), context)
            self.assertEqual(program.end(), "in order")
            status, said = tried.ended()
            self.assertEqual(status, 4)
            self.assertRegex(said, rf"^mowerbean: the certificate of localhost:\d+ isn't valid: {reason}")

    def starttls(self, greeting: bytes, answer: bytes, certificate: str = "localhost") -> Tuple[Tried, Peer, Peer]:
        """A session that asks for STARTTLS."""
        cafile, context = self.certificate(certificate)
        tried, listening = self.start("--cafile", cafile, way="starttls", host="localhost")
        program = tried.program()
        server = self.accept(listening)
        server.say(greeting)
        if greeting.startswith(b"* OK"):
            self.assertEqual(server.hear(13), b"X0 STARTTLS\r\n")
            server.say(answer)
            server = self.over_tls(server, context)
        return tried, program, server

    def test_starttls(self) -> None:
        tried, program, server = self.starttls(b"* OK [CAPABILITY IMAP4rev1 CATENATE] hi\r\n", b"* 1 EXISTS\r\nX0 OK go\r\n")
        self.assertEqual(program.hear(16), b"* OK TLS is on\r\n")
        self.ask(program, server, b"P1 APPEND a () {5}\r\n", b"+ go\r\n")
        self.ask(program, server, b"12345\r\n", b"P1 OK done\r\n")
        self.leave_tls(tried, program, server)

    def test_starttls_refused(self) -> None:
        rows = (
            (b"* PREAUTH hi\r\n", b"", 4, "greets with"),
            (b"* BYE no\r\n", b"", 3, "greets with"),
            (b"* OK hi\r\n", b"X0 BAD \x1b[31mno\r\n", 4, r"X0 BAD \?\[31mno$"),
            (b"* OK hi\r\n", b"X0 OK go\r\n* CAPABILITY EVIL\r\n", 4, "more in clear after its answer"),
        )
        for greeting, answer, wanted, reason in rows:
            with self.subTest(greeting=greeting, answer=answer):
                tried, program, _ = self.starttls(greeting, answer)
                self.assertEqual(program.end(), "in order")
                status, said = tried.ended()
                self.assertEqual(status, wanted)
                self.assertRegex(said.rstrip(), rf"^mowerbean: no STARTTLS with localhost:\d+: .*{reason}")


if __name__ == "__main__":
    unittest.main()
