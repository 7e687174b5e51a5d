#!/usr/bin/env python3
"""Small peers that tools/check-program plays at. Each prints its port in a line, and then what it sees.

usage: peers.py ends [SECONDS]     takes connections, and ends each one after so many seconds (0)
       peers.py silent             takes connections, and says nothing
       peers.py replaces FOLDER    puts a copy of journal.0 in its place before it greets, and prints how many bytes come then
       peers.py takes FOLDER [SECONDS]   an IMAP server that takes one letter; prints the folder's mowerbean.sent so many seconds after it
                                   asked for the letter (or else as its first byte comes), before its last million bytes, and with its CRLF

It runs until it is killed.
"""
import io
import os
import pathlib
import shutil
import socket
import sys
import time
from typing import List, Optional

# What an untagged answer tells of each mailbox, as the journal of tools/check-program has them.
INBOX = ["2 EXISTS", "OK [UIDVALIDITY 5] it is", "OK [UIDNEXT 44] it is", "OK [HIGHESTMODSEQ 715] it is"]
ARCHIVE = ["0 EXISTS", "OK [UIDVALIDITY 9] it is", "OK [UIDNEXT 7] it is", "OK [HIGHESTMODSEQ 300] it is"]
PUT_IN = ["1 EXISTS", "OK [UIDVALIDITY 9] it is", "OK [UIDNEXT 8] it is", "OK [HIGHESTMODSEQ 301] it is", "1 FETCH (UID 7 FLAGS () MODSEQ (301))"]
# The end of a letter, and how many bytes the system takes ahead of us.
REST, READ_AHEAD = 1_000_000, 65_536
PERMANENT = r"OK [PERMANENTFLAGS (\Answered \Flagged \Deleted \Seen \Draft \*)] they are"


def ends(peer: socket.socket, seconds: float) -> None:
    """Ends a connection after so many seconds."""
    time.sleep(seconds)
    peer.close()


def replaces(peer: socket.socket, folder: pathlib.Path) -> None:
    """Puts a copy of journal.0 in its place, greets, and prints how many bytes come until the connection's end."""
    shutil.copyfile(folder / "journal.0", folder / "other")
    os.replace(folder / "other", folder / "journal.0")
    peer.sendall(b"* OK ready\r\n")
    count = 0
    while True:
        taken = peer.recv(4096)
        if not taken:
            print(count, "bytes came", flush=True)
            return
        count += len(taken)


def mark_in(folder: pathlib.Path) -> str:
    """Returns the text of the mark of what is under way."""
    try:
        return (folder / "mowerbean.sent").read_text().strip()
    except FileNotFoundError:
        return "none"


def take_letter(peer: socket.socket, lines: io.BufferedReader, size: int, folder: pathlib.Path, seconds: Optional[float]) -> None:
    """Takes a letter of so many bytes, and prints the mark at three moments of it."""
    peer.sendall(b"+ go on\r\n")
    if seconds is None:
        lines.peek(1)
    else:
        time.sleep(seconds)
    print(mark_in(folder), flush=True)
    # The system takes far less ahead of us than the rest, so of a long letter the program still has some.
    rest = min(size, REST)
    came = len(lines.read(size - rest))
    if came == size - rest:
        told = mark_in(folder)
        came += len(lines.read(rest))
    if came < size:
        print("ended after", came, "bytes of the letter", flush=True)
        return
    print(told, flush=True)
    lines.readline()
    print(mark_in(folder), flush=True)


def takes(peer: socket.socket, folder: pathlib.Path, seconds: Optional[float]) -> None:
    """Answers as a server that takes one letter into Archive."""
    lines = peer.makefile("rb")
    archive = ARCHIVE
    peer.sendall(b"* OK ready\r\n")
    for line in lines:
        tag, verb, *words = line.decode().split()
        told: List[str] = []
        done = "OK done"
        if verb == "CAPABILITY":
            told = ["CAPABILITY IMAP4rev2 QRESYNC AUTH=PLAIN"]
        elif verb == "AUTHENTICATE":
            peer.sendall(b"+ \r\n")
            lines.readline()
        elif verb == "ENABLE":
            told = ["ENABLED IMAP4rev2 QRESYNC"]
        elif verb == "SELECT":
            told = [PERMANENT, *(INBOX if words[0] == "INBOX" else archive)]
        elif verb == "APPEND":
            take_letter(peer, lines, int(words[-1].strip("{}")), folder, seconds)
            archive, done = PUT_IN, "OK [APPENDUID 9 7] done"
        elif verb == "LOGOUT":
            told = ["BYE bye"]
        peer.sendall("".join(f"* {it}\r\n" for it in told).encode() + f"{tag} {done}\r\n".encode())


def main() -> None:
    """Serves one connection after the other in the way that the words ask for."""
    way, *rest = sys.argv[1:]
    listener = socket.create_server(("127.0.0.1", 0))
    listener.setsockopt(socket.SOL_SOCKET, socket.SO_RCVBUF, READ_AHEAD)
    print(listener.getsockname()[1], flush=True)
    held = []
    while True:
        peer = listener.accept()[0]
        try:
            if way == "ends":
                ends(peer, float(rest[0]) if rest else 0)
            elif way == "silent":
                held.append(peer)
            elif way == "replaces":
                replaces(peer, pathlib.Path(rest[0]))
            else:
                takes(peer, pathlib.Path(rest[0]), float(rest[1]) if rest[1:] else None)
        except OSError:
            pass


if __name__ == "__main__":
    main()
