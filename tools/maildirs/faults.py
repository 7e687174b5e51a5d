"""What goes wrong with a sync: its line is cut behind some octets, or is slow; one of its processes is killed, or all of them; or its disk has no
room for a larger file."""
import contextlib
import os
import random
import resource
import signal
import socket
import struct
import subprocess
import threading
import time
from typing import Callable, List, Optional

RESET = struct.pack("ii", 1, 0)


class Line:
    """A way to the server that ends behind so many octets, in either direction, as often as it is told to."""

    def __init__(self, port: int) -> None:
        self.server = port
        self.left: Optional[int] = None
        # How many octets it carries a second in either direction; as many as there are, where none is given.
        self.rate: Optional[int] = None
        self.cuts = 0
        self.lock = threading.Lock()
        self.door = socket.create_server(("127.0.0.1", 0), backlog=32)
        self.port: int = self.door.getsockname()[1]
        threading.Thread(target=self._serve, daemon=True).start()

    def cut_behind(self, octets: Optional[int]) -> None:
        """The line is lost behind so many octets from now on; never, where no number is given."""
        with self.lock:
            self.left = octets

    def _serve(self) -> None:
        while True:
            client, _ = self.door.accept()
            try:
                server = socket.create_connection(("127.0.0.1", self.server), timeout=30)
                server.settimeout(None)
            except OSError:
                client.close()
                continue
            for one, another in ((client, server), (server, client)):
                one.setsockopt(socket.IPPROTO_TCP, socket.TCP_NODELAY, 1)
                threading.Thread(target=self._carry, args=(one, another), daemon=True).start()

    def _carry(self, one: socket.socket, another: socket.socket) -> None:
        """Hands on what comes one way, as far as it may."""
        with contextlib.suppress(OSError):
            while data := one.recv(4096):
                with self.lock:
                    most = len(data) if self.left is None else min(len(data), self.left)
                    is_cut = most < len(data)
                    self.left = None if self.left is None or is_cut else self.left - most
                if self.rate:
                    time.sleep(len(data) / self.rate)
                another.sendall(data[:most])
                if is_cut:
                    self.cuts += 1
                    break
        for link in (one, another):
            with contextlib.suppress(OSError):
                link.setsockopt(socket.SOL_SOCKET, socket.SO_LINGER, RESET)
                link.shutdown(socket.SHUT_RDWR)


def family(pid: int) -> List[int]:
    """A process, and all that it has started, as far as they are there."""
    parents = {}
    for name in os.listdir("/proc"):
        if name.isdigit():
            with contextlib.suppress(OSError), open(f"/proc/{name}/stat", encoding="ascii", errors="replace") as file:
                parents[int(name)] = int(file.read().rpartition(")")[2].split()[1])
    found = [pid]
    for each in found:
        found += [child for child, parent in parents.items() if parent == each]
    return found


def begin(most: Optional[int]) -> Callable[[], None]:
    """What a sync does first of all: it begins a group of its own, in which no file may grow beyond so many bytes, where a number is given."""
    def first() -> None:
        os.setpgrp()
        if most is not None:
            resource.setrlimit(resource.RLIMIT_FSIZE, (most, most))
    return first


def is_at_work(group: int) -> bool:
    """Whether a process of this group is there."""
    with contextlib.suppress(ProcessLookupError):
        # Of 0 it would be the group of this process.
        if group:
            os.killpg(group, 0)
            return True
    return False


def kill(process: "subprocess.Popen[bytes]", chance: random.Random) -> None:
    """Kills a sync, with all that it started, or one of its processes alone."""
    if chance.random() < 0.5:
        with contextlib.suppress(ProcessLookupError):
            os.killpg(process.pid, signal.SIGKILL)
        return
    with contextlib.suppress(ProcessLookupError):
        os.kill(chance.choice(family(process.pid)), signal.SIGKILL)
