"""Slow lines: real ones between two name spaces of the network, and relays that take bytes ahead as a proxy or a tunnel does.

A line carries so many bytes a second to the server. It can die, and comes back with what waited: on a real line that is what the systems
at its ends hold; a relay hands on all that it took, also of a client that has gone.
"""
import contextlib
import os
import pathlib
import re
import shutil
import socket
import struct
import subprocess
import sys
import threading
import time
from typing import Iterator, List, Optional, Tuple

# Where the server is on real lines: an address of the name space's own loopback device, to which each line leads.
SERVER_ADDRESS = "10.77.0.1"
# The hardware address of each line's end at the server.
HERE_MAC = "02:00:00:00:00:01"
# What a relay takes ahead is what its listening socket's buffer holds; without a bound the system lets it grow to megabytes.
AHEAD = 16_384
PIECE = 4096
Address = Tuple[str, int]


def in_own_network() -> bool:
    """Whether this process has a network of its own, where lines may be made: it begins again in one where that can be had."""
    if os.environ.get("TRY_SERVER_NETWORK") == "own":
        subprocess.run(["ip", "link", "set", "lo", "up"], check=True)
        subprocess.run(["ip", "address", "add", f"{SERVER_ADDRESS}/32", "dev", "lo"], check=True)
        return True
    tries = ["unshare", "--net", "ip", "link", "add", "v0", "type", "veth", "peer", "name", "v1"]
    if os.geteuid() or not all(map(shutil.which, ("unshare", "nsenter", "ip", "tc"))) or subprocess.run(tries, capture_output=True).returncode:
        return False
    os.environ["TRY_SERVER_NETWORK"] = "own"
    sys.stdout.flush()
    os.execvp("unshare", ["unshare", "--net", sys.executable, *sys.argv])


def sockets_with_bytes(pid: int) -> int:
    """How many connections in that process's network may still send: all but those that wait for the other end's last word alone."""
    rows = [line.split() for line in pathlib.Path(f"/proc/{pid}/net/tcp").read_text().splitlines()[1:]]
    server = "%08X" % struct.unpack("=I", socket.inet_aton(SERVER_ADDRESS))[0]
    return sum(row[2].startswith(server) and row[3] not in ("05", "06", "07") for row in rows)


class RealLine:
    """A line between this name space of the network and one of its own, with one queue, or with one for each connection."""

    def __init__(self, number: int, rate: int, has_queue_each: bool, port: int) -> None:
        self.address = (SERVER_ADDRESS, port)
        self.holder = subprocess.Popen(["unshare", "--net", "sleep", "infinity"])
        self.inside = ["nsenter", f"--net=/proc/{self.holder.pid}/ns/net", "--"]
        self.here = f"v{number}"
        mine, theirs = (f"10.77.{64 + number // 64}.{number % 64 * 4 + last}" for last in (1, 2))
        self.wait_for_holder()
        peer = f"peer name line netns {self.holder.pid}"
        self.ip("link", "add", self.here, "address", HERE_MAC, "type", "veth", *peer.split())
        self.ip("address", "add", f"{mine}/30", "dev", self.here)
        self.rise()
        for words in (
            "ip link set lo up",
            f"ip address add {theirs}/30 dev line",
            "ip link set line gso_max_segs 1 up",
            # Known for good: else the client's system is told that nobody is there, which a train's tunnel tells nobody.
            f"ip neighbour add {mine} lladdr {HERE_MAC} nud permanent dev line",
            f"ip route add {SERVER_ADDRESS} via {mine}",
        ):
            self.run(words)
        self.shape(rate * 8, has_queue_each)

    def wait_for_holder(self) -> None:
        """Until the holder has left this name space."""
        own = os.readlink("/proc/self/ns/net")
        while os.readlink(f"/proc/{self.holder.pid}/ns/net") == own:
            time.sleep(0.02)

    @staticmethod
    def ip(*words: str) -> None:
        subprocess.run(["ip", *words], check=True)

    def run(self, words: str) -> str:
        """Runs a command at the client's end."""
        return subprocess.run([*self.inside, *words.split()], check=True, capture_output=True, text=True).stdout

    def shape(self, bits: int, has_queue_each: bool) -> None:
        """Sets the rate to the server. A queue each: sixteen of them, by the client's port, as a router with fair queues has."""
        if not has_queue_each:
            self.run(f"tc qdisc add dev line root tbf rate {bits}bit burst 3200 limit 65536")
            return
        self.run("tc qdisc add dev line root handle 1: htb default 10")
        self.run(f"tc class add dev line parent 1: classid 1:1 htb rate {bits}bit burst 3200 cburst 3200")
        for queue in range(16):
            name = f"{queue + 16:x}"
            share = f"rate {bits // 16}bit ceil {bits}bit burst 1600 cburst 1600 quantum 1514"
            self.run(f"tc class add dev line parent 1:1 classid 1:{name} htb {share}")
            self.run(f"tc qdisc add dev line parent 1:{name} pfifo limit 40")
            self.run(f"tc filter add dev line parent 1: protocol ip u32 match ip sport {queue * 2} 0x001e flowid 1:{name}")

    def carried(self) -> int:
        """The bytes that came to the server's end, with what the network adds to them."""
        found = re.search(rf"^ *{self.here}: *(\d+)", pathlib.Path("/proc/self/net/dev").read_text(), re.MULTILINE)
        return int(found[1]) if found else 0

    def fall(self) -> None:
        """The line dies: nothing goes either way."""
        self.ip("link", "set", self.here, "down")

    def rise(self) -> None:
        """The line is there again."""
        self.ip("link", "set", self.here, "up")

    def is_empty(self) -> bool:
        """Whether nothing more can come to the server: no connection may send, and nothing stands in a queue."""
        if sockets_with_bytes(self.holder.pid):
            return False
        return not any(map(int, re.findall(r"backlog (\d+)b", self.run("tc -s qdisc show dev line"))))

    def close(self) -> None:
        """Takes the line away, with its name space."""
        self.holder.kill()
        self.holder.wait()


class Relay:
    """A line that takes connections itself, reads ahead, and hands on for each connection at a rate."""

    def __init__(self, rate: int, is_bounded: bool, server: Address) -> None:
        self.rate, self.server = rate, server
        self.inside: List[str] = []
        # Each connection's own, so that one can die alone; a new one has that of the whole line.
        self.is_alive = threading.Event()
        self.is_alive.set()
        self.alive: List[threading.Event] = []
        self.lock = threading.Lock()
        self.bytes = self.under_way = 0
        self.socket = socket.socket()
        if is_bounded:
            self.socket.setsockopt(socket.SOL_SOCKET, socket.SO_RCVBUF, AHEAD)
        self.socket.bind(("127.0.0.1", 0))
        self.socket.listen(64)
        self.address = self.socket.getsockname()
        threading.Thread(target=self.serve, daemon=True).start()

    def serve(self) -> None:
        """Takes connections until the socket is closed."""
        while True:
            try:
                client, _ = self.socket.accept()
            except OSError:
                return
            with self.lock:
                self.under_way += 1
            threading.Thread(target=self.connect, args=(client,), daemon=True).start()

    def connect(self, client: socket.socket) -> None:
        """Goes between a client and the server to the end of the way to the server."""
        with contextlib.suppress(OSError), client, socket.create_connection(self.server) as server:
            for link in (client, server):
                link.setsockopt(socket.IPPROTO_TCP, socket.TCP_NODELAY, 1)
            own = threading.Event()
            own.set()
            self.alive.append(own)
            back = threading.Thread(target=self.hand_on, args=(server, client, 0, own), daemon=True)
            back.start()
            self.hand_on(client, server, self.rate, own)
            back.join(30)
        with self.lock:
            self.under_way -= 1

    def hand_on(self, source: socket.socket, to: socket.socket, rate: int, own: threading.Event) -> None:
        """Hands on all that comes one way, while the line and this connection live."""
        with contextlib.suppress(OSError):
            while piece := source.recv(PIECE):
                self.is_alive.wait()
                own.wait()
                to.sendall(piece)
                if rate:
                    time.sleep(len(piece) / rate)
                    with self.lock:
                        self.bytes += len(piece)
        self.is_alive.wait()
        own.wait()
        with contextlib.suppress(OSError):
            to.shutdown(socket.SHUT_WR)

    def carried(self) -> int:
        """The bytes that were handed on to the server."""
        return self.bytes

    def fall(self) -> None:
        """The line dies: nothing is handed on."""
        self.is_alive.clear()

    def fall_alone(self) -> None:
        """The connections that are there die; new ones don't, as over another network."""
        for own in self.alive:
            own.clear()

    def rise(self) -> None:
        """The line is there again, with all its connections."""
        self.is_alive.set()
        for own in self.alive:
            own.set()

    def is_empty(self) -> bool:
        """Whether nothing more can come to the server."""
        return self.under_way == 0

    def close(self) -> None:
        """Takes no more connections."""
        with contextlib.suppress(OSError):
            self.socket.shutdown(socket.SHUT_RDWR)
        self.socket.close()


STUNNEL = """foreground = yes
pid =
syslog = no
debug = 3
output = {home}/stunnel.log
[imap]
accept = {accept[0]}:{accept[1]}
connect = {connect[0]}:{connect[1]}
{more}
"""


@contextlib.contextmanager
def tunnel(home: pathlib.Path, accept: Address, connect: Address, more: str, inside: Optional[List[str]] = None) -> Iterator[None]:
    """One end of a tunnel by stunnel with its defaults, which reads ahead what its buffers take."""
    home.mkdir()
    config = home / "stunnel.conf"
    config.write_text(STUNNEL.format(home=home, accept=accept, connect=connect, more=more))
    running = subprocess.Popen([*(inside or []), "stunnel4", str(config)], stderr=subprocess.DEVNULL)
    try:
        yield
    finally:
        running.kill()
        running.wait()
