"""The real servers that are tried: Dovecot and Cyrus, each with a folder of its own and one user, as they stand in a package."""
import contextlib
import pathlib
import pwd
import shutil
import socket
import subprocess
import sys
import os
import time
from typing import Iterator, List, Optional, Type, Union

FOLDERS = ("Archive", "Sent Items", "a b")
USER, PASSWORD = "ann", "pw"
# What a Dovecot that isn't to have CATENATE offers.
WITHOUT_CATENATE = "IMAP4rev1 SASL-IR LITERAL+ ID ENABLE NAMESPACE UIDPLUS ESEARCH CONDSTORE QRESYNC MOVE"

DOVECOT = """protocols = imap
base_dir = {home}/run
state_dir = {home}/state
log_path = {home}/log
listen = {address}
disable_plaintext_auth = no
default_login_user = nobody
default_internal_user = {user}
default_internal_group = nogroup
default_process_limit = 400
mail_max_userip_connections = 800
first_valid_uid = 1
mail_location = maildir:{home}/mail
passdb {{
  driver = static
  args = nopassword=y
}}
userdb {{
  driver = static
  args = uid={user} gid=nogroup home={home}
}}
service imap-login {{
  chroot =
  inet_listener imap {{
    port = {port}
  }}
  inet_listener imaps {{
    port = {tls_port}
  }}
}}
{tls}
{capability}
"""

CYRUS = """configdirectory: {home}/conf
proc_path: {home}/proc
mboxname_lockpath: {home}/lock
defaultpartition: default
partition-default: {home}/spool
altnamespace: yes
unixhierarchysep: yes
allowplaintext: yes
sasl_pwcheck_method: auxprop
sasl_auxprop_plugin: sasldb
sasl_sasldb_path: {home}/sasldb
sasl_mech_list: PLAIN LOGIN
autocreate_quota: 0
autocreate_inbox_folders: {folders}
lmtpsocket: {home}/socket/lmtp
idlesocket: {home}/socket/idle
notifysocket: {home}/socket/notify
{tls}
{capability}
"""

CYRUS_SERVICES = """START {{
  recover cmd="/usr/lib/cyrus/bin/ctl_cyrusdb -C {home}/imapd.conf -r"
}}
SERVICES {{
  imap cmd="imapd -C {home}/imapd.conf -U 30" listen="{address}:{port}" prefork=0
{tls}
}}
EVENTS {{
}}
"""


def installed(program: str) -> Optional[str]:
    """The whole name of a program, also where only root's path has it."""
    return shutil.which(program, path=os.environ.get("PATH", "") + ":/usr/sbin")


def give(home: Union[str, pathlib.Path], user: str) -> None:
    """Makes the user own the folder with all that is in it."""
    os.chmod(home, 0o755)
    for path in [home, *pathlib.Path(home).rglob("*")]:
        shutil.chown(path, user)


def free_port(address: str = "127.0.0.1") -> int:
    """A port at which nothing listens."""
    with socket.socket() as free:
        free.bind((address, 0))
        port: int = free.getsockname()[1]
        return port


class Certificate:
    """A certificate of its own, with the names by which the servers are reached here."""

    def __init__(self, home: pathlib.Path, addresses: List[str]) -> None:
        self.cert, self.key = home / "cert.pem", home / "key.pem"
        names = ",".join(["DNS:localhost", *(f"IP:{address}" for address in addresses)])
        words = ["openssl", "req", "-x509", "-newkey", "rsa:2048", "-nodes", "-days", "2", "-subj", "/CN=localhost"]
        words += ["-addext", f"subjectAltName={names}", "-keyout", str(self.key), "-out", str(self.cert)]
        subprocess.run(words, check=True, stderr=subprocess.DEVNULL)
        self.key.chmod(0o644)


class Dovecot:
    """A Dovecot that takes any password, with empty mailboxes."""

    programs = ("dovecot", "/usr/lib/dovecot/imap")

    def __init__(self, home: str, port: int, address: str = "127.0.0.1", tls: Optional[Certificate] = None, catenate: bool = True) -> None:
        self.address, self.port, self.tls_port = address, port, free_port(address) if tls else 0
        user = "dovecot" if any(entry.pw_name == "dovecot" for entry in pwd.getpwall()) else "nobody"
        for name in ("", *(f".{folder}" for folder in FOLDERS)):
            for part in ("cur", "new", "tmp"):
                pathlib.Path(home, "mail", name, part).mkdir(parents=True)
        give(home, user)
        secured = f"ssl = yes\nssl_cert = <{tls.cert}\nssl_key = <{tls.key}" if tls else "ssl = no"
        offered = "" if catenate else f"imap_capability = {WITHOUT_CATENATE}"
        config = pathlib.Path(home, "conf")
        words = {"home": home, "address": address, "port": port, "tls_port": self.tls_port, "user": user}
        config.write_text(DOVECOT.format(tls=secured, capability=offered, **words))
        self.command = [installed("dovecot") or "dovecot", "-F", "-c", str(config)]

    def set_password(self, word: str) -> None:
        """Any is taken."""


class Cyrus:
    """A Cyrus that makes a user's empty mailboxes as the user logs in."""

    programs = ("cyrmaster", "saslpasswd2", "/usr/lib/cyrus/bin/imapd")

    def __init__(self, home: str, port: int, address: str = "127.0.0.1", tls: Optional[Certificate] = None, catenate: bool = True) -> None:
        self.home, self.address, self.port, self.tls_port = home, address, port, free_port(address) if tls else 0
        for folder in ("conf", "proc", "lock", "socket", "spool"):
            pathlib.Path(home, folder).mkdir()
        config, services = pathlib.Path(home, "imapd.conf"), pathlib.Path(home, "cyrus.conf")
        secured = f"tls_server_cert: {tls.cert}\ntls_server_key: {tls.key}" if tls else ""
        offered = "" if catenate else "suppress_capabilities: CATENATE"
        config.write_text(CYRUS.format(home=home, folders="|".join(FOLDERS), tls=secured, capability=offered))
        listens = f'  imaps cmd="imapd -s -C {home}/imapd.conf -U 30" listen="{address}:{self.tls_port}" prefork=0' if tls else ""
        services.write_text(CYRUS_SERVICES.format(home=home, address=address, port=port, tls=listens))
        self.set_password(PASSWORD)
        give(home, "cyrus")
        self.command = [installed("cyrmaster") or "cyrmaster", "-C", str(config), "-M", str(services), "-p", f"{home}/pid", "-D"]

    def set_password(self, word: str) -> None:
        """The user has this password from then on."""
        words = ["saslpasswd2", "-p", "-c", "-f", f"{self.home}/sasldb", "-u", socket.gethostname(), USER]
        subprocess.run(words, input=word.encode(), check=True)


Server = Union[Dovecot, Cyrus]
Kind = Union[Type[Dovecot], Type[Cyrus]]
KINDS: List[Kind] = [Dovecot, Cyrus]


def missing(kind: Kind) -> bool:
    """Whether a server of this kind isn't installed, which is told."""
    if all(map(installed, kind.programs)):
        return False
    print(f"{pathlib.Path(sys.argv[0]).name}: no {kind.__name__} is installed, so it wasn't tried")
    return True


def answers(address: str, port: int) -> bool:
    """Whether a server's first byte comes within a minute."""
    for _ in range(600):
        with contextlib.suppress(OSError), socket.create_connection((address, port), timeout=5) as link:
            if link.recv(1):
                return True
        time.sleep(0.1)
    return False


@contextlib.contextmanager
def started(server: Server) -> Iterator[Server]:
    """A server that runs meanwhile."""
    running = subprocess.Popen(server.command)
    try:
        if not answers(server.address, server.port):
            sys.exit(f"{pathlib.Path(sys.argv[0]).name}: the server doesn't answer")
        yield server
    finally:
        running.terminate()
        running.wait()
