"""Where a broker is, what one says to be let in, and how the topics of a cluster are named."""
import argparse
import dataclasses
import ipaddress
import os
import pathlib
import socket
import stat
from collections.abc import Callable
from typing import Any, Optional

FORBIDDEN = "+#/"
MOST_NAME = 200
PORT, TLS_PORT = 1883, 8883


@dataclasses.dataclass(frozen=True)
class Access:
    """A broker, and a client's user, password and certificates; and what is to be said about who else can have the password."""

    host: str
    port: int
    version: int
    user: Optional[str]
    password: Optional[str]
    is_tls: bool
    ca: Optional[str]
    cert: Optional[str]
    key: Optional[str]
    warnings: tuple[str, ...] = ()

    @property
    def place(self) -> str:
        return f"[{self.host}]:{self.port}" if ":" in self.host else f"{self.host}:{self.port}"


class NoAccess(Exception):
    """What is asked for does not fit together, or names a file that cannot be read; the text says which."""


def access_of(asked: dict[str, Any], mark: str) -> Access:
    """Takes the options about the broker out of those that are asked for. `mark` stands before the names of options where they are given."""
    (host, port), secret, is_tls = asked.pop("broker"), asked.pop("password_file"), asked.pop("tls")
    given = {name: asked.pop(name) for name in ("version", "user", "ca", "cert", "key")}
    is_tls = bool(is_tls or given["ca"] or given["cert"])
    if given["key"] and not given["cert"]:
        raise NoAccess(f"{mark}key is that of a certificate, which {mark}cert names")
    if secret and given["user"] is None:
        raise NoAccess(f"{mark}password-file wants {mark}user")
    try:
        password, warnings = read_password(secret) if secret else (None, ())
        for file in (given["ca"], given["cert"], given["key"]):
            open(file or os.devnull, "rb").close()
    except (OSError, ValueError) as why:
        raise NoAccess(f"a file cannot be read: {why}") from None
    if password is not None and not is_tls and not is_here(host):
        warnings += (f"the password goes to {host} without TLS, so that who is on the way can read it: see {mark}tls and {mark}ca",)
    return Access(host=host, port=port or (TLS_PORT if is_tls else PORT), password=password, is_tls=is_tls, warnings=warnings, **given)


def read_password(file: pathlib.Path) -> tuple[str, tuple[str, ...]]:
    """The first line of a file, and a warning if others than its owner may read it, as a whole. The group of a file of somebody else may,
    since else this process could not."""
    with open(file) as opened:
        found = os.fstat(opened.fileno())
        others = stat.S_IROTH | (stat.S_IRGRP if found.st_uid == os.geteuid() else 0)
        is_open = stat.S_ISREG(found.st_mode) and found.st_mode & others
        mode = f"{stat.S_IMODE(found.st_mode):04o}"
        warning = (f"the password in {file} can be read by others than its owner (mode {mode}): chmod 600 mends that",)
        return opened.read().split("\n")[0], warning if is_open else ()


def is_here(host: str) -> bool:
    """Whether what goes to a host stays on this machine, by all addresses that it has."""
    try:
        found = socket.getaddrinfo(host, None, type=socket.SOCK_STREAM)
        return all(ipaddress.ip_address(str(address[0]).partition("%")[0]).is_loopback for *_, address in found)
    except (OSError, ValueError):
        return False


def topic_of(cluster: str, kind: str, number: object) -> str:
    """The topic of a kind on which the coordinator of the number alone publishes."""
    return f"fetohamu/{cluster}/{kind}/{number}"


def cluster_name(text: str) -> str:
    """A name that can be one level of a topic."""
    fine = 0 < len(text) <= MOST_NAME and text.isprintable() and not any(letter in FORBIDDEN for letter in text)
    try:
        text.encode()
    except UnicodeEncodeError:
        fine = False
    if not fine:
        raise argparse.ArgumentTypeError(
            f"{text!r} is no name of a cluster: 1 to {MOST_NAME} printable characters other than + # and /")
    return text


def whole(least: int, most: int) -> Callable[[str], int]:
    """Reads a whole number of the range."""
    def read(text: str) -> int:
        if not (text.isascii() and text.isdigit() and len(text) <= 12 and least <= int(text) <= most):
            raise argparse.ArgumentTypeError(f"{text!r} is no whole number from {least} to {most}")
        return int(text)
    return read


def place(text: str) -> tuple[str, Optional[int]]:
    """A host, and its port behind a colon if there is one; an address with colons stands in brackets."""
    host, colon, port = text.rpartition(":")
    if not colon or text.endswith("]"):
        host, port = text, ""
    if not host.strip("[]") or (colon and not text.endswith("]") and not port):
        raise argparse.ArgumentTypeError(f"{text!r} is no HOST or HOST:PORT")
    return host.strip("[]"), whole(1, 65535)(port) if port else None


def add_broker(words: argparse._ArgumentGroup) -> None:
    """The words of a command line about the broker."""
    words.add_argument("--broker", type=place, default=("127.0.0.1", None), metavar="HOST[:PORT]",
                       help=f"127.0.0.1 if it is not given, and port {PORT}, or {TLS_PORT} with TLS")
    words.add_argument("--mqtt", choices=(3, 5), type=int, default=3, dest="version", help="3 for 3.1.1 (3)")
    words.add_argument("--user", metavar="NAME", help="the user name for the broker")
    words.add_argument("--password-file", type=pathlib.Path, metavar="FILE",
                       help="its first line is the user's password")
    words.add_argument("--tls", action="store_true", help="TLS, with the certificates that the system trusts")
    words.add_argument("--ca", metavar="FILE", help="TLS, with the certificates of authorities in the file")
    words.add_argument("--cert", metavar="FILE", help="TLS with a certificate of one's own")
    words.add_argument("--key", metavar="FILE", help="the key of that certificate")
