"""What the words of a command line and a configuration file ask an adapter for."""
import argparse
import configparser
import dataclasses
import math
import os
import re
from collections.abc import Callable, Mapping, Sequence
from typing import Any, NamedTuple, NoReturn

from bridging.access import Access, NoAccess, access_of, cluster_name
from slurming.endings import WRONG_CONFIGURATION, WRONG_WORDS, Failure
from slurming.nodes import Node
from slurming.prices import NEVER, Prices

NAME = re.compile(r"[A-Za-z0-9_.-]{1,128}")
SOURCES = ("exporter", "sys", "none")
OVER_BROKER = re.compile(r"mqtt://([A-Za-z0-9_.-]+|\[[0-9A-Fa-f:.]+\])(?::([0-9]{1,5}))?/(.*)", re.DOTALL)


class Wrong(Exception):
    """A value is not one that an option has."""


def whole(least: int, most: int) -> Callable[[str], int]:
    def read(text: str) -> int:
        if not (re.fullmatch(r"[0-9]{1,12}", text) and least <= int(text) <= most):
            raise Wrong(f"is no whole number from {least} to {most}")
        return int(text)
    return read


def real(least: float, most: float) -> Callable[[str], float]:
    def read(text: str) -> float:
        try:
            value = float(text)
        except ValueError:
            value = math.nan
        if not least <= value <= most:
            raise Wrong(f"is no number from {least:g} to {most:g}")
        return value
    return read


def name(text: str) -> str:
    if not NAME.fullmatch(text):
        raise Wrong("is no name of letters, digits, _, . and -")
    return text


def names(text: str) -> tuple[str, ...]:
    found = tuple(name(it) for it in re.split(r"[\s,]+", text) if it)
    if not found or len(set(found)) < len(found):
        raise Wrong("is no list of different names")
    return found


def releases(text: str) -> tuple[str, ...]:
    found = tuple(it for it in re.split(r"[\s,]+", text) if it)
    if not found or not all(re.fullmatch(r"[0-9]+\.[0-9]+", it) for it in found):
        raise Wrong("is no list of releases as 22.05")
    return found


def one_of(*words: str) -> Callable[[str], str]:
    def read(text: str) -> str:
        if text not in words:
            raise Wrong("is none of " + ", ".join(words))
        return text
    return read


def path(text: str) -> str:
    if not text or not os.path.isabs(text):
        raise Wrong("is no absolute path")
    return text


class Shared(NamedTuple):
    """A lock over a broker: where that is, its port if it is named, and the cluster whose coordinator's number is claimed."""

    host: str
    port: int | None
    cluster: str


def lock(text: str) -> str | Shared:
    """The path of a file, or the broker and the cluster."""
    if text.startswith("/"):
        return path(text)
    found = OVER_BROKER.fullmatch(text)
    if found is None or not 1 <= int(found[2] or 1) <= 65535:
        raise Wrong("is no absolute path, and no mqtt://HOST:PORT/CLUSTER")
    try:
        return Shared(found[1].strip("[]"), int(found[2]) if found[2] else None, cluster_name(found[3]))
    except argparse.ArgumentTypeError as why:
        raise Wrong(f"names no cluster: {why}") from None


def some(text: str) -> str:
    if not text:
        raise Wrong("is empty")
    return text


def device(text: str) -> str:
    if not re.fullmatch(r"[^/\s]{1,15}", text) or text in (".", ".."):
        raise Wrong("is no name of a network device")
    return text


def place(text: str) -> str:
    found = re.fullmatch(r"(?:[A-Za-z0-9_.-]+|\[[0-9A-Fa-f:.]+\]):([0-9]{1,5})", text)
    if found is None or not 1 <= int(found[1]) <= 65535:
        raise Wrong("is no HOST:PORT")
    return text


# the options of each section: how each is read, and its text if it is not given; nothing if it must be
OPTIONS: Mapping[str, Mapping[str, tuple[Callable[[str], Any], str | None]]] = {
    "slurm": {
        "cluster": (name, ""), "queues": (names, "net"), "run": (name, "netrun"), "gres": (name, "bandwidth"),
        "releases": (releases, "22.05"), "commands": (path, ""), "command-wait": (real(0.1, 600), "20")},
    "adapter": {
        "lock": (lock, None), "coordinator": (whole(1, 64), "1"), "interval": (real(0.05, 3600), "1"),
        "start-wait": (real(0, 86400), "15"), "avoid": (real(0, 86400), "60"), "whys": (whole(0, 10000), "10"),
        "rounds": (whole(0, 1000000), "200"), "tasks": (whole(1, 10000000), "50000"), "follower-wait": (real(0.1, 3600), "60")},
    "use": {
        "source": (one_of(*SOURCES), "exporter"), "port": (whole(1, 65535), "9100"), "device": (device, "eth0"),
        "wait": (real(0.05, 60), "1"), "stale": (real(0.1, 86400), "15"), "settle": (real(0, 86400), "1")}}
PRICES: Mapping[str, Callable[[str], Any]] = {
    "wait": whole(0, NEVER), "age": real(0, NEVER), "priority": real(0, NEVER), "most": whole(0, NEVER), "preempt": whole(0, NEVER)}
OF_NODES: Mapping[str, Callable[[str], Any]] = {"exporter": place, "device": device}
# those of the words of bin/bridge that are about the broker
OF_BROKER: Mapping[str, Callable[[str], Any]] = {
    "mqtt": one_of("3", "5"), "user": some, "password-file": path, "tls": one_of("yes", "no"), "ca": path, "cert": path, "key": path}


@dataclasses.dataclass(frozen=True)
class Settings:
    """What the configuration asks for. Times are in seconds."""

    cluster: str
    queues: tuple[str, ...]
    run: str
    gres: str
    releases: tuple[str, ...]
    commands: str
    command_wait: float
    lock: str | Shared
    access: Access | None
    coordinator: int
    interval: float
    start_wait: float
    avoid: float
    whys: int
    rounds: int
    tasks: int
    follower_wait: float
    source: str
    port: int
    device: str
    wait: float
    stale: float
    settle: float
    prices: Prices
    queue_prices: Mapping[str, Prices]
    node_options: Mapping[str, Mapping[str, str]]

    def prices_of(self, queue: str) -> Prices:
        return self.queue_prices.get(queue, self.prices)

    def exporter_of(self, node: Node) -> str:
        """Where the exporter of a node is."""
        address = f"[{node.address}]" if ":" in node.address else node.address
        return self.node_options.get(node.name, {}).get("exporter", f"{address}:{self.port}")

    def device_of(self, node: Node) -> str:
        return self.node_options.get(node.name, {}).get("device", self.device)


def read_configuration(file: str) -> Settings:
    """The settings of a configuration file. What is wrong with it is a failure of one line."""
    parser = configparser.ConfigParser(interpolation=None, default_section="", strict=True, empty_lines_in_values=False)
    try:
        with open(file, encoding="utf-8") as text:
            parser.read_file(text, file)
    except (OSError, UnicodeDecodeError) as why:
        raise Failure(WRONG_CONFIGURATION, f"the configuration {file} cannot be read ({why})") from None
    except configparser.Error as why:
        raise Failure(WRONG_CONFIGURATION, " ".join(str(why).split())) from None
    try:
        return settings_of({section: dict(parser[section]) for section in parser.sections()})
    except Wrong as why:
        raise Failure(WRONG_CONFIGURATION, f"{file}: {why}") from None


def settings_of(given: Mapping[str, Mapping[str, str]]) -> Settings:
    """The settings that the texts of options ask for, by section."""
    found: dict[str, Any] = {}
    for section, options in OPTIONS.items():
        of_section = given.get(section, {})
        refuse_unknown(section, of_section, options)
        for option, (read, default) in options.items():
            text = of_section.get(option, default)
            if text is None:
                raise Wrong(f"[{section}] {option} is not given")
            found[option.replace("-", "_")] = read_value(section, option, text, read) if option in of_section or text else ""
    prices = prices_of("prices", given.get("prices", {}), Prices())
    queue_prices, node_options = {}, {}
    for section, of_section in given.items():
        kind, _, whose = section.partition(" ")
        if kind == "queue" and whose in found["queues"]:
            queue_prices[whose] = prices_of(section, of_section, prices)
        elif kind == "node" and NAME.fullmatch(whose):
            refuse_unknown(section, of_section, OF_NODES)
            node_options[whose] = {option: read_value(section, option, text, OF_NODES[option]) for option, text in of_section.items()}
        elif section not in ("prices", "broker") and section not in OPTIONS:
            raise Wrong(f"[{section}] is no section" + (", since the queue is not among [slurm] queues" if kind == "queue" else ""))
    if found["run"] in found["queues"]:
        raise Wrong(f"[slurm] run = {found['run']} is one of the queues")
    access = access_for(found["lock"], given.get("broker"))
    return Settings(prices=prices, queue_prices=queue_prices, node_options=node_options, access=access, **found)


def access_for(shared: str | Shared, given: Mapping[str, str] | None) -> Access | None:
    """How to get at the broker of a lock, if it has one."""
    if isinstance(shared, str):
        if given is not None:
            raise Wrong("[broker] is of no use, since [adapter] lock is a path and names no broker")
        return None
    given = given or {}
    refuse_unknown("broker", given, OF_BROKER)
    found = {option: read_value("broker", option, text, OF_BROKER[option]) for option, text in given.items()}
    asked = {name: found.get(name.replace("_", "-")) for name in ("user", "password_file", "ca", "cert", "key")}
    asked |= {"broker": (shared.host, shared.port), "version": int(found.get("mqtt", 3)), "tls": found.get("tls") == "yes"}
    try:
        return access_of(asked, "")
    except NoAccess as why:
        raise Wrong(f"[broker] {why}") from None


def prices_of(section: str, given: Mapping[str, str], base: Prices) -> Prices:
    """The prices of a section, which are those of the base if it does not say others."""
    refuse_unknown(section, given, PRICES)
    prices = dataclasses.replace(base, **{option: read_value(section, option, text, PRICES[option]) for option, text in given.items()})
    if not prices.wait <= prices.most < prices.preempt:
        raise Wrong(f"[{section}] wait = {prices.wait} must be at most most = {prices.most}, and that less than preempt = {prices.preempt}")
    return prices


def refuse_unknown(section: str, given: Mapping[str, str], known: Mapping[str, object]) -> None:
    for option in given:
        if option not in known:
            raise Wrong(f"[{section}] {option} is no option; the options are {', '.join(known)}")


def read_value(section: str, option: str, text: str, read: Callable[[str], Any]) -> Any:
    try:
        return read(text.strip())
    except Wrong as why:
        raise Wrong(f"[{section}] {option} = {text.strip()!r} {why}") from None


# the words

DESCRIPTION = """\
Places the jobs of Slurm's queue partitions as a coordinator decides, which knows how busy the nodes' links are. Slurm starts,
watches, requeues and accounts them. Of several adapters with one lock one acts, and the others stand by. The lock is a file, or for
adapters on several machines a number that is claimed over an MQTT broker: lock=PATH or lock=mqtt://HOST:PORT/CLUSTER.
"""
STATUSES = """\
Statuses: 0 well; 2 wrong words; 3 a wrong configuration; 10 the lock is over a broker, and there is no paho-mqtt; 11 no program; 12 no
commands of Slurm, or another release; 13 with --check: Slurm does not answer, or is not set up, or there is no broker; 14 the lock; 15 the
follower. docs/slurm.md has the options, and says what is done when.
"""


class Words(argparse.ArgumentParser):
    """A parser that says in one line what is wrong."""

    def error(self, message: str) -> NoReturn:
        self.exit(WRONG_WORDS, f"slurm: {message} (slurm --help has the words)\n")


def count(text: str) -> int:
    try:
        return whole(0, 1000000000)(text)
    except Wrong as why:
        raise argparse.ArgumentTypeError(f"{text!r} {why}") from None


def read_words(given: Sequence[str]) -> argparse.Namespace:
    """What the words ask for. Wrong words end the process with status 2 and a line."""
    words = Words(prog="slurm", description=DESCRIPTION, epilog=STATUSES, allow_abbrev=False,
                  formatter_class=argparse.RawDescriptionHelpFormatter)
    words.add_argument("configuration", metavar="CONFIGURATION", help="the configuration file")
    words.add_argument("--check", action="store_true", dest="is_check",
                       help="says what is wrong with the configuration, with Slurm's and with the broker of the lock, changes nothing and ends")
    words.add_argument("--passes", type=count, default=0, metavar="N", help="ends after N passes; with 0 at a signal (0)")
    words.add_argument("--no-wait", action="store_true", dest="is_impatient",
                       help="ends with status 14 if another adapter has the lock, or no broker answers, and does not stand by")
    words.add_argument("--json", action="store_true", dest="is_json", help="says what it does as JSON, an object a line")
    words.add_argument("--program", metavar="FILE", help="the program `firmament` (what bin/firmament runs)")
    return words.parse_args(given)
