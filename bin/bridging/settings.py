"""What the words of a command line ask a bridge for."""
import argparse
import dataclasses
import os
import pathlib
from collections.abc import Callable, Sequence
from typing import Any, NoReturn, Optional

from bridging.access import Access, NoAccess, access_of, add_broker, cluster_name, whole
from bridging.endings import WRONG_WORDS
from bridging.follower import MOST_LINE
from bridging.lines import LEAST_LONGEST, USUAL_LONGEST
from bridging.stores import MOST_LABEL

# a path of a socket has at most so many bytes
MOST_PATH = 107
# what a round's line may say
MOST_EACH = 4294967295


@dataclasses.dataclass(frozen=True)
class Settings:
    """Intervals and waits are seconds."""

    cluster: str
    number: int
    access: Access
    store: Optional[pathlib.Path]
    journal: Optional[pathlib.Path]
    salvages: bool
    is_confirmed: bool
    cut_count: int
    cut_interval: float
    state_interval: float
    refresh: float
    queue: int
    connect_wait: float
    claim_wait: float
    ack_wait: float
    follower_wait: float
    end_wait: float
    stays: bool
    listen: Optional[str]
    longest_line: int
    renew_after: int
    rounds: Optional[float]
    each: Optional[int]
    writers: Optional[list[int]]
    program: Optional[str]
    is_json: bool
    is_traced: bool
    report: float


def seconds(least: float) -> Callable[[str], float]:
    """Reads a number of seconds, to a day."""
    def read(text: str) -> float:
        try:
            value = float(text)
        except ValueError:
            value = -1.0
        if not least <= value <= 86400:
            raise argparse.ArgumentTypeError(f"{text!r} is no number of seconds from {least:g} to 86400")
        return value
    return read


def positive_seconds(text: str) -> float:
    """A number of seconds above 0, to a day."""
    value = seconds(0)(text)
    if value == 0:
        raise argparse.ArgumentTypeError(f"{text!r} is not above 0")
    return value


def numbers(text: str) -> list[int]:
    """Numbers of coordinators, separated by commas, none twice."""
    found = [whole(1, 64)(part) for part in text.split(",")]
    if len(set(found)) < len(found):
        raise argparse.ArgumentTypeError(f"{text!r} has a number twice")
    return found


class Words(argparse.ArgumentParser):
    """A parser that says in one line what is wrong."""

    def error(self, message: str) -> NoReturn:
        self.exit(WRONG_WORDS, f"bridge: {message} (bridge --help has the words)\n")


DESCRIPTION = """\
Runs coordinator N of a cluster, and exchanges packets with the other coordinators over an MQTT broker.

Lines of `firmament follow` come on standard input and are answered on standard output: a tell, a take, a round, a
question, or a cut of all that is known. The bridge does the rest itself, and refuses lines that ask for it by 16.
"""
STATUSES = """\
Statuses: 0 all was sent; 2 wrong words; 10 no paho-mqtt; 11 no program; 12 no broker; 13 the broker refuses;
14 the number is taken; 15 the follower ended, or does not answer; 16 the store, or an old journal, failed; 17 not all is known to be sent;
18 answers could not be written, or were not read; 19 no socket for clients. docs/several-machines.md says what `ok` guarantees, and
what the topics are.

Bounds of what waits, in bytes: lines that were read, 128 MiB of standard input and as much of all clients, and of lines that have no end
yet 64 MiB each, and of each client the longest line that it may send; answers that wait to be confirmed, and that wait to be read by one
reader, 16 MiB each and one answer; answers that are worked out at once, 4 MiB and one answer; packets that came, and packets for the
broker, 64 MiB each and one packet; what is said on standard error, 1 MiB. Beyond these bounds no lines are read, a client that does not
read is cut off, packets are left to a state, and what would be said is counted and left out. There are at most 64 clients at once.
"""
# names of times and counts, how each is read, what it is if it is not given, and what it is for
TIMES: tuple[tuple[str, Callable[[str], float], float, str], ...] = (
    ("--cut-count", whole(1, 100000), 1000, "cuts a packet after so many lines"),
    ("--cut-interval", seconds(0), 0.2, "or once a line waits so long"),
    ("--state-interval", seconds(0), 5, "sends all that is known once there is news and the last state is so old"),
    ("--refresh", seconds(0.1), 60, "asks the broker after so long which states it keeps, and fetches what is new"),
    ("--queue", whole(1, 30000), 1000, "so many packets wait at most, in and out each"),
    ("--connect-wait", seconds(0.1), 10, "so long for the first connection, for the follower to begin, and for the store to be free"),
    ("--claim-wait", seconds(0), 1, "so long for another bridge with the number to answer"),
    ("--ack-wait", seconds(0.1), 20, "so long for the broker to acknowledge"),
    ("--follower-wait", seconds(0.1), 600, "so long for the follower to answer a line; behind a signal, --end-wait"),
    ("--end-wait", seconds(0), 20, "so long to send what is left in the end, and for each next part of the answers to be read"),
    ("--renew-after", whole(1, 800000), 100000, "renews the coordinator after so many entries of its history"),
    ("--report", seconds(0), 0, "says all counts so often; in the end alone if it is 0"))


def parser() -> argparse.ArgumentParser:
    words = Words(prog="bridge", description=DESCRIPTION, epilog=STATUSES, allow_abbrev=False,
                  formatter_class=argparse.RawDescriptionHelpFormatter)
    words.add_argument("--cluster", required=True, type=cluster_name, metavar="NAME", help="the cluster")
    words.add_argument("--number", required=True, type=whole(1, 64), metavar="N", help="the coordinator, from 1 to 64")
    add_broker(words.add_argument_group("the broker"))
    kept = words.add_argument_group("what is kept")
    kept.add_argument("--store", type=pathlib.Path, metavar="FILE",
                      help="answers ok once what a line changed is in this file on the disk; started with it, goes on from there")
    kept.add_argument("--journal", type=pathlib.Path, metavar="OLD",
                      help="takes the journal of an earlier version over into the store, once, and renames it to OLD.taken")
    kept.add_argument("--salvage", action="store_true", dest="salvages",
                      help="takes what stands before the damage of a damaged journal, and renames it to OLD.damaged")
    kept.add_argument("--confirmed", action="store_true", dest="is_confirmed",
                      help="answers ok once a state with the line came back from the broker, which was seen to keep one")
    times = words.add_argument_group("times, in seconds, and counts")
    for name, read, value, about in TIMES:
        times.add_argument(name, type=read, default=value, metavar="X", help=f"{about} ({value:g})")
    add_rounds(words.add_argument_group("rounds"))
    other = words.add_argument_group("other")
    other.add_argument("--stay", action="store_true", dest="stays",
                       help="goes on at the end of standard input, until SIGTERM, SIGINT or SIGHUP")
    other.add_argument("--listen", metavar="PATH",
                       help="takes clients on a Unix socket at PATH (mode 0660), each with lines and answers of its own, and goes on at "
                            "the end of standard input")
    other.add_argument("--longest-line", type=whole(LEAST_LONGEST, MOST_LINE), metavar="BYTES",
                       help=f"a longer line of a client is refused, unless it is a take ({USUAL_LONGEST}); a take, and a line of standard "
                            f"input, may have {MOST_LINE}")
    other.add_argument("--json", action="store_true", dest="is_json",
                       help="says on standard error what it does as JSON, an object a line")
    other.add_argument("--trace", action="store_true", dest="is_traced",
                       help="says of each packet when its lines were answered and when it was taken in, and of each state what it took")
    other.add_argument("--program", metavar="FILE", help="the program `firmament` (what bin/firmament runs)")
    return words


def add_rounds(words: argparse._ArgumentGroup) -> None:
    words.add_argument("--rounds", type=positive_seconds, metavar="SECONDS",
                       help="runs rounds of the tasks whose writer is N once something changed, and waits so long after each series")
    words.add_argument("--each", type=whole(1, MOST_EACH), metavar="M", help="these rounds place at most so many tasks each on one machine")
    words.add_argument("--writers", type=numbers, metavar="LIST",
                       help="these rounds are of the tasks whose writers are listed, as in 1,3, in place of N alone")


def wrong_store(asked: dict[str, Any]) -> str:
    """What is wrong with the words about what is kept, or nothing."""
    if asked["salvages"] and asked["journal"] is None:
        return "--salvage is of a journal, which --journal names"
    if asked["journal"] is not None and asked["store"] is None:
        return "--journal names a journal of an earlier version, which is taken over into a store: give --store FILE too"
    if asked["store"] is not None and len(asked["cluster"].encode()) > MOST_LABEL:
        return f"--store wants a name of the cluster of at most {MOST_LABEL} bytes, since it is the store's label"
    return ""


def read_settings(given: Sequence[str]) -> Settings:
    """The settings that the words ask for. Wrong words end the process with status 2 and a line."""
    words = parser()
    asked = vars(words.parse_args(given))
    try:
        access = access_of(asked, "--")
    except NoAccess as why:
        words.error(str(why))
    if wrong := wrong_store(asked):
        words.error(wrong)
    if asked["rounds"] is None and (asked["each"] is not None or asked["writers"] is not None):
        words.error("--each and --writers are of rounds, which --rounds asks for")
    if asked["listen"] is not None and not 0 < len(os.fsencode(asked["listen"])) <= MOST_PATH:
        words.error(f"--listen wants a path of 1 to {MOST_PATH} bytes")
    if asked["listen"] is None and asked["longest_line"] is not None:
        words.error("--longest-line is of clients, which --listen asks for")
    asked["longest_line"] = asked["longest_line"] or USUAL_LONGEST
    asked["stays"] = asked["stays"] or asked["listen"] is not None
    return Settings(access=access, **asked)
