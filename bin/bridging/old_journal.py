"""The journal of an earlier version, which is read, and taken over into a store. Nothing writes journals any more.

A journal has a head, which names cluster and coordinator, and behind it lines of a stream, each of which was accepted: operations and
packets that were told, and packets that say what rounds came to. In one that was rewritten the first of them is a packet of all that was
known by then (`take`). The lines of both forms are told in the same way.
"""
import contextlib
import dataclasses
import fcntl
import itertools
import json
import os
import pathlib
from collections.abc import Callable, Iterator, Sequence
from typing import Optional

from bridging.coordinator import AT_ONCE, Coordinator
from bridging.endings import STORE_FAILED, Failure
from bridging.follower import is_accepted
from bridging.settings import Settings

# how a line is answered that is not what was written: no JSON, no packet, or a field out of its range
DAMAGED = (b"refusal 16\n", b"refusal 6\n", b"refusal 2\n")
SALVAGE = "--salvage takes what stands before it, and puts the damaged file aside"


@dataclasses.dataclass(frozen=True)
class Taken:
    """How many lines were taken over, what the file is called from then on, and what is damaged, if something is."""

    lines: int
    file: pathlib.Path
    damage: str


class OldJournal:
    """The lines of a journal. A last one without its line feed was not written whole, so it was never answered, and is left out."""

    def __init__(self, path: pathlib.Path, cluster: str, number: int) -> None:
        self._path, self.damage = path, ""
        found = path.read_bytes().split(b"\n")[:-1]
        self.lines = found[1:]
        if found and found[0] != json.dumps({"fetohamu": "journal", "cluster": cluster, "number": number}).encode():
            if is_head(found[0]):
                raise Failure(STORE_FAILED, f"{path} is no journal of this cluster and number")
            self.lines, self.damage = [], f"{path} is no journal of this cluster and number, or its head is damaged"

    def drop_damaged(self, trial: Coordinator) -> None:
        """Drops the lines from the first on that is damaged. A coordinator without a store is told them, so that no line behind a damage
        gets into the store. A line that is refused for another cause is no damage, and ends the bridge."""
        told, answer = tell_accepted(trial, self.lines)
        if answer is not None:
            self.lines, self.damage = self.lines[:told], refused(told, answer)
            if answer not in DAMAGED:
                raise Failure(STORE_FAILED, self.damage)

    def put_away(self, mark: str) -> pathlib.Path:
        """Renames the file, so that it is not told again, to a name that no file has. Answers the name."""
        names = itertools.chain([f"{self._path}.{mark}"], (f"{self._path}.{mark}-{count}" for count in itertools.count(2)))
        name = pathlib.Path(next(name for name in names if not os.path.lexists(name)))
        self._path.rename(name)
        sync_folder(name.parent)
        return name


def take_over(asked: Settings, trial: Callable[[], Coordinator], kept: Coordinator) -> Optional[Taken]:
    """Tells the lines of the journal that is asked for to the coordinator with the store, and renames the file. None if there is no
    file, as when it was taken over before. If the process is killed before the file is renamed, all is told again. That changes nothing
    that is known, since operations and packets are idempotent."""
    if asked.journal is None:
        return None
    path = pathlib.Path(os.path.realpath(asked.journal))
    try:
        if not is_there(path):
            return None
        with locked(path):
            return taken_over(OldJournal(path, asked.cluster, asked.number), asked.salvages, trial, kept)
    except BlockingIOError:
        raise Failure(STORE_FAILED, f"the journal {path} is in use by another process") from None
    except OSError as why:
        raise Failure(STORE_FAILED, f"the journal {path} cannot be used: {why.strerror}") from None


def taken_over(journal: OldJournal, salvages: bool, trial: Callable[[], Coordinator], kept: Coordinator) -> Taken:
    with contextlib.closing(trial()) as coordinator:
        journal.drop_damaged(coordinator)
    if journal.damage and not salvages:
        raise Failure(STORE_FAILED, f"{journal.damage} ({SALVAGE})")
    told, answer = tell_accepted(kept, journal.lines)
    if answer is not None:
        raise Failure(STORE_FAILED, refused(told, answer))
    return Taken(told, journal.put_away("damaged" if journal.damage else "taken"), journal.damage)


def tell_accepted(coordinator: Coordinator, lines: Sequence[bytes]) -> tuple[int, Optional[bytes]]:
    """Tells lines until one is not accepted. Answers how many were, and how the next one was answered, if there is one."""
    told = 0
    while told < len(lines):
        answers, _ = coordinator.tell(lines[told:told + AT_ONCE])
        for answer in answers:
            if not is_accepted(answer):
                return told, answer
            told += 1
    return told, None


def refused(told: int, answer: bytes) -> str:
    """What is said of the line behind so many that were told. The head is the first line."""
    return f"line {told + 2} of the journal is answered by {answer.decode().strip()}"


def is_there(path: pathlib.Path) -> bool:
    """Whether there is a file. An OSError says that this cannot be seen."""
    try:
        path.stat()
    except FileNotFoundError:
        return False
    return True


def sync_folder(folder: pathlib.Path) -> None:
    """What files are called there is on the disk."""
    opened = os.open(folder, os.O_RDONLY)
    try:
        os.fsync(opened)
    finally:
        os.close(opened)


@contextlib.contextmanager
def locked(path: pathlib.Path) -> Iterator[None]:
    """Keeps other bridges off the journal, also those of earlier versions, by a lock on the file FILE.lock."""
    lock = os.open(f"{path}.lock", os.O_RDWR | os.O_CREAT, 0o600)
    try:
        fcntl.flock(lock, fcntl.LOCK_EX | fcntl.LOCK_NB)
        yield
    finally:
        os.close(lock)


def is_head(line: bytes) -> bool:
    """Whether a line is the head of a journal, of whatever cluster and number."""
    try:
        value = json.loads(line)
    except (ValueError, RecursionError):
        return False
    return isinstance(value, dict) and value.get("fetohamu") == "journal"
