"""What the thread of a connection hands to the thread of the bridge, with a bound on what waits."""
import collections
import dataclasses
import itertools
import threading
import time
from typing import Optional

from bridging.digests import Digest
from bridging.packets import NUMBERS
from bridging.turns import Source

# what waits has at most so many bytes, whatever the bound on its count
MOST_BYTES = 1 << 26
# a message that was sent: by which connection, and its number there
Message = tuple[int, int]


@dataclasses.dataclass(frozen=True)
class Parcel:
    """A packet that came: of whose topic, whether it is a state, and whether the broker had kept it. Or no packet, and the
    digest of a state."""

    sender: int
    packet: bytes
    is_state: bool
    was_kept: bool
    digest: Optional[Digest] = None

    @property
    def source(self) -> Source:
        """By what it is heard or not."""
        return self.sender, self.is_state


@dataclasses.dataclass
class Mail:
    """What came since it was last collected, but for packets: the messages of one's own that the broker acknowledged; from whom a
    packet was dropped, or not heard; whose kept state is too large, with its bytes; how many packets were too large, or of no sender;
    and what is to be said."""

    acknowledged: list[Message] = dataclasses.field(default_factory=list)
    dropped: collections.Counter[int] = dataclasses.field(default_factory=collections.Counter)
    unheard: collections.Counter[Source] = dataclasses.field(default_factory=collections.Counter)
    spoiled: dict[int, int] = dataclasses.field(default_factory=dict)
    too_large: int = 0
    strange: int = 0
    notes: list[str] = dataclasses.field(default_factory=list)


class Mailbox:
    """Mail is put in by one thread and collected by another. If too much waits, what comes then is dropped and
    counted: the states that the broker keeps have it, so it is not lost. So is what comes of a sender that is not heard for a time."""

    def __init__(self, wake: threading.Condition, most: int, most_packet: int) -> None:
        self._wake, self._most, self._most_packet = wake, most, most_packet
        self._mail, self._bytes, self._count = Mail(), 0, 0
        # by number, or by sender if it is a state or a digest: a later one of a sender takes the place of one that still waits
        self._parcels: dict[tuple[str, int], Parcel] = {}
        # until when who is not heard
        self._shut: dict[Source, float] = {}

    def put(self, parcel: Parcel) -> None:
        size = len(parcel.packet)
        with self._wake:
            self._count += 1
            key = ("state", parcel.sender) if parcel.is_state else ("news", self._count)
            if size > self._most_packet:
                self._mail.too_large += 1
                if parcel.is_state and parcel.was_kept:
                    self._mail.spoiled[parcel.sender] = size
            elif size and time.monotonic() < self._shut.get(parcel.source, 0.0):
                self._mail.unheard[parcel.source] += 1
                return
            # a state that is taken away from the broker comes as no bytes
            elif size:
                old = self._parcels.pop(key, None)
                self._bytes -= len(old.packet) if old else 0
                if len(self._parcels) < self._most and self._bytes + size <= MOST_BYTES:
                    self._parcels[key] = parcel
                    self._bytes += size
                else:
                    self._mail.dropped[parcel.sender] += 1
            self._wake.notify_all()

    def put_digest(self, sender: int, digest: Digest, was_kept: bool) -> None:
        with self._wake:
            key = "digest", sender
            old = self._parcels.pop(key, None)
            was_kept = was_kept and not (old is not None and old.digest == digest and not old.was_kept)
            self._parcels[key] = Parcel(sender, b"", False, was_kept, digest)
            self._wake.notify_all()

    def put_strange(self) -> None:
        with self._wake:
            self._mail.strange += 1

    def put_acknowledged(self, message: Message) -> None:
        with self._wake:
            self._mail.acknowledged.append(message)
            self._wake.notify_all()

    def note(self, text: str) -> None:
        """Something to be said."""
        with self._wake:
            if len(self._mail.notes) < 100:
                self._mail.notes.append(text)
            self._wake.notify_all()

    def nudge(self) -> None:
        """Something else happened that the bridge is to look at."""
        with self._wake:
            self._wake.notify_all()

    def load(self) -> float:
        """How full it is, from 0 to 1."""
        return max(len(self._parcels) / self._most, self._bytes / MOST_BYTES)

    def has_news(self) -> bool:
        """Whether something other than packets is there."""
        return bool(self._mail.acknowledged or self._mail.dropped or self._mail.notes)

    def has_packets(self) -> bool:
        return bool(self._parcels)

    def is_waiting_from(self, sender: int) -> bool:
        """Whether a state of the sender waits, or the digest of one."""
        return ("state", sender) in self._parcels or ("digest", sender) in self._parcels

    def collect(self) -> Mail:
        """What came but for packets, which stay."""
        with self._wake:
            mail, self._mail = self._mail, Mail()
            return mail

    def take(self, most: int, most_bytes: int) -> list[Parcel]:
        """The next packets: at most so many, and of so many bytes together if it is not one alone. Digests of states do not count."""
        taken: list[Parcel] = []
        with self._wake:
            count = size = 0
            for key, parcel in list(itertools.islice(self._parcels.items(), most + len(NUMBERS))):
                count += parcel.digest is None
                size += len(parcel.packet)
                if taken and (count > most or size > most_bytes):
                    break
                taken.append(self._parcels.pop(key))
            self._bytes -= sum(len(parcel.packet) for parcel in taken)
        return taken

    def unheard_states(self) -> set[int]:
        """The numbers of those whose states are not heard now."""
        now = time.monotonic()
        return {sender for (sender, is_state), until in self._shut.items() if is_state and now < until}

    def shut_out(self, source: Source, seconds: float) -> None:
        """A source is not heard for so long, and what waits of it is not either."""
        with self._wake:
            self._shut[source] = time.monotonic() + seconds
            found = [key for key, parcel in self._parcels.items() if parcel.source == source and parcel.digest is None]
            for key in found:
                self._bytes -= len(self._parcels.pop(key).packet)
            if found:
                self._mail.unheard[source] += len(found)
