"""Packets as a bridge sees them: bytes whose head names a version, a sender and a number. All else in them is for
the follower to judge."""
import collections
import dataclasses
import hashlib
import struct
from typing import Optional

# the numbers of coordinators
NUMBERS = range(1, 65)
HEAD = struct.Struct(">4sBQ")
# so many packets are remembered as taken in
MOST_SEEN = 4096


def digest_of(packet: bytes) -> bytes:
    return hashlib.blake2b(packet, digest_size=16).digest()


def content_of(packet: bytes) -> bytes:
    """The digest of what a packet says, whatever its sender and its number."""
    return digest_of(packet[:4] + packet[HEAD.size:])


def number_of(packet: bytes) -> Optional[int]:
    """How many packets its sender had cut, by the head; None if there is no head."""
    return HEAD.unpack_from(packet)[2] if len(packet) >= HEAD.size else None


def is_empty(packet: bytes) -> bool:
    """Whether a packet has no record: its head is then followed by counts of 0 alone."""
    return not any(packet[HEAD.size:])


class Seen:
    """The packets that came or went last, by their digests."""

    def __init__(self) -> None:
        self._digests: collections.OrderedDict[bytes, None] = collections.OrderedDict()

    def __contains__(self, digest: bytes) -> bool:
        return digest in self._digests

    def add(self, digest: bytes) -> None:
        self._digests[digest] = None
        self._digests.move_to_end(digest)
        if len(self._digests) > MOST_SEEN:
            self._digests.popitem(last=False)

    def remove(self, digest: bytes) -> None:
        self._digests.pop(digest, None)


@dataclasses.dataclass
class _Heard:
    """What came from one coordinator: the number behind which its next news is to come, and whether nothing is
    missing up to there."""

    last: int = 0
    is_current: bool = False


class Coverage:
    """From whom packets are missing, and which states need not be taken in, since all that they say came in other
    packets.

    A coordinator's news has odd numbers, one after another, and a state behind news has the next number. So news
    that does not follow says that something is missing. From then on the sender's states are asked for, until one comes
    that was sent meanwhile. The states that the broker kept may be older. They come when they are asked for, and
    then all are taken in that say something new, whatever the numbers are: so a wrong number makes a state wait
    until then, and no longer."""

    def __init__(self) -> None:
        self._heard: dict[int, _Heard] = collections.defaultdict(_Heard)

    def news(self, sender: int, number: Optional[int]) -> None:
        """A packet of the sender's news was taken in."""
        heard = self._heard[sender]
        heard.is_current = heard.is_current and number == heard.last + 1
        heard.last += 2

    def missed(self, sender: int) -> None:
        """A packet of the sender was not taken in."""
        self._heard[sender].is_current = False

    def is_covered(self, sender: int, number: int) -> bool:
        """Whether a state of the sender that was sent just now, with the number, says nothing that did not come before."""
        heard = self._heard[sender]
        return heard.is_current and number == heard.last

    def reached(self, sender: int, number: int) -> None:
        """All that a state of the sender says, with the number, is known."""
        heard = self._heard[sender]
        heard.last, heard.is_current = number, True

    def covers(self, sender: int, number: Optional[int], was_kept: bool) -> bool:
        """Whether a state of the sender says nothing that did not come before."""
        if was_kept or number is None:
            return False
        is_covered = self.is_covered(sender, number)
        self.reached(sender, number)
        return is_covered

    def missing(self) -> set[int]:
        """The numbers of those from whom something may be missing."""
        return {number for number in NUMBERS if not self._heard[number].is_current}

    def forget(self) -> None:
        """The connection was lost, so packets may be missing of all."""
        self._heard.clear()
