"""Digests of states, which the broker keeps beside the states: by them a bridge knows which states say something new, and fetches
these alone."""
import dataclasses
import json
from collections.abc import Callable
from typing import Optional

from bridging.packets import NUMBERS, Coverage

# a message with a digest has at most so many bytes; a digest has so many digits
MOST_TEXT, DIGITS = 200, 32


@dataclasses.dataclass(frozen=True)
class Digest:
    """What a state says, whoever sent it, as a digest (packets.content_of); and the number of the state's packet."""

    content: bytes
    number: int

    def text(self) -> bytes:
        """The message that the broker keeps."""
        return json.dumps({"digest": self.content.hex(), "number": self.number}).encode()


def digest_in(text: bytes) -> Digest:
    """The digest that a message has. A ValueError says that it has none."""
    try:
        value = json.loads(text) if len(text) <= MOST_TEXT else None
        digits, number = value["digest"], value["number"]
        if not (isinstance(digits, str) and len(digits) == DIGITS and isinstance(number, int) and 0 <= number < 1 << 64):
            raise ValueError("no digest")
        return Digest(bytes.fromhex(digits), number)
    except (TypeError, KeyError, RecursionError) as why:
        raise ValueError("no digest") from why


@dataclasses.dataclass
class _Source:
    """The last digest of a coordinator on this connection, whether it came when it was published rather than kept, and whether it says
    something new. Whether a state came since something may be missing; if not, the digest may be in doubt. Whether the state that the
    broker keeps was refused."""

    digest: Optional[Digest] = None
    is_live: bool = False
    is_wanted: bool = False
    is_checked: bool = False
    is_doubted: bool = False
    is_spoiled: bool = False


class Sources:
    """Whose states are to come from the broker.

    A state whose digest says something new is fetched; of several that say the same, one. A coordinator without a digest, as of a bridge
    that publishes none, is listened to as long as something may be missing from it. A digest may be older than its state, since an
    older bridge took the number: so at each refresh the state of a coordinator from which something may be missing is fetched once,
    and a digest that does not fit it is not believed until there is another.

    A state that the broker keeps and that was refused is not fetched again. Its topic is listened to until another comes."""

    def __init__(self, coverage: Coverage, is_known: Callable[[bytes], bool]) -> None:
        self._coverage, self._is_known = coverage, is_known
        self._sources = {number: _Source() for number in NUMBERS}

    def hear(self, sender: int, digest: Digest, was_kept: bool) -> bool:
        """A digest of a state came. Whether the state says something new."""
        source = self._sources[sender]
        source.digest, source.is_live = digest, not was_kept or (source.is_live and source.digest == digest)
        is_covered = not was_kept and self._coverage.is_covered(sender, digest.number)
        source.is_wanted = not (is_covered or self._is_known(digest.content))
        if source.is_wanted and not was_kept:
            self._coverage.missed(sender)
        elif not was_kept:
            self._coverage.reached(sender, digest.number)
        return source.is_wanted

    def came(self, sender: int, content: bytes, was_kept: bool) -> None:
        """A state came, with which its digest fits or not."""
        source = self._sources[sender]
        source.is_checked, source.is_doubted, source.is_spoiled = True, False, source.is_spoiled and was_kept
        if source.digest is not None and source.digest.content != content and not source.is_live:
            source.digest = None
        if source.digest is None or source.digest.content == content:
            self._settle(sender, source)

    def _settle(self, sender: int, source: _Source) -> None:
        """What the digest of a coordinator says is known."""
        source.is_wanted = False
        if source.digest is not None and source.is_live:
            self._coverage.reached(sender, source.digest.number)

    def news(self, sender: int, number: Optional[int]) -> None:
        """A packet of the sender's news was taken in."""
        self._coverage.news(sender, number)
        if sender in self._coverage.missing():
            self.missed(sender)

    def missed(self, sender: int) -> None:
        """A packet of the sender was not taken in, or may be missing. Until the next digest comes, the last one may be old."""
        self._coverage.missed(sender)
        self._sources[sender].is_checked = self._sources[sender].is_live = False

    def spoiled(self, sender: int) -> None:
        """The state of the sender that the broker keeps was refused, or is too large."""
        self._sources[sender].is_spoiled = True

    def unheard(self, sender: int, is_state: bool) -> None:
        """A packet or a state of the sender was not heard."""
        self.missed(sender)
        if is_state:
            self._sources[sender].is_spoiled = False

    def settled(self) -> set[int]:
        """The numbers of those whose states are listened to, and not fetched again."""
        return {number for number, source in self._sources.items() if source.is_spoiled}

    def refresh(self) -> None:
        """States from which something may be missing are looked at once, whatever their digests say."""
        missing = self._coverage.missing()
        for number, source in self._sources.items():
            source.is_doubted = number in missing and not source.is_checked and not source.is_spoiled

    def forget(self) -> None:
        """The connection was lost, so packets may be missing of all."""
        self._coverage.forget()
        self._sources = {number: _Source() for number in NUMBERS}

    def numbers(self) -> set[int]:
        """The numbers of those whose states are to come."""
        found, first = self.settled(), dict[bytes, int]()
        missing = self._coverage.missing()
        for number, source in self._sources.items():
            if source.digest is None or source.is_doubted:
                found |= {number} & missing
            elif source.is_wanted and source.is_live and self._is_known(source.digest.content):
                self._settle(number, source)
            elif source.is_wanted:
                found.add(first.setdefault(source.digest.content, number))
        return found
