"""What goes out: packets of a coordinator's own news, and states, which are packets of all that it knows and are
kept by the broker."""
import dataclasses
import time
from typing import Optional

from bridging.broker import Broker
from bridging.digests import Digest
from bridging.mailbox import MOST_BYTES, Message
from bridging.packets import Seen, content_of, digest_of, number_of
from bridging.settings import Settings
from bridging.telling import Counts, Telling


@dataclasses.dataclass(frozen=True)
class InFlight:
    """A state that was sent and is not known to be kept: its digest and that of what it says, how many accepted lines
    it has, and when. Whether it came back, so that the kept copy was asked for."""

    digest: bytes
    content: bytes
    accepted: int
    sent: float
    is_asked_for: bool = False


class Outbox:
    """Packets of news are sent once; they are not acknowledged by who takes them in, and not sent again. A state
    says all that they say, so if one cannot be sent it is left to the state.

    A state that comes back was relayed, and may not be kept. So the first one of each connection is asked for again, and is
    known to be kept once the broker sends it as one that it kept. Later ones are believed to be kept once they came back, until
    the next refresh finds another or none."""

    def __init__(self, broker: Broker, settings: Settings, counts: Counts, telling: Telling, most_packet: int) -> None:
        self._broker, self._settings, self._counts, self._telling = broker, settings, counts, telling
        self._most_packet = most_packet
        # when what the broker did not acknowledge yet was sent, and how many bytes it has
        self._waiting: dict[Message, tuple[float, int]] = {}
        self._bytes = 0
        self._sent, self._said = Seen(), Seen()
        self._in_flight: Optional[InFlight] = None
        self._kept: Optional[bytes] = None
        self._due: Optional[float] = None
        self._last_time = -settings.state_interval
        self.last_state: Optional[bytes] = None
        self.digest: Optional[Digest] = None
        self.is_stale, self.is_too_large, self.confirmed = False, False, 0
        self._has_left = self._is_retaining = False

    # news

    def send_news(self, packet: bytes) -> None:
        if self._has_room() and len(packet) <= self._most_packet:
            self._has_left = False
            self._sent.add(digest_of(packet))
            self._publish("deltas", packet)
            self._counts.sent += 1
            self._counts.sent_bytes += len(packet)
        else:
            # the number that is missing tells the others, with the next news, that something is
            self._has_left = True
            self._counts.left_to_state += 1
        self.is_stale = True

    def _has_room(self) -> bool:
        return self._broker.is_connected and len(self._waiting) < self._settings.queue and self._bytes < MOST_BYTES

    def _publish(self, kind: str, packet: bytes) -> None:
        self._waiting[self._broker.publish(kind, packet)] = time.monotonic(), len(packet)
        self._bytes += len(packet)

    def is_unheard_of(self) -> bool:
        """Whether news was left to a state that the broker now keeps, and others do not know yet that they miss
        something."""
        return self._has_left and self._in_flight is None and self._due is None and self._has_room()

    def want_news(self) -> None:
        """There is news, which is to be in a state in time."""
        self.want_state(self._settings.cut_interval if self._settings.is_confirmed else self._settings.state_interval)

    def is_own(self, digest: bytes) -> bool:
        """Whether a packet was sent from here."""
        return digest in self._sent

    def acknowledge(self, messages: list[Message]) -> None:
        for message in messages:
            self._bytes -= self._waiting.pop(message, (0.0, 0))[1]

    # states

    def want_state(self, interval: float, delay: float = 0) -> None:
        """Makes a state due once so much time went by since the last, and so much from now."""
        at = max(time.monotonic() + delay, self._last_time + interval)
        self._due = at if self._due is None else min(self._due, at)

    def is_state_due(self) -> bool:
        return self._due is not None and self._due <= time.monotonic() and self._in_flight is None

    def send_state(self, packet: bytes, accepted: int) -> bool:
        """Sends a state that has the first so many accepted lines, if the broker does not keep one that says the
        same. False if no line can hand it over."""
        now, content = time.monotonic(), content_of(packet)
        self._due, self._last_time, self.is_stale = None, now, False
        self.is_too_large = len(packet) > self._most_packet
        if self.is_too_large:
            return False
        if content == self._kept:
            self.confirmed = max(self.confirmed, accepted)
            return True
        self.digest, self.last_state = Digest(content, number_of(packet) or 0), digest_of(packet)
        self._sent.add(self.last_state)
        self._said.add(content)
        # the digest goes first: one that is newer than the state that is kept costs a look at the state, one that is older would hide it
        self.send_digest()
        self._publish("state", packet)
        self._in_flight = InFlight(self.last_state, content, accepted, now)
        self._counts.states_sent += 1
        self._counts.states_sent_bytes += len(packet)
        return True

    def send_digest(self) -> None:
        """Sends the digest of the last state, which comes to those that connected meanwhile as one that is not old."""
        if self.digest is not None and self._broker.is_connected:
            self._publish("digest", self.digest.text())

    def says(self, content: bytes) -> bool:
        """Whether a state was sent from here that said the same."""
        return content in self._said

    def came_back(self, digest: bytes, was_kept: bool) -> None:
        """A state on the coordinator's own topic came from the broker, which kept it or relayed it."""
        state = self._in_flight
        if state is None or digest != state.digest:
            if digest != self.last_state:
                self._kept = None
        elif was_kept or self._is_retaining:
            self._is_retaining = True
            self.confirmed, self._kept = max(self.confirmed, state.accepted), state.content
            self._in_flight = None
        elif not state.is_asked_for:
            self._in_flight = dataclasses.replace(state, is_asked_for=True)
            self._broker.ask_for_own_state()

    def is_gone(self) -> None:
        """The broker does not keep the state that was sent last."""
        self._kept, self.is_stale, self._is_retaining = None, True, False
        self.want_state(0)

    # what goes wrong

    def lost(self) -> None:
        """The connection is no more: what it did not carry is left to the next state. The claim of the next connection
        tells the others that something may be missing."""
        if self._waiting or self._in_flight is not None or self.is_stale:
            self.is_stale = True
            self.want_state(0)
        self._counts.unacknowledged += len(self._waiting)
        self._waiting.clear()
        self._bytes = 0
        self._in_flight, self._is_retaining = None, False

    def is_stuck(self) -> bool:
        """Whether the broker did not acknowledge something in time."""
        oldest = next(iter(self._waiting.values()), None)
        return oldest is not None and time.monotonic() - oldest[0] > self._settings.ack_wait

    def is_unkept(self) -> bool:
        """Whether a state was sent and is not known to be kept in time; it is then sent again."""
        if self._in_flight is None or time.monotonic() - self._in_flight.sent <= self._settings.ack_wait:
            return False
        self._in_flight = None
        self.want_state(self._settings.ack_wait)
        return True

    def is_empty(self) -> bool:
        """Whether all is known to be with the broker."""
        return not (self._waiting or self._in_flight or self._due or self.is_stale or self.is_too_large)

    def next_time(self) -> float:
        """When a state can be sent, if nothing changes."""
        return self._due if self._due is not None and self._in_flight is None else float("inf")
