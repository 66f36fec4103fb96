"""What a bridge says on standard error, for people or for machines, and what it counts."""
import dataclasses
import json
import threading
import time

from bridging.descriptors import Writer, finish_all

# so many bytes wait at most for who reads standard error, and in the end so many seconds
MOST_UNREAD = 1 << 20
LAST_WAIT = 2.0


@dataclasses.dataclass
class Counts:
    """What was done. Bytes are those of packets."""

    told: int = 0
    refused_lines: int = 0
    sent: int = 0
    sent_bytes: int = 0
    states_sent: int = 0
    states_sent_bytes: int = 0
    left_to_state: int = 0
    received: int = 0
    received_bytes: int = 0
    taken: int = 0
    repeated: int = 0
    covered: int = 0
    not_fetched: int = 0
    refused: int = 0
    unheard: int = 0
    dropped: int = 0
    too_large: int = 0
    strange: int = 0
    foreign: int = 0
    unacknowledged: int = 0
    lost_connections: int = 0
    renewals: int = 0
    cut_off: int = 0
    rounds: int = 0
    places: int = 0
    preempts: int = 0

    def text(self) -> str:
        return (f"{self.told} lines told, {self.refused_lines} refused; "
                f"{self.rounds} rounds run, with {self.places} places and {self.preempts} preempts; "
                f"{self.sent} packets ({self.sent_bytes} bytes) and {self.states_sent} states "
                f"({self.states_sent_bytes} bytes) sent, {self.left_to_state} left to a state; "
                f"{self.received} received ({self.received_bytes} bytes): {self.taken} taken in, "
                f"{self.repeated} repeated, {self.covered} known by other packets, "
                f"{self.not_fetched} states known by their digests, {self.refused} refused, {self.unheard} not heard, "
                f"{self.dropped} dropped, {self.too_large} too large, {self.strange} of no coordinator; "
                f"{self.unacknowledged} not acknowledged, {self.lost_connections} connections lost")


class Clocks:
    """How long something takes: the time that goes by, and the processor time of the thread that does it."""

    def __init__(self) -> None:
        self._began, self._worked = time.monotonic(), time.thread_time()

    def passed(self) -> dict[str, float]:
        """In seconds."""
        return {"seconds": round(time.monotonic() - self._began, 6), "processor": round(time.thread_time() - self._worked, 6)}


class Telling:
    """Says events: as a line behind the bridge's name, or as a JSON object with `event`, `time` and what belongs to
    it. If nobody reads them, at most so many bytes wait, and further lines are counted and left out."""

    def __init__(self, number: int, is_json: bool, descriptor: int = 2) -> None:
        self._number, self._is_json, self._left_out = number, is_json, 0
        self._writer = Writer(descriptor, threading.Condition())

    def say(self, event: str, text: str, **more: object) -> None:
        if self._writer.unread >= MOST_UNREAD:
            self._left_out += 1
            return
        if self._left_out:
            left_out, self._left_out = self._left_out, 0
            self.say("left_out", f"{left_out} lines were left out, since nobody read what was said", lines=left_out)
        if self._is_json:
            value = {"time": round(time.time(), 6), "bridge": self._number, "event": event, "text": text, **more}
            line = json.dumps(value)
        else:
            line = f"bridge {self._number}: {text}"
        self._writer.put(line.encode(errors="backslashreplace") + b"\n")

    def count(self, event: str, counts: Counts) -> None:
        self.say(event, counts.text(), counts=dataclasses.asdict(counts))

    def close(self) -> None:
        """Waits for what was said to be written, if it is read."""
        finish_all([self._writer], LAST_WAIT)
