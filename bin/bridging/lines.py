"""Lines from an operator or a feeder: what each may ask for, and the thread that reads them."""
import collections
import enum
import itertools
import json
import math
import re
import threading
from typing import Optional

from bridging.descriptors import PIECE, read_piece
from bridging.follower import MOST_LINE
from bridging.sketches import sketch_of

# so many lines, and bytes, wait at most; then nothing more is read until some were told
MOST_WAITING, MOST_BYTES = 4096, 2 * MOST_LINE
# a line of a client has at most so many bytes if nothing else is said, if it hands no packet over; and whatever is said, at least so many
USUAL_LONGEST, LEAST_LONGEST = 1 << 20, 1000


class Kind(enum.Enum):
    """What a line asks for, as far as the bridge has to know."""

    TELL = "an operation or a packet, which adds a delta if it is accepted"
    ROUND = "a round, which adds a delta if it is accepted"
    CUT = "a cut of all that is known, which adds no delta, and takes the number of a packet"
    QUESTION = "a question, which adds nothing"
    OURS = "what the bridge does itself, and nobody else may"
    CHECK_OF_OURS = "whether such a line would be accepted: it is refused"
    STRANGE = "nothing, so the follower refuses it"


KINDS = {"tell": Kind.TELL, "take": Kind.TELL, "round": Kind.ROUND, "relieve": Kind.ROUND,
         **dict.fromkeys(("coordinators", "cut", "deliver", "news", "renew", "trim"), Kind.OURS)}
# what questions have beside the number of the coordinator
QUESTIONS = {"ask"}, {"ask", "task"}, {"ask", "of"}, {"ask", "job"}, {"ask", "machine", "incarnation"}
# all names that decide of what kind a line is
NAMES = frozenset({"at", "line", "mine", *KINDS, *set().union(*QUESTIONS)})
# numbers stay texts, since those of too many digits are no `int` here and may be ignored by the follower
DECODER = json.JSONDecoder(parse_int=str, parse_float=str)
# a line of more bytes is not decoded: its values could take twenty times as many
SHORT = 1 << 20


def kind_of(line: bytes) -> Kind:
    """The kind of a line. What is strange here is refused by the follower, which takes fewer texts for JSON."""
    try:
        return kind_of_value(sketch_of(line, NAMES) if len(line) > SHORT else DECODER.decode(line.decode()))
    except (ValueError, RecursionError):
        return Kind.STRANGE


def kind_of_value(value: object) -> Kind:
    """The kind of a line of the value."""
    if not isinstance(value, dict):
        return Kind.STRANGE
    others = value.keys() - {"at"}
    if others in QUESTIONS:
        return Kind.QUESTION
    if others == {"ask", "line"}:
        return Kind.CHECK_OF_OURS if len(value) == 2 and kind_of_value(value["line"]) is Kind.OURS else Kind.QUESTION
    if others == {"news", "mine"}:
        return Kind.OURS
    if len(others) != 1:
        return Kind.STRANGE
    (asked,) = others
    if asked == "cut" and value["cut"] == {}:
        return Kind.CUT
    return KINDS.get(asked, Kind.STRANGE)


class Room:
    """How many bytes of lines wait, and how many of lines that have no end yet, beyond their lesser bound if they have one: of one
    conversation, or of several together."""

    def __init__(self) -> None:
        self.waiting = self.unfinished = 0


# a line that hands a packet over, and how it begins
TAKE_BEGINS = re.compile(rb'\s*\{\s*(?:"at"\s*:\s*[0-9]+\s*,\s*)?"take"\s*:\s*"')
TAKE = re.compile(TAKE_BEGINS.pattern + rb'[0-9a-fA-F]*"\s*(?:,\s*"at"\s*:\s*[0-9]+\s*)?\}\s*')


class Lines:
    """Lines that are read from a descriptor in a thread, and wait here. A line of too many bytes is read to its end
    and comes as an empty one, which the follower refuses for the same cause. With a lesser bound than the follower's, that is the
    bound of each line but of one that hands a packet over."""

    _arrivals = itertools.count(1)

    def __init__(self, descriptor: int, wake: threading.Condition, room: Optional[Room] = None, longest: Optional[int] = None) -> None:
        self._descriptor, self._wake, self._room, self._longest = descriptor, wake, room or Room(), longest
        # each with when it came, among those of all conversations
        self._waiting: collections.deque[tuple[int, bytes]] = collections.deque()
        self._ended = self._is_dropped = False
        self._piece, self._is_long, self._counted = bytearray(), False, 0
        # whether the line is bound by the lesser bound, once it has so many bytes
        self._is_bound: Optional[bool] = None

    def start(self) -> None:
        threading.Thread(target=self._read_all, daemon=True).start()

    def take(self, most: int, most_bytes: float = math.inf) -> list[bytes]:
        """The next lines: at most so many, and none behind that with which they have so many bytes."""
        taken: list[bytes] = []
        size = 0
        with self._wake:
            while self._waiting and len(taken) < most and size < most_bytes:
                taken.append(self._waiting.popleft()[1])
                size += len(taken[-1])
            self._room.waiting -= size
            if taken:
                self._wake.notify_all()
        return taken

    def put_back(self, lines: list[bytes]) -> None:
        """Lines that were taken and are to be taken again, before all others."""
        with self._wake:
            self._waiting.extendleft((0, line) for line in reversed(lines))
            self._room.waiting += sum(map(len, lines))

    def drop(self) -> None:
        """Lines that wait are not told any more, and none comes."""
        with self._wake:
            self._is_dropped = True
            self._room.waiting -= sum(len(line) for _, line in self._waiting)
            self._waiting.clear()
            self._wake.notify_all()

    def is_waiting(self) -> bool:
        return bool(self._waiting)

    def arrival(self) -> int:
        """When the next line came, which waits."""
        return self._waiting[0][0]

    def is_ended(self) -> bool:
        """Whether there are no more lines, and none waits."""
        return self._ended and not self._waiting

    def _read_all(self) -> None:
        try:
            while piece := read_piece(self._descriptor):
                self._put(self._split(piece))
            if self._piece or self._is_long:
                self._put(self._split(b"\n"))
        except OSError:
            pass
        with self._wake:
            self._room.unfinished -= self._counted
            self._ended = True
            self._wake.notify_all()

    def _split(self, piece: bytes) -> list[bytes]:
        """The lines that the piece ends."""
        *ends, rest = piece.split(b"\n")
        lines = []
        for end in ends:
            self._grow(end, 0)
            lines.append(self._whole())
            self._piece, self._is_long, self._is_bound = bytearray(), False, None
        if ends and self._counted:
            with self._wake:
                self._room.unfinished -= self._counted
                self._counted = 0
        self._grow(rest, len(rest))
        return lines

    def _whole(self) -> bytes:
        """The line, which ends. A long one is not copied."""
        if self._is_long or (self._is_beyond(0) and not TAKE.fullmatch(self._piece)):
            return b""
        return self._piece if len(self._piece) > PIECE else bytes(self._piece)

    def _is_beyond(self, more: int) -> bool:
        """Whether the line has more bytes than one that hands no packet over may have, with so many more."""
        return self._longest is not None and len(self._piece) + more > self._longest

    def _grow(self, piece: bytes, counted: int) -> None:
        """The line goes on with the piece, of which so many bytes stay, since the line has no end yet. Those beyond the lesser bound count."""
        self._is_long = self._is_long or len(self._piece) + len(piece) > MOST_LINE
        if self._is_bound is None and self._is_beyond(len(piece)):
            self._is_bound = TAKE_BEGINS.match(self._piece + piece) is None
        self._is_long = self._is_long or self._is_bound is True
        if self._longest is not None:
            # so that who begins a long line does not keep others from usual ones
            counted = max(0, min(counted, len(self._piece) + len(piece) - self._longest))
        if counted and not self._is_long:
            with self._wake:
                self._is_long = self._room.unfinished + counted > MOST_LINE
                self._counted += 0 if self._is_long else counted
                self._room.unfinished += 0 if self._is_long else counted
        if self._is_long:
            self._piece = bytearray()
        else:
            self._piece += piece

    def _put(self, lines: list[bytes]) -> None:
        with self._wake:
            for line in lines:
                while not self._is_dropped and (len(self._waiting) >= MOST_WAITING or self._is_full(len(line))):
                    self._wake.notify_all()
                    self._wake.wait()
                if not self._is_dropped:
                    self._waiting.append((next(self._arrivals), line))
                    self._room.waiting += len(line)
            self._wake.notify_all()

    def _is_full(self, size: int) -> bool:
        return self._room.waiting > 0 and self._room.waiting + size > MOST_BYTES
