"""Whose turn it is: lines and packets are handed to the follower in turns, each of so many bytes and seconds, and senders whose packets are
broken have fewer turns."""
import time

# a turn ends with the call in which one of these is reached
TURN_SECONDS, TURN_BYTES = 0.5, 1 << 22
# so many packets, and bytes of packets, are handed over in one call at most
MOST_PACKETS, PORTION = 512, 1 << 20
# so many seconds a sender is not heard after its first broken packet, and at most
FIRST_WAIT, LONGEST_WAIT = 1.0, 64.0
# packets of a sender, or its states
Source = tuple[int, bool]


class Turn:
    """How long one side goes on before the other one does."""

    def __init__(self, seconds: float = TURN_SECONDS, most: int = TURN_BYTES) -> None:
        self._end, self._left = time.monotonic() + seconds, most

    def is_over(self) -> bool:
        return self._left <= 0 or time.monotonic() >= self._end

    def took(self, size: int) -> None:
        """So many bytes were handed over."""
        self._left -= size


class Pace:
    """How many packets are handed over in one call, which cannot be cut short: by how long the last call took."""

    def __init__(self) -> None:
        self.count = 1

    def took(self, count: int, seconds: float) -> None:
        """So many packets took so long."""
        if seconds > TURN_SECONDS:
            self.count = max(1, int(count * TURN_SECONDS / seconds))
        elif count >= self.count:
            self.count = min(MOST_PACKETS, 2 * self.count)


class Patience:
    """How long senders are not heard whose packets are broken. Twice as long as the last time, if what is heard then is broken too, and
    half as long if it is whole."""

    def __init__(self) -> None:
        # the last wait, and the longest that was told
        self._waits: dict[Source, tuple[float, float]] = {}

    def broken(self, source: Source) -> tuple[float, bool]:
        """A packet of the source is broken. Answers for how many seconds it is not heard, and whether that is longer than ever before."""
        last, told = self._waits.get(source, (0.0, 0.0))
        wait = min(LONGEST_WAIT, max(FIRST_WAIT, 2 * last))
        self._waits[source] = wait, max(told, wait)
        return wait, wait > told

    def whole(self, source: Source) -> bool:
        """Packets of the source are whole. Whether it is heard as others are from now on, and was not."""
        if source not in self._waits:
            return False
        last, told = self._waits.pop(source)
        if last >= 2 * FIRST_WAIT:
            self._waits[source] = last / 2, told
        return source not in self._waits
