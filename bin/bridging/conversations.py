"""Who asks: the operator on standard input, and the clients of a socket. Each has lines of its own, and answers in their order."""
import contextlib
import itertools
import socket
import threading
from typing import Optional

from bridging.descriptors import Writer, finish_all
from bridging.lines import Lines, Room

# a client behind whose next answer so many bytes of answers wait is cut off; and no more lines of standard input are told
MOST_UNREAD = 1 << 24
# so many clients at once
MOST_CLIENTS = 64


class Conversation:
    """Lines that come from a descriptor, and the answers to them, which go to one. A client has a socket for both."""

    def __init__(self, source: int, sink: int, wake: threading.Condition, room: Room, client: Optional[socket.socket] = None,
                 longest: Optional[int] = None) -> None:
        self.lines, self.writer = Lines(source, wake, room, longest), Writer(sink, wake)
        self._client = client
        # lines that were taken and are not answered yet
        self.unanswered = 0

    def answer(self, answers: list[bytes]) -> None:
        """Sends the answers to the next lines."""
        self.unanswered -= len(answers)
        self.writer.put(b"".join(answers))

    def has_room(self) -> bool:
        """Whether its lines may be told: a client that does not read is cut off, and does not wait."""
        return self._client is not None or self.writer.unread < MOST_UNREAD

    def is_ending(self) -> bool:
        """Whether a client says no more, and all that it said is answered: nothing more goes to it, or all went there."""
        is_answered = self._client is not None and self.lines.is_ended() and not self.unanswered
        return is_answered and (self.writer.is_done or not self.writer.is_closed)

    def is_deaf(self) -> bool:
        """Whether a client does not read its answers."""
        return self._client is not None and self.writer.waiting > MOST_UNREAD

    def cut_off(self) -> None:
        """Ends the conversation with a client: what it said and was not told yet, and what it did not read, is dropped."""
        if self._client is not None:
            with contextlib.suppress(OSError):
                self._client.shutdown(socket.SHUT_RDWR)
            self.lines.drop()

    def close(self) -> None:
        if self._client is not None:
            self._client.close()


class Conversations:
    """All conversations. Clients come from a thread; all else happens in that of the bridge. A line of a client has a bound of its own."""

    def __init__(self, wake: threading.Condition, longest: int) -> None:
        self._wake, self._room, self._longest = wake, Room(), longest
        self.operator = Conversation(0, 1, wake, Room())
        self._clients: list[Conversation] = []

    def add(self, client: socket.socket) -> bool:
        """A client more. Whether there are not too many."""
        with self._wake:
            if len(self._clients) >= MOST_CLIENTS:
                return False
            number = client.fileno()
            conversation = Conversation(number, number, self._wake, self._room, client, self._longest)
            self._clients.append(conversation)
            conversation.lines.start()
        return True

    def _all(self) -> list[Conversation]:
        with self._wake:
            return [self.operator, *self._clients]

    def take(self, most: int, most_bytes: int) -> list[tuple[Conversation, bytes]]:
        """The next lines, in the order in which they came: at most so many, and none behind that with which they have so many bytes."""
        found: list[tuple[Conversation, bytes]] = []
        size = 0
        ready = [each for each in self._all() if each.has_room() and each.lines.is_waiting()]
        while ready and len(found) < most and size < most_bytes:
            each = min(ready, key=lambda each: each.lines.arrival())
            lines = each.lines.take(most - len(found) if len(ready) == 1 else 1, most_bytes - size)
            each.unanswered += len(lines)
            found += [(each, line) for line in lines]
            size += sum(map(len, lines))
            if not each.lines.is_waiting():
                ready.remove(each)
        return found

    def put_back(self, taken: list[tuple[Conversation, bytes]]) -> None:
        """Lines that were taken, and are to be taken again before all others."""
        for each, lines in itertools.groupby(reversed(taken), key=lambda pair: pair[0]):
            back = [line for _, line in lines]
            each.lines.put_back(back[::-1])
            each.unanswered -= len(back)

    def are_ending(self) -> bool:
        """Whether there is a client to be tidied away."""
        return any(each.is_ending() for each in self._all())

    def is_waiting(self) -> bool:
        """Whether there are lines that may be told."""
        return any(each.lines.is_waiting() and each.has_room() for each in self._all())

    def tidy(self) -> list[int]:
        """Ends the conversations that are over, and those with clients that do not read. Answers of each of the latter how many bytes
        it did not read."""
        deaf = []
        for each in self._all()[1:]:
            if each.is_deaf():
                deaf.append(each.writer.unread)
                each.cut_off()
            if each.is_ending():
                each.writer.close()
            if each.is_ending():
                each.close()
                with self._wake:
                    self._clients.remove(each)
        return deaf

    def finish(self, patience: float) -> bool:
        """Waits until all answers are written, as long as something is read in each so many seconds. Whether the operator read all."""
        every = self._all()
        finish_all([each.writer for each in every], patience)
        for each in every:
            each.cut_off()
        return self.operator.writer.is_read()
