"""Answers on their way to who asked, in the order of their lines, some of which wait until what they say is kept."""
import collections

from bridging.conversations import Conversation

# if so many bytes of answers wait to be confirmed, no more lines are told
MOST_HELD = 1 << 24


class Answers:
    """Answers are put in one after another, each with how many lines were accepted up to it, and with the conversation that
    it belongs to. They go there once so many are confirmed."""

    def __init__(self) -> None:
        self._held: collections.deque[tuple[int, bytes, Conversation]] = collections.deque()
        self._bytes = 0

    def put(self, accepted: int, answer: bytes, conversation: Conversation) -> None:
        self._held.append((accepted, answer, conversation))
        self._bytes += len(answer)

    def let_go(self, confirmed: int) -> None:
        """Sends the answers whose accepted lines are among the first `confirmed`."""
        free: dict[Conversation, list[bytes]] = {}
        while self._held and self._held[0][0] <= confirmed:
            _, answer, conversation = self._held.popleft()
            free.setdefault(conversation, []).append(answer)
            self._bytes -= len(answer)
        for conversation, answers in free.items():
            conversation.answer(answers)

    def are_waiting(self) -> bool:
        """Whether answers wait to be confirmed."""
        return bool(self._held)

    def has_room(self) -> bool:
        return self._bytes < MOST_HELD
