"""How a bridge ends: its statuses, and the failures that lead to them."""

WELL = 0
WRONG_WORDS = 2
NO_PACKAGE = 10
NO_PROGRAM = 11
NO_BROKER = 12
BROKER_REFUSES = 13
NUMBER_TAKEN = 14
FOLLOWER_ENDED = 15
STORE_FAILED = 16
NOT_ALL_SENT = 17
OUTPUT_FAILED = 18
SOCKET_TAKEN = 19


class Failure(Exception):
    """Why a bridge ends before its input does: one line, and the status."""

    def __init__(self, status: int, why: str) -> None:
        super().__init__(why)
        self.status = status
