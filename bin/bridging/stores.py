"""The store of a coordinator: a file in which its follower keeps what it knows (docs/store.md). What asks for one, and what the follower
says if it cannot be used."""
import dataclasses
import os
import pathlib
import re
from collections.abc import Callable
from typing import Optional

from bridging.endings import STORE_FAILED, Failure

# a label has at most so many bytes
MOST_LABEL = 200
# the statuses of a follower whose store is damaged, or cannot be used
DAMAGED, UNUSABLE = 8, 9
IN_USE = "another process has the store"
# the line with which a follower says why it ends
WHY = re.compile(rb"firmament: (refusal [0-9]+.*)")
# so many bytes are read at once, and at most so many times before something else is done
PIECE, MOST_PIECES = 1 << 16, 64


class InUse(Failure):
    """Another process has the store: so has the follower of a bridge that was killed, until it ends."""


@dataclasses.dataclass(frozen=True)
class Store:
    """A file and its label. Lines that the follower writes to standard error are passed on, but for the one that says why it ends."""

    path: pathlib.Path
    label: str
    pass_on: Callable[[str], None]

    def words(self) -> list[str]:
        """What asks a follower for the store. In one word each, since a path or a label may begin with a hyphen."""
        return [f"--store={self.path}", f"--store-label={self.label}"]

    def failure(self, status: int, why: str) -> Optional[Failure]:
        """Why a follower that ended with the status, and said this, could not use the store; None if it ended for another reason."""
        if status == DAMAGED and why:
            return Failure(STORE_FAILED, f"the store {self.path} is damaged: {why} (firmament recover prints what stands before that)")
        if status == UNUSABLE and why:
            kind = InUse if why.endswith(IN_USE) else Failure
            return kind(STORE_FAILED, f"the store {self.path} cannot be used: {why}")
        return None


class LastWords:
    """What a follower writes to a pipe as its standard error, which is read while it is asked, so that the pipe is never full for long."""

    def __init__(self, descriptor: int, pass_on: Callable[[str], None]) -> None:
        os.set_blocking(descriptor, False)
        self._descriptor, self._pass_on, self._rest = descriptor, pass_on, b""
        # why it ends, if it said so
        self.why = ""

    def read(self) -> bool:
        """Looks at what is there. Whether more may come."""
        for _ in range(MOST_PIECES):
            try:
                piece = os.read(self._descriptor, PIECE)
            except BlockingIOError:
                return True
            *lines, self._rest = (self._rest + piece).split(b"\n")
            # at the end, and if it is long, a line that has no end yet is looked at too
            if not piece or len(self._rest) > PIECE:
                lines, self._rest = [*lines, self._rest], b""
            for line in lines:
                self._look_at(line)
            if not piece:
                return False
        return True

    def _look_at(self, line: bytes) -> None:
        found = WHY.fullmatch(line)
        if found:
            self.why = found[1].decode(errors="replace")
        elif line:
            self._pass_on(line.decode(errors="replace"))
