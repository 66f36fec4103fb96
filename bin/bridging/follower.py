"""The process `firmament follow`: lines go in, and each is answered."""
import collections
import dataclasses
import os
import re
import selectors
import subprocess
import time
from collections.abc import Callable, Sequence
from typing import Optional

import kept
from bridging.endings import FOLLOWER_ENDED, NO_PROGRAM, Failure
from bridging.stores import LastWords, Store

# the program answers a line that is longer by refusal 16
MOST_LINE = 67108864
# what ends an answer
END = re.compile(rb"^(?:ok|refusal [0-9]+)\n", re.MULTILINE)
# so many bytes of a line decide whether it is such an end: no number of a refusal is longer
LONGEST_END = 64
PIECE = 1 << 16
# the time is looked at so often while nothing comes
TICK = 0.2
# once the bridge has to end, a follower that is silent for so many seconds is not waited for
SHORT = 1.0
# what others may not do with a file of a store
PRIVATE = 0o077
OK = b"ok\n"
NO_LINE = b"refusal 16\n"
NO_MEMORY = b"refusal 1\n"


def is_accepted(answer: bytes) -> bool:
    return answer.endswith(OK)


def usual_program() -> str:
    """What runs the proved program, or else the unproved build, which is made first if there is none."""
    try:
        kept.best()
    except kept.NoBuild as why:
        raise Failure(NO_PROGRAM, str(why)) from None
    return kept.ROOT + "/bin/firmament"


class Silent(Failure):
    """The follower did not answer in time."""


@dataclasses.dataclass(frozen=True)
class Waits:
    """How many seconds a follower may take to begin, and to answer; and by when it must have answered at any rate."""

    beginning: float
    answer: float
    end: Callable[[], float]


class Splitter:
    """Splits what a follower writes into answers. Each byte is looked at a fixed number of times, however long an answer
    or a line is: only the piece that comes is searched, and of a line that has no end yet the first bytes are kept."""

    def __init__(self) -> None:
        self._pieces: list[bytes] = []
        self._line = b""

    def feed(self, piece: bytes) -> list[bytes]:
        """The answers that end in the piece."""
        found: list[bytes] = []
        first = piece.find(b"\n") + 1
        self._line += piece[:min(first or len(piece), max(0, LONGEST_END - len(self._line)))]
        if not first:
            self._pieces.append(piece)
            return found
        begin = self._close(piece, 0, first, found) if END.fullmatch(self._line) else 0
        for end in END.finditer(piece, first):
            begin = self._close(piece, begin, end.end(), found)
        if begin < len(piece):
            self._pieces.append(piece[begin:])
        last = piece.rfind(b"\n") + 1
        self._line = piece[last:last + LONGEST_END]
        return found

    def _close(self, piece: bytes, begin: int, end: int, found: list[bytes]) -> int:
        """Puts the answer that ends there to those that were found, and answers where the next one begins."""
        self._pieces.append(piece[begin:end])
        found.append(b"".join(self._pieces))
        self._pieces.clear()
        return end


def buffers(lines: Sequence[bytes]) -> list[bytes]:
    """The lines, each with its end, in few buffers. A long one is not copied."""
    found = [bytearray()]
    for line in lines:
        if len(line) > PIECE:
            found += [line, bytearray()]
        else:
            found[-1] += line
        found[-1] += b"\n"
    return [buffer for buffer in found if buffer]


class Follower:
    """The process, with one coordinator of the number, and with a store if one is given. Its memory, histories and renewals
    are those of docs/formats.md."""

    def __init__(self, program: str, number: int, renew_after: int, waits: Waits, store: Optional[Store] = None) -> None:
        command = [program, "follow", "--renew-after", str(renew_after)]
        command += store.words() if store is not None else []
        self._store, pipe = store, subprocess.PIPE
        try:
            # in a session of its own, so that an interrupt typed at a terminal ends the bridge and not the follower
            # under it; and the file of a store is for the owner alone
            # Python ignores SIGXFSZ, and so does the follower then: a store that may grow no further is a failed write, which it tells
            self._run = subprocess.Popen(command, stdin=pipe, stdout=pipe, stderr=pipe if store is not None else None, bufsize=0,
                                         start_new_session=True, umask=PRIVATE if store is not None else -1, restore_signals=False)
        except OSError as why:
            raise Failure(NO_PROGRAM, f"no program at {program}, which bin/build makes ({why.strerror})") from None
        assert self._run.stdin is not None and self._run.stdout is not None
        self._into, self._from, self._errors = self._run.stdin, self._run.stdout, self._run.stderr
        self._splitter, self._waits = Splitter(), waits
        for end in self._into, self._from:
            os.set_blocking(end.fileno(), False)
        self._last_words = LastWords(self._errors.fileno(), store.pass_on) if store is not None and self._errors is not None else None
        self._begin(program, number)

    def _begin(self, program: str, number: int) -> None:
        """Lists the coordinator. With a store that is answered once the store was read, which may take long."""
        patience = self._waits.beginning if self._store is None else self._waits.answer
        try:
            begun = self.ask([b'{"coordinators":[%d]}' % number], patience) == [OK]
        except Silent:
            begun = False
        if not begun:
            self._run.kill()
            raise Failure(NO_PROGRAM, f"{program} does not begin a stream of coordinator {number}")

    def ask(self, lines: Sequence[bytes], patience: Optional[float] = None) -> list[bytes]:
        """The answers to the lines, one each, in order. Writes and reads at the same time, so neither pipe can stop the
        other. If nothing can be written or read for so many seconds, or until the bridge has to end, the process is
        ended."""
        left = collections.deque(map(memoryview, buffers(lines)))
        answers: list[bytes] = []
        patience, last = patience or self._waits.answer, time.monotonic()
        with selectors.DefaultSelector() as ready:
            ready.register(self._from, selectors.EVENT_READ)
            if self._errors is not None:
                ready.register(self._errors, selectors.EVENT_READ)
            if left:
                ready.register(self._into, selectors.EVENT_WRITE)
            while len(answers) < len(lines):
                events = ready.select(TICK)
                last = time.monotonic() if events else last
                self._look_at_time(time.monotonic() - last, patience)
                for key, _ in events:
                    if key.fileobj is self._from:
                        answers += self._read()
                    elif key.fileobj is self._into:
                        if not self._write_some(left):
                            ready.unregister(self._into)
                    elif not self._hear_errors():
                        ready.unregister(key.fileobj)
        return answers

    def _hear_errors(self) -> bool:
        """Reads what the follower wrote to standard error. Whether more may come."""
        return self._last_words is not None and self._last_words.read()

    def _look_at_time(self, silent: float, patience: float) -> None:
        """Ends the process if it was silent for too long."""
        if silent < patience and (silent < SHORT or time.monotonic() < self._waits.end()):
            return
        self._run.kill()
        waited = f"for {patience:g} s" if silent >= patience else "until the bridge had to end"
        raise Silent(FOLLOWER_ENDED, f"the follower answered nothing {waited}")

    def _write_some(self, left: collections.deque[memoryview]) -> bool:
        """Writes some of what is left. Whether more is."""
        written = self._write(left[0][:PIECE])
        left[0] = left[0][written:]
        if not left[0]:
            left.popleft()
        return bool(left)

    def _write(self, piece: memoryview) -> int:
        try:
            return os.write(self._into.fileno(), piece)
        except BlockingIOError:
            return 0
        except BrokenPipeError:
            raise self._ended() from None

    def _read(self) -> list[bytes]:
        """The answers that are whole with what can be read now."""
        piece = os.read(self._from.fileno(), PIECE)
        if not piece:
            raise self._ended()
        return self._splitter.feed(piece)

    def _ended(self) -> Failure:
        """Why the follower ended, which closed a pipe."""
        try:
            status = self._run.wait(timeout=SHORT)
        except subprocess.TimeoutExpired:
            self._run.kill()
            status = self._run.wait()
        self._hear_errors()
        why = self._last_words.why if self._last_words is not None else ""
        failure = self._store.failure(status, why) if self._store is not None else None
        return failure or Failure(FOLLOWER_ENDED, f"the follower ended (status {status})" + (f": {why}" if why else ""))

    def close(self) -> None:
        """Ends the process, which ends by itself at the end of its input."""
        try:
            self._into.close()
            self._run.wait(timeout=5)
        except (OSError, subprocess.TimeoutExpired):
            self._run.kill()
            self._run.wait()
        self._hear_errors()
        self._from.close()
        if self._errors is not None:
            self._errors.close()
