"""Reading and writing of descriptors that others handed over, which may be set not to block."""
import collections
import os
import select
import threading
import time
from collections.abc import Sequence

# so many bytes are read or written at once, and so many once only the end is waited for, so that a slow reader is seen to read
PIECE, LAST_PIECE = 1 << 16, 1 << 12
# in the end it is looked so often whether all is written
PAUSE = 0.02


def read_piece(descriptor: int) -> bytes:
    """The next bytes, once there are some, or none at the end."""
    while True:
        try:
            return os.read(descriptor, PIECE)
        except BlockingIOError:
            wait_for(descriptor, select.POLLIN)


def write_piece(descriptor: int, piece: memoryview) -> int:
    """Writes some of the bytes, once there is room for some. Answers how many."""
    while True:
        try:
            return os.write(descriptor, piece)
        except BlockingIOError:
            wait_for(descriptor, select.POLLOUT)


def wait_for(descriptor: int, event: int) -> None:
    waiting = select.poll()
    waiting.register(descriptor, event)
    waiting.poll()


class Writer:
    """Texts on their way to one reader, written in order by a thread of their own, so that who does not read them stops
    nobody else."""

    def __init__(self, descriptor: int, wake: threading.Condition) -> None:
        self._descriptor, self._wake = descriptor, wake
        self._texts = collections.deque[bytes]()
        # no more is put in; nothing more is written; there is no reader
        self.is_closed = self.is_done = self.is_broken = False
        # how many bytes are not written yet, how many of them wait behind the text that is being written, and how many were written
        self.unread = self.waiting = self.written = 0
        threading.Thread(target=self._write_all, daemon=True).start()

    def put(self, text: bytes) -> None:
        with self._wake:
            if text and not self.is_broken:
                self._texts.append(text)
                self.unread += len(text)
                self.waiting += len(text)
                self._wake.notify_all()

    def close(self) -> None:
        """Nothing more is put in."""
        with self._wake:
            self.is_closed = True
            self._wake.notify_all()

    def is_read(self) -> bool:
        """Whether all was written, of what is closed."""
        return self.is_done and not self.is_broken

    def _write_all(self) -> None:
        while text := self._next():
            if not self._write(text):
                break
        with self._wake:
            self.is_done = True
            self._wake.notify_all()

    def _next(self) -> bytes:
        """The next text, once there is one; none if no more comes."""
        with self._wake:
            while not self._texts and not self.is_closed:
                self._wake.wait()
            text = self._texts.popleft() if self._texts else b""
            self.waiting -= len(text)
            return text

    def _write(self, text: bytes) -> bool:
        """Writes a text. Whether there is a reader."""
        left = memoryview(text)
        try:
            while left:
                count = write_piece(self._descriptor, left[:LAST_PIECE if self.is_closed else PIECE])
                left = left[count:]
                with self._wake:
                    self.unread -= count
                    self.written += count
        except OSError:
            with self._wake:
                self.is_broken = True
                self._texts.clear()
                self.unread = self.waiting = 0
                self._wake.notify_all()
            return False
        with self._wake:
            self._wake.notify_all()
        return True


def finish_all(writers: Sequence[Writer], patience: float) -> None:
    """Waits until all that the writers have is written, as long as something of it is read in each so many seconds."""
    for writer in writers:
        writer.close()
    written, end = 0, time.monotonic() + patience
    while not all(writer.is_done for writer in writers) and time.monotonic() < end:
        time.sleep(PAUSE)
        now = sum(writer.written for writer in writers)
        if now != written:
            written, end = now, time.monotonic() + patience
