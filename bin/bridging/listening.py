"""The socket on which clients come."""
import contextlib
import errno
import fcntl
import os
import socket
import stat
import threading
import time

from bridging.conversations import Conversations
from bridging.endings import SOCKET_TAKEN, Failure

# who may write it may tell operations: the owner and the group
MODE = 0o660
PAUSE = 0.1


class Listener:
    """A Unix socket at a path. The file PATH.lock says that a process listens there, so a socket that nobody answers may be
    replaced."""

    def __init__(self, path: str) -> None:
        self._path = path
        try:
            self._lock = os.open(f"{path}.lock", os.O_RDWR | os.O_CREAT, 0o600)
            fcntl.flock(self._lock, fcntl.LOCK_EX | fcntl.LOCK_NB)
            self._remove_old()
            self._socket = socket.socket(socket.AF_UNIX, socket.SOCK_STREAM)
            before = os.umask(0o777 & ~MODE)
            try:
                self._socket.bind(path)
            finally:
                os.umask(before)
            self._socket.listen()
        except BlockingIOError:
            raise self._taken() from None
        except OSError as why:
            raise Failure(SOCKET_TAKEN, f"no socket at {path}: {why.strerror or why}") from None

    def _taken(self) -> Failure:
        return Failure(SOCKET_TAKEN, f"another process listens at {self._path}")

    def _remove_old(self) -> None:
        """Removes a socket that nobody answers."""
        try:
            kind = os.lstat(self._path).st_mode
        except FileNotFoundError:
            return
        if not stat.S_ISSOCK(kind):
            raise OSError(errno.EEXIST, "what is there is no socket")
        with socket.socket(socket.AF_UNIX, socket.SOCK_STREAM) as probe:
            probe.setblocking(False)
            try:
                probe.connect(self._path)
            except ConnectionRefusedError:
                os.unlink(self._path)
                return
        raise self._taken()

    def start(self, conversations: Conversations) -> None:
        """Takes clients from now on, in a thread."""
        threading.Thread(target=self._take_all, args=[conversations], daemon=True).start()

    def _take_all(self, conversations: Conversations) -> None:
        while True:
            try:
                client, _ = self._socket.accept()
            except OSError:
                if self._socket.fileno() < 0:
                    return
                # for example too many open files
                time.sleep(PAUSE)
                continue
            if not conversations.add(client):
                client.close()

    def close(self) -> None:
        """Takes no more clients."""
        with contextlib.suppress(OSError):
            os.unlink(self._path)
        with contextlib.suppress(OSError):
            self._socket.shutdown(socket.SHUT_RDWR)
        self._socket.close()
