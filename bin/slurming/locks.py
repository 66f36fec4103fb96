"""The lock by which of several adapters on one Slurm only one acts."""
import fcntl
import os
from typing import Protocol

from slurming.endings import LOCKED, Failure


class Lost(Exception):
    """The lock is no longer this adapter's, which may claim it again; the text says why."""


class AnyLock(Protocol):
    """A lock, with its name. `why` says why it was not taken, and it `is_settled` if nothing more about that is to be heard soon."""

    name: str

    @property
    def why(self) -> str: ...

    @property
    def is_settled(self) -> bool: ...

    def take(self) -> bool:
        """Whether this process has the lock now."""

    def check(self) -> None:
        """Raises a failure, or that it is lost, if another process may have it."""

    def release(self) -> None:
        """Gives it up, or stops asking for it."""

    def faults(self) -> list[str]:
        """What keeps any process from taking it."""


class Lock:
    """A file, and who has it locked (flock) acts. The lock goes with the process, however that ends. The file stays."""

    is_settled = True

    def __init__(self, path: str) -> None:
        self.name, self.why = path, f"another adapter has the lock {path}"
        self._file: int | None = None

    def take(self) -> bool:
        """Whether this process has the lock now."""
        try:
            # who may read a file may lock it, and so keep others from acting
            file = os.open(self.name, os.O_RDWR | os.O_CREAT | os.O_CLOEXEC, 0o600)
        except OSError as why:
            raise Failure(LOCKED, f"the lock {self.name} cannot be made ({why.strerror})") from None
        try:
            fcntl.flock(file, fcntl.LOCK_EX | fcntl.LOCK_NB)
        except BlockingIOError:
            os.close(file)
            return False
        except OSError as why:
            os.close(file)
            raise Failure(LOCKED, f"{self.name} cannot be locked ({why.strerror})") from None
        self._file = file
        if not self._is_at_path():
            # it was replaced in between
            self.release()
            return False
        return True

    def check(self) -> None:
        """Raises a failure if the file of the lock is no longer the one at its path, so that another process may have it."""
        if not self._is_at_path():
            raise Failure(LOCKED, f"the lock {self.name} was replaced, so another adapter may act")

    def _is_at_path(self) -> bool:
        assert self._file is not None
        try:
            return os.path.samestat(os.fstat(self._file), os.stat(self.name))
        except OSError:
            return False

    def release(self) -> None:
        if self._file is not None:
            os.close(self._file)
            self._file = None

    def faults(self) -> list[str]:
        return []
