"""How an adapter ends: its statuses. The failures that lead to them are those of a bridge, whose follower it uses."""
from bridging.endings import FOLLOWER_ENDED, NO_PACKAGE, NO_PROGRAM, WELL, WRONG_WORDS, Failure

WRONG_CONFIGURATION = 3
NO_SLURM = 12
NOT_READY = 13
LOCKED = 14

__all__ = ["FOLLOWER_ENDED", "LOCKED", "NOT_READY", "NO_PACKAGE", "NO_PROGRAM", "NO_SLURM", "WELL", "WRONG_CONFIGURATION", "WRONG_WORDS", "Failure"]
