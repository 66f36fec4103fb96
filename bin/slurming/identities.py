"""Ids of tasks and machines, which are worked out from what Slurm says, so that nothing has to be kept.

A task's id is a UUID of version 7 (RFC 9562): the time of the job's first submission, and behind it 74 bits of a digest
of cluster, root job, index in the array and that time. So ids grow with time, and a job id that slurmctld gives a second
time, because it forgot the first, makes another task. A task's id says whose it is: what it has to be can be worked out
again from the time in it.
"""
import hashlib
import uuid
from typing import Optional

MACHINES = uuid.UUID("6f3c0d5e-5b1e-5c8a-9f6e-7a1d2c3b4e5f")
LATEST = (1 << 48) // 1000 - 1


def task_id(cluster: str, root: int, index: Optional[int], submitted: int) -> uuid.UUID:
    """The id of a job, or of an element of an array, that was first submitted so many seconds after 1970."""
    text = "\0".join([cluster, str(root), "" if index is None else str(index), str(submitted)])
    drawn = int.from_bytes(hashlib.sha256(text.encode()).digest()[:10], "big") >> 6
    moment = max(0, min(submitted, LATEST)) * 1000
    return uuid.UUID(int=moment << 80 | 7 << 76 | (drawn >> 62) << 64 | 2 << 62 | drawn & ((1 << 62) - 1))


def submitted_at(task: uuid.UUID) -> int:
    """The time of the first submission, in seconds after 1970."""
    return (task.int >> 80) // 1000


def is_of(task: uuid.UUID, cluster: str, root: int, index: Optional[int]) -> bool:
    """Whether the id is one that the job has, by the time that the id names."""
    return task == task_id(cluster, root, index, submitted_at(task))


def machine_id(cluster: str, node: str) -> str:
    return str(uuid.uuid5(MACHINES, cluster + "\0" + node))
