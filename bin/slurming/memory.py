"""What an adapter knows beside Slurm and its coordinator: nothing that must outlive it.

Attempts are the greatest that it saw; after an end they come from the notes. The rest are moments, by a steady clock: a new
adapter takes each job for one that it sees for the first time, and avoids nothing.
"""
import dataclasses

from slurming.follower import Winner
from slurming.nodes import Incarnations, Node


@dataclasses.dataclass
class Memory:
    incarnations: Incarnations = dataclasses.field(default_factory=Incarnations)
    # by the name of each node, and the name by the id of its machine
    nodes: dict[str, Node] = dataclasses.field(default_factory=dict)
    names: dict[str, str] = dataclasses.field(default_factory=dict)
    # by task: the greatest attempt that was seen, and the one that was preempted last
    attempts: dict[str, int] = dataclasses.field(default_factory=dict)
    preempted: dict[str, int] = dataclasses.field(default_factory=dict)
    # tasks that the coordinator knows and that are not over, with their jobs' names; and the last attempt of those that are over
    known: dict[str, str] = dataclasses.field(default_factory=dict)
    ended: dict[str, int] = dataclasses.field(default_factory=dict)
    winners: dict[str, Winner] = dataclasses.field(default_factory=dict)
    # tasks that run and that Slurm does not requeue
    kept: set[str] = dataclasses.field(default_factory=set)
    # what Slurm refused last of a task, so that it is said once
    refused: dict[str, str] = dataclasses.field(default_factory=dict)
    # the throttle of each array that has one, by the root job; 0 of one that has none
    throttles: dict[int, int] = dataclasses.field(default_factory=dict)
    # when a task was first seen in a state, and until when a task or a node gets nothing
    starting_since: dict[str, float] = dataclasses.field(default_factory=dict)
    running_since: dict[str, float] = dataclasses.field(default_factory=dict)
    failures: dict[str, int] = dataclasses.field(default_factory=dict)
    avoided_tasks: dict[str, float] = dataclasses.field(default_factory=dict)
    avoided_nodes: dict[str, float] = dataclasses.field(default_factory=dict)

    def saw(self, task: str, attempt: int) -> int:
        """A task had the attempt. Answers the greatest that it had."""
        self.attempts[task] = max(self.attempts.get(task, 0), attempt)
        return self.attempts[task]

    def next_attempt(self, task: str) -> int:
        """An attempt that no proposal named yet."""
        return self.saw(task, self.attempts.get(task, -1) + 1)

    def forget(self, task: str) -> None:
        """The task is over."""
        self.ended[task] = self.attempts.pop(task, 0)
        for kept in (self.known, self.preempted, self.winners, self.starting_since, self.running_since, self.failures, self.avoided_tasks,
                     self.refused):
            kept.pop(task, None)  # type: ignore[attr-defined]
        self.kept.discard(task)

    def begin_anew(self) -> None:
        """A new coordinator knows nothing. What Slurm, the network and the notes do not say again stays: what is avoided, and
        since when jobs run."""
        self.known.clear()
        self.ended.clear()
        self.winners.clear()
        self.attempts.clear()
        self.preempted.clear()
