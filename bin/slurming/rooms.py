"""The room on nodes, by what Slurm says of the jobs that are there and by what was measured."""
import dataclasses
from collections.abc import Iterable, Sequence

from slurming.jobs import Phase, Sight
from slurming.nodes import Node

MOST_SLOTS = 1000
MOST_BANDWIDTH = 1000000
# jobs that take a slot and their bandwidth, and those of them that have processors
TAKING = frozenset((Phase.STARTING, Phase.RUNNING, Phase.PREEMPTED, Phase.LEAVING))
ALLOCATED = TAKING - {Phase.STARTING}
# jobs that the coordinator is told to be held by the node
HELD = TAKING - {Phase.PREEMPTED}


@dataclasses.dataclass
class Room:
    """The room on a node. `slots` are those that the coordinator is told; `free` and `spare` are the slots and the bandwidth that the jobs
    leave which are there. `fresh` is what jobs ask for that the use cannot show yet, and `promised` what those ask for that the coordinator
    holds there and Slurm was not told of."""

    node: Node
    slots: int
    free: int
    bandwidth: int
    spare: int
    use: int | None
    fresh: int
    promised: int
    is_closed: bool

    def is_fit_for(self, request: int) -> bool:
        """Whether a further job may go there by what was measured. A node that is busy is open to jobs that ask for nothing."""
        return not self.is_closed and (not request or (self.use or 0) + self.fresh + request <= self.bandwidth)

    def is_there_for(self, request: int) -> bool:
        """Whether the jobs that are there leave a slot and the bandwidth."""
        return self.free >= 1 and request <= self.spare

    def promise(self, request: int) -> None:
        """The coordinator placed a job there."""
        self.promised += request

    def fill(self, request: int) -> None:
        """A job that the coordinator placed there goes there."""
        self.free -= 1
        self.spare -= request
        self.fresh += request
        self.promised -= request

    def used(self) -> int:
        """The use to report: what was measured and what is still to come, or what was asked for if that is more."""
        return min(self.bandwidth, max((self.use or 0) + self.fresh, self.bandwidth - self.spare) + self.promised)


def is_there(sight: Sight) -> bool:
    """Whether a job takes a slot and its bandwidth on its node."""
    return sight.phase in TAKING


def is_held(sight: Sight) -> bool:
    """Whether the coordinator is told that the node holds the job."""
    return sight.phase in HELD and sight.note is not None and (sight.note.is_placed() or sight.phase is Phase.RUNNING)


def room_of(node: Node, sights: Iterable[Sight], promised: Sequence[int], use: int | None, fresh: int, per_job: int,
            is_avoided: bool) -> Room:
    """The room on a node that has these jobs, each of which takes so many of its processors. `promised` is what each job asks for that
    waits and that the coordinator holds there."""
    there = [sight for sight in sights if is_there(sight)]
    allocated = sum(sight.phase in ALLOCATED for sight in there)
    others = max(0, node.busy_cpus - per_job * allocated)
    usable = max(0, min(MOST_SLOTS, (node.cpus - others) // per_job))
    bandwidth = min(node.bandwidth or 0, MOST_BANDWIDTH)
    held = sum(map(is_held, there))
    # fewer slots than tasks that are held there would preempt some
    slots = min(MOST_SLOTS, max(1, held + len(promised), usable - (len(there) - held)))
    is_closed = not node.takes_jobs or usable == 0 or node.bandwidth is None or use is None or is_avoided
    return Room(node=node, slots=slots, free=usable - len(there), bandwidth=bandwidth,
                spare=bandwidth - sum(sight.request for sight in there), use=use, fresh=fresh, promised=sum(promised), is_closed=is_closed)
