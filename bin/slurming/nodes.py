"""Nodes as Slurm shows them, and what a coordinator is told of them."""
import dataclasses

# states in which a node can have jobs
UP = frozenset(("IDLE", "MIXED", "ALLOCATED"))
# flags with which it gets no further ones
CLOSING = frozenset(("DRAIN", "NOT_RESPONDING", "MAINTENANCE", "REBOOT_REQUESTED", "REBOOT_ISSUED", "REBOOT", "POWERING_DOWN", "POWERED_DOWN",
                     "POWER_DOWN", "POWERING_UP", "FAIL", "INVALID_REG", "PLANNED_DOWN"))
# slurmd works its node's boot time out anew when it starts, and is then off by a second or two
TOLERANCE = 30


@dataclasses.dataclass(frozen=True)
class Node:
    """What Slurm says of a node. `booted` is seconds after 1970, or nothing if slurmctld has not heard of the node yet; `bandwidth` is
    nothing if it has none, or one that cannot be read."""

    name: str
    address: str
    state: str
    flags: frozenset[str]
    partitions: frozenset[str]
    cpus: int
    busy_cpus: int
    threads: int
    booted: int | None
    bandwidth: int | None

    @property
    def is_up(self) -> bool:
        return self.state in UP

    @property
    def takes_jobs(self) -> bool:
        """Whether it may get further jobs, as far as Slurm says."""
        return self.is_up and not self.flags & CLOSING


class Incarnations:
    """A node's incarnation is its boot time, kept while the boot time moves by less than the tolerance. The first one comes from a note
    of a job that runs there, if one fits: so it is the same for each adapter."""

    def __init__(self) -> None:
        self._kept: dict[str, int] = {}

    def see(self, node: Node, noted: list[int]) -> int | None:
        """The node's incarnation now, given those of the notes of the jobs that are there. Nothing if none is known yet."""
        kept = self._kept.get(node.name)
        if node.booted is None:
            return kept
        if kept is None:
            kept = next((it for it in sorted(noted) if abs(it - node.booted) <= TOLERANCE), node.booted)
        elif abs(kept - node.booted) > TOLERANCE:
            kept = node.booted
        self._kept[node.name] = kept
        return kept

    def of(self, name: str) -> int | None:
        return self._kept.get(name)
