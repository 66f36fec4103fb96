"""Why jobs wait, in their comments, so that `scontrol show job` says it."""
import re
from collections.abc import Sequence

from slurming.events import Events
from slurming.follower import Coordinator
from slurming.jobs import Phase, Sight
from slurming.memory import Memory
from slurming.notes import with_reason
from slurming.slurm import Slurm

# a job's comment is written again after so many seconds at the earliest
AGAIN = 10.0
MACHINE = re.compile(r"machine ([0-9a-f-]{36})")


class Reasons:
    """Writes so many comments in a pass at most: those first that were looked at longest ago. The rest of a comment stays as its user
    wrote it, and a job that does not wait loses the reason."""

    def __init__(self, slurm: Slurm, memory: Memory, events: Events, most: int) -> None:
        self._slurm, self._memory, self._events, self._most = slurm, memory, events, most
        # by task: the reason that is in its comment, nothing if that is not known; and when it was looked at
        self._written: dict[str, str] = {}
        self._looked: dict[str, float] = {}

    def write(self, sights: Sequence[Sight], coordinator: Coordinator, now: float) -> None:
        there = {sight.task for sight in sights}
        for kept in self._written, self._looked:
            for task in [task for task in kept if task not in there]:
                kept.pop(task)  # type: ignore[attr-defined]
        due = [sight for sight in sights if self._may_differ(sight) and now - self._looked.get(sight.task, now - AGAIN) >= AGAIN]
        for sight in sorted(due, key=lambda it: self._looked.get(it.task, 0.0))[:self._most]:
            self._looked[sight.task] = now
            self._write(sight, self._reason(sight, coordinator))

    def _may_differ(self, sight: Sight) -> bool:
        """Whether the comment may have to change: a reason that was seen to be gone does not come back by itself."""
        return self._waits(sight) or self._written.get(sight.task) != ""

    def _waits(self, sight: Sight) -> bool:
        winner = self._memory.winners.get(sight.task)
        return bool(sight.unfit) or (sight.phase is Phase.WAITING and (winner is None or not winner.is_held))

    def _reason(self, sight: Sight, coordinator: Coordinator) -> str:
        if not self._waits(sight):
            return ""
        text = sight.unfit or coordinator.why(sight.task)
        return MACHINE.sub(lambda found: "node " + self._memory.names.get(found[1], found[1]), text)

    def _write(self, sight: Sight, reason: str) -> None:
        if self._written.get(sight.task) == reason:
            return
        before = self._slurm.comment(sight.name)
        if before is None:
            return  # the job is gone
        after = with_reason(before, reason)
        if after != before and self._slurm.update(sight.name, f"Comment={after}"):
            return  # it is tried again, and what is wrong is said of other commands
        self._written[sight.task] = reason
