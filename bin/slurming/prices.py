"""Prices of a job, in units of the network's costs: Mbit/s of request and of load."""
import dataclasses

# a coordinator's greatest price
NEVER = 1000000000


@dataclasses.dataclass(frozen=True)
class Prices:
    """Waiting costs `wait`, `age` more for each minute, and `priority` more for each unit of Slurm's priority, but at most
    `most`, which is below `preempt`. So no job of a queue takes the place of another of its queue by growing old."""

    wait: int = 2000000
    age: float = 1000
    priority: float = 0
    most: int = 5000000
    preempt: int = 10000000

    def of_waiting(self, waited: float, priority: int) -> int:
        """The price of waiting of a job that has waited for so many seconds. It changes once a minute."""
        minutes = int(max(0.0, waited) // 60)
        return max(0, min(self.most, int(self.wait + self.age * minutes + self.priority * priority)))

    def of_preempting(self, may_requeue: bool) -> int:
        """The price of preempting: the greatest there is if Slurm may not requeue the job."""
        return self.preempt if may_requeue else NEVER
