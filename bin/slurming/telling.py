"""What a coordinator is told: Slurm's jobs and nodes, and how busy links are, as facts."""
import dataclasses
from collections.abc import Callable
from typing import NamedTuple

from slurming.events import Events
from slurming.follower import Coordinator, Spot
from slurming.identities import machine_id
from slurming.jobs import Phase, Sight
from slurming.memory import Memory
from slurming.nodes import Node
from slurming.prices import NEVER, Prices
from slurming.rooms import Room, is_held, is_there, room_of

# a use that leaves no room, whatever a machine's bandwidth
CLOSED = NEVER


class Moment(NamedTuple):
    """When a pass is made: by the clock that Slurm's times are of, and by one that only goes forward. In seconds."""

    wall: float
    steady: float


@dataclasses.dataclass
class Teller:
    """Tells one coordinator. `cluster` names the ids of machines; `per_job` is how many processors a job of one takes."""

    coordinator: Coordinator
    memory: Memory
    events: Events
    cluster: str
    per_job: Callable[[Node], int]
    prices: Callable[[str], Prices]
    settle: float
    moment: Moment = Moment(0, 0)

    # nodes

    def tell_node(self, node: Node, sights: list[Sight], promised: list[int], use: int | None, began: float) -> Room | None:
        """Tells a node that has these jobs, and that is to get jobs which ask for what was promised. Its use is that since it began.
        Answers the room on it, or nothing if slurmctld has not heard of it yet."""
        memory = self.memory
        memory.nodes[node.name] = node
        noted = [sight.note.incarnation for sight in sights if sight.note and sight.is_current and is_held(sight)]
        incarnation = memory.incarnations.see(node, noted)
        if incarnation is None:
            return None
        machine = machine_id(self.cluster, node.name)
        memory.names[machine] = node.name
        is_avoided = memory.avoided_nodes.get(node.name, 0) > self.moment.steady
        room = room_of(node, sights, promised, use, self.fresh(sights, began), self.per_job(node), is_avoided)
        # what Slurm says runs is held until Slurm says something else
        is_up = node.is_up or any(sight.phase in (Phase.RUNNING, Phase.LEAVING) for sight in sights)
        self.coordinator.tell("machine", machine, incarnation=incarnation, up=is_up, slots=room.slots, nic=room.bandwidth)
        self.report(room)
        return room

    def report(self, room: Room) -> None:
        """Reports the use of a node; of a closed one a use that leaves no room."""
        incarnation = self.memory.incarnations.of(room.node.name)
        self.coordinator.tell("report", machine_id(self.cluster, room.node.name), incarnation=incarnation,
                              used=CLOSED if room.is_closed else room.used())

    def fresh(self, sights: list[Sight], began: float) -> int:
        """What jobs ask for that the use since then may not show: they start, or were not yet seen running for so long then."""
        since, before = self.memory.running_since, began - self.settle
        return sum(sight.request for sight in sights
                   if is_there(sight) and (sight.phase is Phase.STARTING or since.get(sight.task, self.moment.steady) > before))

    def tell_gone(self, name: str) -> None:
        """Slurm no longer has the node."""
        incarnation = self.memory.incarnations.of(name)
        if incarnation is not None:
            self.coordinator.tell("machine", machine_id(self.cluster, name), incarnation=incarnation, up=False, slots=1, nic=0)

    # jobs

    def tell_held(self, sight: Sight) -> None:
        """Tells a job that runs, starts or leaves, and where."""
        spot = self.spot_of(sight)
        if spot is None:
            return
        self.memory.saw(sight.task, spot.attempt)
        self.tell_spec(sight, is_withdrawn=False)
        self.coordinator.tell("propose", sight.task, **spot._asdict())
        if spot.attempt == self.memory.attempts[sight.task]:
            self.tell_progress(sight.task, spot.attempt, "pending" if sight.phase is Phase.STARTING else "running")

    def spot_of(self, sight: Sight) -> Spot | None:
        """Where a job runs, as a proposal: that of its note, if the note is of this start, and nobody proposed the same attempt
        elsewhere. Else what runs is true, and it is a later attempt. Nothing if slurmctld has not heard of the node."""
        memory, note = self.memory, sight.note
        assert note is not None
        now = memory.incarnations.of(sight.node)
        if now is None:
            return None
        machine = machine_id(self.cluster, sight.node)
        noted = Spot(note.attempt, note.coordinator, machine, note.incarnation)
        last = memory.winners.get(sight.task)
        is_disputed = last is not None and last.spot.attempt == note.attempt and last.spot != noted
        is_stale = sight.phase is Phase.RUNNING and (
            not sight.is_current or not note.is_placed() or note.incarnation != now or sight.task in memory.kept)
        if not is_stale and not is_disputed and sight.task not in memory.ended:
            return noted
        if last is not None and last.is_held and last.spot == (last.spot.attempt, self.coordinator.number, machine, now):
            return last.spot
        memory.saw(sight.task, note.attempt)
        return Spot(self.fresh_attempt(sight.task), self.coordinator.number, machine, now)

    def fresh_attempt(self, task: str) -> int:
        """An attempt behind all that were seen, also before the task was over."""
        if task in self.memory.ended:
            self.memory.saw(task, self.memory.ended.pop(task))
        return self.memory.next_attempt(task)

    def tell_waiting(self, sight: Sight, is_withheld: bool) -> bool:
        """Tells a job that is not held. Answers whether it waits, and the coordinator did not know it."""
        task, note = sight.task, sight.note
        if note is not None:
            # what was placed and is not there has been moved away
            self.memory.saw(task, note.attempt + note.is_placed())
        is_proposed = task in self.memory.winners and self.memory.winners[task].spot.attempt == self.memory.attempts.get(task)
        if task in self.memory.ended or (is_withheld and is_proposed):
            # when it is placed again, admission has to decide anew
            self.fresh_attempt(task)
        is_new = task not in self.memory.known
        if is_new and is_withheld:
            return False
        self.tell_spec(sight, is_withheld)
        self.tell_progress(task, self.memory.saw(task, 0), "pending")
        return is_new

    def price_of_waiting(self, sight: Sight) -> int:
        return self.prices(sight.queue).of_waiting(self.moment.wall - sight.submitted, sight.job.record.priority)

    def tell_spec(self, sight: Sight, is_withdrawn: bool) -> None:
        """Tells a task and its prices. Each task is a job of its own, of the same id, since each has an age of its own."""
        record = sight.job.record
        self.memory.known[sight.task] = sight.name
        self.coordinator.tell("job", sight.task, withdrawn=False, wait=self.price_of_waiting(sight),
                              preempt=self.prices(sight.queue).of_preempting(record.may_requeue))
        self.coordinator.tell("spec", sight.task, withdrawn=is_withdrawn, job=sight.task, request=sight.request)

    def tell_progress(self, task: str, attempt: int, phase: str) -> None:
        self.coordinator.tell("progress", task, attempt=attempt, phase=phase)

    def tell_end(self, task: str) -> None:
        """The task is over: it ended, it was cancelled, or Slurm forgot it."""
        name = self.memory.known[task]
        # at an attempt without a proposal, so that it is no longer among the winners
        self.tell_progress(task, self.memory.next_attempt(task), "done")
        self.memory.forget(task)
        self.coordinator.forget(task)
        self.events.say("ended", f"job {name} is over", job=name, task=task)
