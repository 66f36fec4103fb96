"""What Slurm is told: where its jobs differ from what the coordinator decided, it is made to agree.

Each step is one command, or several of which each leaves the job in a state from which any adapter goes on. A placement is one
update, so it is done or not. A job that is preempted first gets a note that says so, is then requeued and held, then moved
to its queue, and then released. What Slurm refuses is said, and done in a later pass if it is still to be done.
"""
import dataclasses
import re
from collections.abc import Mapping

from slurming.events import Events
from slurming.follower import Spot
from slurming.jobs import REQUEUED_HELD, Phase, Sight
from slurming.memory import Memory
from slurming.notes import HELD_BY_OTHERS, Note, with_note
from slurming.rooms import Room
from slurming.slurm import Slurm, is_denied
from slurming.telling import Teller

# why a job does not start, if it may be the node that is to blame
OF_NODES = ("None", "Resources", "Priority", "ReqNodeNotAvail", "NodeDown", "Nodes required")
# why Slurm never requeues a job
NOT_REQUEUED = re.compile("disabled|batch", re.IGNORECASE)
LONGEST_LEFT_OUT = 3600.0
# seconds after which a job that ran is placed again: slurmd compares whole seconds, and takes a start in the second in which the job was
# killed there for an old one, whose job then fails
AFTER_RUN = 3
RIGHT = "the right to update jobs"


@dataclasses.dataclass
class Agreement:
    """Has Slurm do what differs. `rooms` are those of this pass, by the name of the node."""

    slurm: Slurm
    teller: Teller
    memory: Memory
    events: Events
    run: str
    start_wait: float
    avoid: float
    rooms: Mapping[str, Room] = dataclasses.field(default_factory=dict)
    _stops: set[tuple[str, int]] | None = None

    def agree(self, sight: Sight) -> None:
        """Does what is to be done with a job now, if anything is."""
        match sight.phase:
            case Phase.BLOCKED:
                self._done(sight, "release", self.slurm.release_hold(sight.name))
            case Phase.RETURNING:
                self._send_back(sight, "it is not to start here")
            case Phase.PREEMPTED:
                self._requeue(sight)
            case Phase.STARTING:
                self._look_at_start(sight)
            case Phase.RUNNING:
                self._look_at_run(sight)
            case Phase.WAITING:
                self._look_at_wait(sight)

    # a job that waits

    def _look_at_wait(self, sight: Sight) -> None:
        """Places a job that the coordinator holds on a node, if there is room; takes the decision back if the node is not open now."""
        winner = self.memory.winners.get(sight.task)
        if winner is None or not winner.is_held or winner.spot.coordinator != self.teller.coordinator.number:
            return
        name = self.memory.names.get(winner.spot.machine, "")
        room = self.rooms.get(name)
        if room is None or not room.is_fit_for(sight.request):
            self._decide_again(sight)
        elif room.is_there_for(sight.request):
            self._place(sight, room, winner.spot)

    def _decide_again(self, sight: Sight) -> None:
        """The decision does not fit what is known now: a later attempt is to be placed."""
        self.memory.winners.pop(sight.task)
        self.teller.tell_progress(sight.task, self.memory.next_attempt(sight.task), "pending")

    def _place(self, sight: Sight, room: Room, spot: Spot) -> None:
        node, record = room.node.name, sight.job.record
        text = self._noted(sight, spot.attempt, spot.coordinator, spot.incarnation)
        why = self.slurm.update(sight.name, f"Partition={self.run}", f"ReqNodeList={node}", "StartTime=now", f"AdminComment={text}")
        # the room is taken whatever Slurm answers: an update whose answer is lost may have been made
        room.fill(sight.request)
        if self._done(sight, "place", why):
            self.events.say("placed", f"job {sight.name} goes to {node}", job=sight.name, task=sight.task, node=node, attempt=spot.attempt,
                            restarts=record.restarts)

    # a job that is placed

    def _look_at_start(self, sight: Sight) -> None:
        """Sends a job back that is to start elsewhere, or that does not start."""
        since = self.memory.starting_since.setdefault(sight.task, self.teller.moment.steady)
        if not self._is_decided(sight):
            self._send_back(sight, "it is to start elsewhere")
        elif not self._is_noted(sight):
            self._adopt(sight, self.memory.winners[sight.task].spot)
        elif self.teller.moment.steady - since > self.start_wait:
            if self._send_back(sight, f"it did not start on {sight.node} ({sight.job.record.reason})"):
                self._blame(sight)

    def _blame(self, sight: Sight) -> None:
        """The node is left out for a while if a job does not start there; a job is if it does not start for a second time, or if Slurm
        says that it is not the node."""
        memory, now = self.memory, self.teller.moment.steady
        memory.failures[sight.task] = times = memory.failures.get(sight.task, 0) + 1
        if times == 1 and sight.job.record.reason.startswith(OF_NODES):
            memory.avoided_nodes[sight.node] = now + self.avoid
        else:
            memory.avoided_tasks[sight.task] = now + min(self.avoid * 2.0 ** (times - 1), LONGEST_LEFT_OUT)

    def _send_back(self, sight: Sight, cause: str) -> bool:
        """Moves a job that does not run back to its queue. A hold stays, unless it is that of the adapter's own requeue."""
        assert sight.note is not None
        is_blocked = sight.job.is_held and sight.job.record.reason == REQUEUED_HELD
        # the reason of the hold stays behind the move, and does not say whose it is
        hold = HELD_BY_OTHERS if is_blocked and not sight.note.releases() else 0
        attempt = self.memory.saw(sight.task, sight.note.attempt + sight.note.is_placed())
        text = self._noted(sight, attempt, 0, hold)
        start = "now" if sight.is_current else f"now+{AFTER_RUN}"
        why = self.slurm.update(sight.name, f"Partition={sight.queue}", "ReqNodeList=", f"StartTime={start}", f"AdminComment={text}")
        if not self._done(sight, "send back", why):
            return False
        self.teller.tell_progress(sight.task, attempt, "pending")
        self.events.say("back", f"job {sight.name} goes back to {sight.queue}: {cause}", job=sight.name, task=sight.task, attempt=attempt,
                        cause=cause)
        if is_blocked and sight.note.releases():
            self._done(sight, "release", self.slurm.release_hold(sight.name))
        return True

    # a job that runs

    def _look_at_run(self, sight: Sight) -> None:
        """Preempts a job whose attempt is to be stopped, and makes the note of any other say what runs."""
        self.memory.failures.pop(sight.task, None)
        if self.memory.incarnations.of(sight.node) is None:
            return  # slurmctld has not heard of the node
        if self._is_decided(sight):
            if not self._is_noted(sight):
                self._adopt(sight, self.memory.winners[sight.task].spot)
        elif self._is_stopped(sight) and sight.job.record.may_requeue:
            self._preempt(sight)
        else:
            self.memory.kept.add(sight.task)

    def _is_stopped(self, sight: Sight) -> bool:
        """Whether the coordinator decided that the attempt which runs is to end."""
        note = sight.note
        assert note is not None
        if not sight.is_current or sight.task in self.memory.kept:
            return False
        is_preempted = note.attempt <= self.memory.preempted.get(sight.task, -1)
        return is_preempted or (sight.task not in self.memory.winners and (sight.task, note.attempt) in self._stopped())

    def _stopped(self) -> set[tuple[str, int]]:
        """The attempts that are to be stopped. They are many after a day, so they are asked for if need be."""
        if self._stops is None:
            self._stops = self.teller.coordinator.stops()
        return self._stops

    def _is_decided(self, sight: Sight) -> bool:
        """Whether the coordinator holds the job where it is."""
        winner = self.memory.winners.get(sight.task)
        return winner is not None and winner.is_held and self.memory.names.get(winner.spot.machine) == sight.node

    def _is_noted(self, sight: Sight) -> bool:
        """Whether the note says what the coordinator decided, and is of the start that Slurm shows."""
        note, spot = sight.note, self.memory.winners[sight.task].spot
        assert note is not None
        return sight.is_current and (note.attempt, note.coordinator, note.incarnation) == (spot.attempt, spot.coordinator, spot.incarnation)

    def _adopt(self, sight: Sight, spot: Spot) -> None:
        """Writes a note of what runs."""
        text = self._noted(sight, spot.attempt, spot.coordinator, spot.incarnation)
        if self._done(sight, "note", self.slurm.update(sight.name, f"AdminComment={text}")):
            self.memory.kept.discard(sight.task)
            self.events.say("adopted", f"job {sight.name} runs on {sight.node}", job=sight.name, task=sight.task, node=sight.node,
                            attempt=spot.attempt)

    def _preempt(self, sight: Sight) -> None:
        """Notes that a job is to go back, so that the hold which follows is known as the adapter's own, and requeues it."""
        assert sight.note is not None
        text = self._noted(sight, self.memory.saw(sight.task, sight.note.attempt + 1), 0, 0)
        if self._done(sight, "note", self.slurm.update(sight.name, f"AdminComment={text}")):
            self._requeue(sight)

    def _requeue(self, sight: Sight) -> None:
        """Requeues a job that is noted to go back. One that Slurm does not requeue runs on."""
        why = self.slurm.requeue_held(sight.name)
        if self._done(sight, "requeue", why):
            self.events.say("preempting", f"job {sight.name} on {sight.node} is requeued", job=sight.name, task=sight.task, node=sight.node,
                            attempt=self.memory.attempts.get(sight.task, 0))
        elif NOT_REQUEUED.search(why):
            self.memory.kept.add(sight.task)

    # what Slurm says

    def _noted(self, sight: Sight, attempt: int, coordinator: int, incarnation: int) -> str:
        record = sight.job.record
        task = sight.note.task if sight.note else sight.uuid
        return with_note(record.comment, Note(task, attempt, coordinator, incarnation, record.restarts, sight.queue))

    def _done(self, sight: Sight, what: str, why: str) -> bool:
        """Whether Slurm did it; else says why it did not."""
        if not why:
            self.memory.refused.pop(sight.task, None)
            self.events.mend(RIGHT)
        elif is_denied(why):
            self.events.fault(RIGHT, f"Slurm does not let this user update jobs ({why.partition(' for job')[0]})")
        elif self.memory.refused.get(sight.task) != f"{what}: {why}":
            self.memory.refused[sight.task] = f"{what}: {why}"
            self.events.say("refused", f"job {sight.name}: Slurm does not {what} it ({why})", job=sight.name, command=what)
        return not why
