"""Jobs as Slurm shows them, and what they are to an adapter."""
import dataclasses
import enum
import re
import uuid

from slurming.identities import is_of, submitted_at, task_id
from slurming.notes import Note, read_note

MOST_REQUEST = 1000000
# the states in which a job has a node, and the one in which it leaves it
ACTIVE = frozenset(("R", "S", "ST", "CF", "SI", "RS", "SO"))
COMPLETING, PENDING = "CG", "PD"
# why Slurm holds a job that was requeued to be held; a hold by anyone else has another reason
REQUEUED_HELD = "job requeued in held state"
UNITS = {"": 1, "K": 1 << 10, "M": 1 << 20, "G": 1 << 30}


class Phase(enum.Enum):
    """What a job is to an adapter."""

    WAITING = "it waits in a queue, and may be placed"
    WITHHELD = "it waits in a queue, and may not be placed"
    BLOCKED = "it waits in a queue, held by a requeue of the adapter"
    STARTING = "it is placed, and waits for Slurm to start it"
    RETURNING = "it waits in the run partition, and is to go back to its queue"
    RUNNING = "it runs where it was placed"
    PREEMPTED = "it runs, and is to be requeued"
    LEAVING = "it leaves its node"
    FOREIGN = "it is nobody's that an adapter placed"


@dataclasses.dataclass(frozen=True)
class Record:
    """What Slurm says of a job, or of all elements of an array that were not yet told apart. Times are seconds after 1970. A request
    is nothing if it cannot be read."""

    state: str
    partition: str
    priority: int
    restarts: int
    may_requeue: bool
    submitted: int
    eligible: int | None
    node: str
    asked_nodes: str
    node_count: int
    cpus: int
    request: int | None
    dependency: str
    reason: str
    comment: str
    throttle: int | None


@dataclasses.dataclass(frozen=True)
class Job:
    """A job, or an element of an array."""

    root: int
    index: int | None
    record: Record

    @property
    def name(self) -> str:
        """As commands take it: 17, or 11_2."""
        return str(self.root) if self.index is None else f"{self.root}_{self.index}"

    @property
    def is_held(self) -> bool:
        return self.record.priority == 0


@dataclasses.dataclass(frozen=True)
class Sight:
    """A job as an adapter sees it: whose task it is, its note if it has one of its own, and what it is to be done with."""

    job: Job
    task: str
    note: Note | None
    phase: Phase
    # why a job that is withheld is, if Slurm does not say so
    unfit: str = ""

    @property
    def name(self) -> str:
        return self.job.name

    @property
    def request(self) -> int:
        return self.job.record.request or 0

    @property
    def node(self) -> str:
        """Where it is, or is to be started."""
        return self.job.record.node or self.job.record.asked_nodes

    @property
    def uuid(self) -> uuid.UUID:
        return uuid.UUID(self.task)

    @property
    def queue(self) -> str:
        """The partition in which it waits, or to which it goes back."""
        is_queued = self.note is None or self.phase in (Phase.WAITING, Phase.WITHHELD, Phase.BLOCKED)
        return self.job.record.partition if is_queued or self.note is None else self.note.queue

    @property
    def submitted(self) -> int:
        """When it was first submitted."""
        return submitted_at(self.uuid)

    @property
    def is_current(self) -> bool:
        """Whether the note is of the start that Slurm shows."""
        return self.note is not None and self.note.restarts == self.job.record.restarts


def see(job: Job, cluster: str, run: str, queues: frozenset[str], now: float) -> Sight:
    """What a job is to an adapter."""
    record = job.record
    note = read_note(record.comment)
    if note is not None and not is_of(note.task, cluster, job.root, job.index):
        note = None  # it was written for another job, or by hand
    if note is not None and note.queue not in queues:
        note = dataclasses.replace(note, queue=sorted(queues)[0])  # the configuration no longer has its queue
    own = note.task if note else task_id(cluster, job.root, job.index, record.submitted)
    task = str(own)
    if record.partition == run:
        if note is None and record.node_count == 1 and (record.cpus == 1 or record.state in ACTIVE) and record.request is not None:
            # its note was lost: what runs is adopted, since this names no incarnation, and what waits goes back
            note = Note(own, 0, 1, 0, record.restarts, sorted(queues)[0])
        return Sight(job, task, note, in_run_partition(job, note))
    if record.state != PENDING:
        return Sight(job, task, note, Phase.FOREIGN)
    if job.is_held:
        own = record.reason == REQUEUED_HELD and note is not None and note.releases()
        return Sight(job, task, note, Phase.BLOCKED if own else Phase.WITHHELD)
    unfit = why_unfit(job, queues)
    waits = bool(record.dependency) or (record.eligible or 0) > now
    return Sight(job, task, note, Phase.WITHHELD if unfit or waits else Phase.WAITING, unfit)


def in_run_partition(job: Job, note: Note | None) -> Phase:
    if note is None:
        return Phase.FOREIGN
    if job.record.state == COMPLETING:
        return Phase.LEAVING
    if job.record.state in ACTIVE:
        return Phase.RUNNING if note.is_placed() or not job.record.may_requeue else Phase.PREEMPTED
    if job.record.state != PENDING:
        return Phase.FOREIGN
    is_starting = note.is_placed() and note.restarts == job.record.restarts and not job.is_held and not job.record.dependency
    return Phase.STARTING if is_starting else Phase.RETURNING


def why_unfit(job: Job, queues: frozenset[str]) -> str:
    """Why a job in a queue can never be placed as it is; nothing if it can."""
    record = job.record
    if record.partition not in queues:
        return "it names several partitions, and waits in one queue only"
    if record.request is None:
        return "what it asks of the generic resource cannot be read"
    if record.node_count > 1:
        return f"it asks for {record.node_count} nodes, and a placed job has one"
    if record.cpus > 1:
        return f"it asks for {record.cpus} processors, and a placed job has one"
    if record.asked_nodes:
        return "it asks for nodes by name, and the coordinator chooses the node"
    return ""


def gres_count(asked: str, gres: str) -> int | None:
    """How much a job asks of the generic resource, as in gres:gpu:1,gres:bandwidth:40; 0 if it asks for none, and nothing if it cannot
    be read."""
    count: int | None = 0
    is_found = False
    for part in asked.split(","):
        name = re.sub(r"^gres[:/]", "", part)
        if not re.match(re.escape(gres) + r"(?:[:=]|$)", name):
            continue
        found = re.fullmatch(re.escape(gres) + r"(?:[:=]([0-9]{1,12})([KMG]?))?", name, re.IGNORECASE)
        if found is None or is_found:
            return None
        is_found = True
        count = int(found[1]) * UNITS[found[2].upper()] if found[1] else 1
    return count if count is not None and count <= MOST_REQUEST else None


def expanded(text: str) -> list[int | None]:
    """The indices that squeue prints for an array, as 0-2,5,8-20:4."""
    indices: list[int | None] = []
    for part in text.split(","):
        found = re.fullmatch(r"([0-9]+)(?:-([0-9]+)(?::([0-9]+))?)?", part)
        if found is None:
            raise ValueError(f"{text} is no list of indices")
        indices += range(int(found[1]), int(found[2] or found[1]) + 1, int(found[3] or 1))
    return indices
