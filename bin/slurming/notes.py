"""Notes: what an adapter writes into a job's AdminComment, and why a job waits, in its Comment.

A note is all that an adapter that begins has to know of a job. It is one token among what administrators write there, and
nothing but the token is ever changed.

    fetohamu=TASK,ATTEMPT,COORDINATOR,INCARNATION,RESTARTS,QUEUE

TASK is the task's id. COORDINATOR placed this ATTEMPT on the node that the job asks for, when that had the INCARNATION and
the job the number of RESTARTS. COORDINATOR 0 says that the job is to be in its QUEUE. A requeue that holds it is then the adapter's
own, unless INCARNATION is 1.
"""
import dataclasses
import re
import uuid

TOKEN = re.compile(r"(?:^| )fetohamu=([0-9a-f-]{36}),([0-9]{1,10}),([0-9]{1,2}),([0-9]{1,20}),([0-9]{1,10}),([^,\s]+)(?= |$)")
# what is removed is any token of the name, also one that cannot be read
ANY_TOKEN = re.compile(r"(?:^| )fetohamu=\S*")
REASON = re.compile(r" ?\[fetohamu: [^\]]*\]")
LONGEST_REASON = 200
# what a coordinator takes; of attempts some are left for later ones
MOST_ATTEMPT, MOST_COORDINATOR, MOST_INCARNATION = 4000000000, 64, (1 << 64) - 1
# the incarnation in a note of a job that others requeued to be held
HELD_BY_OTHERS = 1


@dataclasses.dataclass(frozen=True)
class Note:
    task: uuid.UUID
    attempt: int
    coordinator: int
    incarnation: int
    restarts: int
    queue: str

    def is_placed(self) -> bool:
        """Whether the job is to run where it asks for."""
        return self.coordinator != 0

    def releases(self) -> bool:
        """Whether a requeue that holds the job is the adapter's own, so that the hold ends with the move to the queue."""
        return self.coordinator == 0 and self.incarnation != HELD_BY_OTHERS

    def text(self) -> str:
        return f"fetohamu={self.task},{self.attempt},{self.coordinator},{self.incarnation},{self.restarts},{self.queue}"


def read_note(comment: str) -> Note | None:
    """The note in an AdminComment, if there is one."""
    found = TOKEN.search(comment)
    if found is None:
        return None
    try:
        task = uuid.UUID(found[1])
    except ValueError:
        return None
    attempt, coordinator, incarnation, restarts = (int(found[at]) for at in range(2, 6))
    if attempt > MOST_ATTEMPT or coordinator > MOST_COORDINATOR or incarnation > MOST_INCARNATION:
        return None
    return Note(task, attempt, coordinator, incarnation, restarts, found[6])


def with_note(comment: str, note: Note) -> str:
    """The AdminComment with this note in place of the one that it has."""
    return (ANY_TOKEN.sub("", comment) + " " + note.text()).strip()


def with_reason(comment: str, reason: str) -> str:
    """A job's Comment with this reason in place of the one that it has; with none if it is empty."""
    kept = REASON.sub("", comment)
    text = " ".join(reason.split()).replace("]", ")")[:LONGEST_REASON]
    return (kept + f" [fetohamu: {text}]").strip() if text else kept
