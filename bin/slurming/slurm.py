"""Slurm, by its own commands: what they are asked, and how their text is read.

Texts are read rather than JSON, which takes 0.4 s for 2,000 jobs. Of a job only fields are asked for that a user cannot
fill with any text, and the administrator's comment comes last in its line: so no job can pass for another. Times are asked
for as seconds after 1970 (SLURM_TIME_FORMAT), so no time zone matters.
"""
import os
import re
import subprocess
from collections.abc import Callable, Sequence
from typing import NamedTuple

from slurming.endings import NO_SLURM, Failure
from slurming.jobs import Job, Record, expanded, gres_count
from slurming.nodes import Node

# the fields of a job, in the order in which they are asked for and read
FIELDS = ("ArrayJobID", "ArrayTaskID", "StateCompact", "Partition", "PriorityLong", "RestartCnt", "Requeue", "BatchFlag", "SubmitTime",
          "EligibleTime", "NodeList", "ReqNodes", "NumNodes", "NumCPUs", "tres-per-node", "Dependency", "Reason", "admin_comment")
FORMAT = ",".join(f"{field}:|" for field in FIELDS)
NOTHING = ("(null)", "N/A", "None", "Unknown", "")
# how scontrol says that this user may not do it
DENIED = re.compile(r"Access/permission denied|Invalid user id", re.IGNORECASE)
# and that slurmctld does not answer: then no further command of the pass is tried, each of which would wait as long
SILENT = re.compile(r"Unable to contact slurm controller|timed out", re.IGNORECASE)
TOOK_TOO_LONG = 124
COMMENT = re.compile(r"^   Comment=(.*?) ?\n   [A-Za-z]+=", re.MULTILINE | re.DOTALL)


class Answer(NamedTuple):
    """How a command ended, and what it wrote."""

    status: int
    out: str
    err: str

    def why(self) -> str:
        """The last line that it wrote on standard error, or how it ended."""
        lines = [line for line in (self.err or self.out).splitlines() if line.strip()]
        return lines[-1].strip() if lines else f"status {self.status}"


class NoAnswer(Exception):
    """Slurm does not answer what it was asked, for this reason."""


class Commands:
    """Runs Slurm's commands as processes."""

    def __init__(self, folder: str, patience: float) -> None:
        self._folder, self._patience = folder, patience
        kept = {name: text for name, text in os.environ.items() if not re.match(r"SQUEUE_|SINFO_|SLURM_(?!CONF$)", name)}
        self._environment = {**kept, "SLURM_TIME_FORMAT": "%s", "SLURM_BITSTR_LEN": "0", "LC_ALL": "C"}

    def run(self, words: Sequence[str]) -> Answer:
        name = os.path.join(self._folder, words[0]) if self._folder else words[0]
        try:
            done = subprocess.run([name, *words[1:]], stdin=subprocess.DEVNULL, stdout=subprocess.PIPE, stderr=subprocess.PIPE,
                                  env=self._environment, timeout=self._patience, start_new_session=True)
        except subprocess.TimeoutExpired:
            return Answer(TOOK_TOO_LONG, "", f"{words[0]} took over {self._patience:g} s")
        except (OSError, ValueError) as why:
            raise Failure(NO_SLURM, f"{name} cannot be run ({why}); Debian's package is slurm-client") from None
        return Answer(done.returncode, done.stdout.decode(errors="replace"), done.stderr.decode(errors="replace"))


class Slurm:
    """What an adapter asks Slurm, and has it do. The guard is asked before each command that changes a job, and raises if it is not to be
    given."""

    def __init__(self, commands: Commands, gres: str, guard: Callable[[], None] = lambda: None) -> None:
        self._commands, self._gres, self._guard = commands, gres, guard

    # what is asked

    def release(self) -> str:
        """The release of the commands, as 22.05.8."""
        answer = self._commands.run(["sinfo", "--version"])
        found = re.search(r"\b(\d+\.\d+(?:\.\d+)?)", answer.out)
        if answer.status != 0 or found is None:
            raise Failure(NO_SLURM, f"sinfo --version does not name a release ({answer.why()})")
        return found[1]

    def configuration(self) -> dict[str, str]:
        """Slurm's own settings."""
        pairs = (line.partition("=") for line in self._asked("scontrol", "show", "config").splitlines())
        return {name.strip(): value.strip() for name, equals, value in pairs if equals}

    def partition_state(self, name: str) -> str:
        found = re.search(r" State=(\S+)", self._asked("scontrol", "show", "partition", name, "-o"))
        return found[1] if found else ""

    def nodes(self) -> list[Node]:
        return read_nodes(self._asked("scontrol", "show", "nodes", "-o"), self._gres)

    def jobs(self, partitions: Sequence[str]) -> tuple[list[Job], list[str]]:
        """The jobs of the partitions that are not over, arrays by their elements; and the lines that could not be read."""
        return read_jobs(self._asked("squeue", "-h", "-a", "-p", ",".join(partitions), "-O", FORMAT), self._gres)

    def throttle(self, root: int) -> int:
        """How many elements of an array may run at the same time; 0 if no number is set, or if there is no such array."""
        answer = self._commands.run(["scontrol", "show", "job", str(root)])
        if is_silent(answer):
            raise NoAnswer(f"scontrol show job: {answer.why()}")
        found = re.search(r"^JobId=\d+ ArrayJobId=\d+ ArrayTaskId=\S+ ArrayTaskThrottle=(\d+)", answer.out, re.MULTILINE)
        return int(found[1]) if found else 0

    def comment(self, job: str) -> str | None:
        """A job's Comment, which users write as they like: of one job at a time, so that none can pass for that of another. Nothing if
        there is no such job."""
        answer = self._commands.run(["scontrol", "show", "job", job])
        if is_silent(answer):
            raise NoAnswer(f"scontrol show job: {answer.why()}")
        found = COMMENT.search(answer.out)
        return None if answer.status else found[1] if found else ""

    def _asked(self, *words: str) -> str:
        answer = self._commands.run(words)
        if answer.status != 0:
            raise NoAnswer(f"{' '.join(words[:3])}: {answer.why()}")
        return answer.out

    # what is done; each is answered by nothing if Slurm did it, and else by the reason; if slurmctld does not answer, it is not known

    def update(self, job: str, *fields: str) -> str:
        return self._done("update", f"JobId={job}", *fields)

    def requeue_held(self, job: str) -> str:
        return self._done("requeuehold", job)

    def release_hold(self, job: str) -> str:
        return self._done("release", job)

    def _done(self, *words: str) -> str:
        self._guard()
        answer = self._commands.run(["scontrol", *words])
        said = (answer.err + answer.out).strip()
        if is_silent(answer):
            raise NoAnswer(f"scontrol {words[0]}: {answer.why()}")
        # scontrol release and hold end with 0 whatever happened, and say what did
        return "" if answer.status == 0 and not said else answer.why()


def is_silent(answer: Answer) -> bool:
    """Whether slurmctld did not answer."""
    return answer.status == TOOK_TOO_LONG or (answer.status != 0 and SILENT.search(answer.err + answer.out) is not None)


def is_denied(why: str) -> bool:
    """Whether Slurm's reason is that this user may not do it."""
    return DENIED.search(why) is not None


# how texts are read

def read_jobs(text: str, gres: str) -> tuple[list[Job], list[str]]:
    """The jobs that squeue printed in FORMAT, and the lines that are none."""
    jobs: list[Job] = []
    strange: list[str] = []
    for line in text.split("\n"):
        if not line:
            continue
        try:
            jobs += elements(line, gres)
        except (ValueError, IndexError):
            strange.append(line)
    return jobs, strange


def elements(line: str, gres: str) -> list[Job]:
    """The job of a line, or the elements of an array that share it."""
    parts = line.split("|", len(FIELDS) - 1)
    if len(parts) != len(FIELDS) or not parts[-1].endswith("|"):
        raise ValueError("not as many fields as were asked for")
    field = dict(zip(FIELDS, parts))
    text, _, throttle = field["ArrayTaskID"].partition("%")
    record = Record(
        state=field["StateCompact"], partition=field["Partition"], priority=int(field["PriorityLong"]), restarts=int(field["RestartCnt"]),
        may_requeue=field["Requeue"] == "1" and field["BatchFlag"] == "1", submitted=int(field["SubmitTime"]), eligible=number(field["EligibleTime"]),
        node=given(field["NodeList"]), asked_nodes=given(field["ReqNodes"]), node_count=int(field["NumNodes"]), cpus=int(field["NumCPUs"]),
        request=gres_count(given(field["tres-per-node"]), gres), dependency=given(field["Dependency"]), reason=field["Reason"],
        comment=given(field["admin_comment"][:-1]), throttle=int(throttle) if throttle else None)
    root = int(field["ArrayJobID"])
    indices = [None] if text in NOTHING else expanded(text)
    return [Job(root, index, record) for index in indices]


def given(text: str) -> str:
    return "" if text in NOTHING else text


def number(text: str) -> int | None:
    return None if text in NOTHING else int(text)


def read_nodes(text: str, gres: str) -> list[Node]:
    """The nodes that `scontrol show nodes -o` printed, a line each. Only administrators can write what is in it."""
    nodes = []
    for line in text.split("\n"):
        if not line.startswith("NodeName="):
            continue
        found = {name: value for name, value in re.findall(r"(?:^| )(\w+)=(\S*)", line.split(" Reason=")[0])}
        states = found.get("State", "").rstrip("*~#!%$@^-").split("+")
        nodes.append(Node(
            name=found["NodeName"], address=found.get("NodeAddr", ""), state=states[0], flags=frozenset(states[1:]),
            partitions=frozenset(found.get("Partitions", "").split(",")), cpus=int(found.get("CPUTot", "0")),
            busy_cpus=int(found.get("CPUAlloc", "0")), threads=int(found.get("ThreadsPerCore", "1")),
            booted=number(found.get("BootTime", "")), bandwidth=node_bandwidth(found.get("Gres", ""), gres)))
    return nodes


def node_bandwidth(text: str, gres: str) -> int | None:
    """The count of a generic resource in a node's Gres, as bandwidth:100 or bandwidth:no_consume:100(S:0); nothing if it has none."""
    for part in given(text).split(","):
        if re.match(re.escape(gres) + r"(?::|$)", part):
            return gres_count("gres:" + re.sub(r"\(.*?\)|no_consume:", "", part), gres)
    return None
