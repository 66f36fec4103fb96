"""A model of Slurm: its jobs, arrays, partitions and nodes, and what its commands print. It stands in for the processes that bin/slurm runs.

What it does was seen on Slurm 22.05.8: a partition that is DOWN starts nothing; an update is done or not; a job that runs takes no other
partition or node; a requeue gives a job a new submit time and a delay of 121 s, and keeps the nodes that it asks for; one that holds leaves
its own reason, which an update of the partition keeps; a release changes no time; an array's throttle is kept in each partition; a node
that fails has its jobs requeued; slurmctld that is killed forgets its last seconds, and gives job ids a second time.

Time is a number that the test moves; Slurm keeps whole seconds of it. Nothing here draws: a test that draws its steps by a seed is the same
each time.
"""
import collections
import copy
import dataclasses

REQUEUED_HELD = "job requeued in held state"
REQUEUE_DELAY = 121
# a job leaves its node for so long, and sends nothing for so long after its start
LEAVING, RAMP = 1, 1.0
QUEUES = ("net", "urgent")
RUN, OTHER = "netrun", "batch"
STATES = {"PD": "PENDING", "R": "RUNNING", "CG": "COMPLETING", "CD": "COMPLETED", "CA": "CANCELLED"}


@dataclasses.dataclass
class Node:
    """`others` is the use of the link by what Slurm does not know of, in Mbit/s. The counters have bytes, and the exporter a clock of its
    own, which is `skew` ahead."""

    name: str
    cpus: int = 2
    gres: str = "bandwidth:100"
    booted: int = 1000
    shown_boot: int = 1000
    base: str = "IDLE"
    flags: tuple = ()
    is_heard: bool = True
    is_answering: bool = True
    others: float = 0.0
    changed_at: float = 0.0
    received: float = 0.0
    sent: float = 0.0
    skew: float = 0.0
    refuses: bool = False

    def takes(self):
        return self.base == "IDLE" and not self.flags and self.is_heard and not self.refuses


@dataclasses.dataclass
class Job:
    """A job, or an element of an array, with what really happens to it: how often it started, who holds it, and who requeued it."""

    root: int
    index: int
    partition: str
    submitted: int
    length: float
    request: int = 0
    gres: str = ""
    cpus: int = 1
    state: str = "PD"
    priority: int = 100
    reason: str = "PartitionDown"
    restarts: int = 0
    requeue: int = 1
    begin: float = 0
    node: str = ""
    asked: str = ""
    after: tuple = ()
    comment: str = ""
    admin: str = ""
    throttle: int = 0
    left: float = 0
    leaves_at: float = 0
    next_state: str = ""
    starts: int = 0
    held_by: str = ""
    requeued_by: str = ""
    is_split: bool = False
    started_at: float = 0
    # a number of its own, which is not given again
    born: int = 0

    @property
    def name(self):
        return str(self.root) if self.index is None else "%d_%d" % (self.root, self.index)

    def is_over(self):
        return self.state in ("CD", "CA")


class Slurm:
    """What slurmctld keeps. `now` is in seconds after 1970. `consumes` says whether gres count when a job is to start."""

    def __init__(self, nodes, consumes=True, now=1700000000):
        self.nodes = {node.name: node for node in nodes}
        for node in nodes:
            node.booted = node.shown_boot = int(now) - 1000
        self.jobs, self.now, self.consumes, self.next_id = [], now, consumes, 1
        self.is_answering, self.births = True, 0
        self.saved = collections.deque(maxlen=8)
        self.events = []

    # what users and administrators do

    def submit(self, partition="net", length=5, request=0, array=None, throttle=0, **more):
        root, self.next_id = self.next_id, self.next_id + 1
        gres = more.pop("gres", "gres:bandwidth:%d" % request if request else "")
        for index in [None] if array is None else range(array):
            self.births += 1
            self.jobs.append(Job(root, index, partition, int(self.now), length, request, gres, throttle=throttle, born=self.births, **more))
        return root

    def job(self, name):
        """The last one of the name: ids come again when slurmctld forgot."""
        return next((job for job in reversed(self.jobs) if job.name == name and not job.is_over()), None)

    def hold(self, job, who):
        if job.state == "PD":
            job.priority, job.held_by, job.reason = 0, who, "JobHeldUser" if who == "user" else "JobHeldAdmin"

    def let_go(self, job):
        if job.state == "PD" and job.priority == 0:
            job.priority, job.held_by, job.reason = 100, "", "None"

    def cancel(self, job):
        if job.state in ("R", "CG"):
            self._leave(job, "CA")
        elif job.state == "PD":
            job.state = "CA"

    def requeue(self, job, who, holds):
        """Whether Slurm does it."""
        if job.state != "R" or not job.requeue:
            return False
        job.requeued_by = who
        if holds:
            job.priority, job.held_by, job.reason = 0, who, REQUEUED_HELD
        self._leave(job, "PD")
        return True

    def fail(self, node, reboots):
        """The node is down: its jobs are requeued."""
        node.base = "DOWN"
        for job in self.jobs:
            if job.node == node.name and job.state in ("R", "CG"):
                job.requeued_by = "failure"
                self._settle(job, "PD" if job.requeue and job.next_state != "CA" else "CA")
        if reboots:
            node.booted = node.shown_boot = int(self.now)
            node.received = node.sent = 0.0

    # what slurmctld does

    def _leave(self, job, state):
        job.state, job.next_state, job.leaves_at = "CG", state, self.now + LEAVING

    def _settle(self, job, state):
        job.state, job.node, job.next_state = state, "", ""
        if state == "PD":
            job.restarts += 1
            job.submitted, job.begin, job.left = int(self.now), int(self.now) + REQUEUE_DELAY, 0
            job.reason = job.reason if job.priority == 0 else "BeginTime"

    def save(self):
        """Writes its state, which a restart finds again."""
        self.saved.append(copy.deepcopy((self.jobs, self.next_id)))

    def forget(self):
        """slurmctld is killed, and begins with the oldest state that it kept. What runs and is not known to run is ended on its node."""
        ran = {(job.root, job.index, job.submitted) for job in self.jobs if job.state in ("R", "CG")}
        if self.saved:
            self.jobs, self.next_id = self.saved[0]
            self.saved.clear()
        for job in self.jobs:
            if job.state == "R" and (job.root, job.index, job.submitted) not in ran:
                self._settle(job, "PD")
                job.requeued_by = "failure"
        for node in self.nodes.values():
            node.is_heard = False

    def hear(self):
        for node in self.nodes.values():
            node.is_heard = True

    def there(self, node, states=("R", "CG"), partition=None):
        return [job for job in self.jobs if job.node == node.name and job.state in states and partition in (None, job.partition)]

    def advance(self, seconds):
        """Time passes: links carry bytes, jobs end, and others start."""
        for node in self.nodes.values():
            sends = {job.born: min(seconds, max(0.0, self.now + seconds - job.started_at - RAMP)) for job in self.there(node, ("R",))}
            carried = node.others * seconds + sum(job.request * sends[job.born] for job in self.there(node, ("R",)))
            node.received += carried * 125000
            node.sent += carried * 125000 / 2
        self.now += seconds
        for job in self.jobs:
            if job.state == "R":
                job.left -= seconds
                if job.left <= 0:
                    self._leave(job, "CD")
            elif job.state == "CG" and self.now >= job.leaves_at:
                self._settle(job, job.next_state)
        self.schedule()

    def schedule(self):
        for job in self.jobs:
            if job.state != "PD" or job.priority == 0:
                continue
            job.reason = self.why_not(job)
            if not job.reason:
                job.state, job.reason, job.node, job.left, job.starts = "R", "None", self._node_for(job).name, job.length, job.starts + 1
                job.started_at = self.now
                self.events.append(("start", job.name, job.node))

    def why_not(self, job):
        """Why a job does not start; nothing if it does."""
        if job.partition in QUEUES:
            return "Dependency" if self.waits_for(job) else "BeginTime" if job.begin > self.now else "PartitionDown"
        if self.waits_for(job):
            return "Dependency"
        if job.begin > self.now:
            return "BeginTime"
        if job.throttle and sum(it.root == job.root and it.state in ("R", "CG") for it in self.jobs) >= job.throttle:
            return "JobArrayTaskLimit"
        return "" if self._node_for(job) else "Resources"

    def waits_for(self, job):
        return [root for root in job.after if any(it.root == root and not it.is_over() for it in self.jobs)]

    def _node_for(self, job):
        nodes = [self.nodes[job.asked]] if job.asked else list(self.nodes.values())
        return next((node for node in nodes if self._has_room(node, job)), None)

    def _has_room(self, node, job):
        there = self.there(node)
        fits = sum(it.request for it in there) + job.request <= 100 or not self.consumes
        return node.takes() and sum(it.cpus for it in there) + job.cpus <= node.cpus and fits

    # what commands print and do

    def run(self, words):
        """The status of a command, and what it writes."""
        if not self.is_answering:
            return 1, "", "slurm_load_jobs error: Unable to contact slurm controller (connect failure)\n"
        words = list(words)
        if words[0] == "squeue":
            return 0, self.squeue(), ""
        if words[1:3] == ["show", "nodes"]:
            return 0, "".join(map(self.node_line, self.nodes.values())), ""
        if words[1:3] == ["show", "job"]:
            return self.shown_job(words[3])
        return self.do(words[1], words[2:])

    def squeue(self):
        """The jobs that are not over, those elements of an array in one line that were not told apart."""
        lines, together = [], collections.defaultdict(list)
        for job in self.jobs:
            if job.is_over() or job.partition == OTHER:
                continue
            if job.index is not None and job.state == "PD" and not job.is_split:
                together[job.root, job.submitted].append(job)
            else:
                lines.append(self.job_line(job, "N/A" if job.index is None else str(job.index)))
        for jobs in together.values():
            text = ",".join(str(job.index) for job in jobs)
            # Slurm does not show the throttle with the last one
            lines.append(self.job_line(jobs[0], text + ("%%%d" % jobs[0].throttle if jobs[0].throttle and len(jobs) > 1 else "")))
        return "".join(lines)

    def job_line(self, job, index):
        waits = self.waits_for(job) if job.state == "PD" else []
        eligible = "N/A" if waits or job.priority == 0 and job.held_by != "adapter" else str(int(max(job.begin, job.submitted)))
        fields = (job.root, index, job.state, job.partition, job.priority, job.restarts, job.requeue, 1, job.submitted, eligible, job.node,
                  job.asked, 1, job.cpus, job.gres or "N/A", ",".join("afterany:%d(unfulfilled)" % root for root in waits) or "(null)",
                  job.reason, job.admin or "(null)")
        return "|".join(map(str, fields)) + "|\n"

    def node_line(self, node):
        there = self.there(node)
        busy = sum(job.cpus for job in there)
        base = node.base if node.base != "IDLE" or not busy else "ALLOCATED" if busy >= node.cpus else "MIXED"
        flags = [*node.flags] + ([] if node.is_heard else ["NOT_RESPONDING"])
        boot = node.shown_boot if node.is_heard else "None"
        return ("NodeName=%s Arch=x86_64 CoresPerSocket=1  CPUAlloc=%d CPUEfctv=%d CPUTot=%d CPULoad=0.10 Gres=%s NodeAddr=127.0.0.1 OS=Linux 6"
                " #1 SMP  State=%s ThreadsPerCore=1 Partitions=net,urgent,netrun,batch  BootTime=%s SlurmdStartTime=%s Reason=a State=b\n" % (
                    node.name, busy, node.cpus, node.cpus, node.gres, "+".join([base, *flags]), boot, boot))

    def shown_job(self, name):
        job = self.job(name) or next((it for it in self.jobs if str(it.root) == name and not it.is_over()), None)
        if job is None:
            return 1, "", "slurm_load_jobs error: Invalid job id specified\n"
        array = "ArrayJobId=%d ArrayTaskId=%s ArrayTaskThrottle=%d " % (job.root, job.index, job.throttle) if job.throttle else ""
        return 0, "JobId=%s %sJobName=x\n   WorkDir=/\n   Comment=%s \n   StdErr=/dev/null\n" % (job.root, array, job.comment), ""

    def do(self, what, words):
        """An update, a requeue or a release, as a whole or not at all."""
        name = words[0].removeprefix("JobId=")
        job = self.job(name)
        if job is None:
            return 1, "", "Invalid job id specified for job %s\n" % name
        if what == "requeuehold":
            return (0, "", "") if self.requeue(job, "adapter", True) else (1, "", "Requested operation is presently disabled for job %s\n" % name)
        if what == "release":
            self.let_go(job)
            return 0, "", ""
        fields = dict(word.split("=", 1) for word in words[1:])
        if job.state != "PD" and fields.keys() & {"Partition", "ReqNodeList", "StartTime"}:
            return 1, "", "Job is no longer pending execution for job %s\n" % name
        if fields.get("ReqNodeList") and fields["ReqNodeList"] not in self.nodes:
            return 1, "", "Invalid node name specified for job %s\n" % name
        self.update(job, fields)
        return 0, "", ""

    def update(self, job, fields):
        job.is_split = True
        job.partition = fields.get("Partition", job.partition)
        job.asked = fields.get("ReqNodeList", job.asked)
        if "StartTime" in fields:
            job.begin = int(self.now) + int(fields["StartTime"].partition("+")[2] or 0)
        job.admin = fields.get("AdminComment", job.admin)
        job.comment = fields.get("Comment", job.comment)
