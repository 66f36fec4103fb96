"""A Slurm lab with adapters, exporters, and jobs that write down themselves when they start and end; and what has to hold of all of them
at any time. For tests/slurmed.py and examples/slurm/run."""
import collections
import contextlib
import dataclasses
import json
import os
import pathlib
import re
import shlex
import signal
import sys
import threading
import time

import slurm_lab
from exporters import Exporters
from slurm_lab import NODES, Lab, until

ROOT = pathlib.Path(__file__).resolve().parent.parent
ADAPTER = pathlib.Path(os.environ.get("SLURM_ADAPTER", ROOT / "bin/slurm"))
QUEUE, RUN = "net", "netrun"
NOTE = re.compile(r"fetohamu=([0-9a-f-]{36}),(\d+),(\d+),(\d+),(\d+),(\w+)")
# jobs in these states are over
OVER = ("COMPLETED", "CANCELLED", "FAILED", "TIMEOUT", "NODE_FAIL")

# a job: it writes a line when it starts and when it ends, also by a signal; bash waits so that it hears signals at once. Its first word is how
# long it sleeps, or a file that it waits for; a second one is the same after a requeue
JOB = """\
#!/bin/bash
line="${SLURM_ARRAY_JOB_ID:-$SLURM_JOB_ID}${SLURM_ARRAY_TASK_ID:+_$SLURM_ARRAY_TASK_ID} ${SLURM_RESTART_COUNT:-0} $SLURMD_NODENAME"
trap 'echo "end $line $EPOCHREALTIME" >> RECORDS' EXIT
trap 'exit 1' TERM
echo "start $line $EPOCHREALTIME" >> RECORDS
[ "${SLURM_RESTART_COUNT:-0}" = 0 ] || shift $(($# - 1))
case $1 in
*[!0-9.]*) until [ -e "FOLDER/$1" ]; do sleep 0.2 & wait $!; done ;;
*) sleep "$1" & wait $! ;;
esac
"""
# scontrol for the adapter, which is killed by the next command that changes a job, if the file `crash` says so
CRASHING = """\
#!/bin/bash
case $1 in update|requeuehold|requeue|release|hold) ;; *) exec SCONTROL "$@" ;; esac
mv FOLDER/crash FOLDER/crash.$$ 2>/dev/null || exec SCONTROL "$@"
when=$(cat FOLDER/crash.$$)
rm FOLDER/crash.$$
case $when in
before) kill -9 $PPID ;;
during) SCONTROL "$@" & kill -9 $PPID; wait ;;
after) SCONTROL "$@"; kill -9 $PPID ;;
esac
echo "$when $*" >> FOLDER/crashes
"""
# times after which the adapter gives something up are long, since Slurm, jobs and exporters may wait for a processor
CONFIGURATION = """\
[slurm]
queues = net
run = netrun
commands = {commands}
command-wait = 300
[adapter]
lock = {folder}/lock
interval = 0.25
start-wait = 300
follower-wait = 300
{more}
[use]
source = exporter
device = eth0
wait = 30
stale = 300
"""


@dataclasses.dataclass(frozen=True)
class Line:
    """What a job wrote: that it starts or ends, for the time that its restarts say, on a node."""

    what: str
    job: str
    restarts: int
    node: str
    at: float


@dataclasses.dataclass(frozen=True)
class Shown:
    """A job as Slurm shows it, with its note, if there is one: task, attempt, coordinator, incarnation, restarts and queue."""

    job: str
    state: str
    partition: str
    node: str
    asked: str
    restarts: int
    request: int
    is_held: bool
    comment: str
    note: tuple

    @property
    def is_placed(self):
        """Whether it runs, or may start, where a coordinator placed it."""
        if self.partition != RUN or not self.note or self.state not in ("RUNNING", "PENDING"):
            return False
        task, attempt, coordinator, incarnation, restarts, _ = self.note
        return self.state == "RUNNING" or (coordinator != 0 and restarts == self.restarts and not self.is_held)


def shown_in(line):
    """The job in a line of `scontrol show job -o`, which is nobody's free text here."""
    field = dict(re.findall(r"(\w+)=(.*?)(?= [A-Z][\w/:]*=|$)", line))
    found = NOTE.search(field.get("AdminComment", ""))
    note = (found[1], *map(int, found.groups()[1:5]), found[6]) if found else ()
    root, index = field.get("ArrayJobId", field["JobId"]), field.get("ArrayTaskId", "").partition("%")[0]
    asked = re.search(r"bandwidth:(\d+)", field.get("TresPerNode", ""))
    text = lambda name: "" if field.get(name, "(null)") == "(null)" else field[name]
    return Shown(root + (f"_{index}" if index else ""), field["JobState"], field["Partition"], text("NodeList"), text("ReqNodeList"),
                 int(field["Restarts"]), int(asked[1]) if asked else 0, field["Priority"] == "0", text("Comment"), note)


class Adapter:
    """A bin/slurm, what it says, and what its follower was asked."""

    def __init__(self, cluster, name, words=()):
        self.file, self.record = cluster.folder / f"{name}.events", cluster.folder / f"{name}.record"
        program = cluster.folder / f"{name}.program"
        recording = map(str, (sys.executable, "-B", ROOT / "tests/recording.py", self.record, cluster.program))
        program.write_text("#!/bin/sh\nexec %s \"$@\"\n" % " ".join(map(shlex.quote, recording)))
        program.chmod(0o755)
        self.process = cluster.lab.supervisor.start(
            [sys.executable, "-B", ADAPTER, "--json", "--program", program, *words, cluster.configuration], self.file, **cluster.lab.environment)

    def events(self, *kinds):
        """What it said, as far as it was said whole; of some kinds, if any are named."""
        lines = self.file.read_text().split("\n")[:-1] if self.file.exists() else []
        return [said for line in lines if line.startswith("{") and ((said := json.loads(line))["event"] in kinds or not kinds)]

    def said(self):
        return self.file.read_text() if self.file.exists() else ""

    def acts(self):
        return bool(self.events("acting"))

    def is_there(self):
        return self.process.status() is None

    def kill(self):
        return self.process.kill()

    def end(self):
        """Its status after SIGTERM."""
        self.process.signal(signal.SIGTERM)
        return self.process.wait()

    def asked(self):
        """Each question or order to its follower, with the answer."""
        lines = self.record.read_text().split("\n")[:-1] if self.record.exists() else []
        for it in map(json.loads, lines):
            yield json.loads(it["line"]), it["answer"]


class Cluster:
    """A lab, exporters, adapters, jobs, and a watch that samples what Slurm shows."""

    def __init__(self, program, more="", slots=4):
        # the nodes differ in their bandwidth, so that a test knows them again by what a coordinator is told
        self.lab = Lab(slots, (100, 101, 102, 103))
        self.program, self.more, self.adapters, self.stack = program, more, [], contextlib.ExitStack()
        self.folder = self.lab.folder / "jobs"
        self.records, self.configuration, self.script = self.folder / "records", self.folder / "slurm.ini", self.folder / "job"
        self.is_over, self.samples = threading.Event(), []

    def __enter__(self):
        with contextlib.ExitStack() as stack:
            stack.enter_context(self.lab)
            self.records.touch()
            self.records.chmod(0o666)
            self.script.write_text(JOB.replace("RECORDS", str(self.records)).replace("FOLDER", str(self.folder)))
            self.script.chmod(0o755)
            self.exporters = stack.enter_context(Exporters(NODES, self.fetching))
            self.make_commands()
            sections = [f"[node {node}]\nexporter = 127.0.0.1:{self.exporters.port(node)}" for node in NODES]
            text = CONFIGURATION.format(commands=self.folder / "commands", folder=self.folder, more=self.more)
            self.configuration.write_text(text + "\n".join(sections) + "\n")
            self.watch = threading.Thread(target=self.sample, daemon=True)
            self.watch.start()
            stack.callback(self.stop_watch)
            self.stack = stack.pop_all()
        return self

    def __exit__(self, *_):
        self.stack.close()

    def make_commands(self):
        folder = self.folder / "commands"
        folder.mkdir()
        for name in "squeue", "sinfo":
            (folder / name).symlink_to(slurm_lab.found(name))
        text = CRASHING.replace("SCONTROL", slurm_lab.found("scontrol")).replace("FOLDER", str(self.folder))
        (folder / "scontrol").write_text(text)
        (folder / "scontrol").chmod(0o755)

    # adapters and jobs

    def adapter(self, *words):
        """Starts a further adapter."""
        self.adapters.append(Adapter(self, f"adapter-{len(self.adapters)}", words))
        return self.adapters[-1]

    def acting(self, *words, without=()):
        """Starts an adapter, and waits until it acts and all nodes are open but some, and those whose exporters are silent."""
        adapter = self.adapter(*words)
        wanted = set(NODES) - self.exporters.silent - set(without)
        until(lambda: not adapter.is_there() or wanted <= {it["node"] for it in adapter.events("node") if it["state"] == "open"})
        if not adapter.is_there() or not adapter.acts():
            raise RuntimeError("the adapter does not act: " + adapter.said()[-500:])
        return adapter

    def crash(self, when):
        """Has the adapter killed before, during or after the next command by which it changes a job."""
        (self.folder / "crash.new").write_text(when)
        (self.folder / "crash.new").rename(self.folder / "crash")

    def let_go(self, name):
        """Lets the jobs end that wait for the file of the name, and those that will."""
        (self.folder / name).touch()

    def goes_on(self, adapter, passes=4):
        """Whether the adapter made so many further passes: what it was to do by what it knew then is done."""
        wanted = len(adapter.events("pass")) + passes
        return until(lambda: len(adapter.events("pass")) >= wanted)

    def submit(self, seconds, request=0, *words, later=None):
        """Submits a job that sleeps so long, or waits for a file, or after a requeue another one, and answers its number."""
        gres = [f"--gres=bandwidth:{request}"] if request else []
        return self.lab.did("sbatch", "--parsable", "-o", "/dev/null", "-p", QUEUE, *gres, *words, str(self.script), str(seconds),
                            *([] if later is None else [str(later)]))

    def control(self, *words):
        self.lab.did("scontrol", *words)

    # what is seen

    def lines(self, what=None, job=None):
        """What jobs wrote, in order."""
        found = [line.split() for line in self.records.read_text().split("\n")[:-1]]
        lines = [Line(it[0], it[1], int(it[2]), it[3], float(it[4])) for it in found]
        return [it for it in lines if what in (None, it.what) and job in (None, it.job)]

    def starts(self, job=None):
        return self.lines("start", job)

    def fetching(self, node):
        """What the jobs of a node ask for that started there and did not end."""
        ended = {(it.job, it.restarts) for it in self.lines("end")}
        requests = self.requests()
        return sum(requests.get(it.job, 0) for it in self.starts() if it.node == node and (it.job, it.restarts) not in ended)

    def requests(self):
        return {it.job: it.request for it in self.samples[-1][1]} if self.samples else {}

    def shown(self):
        """All jobs that Slurm knows, or None if it does not answer."""
        done = self.lab.run("scontrol", "show", "job", "-o", "-a")
        if done.returncode != 0:
            return None
        return [shown_in(line) for line in done.stdout.split("\n") if line.startswith("JobId=")]

    def job(self, name):
        return next((it for it in self.shown() or () if it.job == name), None)

    def running(self):
        return [it.job for it in self.shown() or () if it.state == "RUNNING"]

    def partitions(self, job):
        """The partitions in which a job was seen."""
        return {it.partition for _, jobs in self.samples for it in jobs if it.job == job}

    def are_over(self):
        jobs = self.shown()
        return jobs is not None and all(it.state in OVER for it in jobs)

    def sample(self):
        while not self.is_over.wait(0.2):
            jobs = self.shown()
            if jobs is not None:
                self.samples.append((time.time(), jobs))

    def stop_watch(self):
        self.is_over.set()
        self.watch.join()

    # what has to hold

    def wrong(self):
        """What did not hold at some time, each once."""
        found = {text for _, jobs in self.samples for text in self.wrong_in(jobs)}
        return sorted(found) + self.wrong_attempts() + self.wrong_starts()

    def wrong_attempts(self):
        """Jobs whose attempt fell, or that ran again after a restart with the attempt that they had."""
        found, last, ran = set(), {}, collections.defaultdict(dict)
        for it in (it for _, jobs in self.samples for it in jobs if it.note):
            task, attempt = it.note[:2]
            if attempt < last.get(task, 0):
                found.add(f"job {it.job}: its attempt fell from {last[task]} to {attempt}")
            last[task] = attempt
            if it.state == "RUNNING":
                ran[it.job][it.restarts] = attempt
        found |= {f"job {job}: its attempts are {attempts} by restarts" for job, attempts in ran.items()
                  if len(set(attempts.values())) < len(attempts)}
        return sorted(found)

    def uses(self, adapter):
        """The use of each node that the adapter's follower was told last."""
        nodes, uses = self.nodes_told(adapter), {}
        for line, _ in adapter.asked():
            report = line.get("tell", {}).get("report")
            if report and report["id"] in nodes:
                uses[nodes[report["id"]]] = report["used"]
        return uses

    def nodes_told(self, adapter):
        """The nodes by the ids of their machines: each has a bandwidth of its own."""
        by_bandwidth = {bandwidth: node for node, bandwidth in self.lab.bandwidths.items()}
        machines = [line["tell"]["machine"] for line, _ in adapter.asked() if "machine" in line.get("tell", {})]
        return {machine["id"]: by_bandwidth.get(machine["nic"]) for machine in machines}

    def most_at_once(self):
        """How many jobs a node ran at the same time, at most."""
        counts = (collections.Counter(it.node for it in jobs if it.state == "RUNNING") for _, jobs in self.samples)
        return max((count for counter in counts for count in counter.values()), default=0)

    def wrong_in(self, jobs):
        """What does not hold of the jobs as they are shown once."""
        load, count = collections.Counter(), collections.Counter()
        for it in jobs:
            if it.state == "RUNNING" and it.partition != RUN:
                yield f"job {it.job} runs from {it.partition}"
            elif it.state == "RUNNING" and (not it.note or it.note[2] == 0 or it.asked != it.node):
                yield f"job {it.job} runs on {it.node}, and its note is {it.note or 'none'}, and it was sent to {it.asked or 'none'}"
            if it.is_placed:
                load[it.node or it.asked] += it.request
                count[it.node or it.asked] += 1
        for node in load:
            if load[node] > self.lab.bandwidths.get(node, 0) or count[node] > (self.lab.slots if node else 0):
                yield f"on {node or 'no node'} are {count[node]} jobs that ask for {load[node]}"

    def wrong_starts(self):
        """Jobs that did not start once and once more for each restart, or not where Slurm says. A job that was cancelled may have ended
        before it wrote its last start: Slurm then names the node of that one."""
        found, starts = [], collections.defaultdict(list)
        for it in self.starts():
            starts[it.job].append(it)
        for it in self.shown() or ():
            restarts = [start.restarts for start in starts[it.job]]
            wanted = list(range(it.restarts + 1))
            if restarts != wanted and not (it.state == "CANCELLED" and restarts == wanted[:len(restarts)]):
                found.append(f"job {it.job} started for restarts {restarts}, has {it.restarts}, and is {it.state}")
            elif starts[it.job] and starts[it.job][-1].restarts == it.restarts and starts[it.job][-1].node != it.node:
                found.append(f"job {it.job} started on {starts[it.job][-1].node}, and Slurm says {it.node}")
        return found

    def winners(self, adapter):
        """What the adapter's follower answered each time that it was asked for winners: the tasks that are held, with attempt and node."""
        nodes = self.nodes_told(adapter)
        for line, answer in adapter.asked():
            if line.get("ask") == "winners":
                yield {(it[0], int(it[1]), nodes.get(it[3])) for it in map(str.split, answer[:-1]) if it[5] == "held"}

    def unknown(self, adapter):
        """Jobs that run and that the adapter's follower did not name when it was asked last."""
        named = collections.deque(self.winners(adapter), 1)
        return [it.job for it in self.shown() or () if it.state == "RUNNING" and (not named or (*it.note[:2], it.node) not in named[0])]

    def unnamed(self):
        """Jobs that were seen to run on a node which no follower had named for that attempt."""
        winners = set().union(*(named for adapter in self.adapters for named in self.winners(adapter)))
        return sorted({f"job {it.job} on {it.node}" for _, jobs in self.samples for it in jobs
                       if it.state == "RUNNING" and (*it.note[:2], it.node) not in winners})
