"""What happens to a cluster from outside, in simulated time: machines come, fail and return, jobs of tasks come and are withdrawn.

A life is drawn from a seed, or read from a trace. bench/living/README.md names the sources of the parameters, and has the trace's form.
"""
import bisect
import collections
import csv
import dataclasses
import itertools
import random
import uuid

Machine = collections.namedtuple("Machine", "time name slots nic")
Failure = collections.namedtuple("Failure", "time name")
Recovery = collections.namedtuple("Recovery", "time name")
Job = collections.namedtuple("Job", "time name wait preempt tasks")
Withdrawal = collections.namedtuple("Withdrawal", "time name")
# `seconds` is how long it runs; `prefers` are pairs of a machine's name and a credit
Task = collections.namedtuple("Task", "name request seconds prefers")

# shares of machines, their slots and their bandwidth in Mbit/s
CLASSES = (0.01, 8, 1000), (0.93, 16, 10000), (0.06, 32, 25000)
# shares of jobs, what a task of one costs while it waits, and when it is preempted
PRIORITIES = (0.3, 30000, 35000), (0.5, 60000, 80000), (0.2, 120000, 200000)
# bounded Pareto distributions: the shape, and the greatest value beside the least
RUN_TIMES = 1.1, 1000
JOB_SIZES = 1.2
LARGEST_JOB = 1 / 20
TASKS_OF_A_MACHINE = 12
REQUESTS = 20, 3000
CREDITS = 0, 4000
MOST_PREFERRED = 4
COLUMNS = "time event name job slots nic wait preempt request seconds prefers".split()


@dataclasses.dataclass(frozen=True)
class Shape:
    """The parameters of a life: so many tasks run in steady state, and such a share of them comes or ends each second."""
    tasks: int
    machines: int
    seconds: float
    change: float = 0.01
    sizes: int = 40
    # the share of all bandwidth that the tasks in steady state ask for
    load: float = 0.7
    # the shares of tasks that prefer machines, and of jobs that are withdrawn
    preferring: float = 0.2
    withdrawn: float = 0.02
    # how many seconds a machine is up before it fails, and away before it returns
    up: float = 5000
    away: float = 20
    seed: int = 1


def pareto(chance, shape, least, most):
    """A number of the bounded Pareto distribution."""
    part = chance.random() * (1 - (least / most) ** shape)
    return least * (1 - part) ** (-1 / shape)


def pareto_mean(shape, least, most):
    ratio = least / most
    return least * shape / (shape - 1) * (1 - ratio ** (shape - 1)) / (1 - ratio ** shape)


def chosen(chance, shares):
    """One of the rows, each of which begins with its share, without the share."""
    bounds = list(itertools.accumulate(row[0] for row in shares))
    return shares[min(bisect.bisect(bounds, chance.random()), len(shares) - 1)][1:]


class Drawn:
    """Draws a life, the same for the same shape."""

    def __init__(self, shape):
        self.shape, self.chance = shape, random.Random("life %r" % (shape,))
        self.machines = [Machine(0.0, self.name(), *chosen(self.chance, CLASSES)) for _ in range(shape.machines)]
        self.hosts = [machine.name for machine in self.machines]
        self.arrivals = shape.tasks * shape.change / 2
        least = 1 / pareto_mean(RUN_TIMES[0], 1, RUN_TIMES[1]) * shape.tasks / self.arrivals
        self.least, self.most = least, least * RUN_TIMES[1]
        self.largest = max(2, shape.tasks * LARGEST_JOB)
        self.requests = self.drawn_requests()

    def name(self):
        return str(uuid.UUID(int=self.chance.getrandbits(128), version=4))

    def drawn_requests(self):
        """Sizes of requests between the ends of their range, evenly by their logarithm, scaled to the load that is asked for."""
        low, high = REQUESTS
        sizes = [low * (high / low) ** self.chance.random() for _ in range(self.shape.sizes)]
        wanted = self.shape.load * sum(machine.nic for machine in self.machines) / self.shape.tasks
        scale = wanted * len(sizes) / sum(sizes)
        return [max(1, min(1000000, round(size * scale))) for size in sizes]

    def size(self):
        """How many tasks a job has: mostly one."""
        return int(pareto(self.chance, JOB_SIZES, 1, self.largest))

    def prefers(self):
        if self.chance.random() >= self.shape.preferring:
            return ()
        liked = self.chance.sample(self.hosts, min(len(self.hosts), self.chance.randint(1, MOST_PREFERRED)))
        return tuple((host, self.chance.randint(*CREDITS)) for host in sorted(liked))

    def job(self, time, count, seconds):
        """A job of so many tasks, which ask for the same and run as long as is drawn for each."""
        request = self.chance.choice(self.requests)
        tasks = tuple(Task(self.name(), request, seconds(), self.prefers()) for _ in range(count))
        return Job(time, self.name(), *chosen(self.chance, PRIORITIES), tasks)

    def run_time(self):
        return pareto(self.chance, RUN_TIMES[0], self.least, self.most)

    def rest(self):
        """How long a task still runs that is met in steady state: long ones are met more often, at any point of their run."""
        return self.chance.random() * pareto(self.chance, RUN_TIMES[0] - 1, self.least, self.most)

    def first_jobs(self):
        left = self.shape.tasks
        while left > 0:
            count = min(left, self.size())
            left -= count
            yield self.job(0.0, count, self.rest)

    def later_jobs(self):
        """Jobs that arrive by a Poisson process."""
        rate = self.arrivals / mean_size(self.largest)
        time = self.chance.expovariate(rate)
        while time < self.shape.seconds:
            yield self.job(time, self.size(), self.run_time)
            time += self.chance.expovariate(rate)

    def withdrawals(self, jobs):
        for job in jobs:
            if self.chance.random() < self.shape.withdrawn:
                time = job.time + self.chance.uniform(0.001, 1) * self.shape.seconds
                if time < self.shape.seconds:
                    yield Withdrawal(time, job.name)

    def failures(self):
        """Each machine fails and returns, again and again."""
        for host in self.hosts:
            time = self.chance.expovariate(1 / self.shape.up)
            while time < self.shape.seconds:
                yield Failure(time, host)
                time += self.chance.expovariate(1 / self.shape.away)
                yield Recovery(time, host)
                time += self.chance.expovariate(1 / self.shape.up)

    def events(self):
        jobs = [*self.first_jobs(), *self.later_jobs()]
        return sorted([*self.machines, *jobs, *self.withdrawals(jobs), *self.failures()], key=lambda event: event.time)


def mean_size(largest):
    """How many tasks a job has on average: of each size, the chance that a job has as many or more."""
    cut = 1 - largest ** -JOB_SIZES
    return sum((size ** -JOB_SIZES - largest ** -JOB_SIZES) / cut for size in range(1, int(largest) + 1))


# traces

def rows(events):
    """The rows of a trace, as dictionaries without the columns that are empty."""
    for event in events:
        kind = type(event).__name__.lower()
        row = {"time": repr(round(event.time, 6)), "event": kind, "name": event.name}
        if kind == "machine":
            row.update(slots=event.slots, nic=event.nic)
        if kind == "job":
            row.update(wait=event.wait, preempt=event.preempt)
        yield row
        for task in event.tasks if kind == "job" else ():
            prefers = " ".join("%s:%d" % one for one in task.prefers)
            yield {"time": row["time"], "event": "task", "name": task.name, "job": event.name, "request": task.request,
                   "seconds": repr(round(task.seconds, 6)), "prefers": prefers}


def write_trace(events, file):
    writer = csv.DictWriter(file, COLUMNS, lineterminator="\n")
    writer.writeheader()
    writer.writerows(rows(events))


def identity(name):
    """The id of what a trace names: the name, if it is a UUID, else one that is made of it."""
    try:
        return str(uuid.UUID(name))
    except ValueError:
        return str(uuid.uuid5(uuid.NAMESPACE_OID, name))


def task_of(row):
    pairs = (one.rpartition(":") for one in (row["prefers"] or "").split())
    prefers = tuple(sorted((identity(host), int(credit)) for host, _, credit in pairs))
    return Task(identity(row["name"]), int(row["request"]), float(row["seconds"]), prefers)


def event_of(row, tasks):
    """The event of a row that is no task's, where tasks of jobs are known."""
    time, name = float(row["time"]), identity(row["name"])
    if row["event"] == "machine":
        return Machine(time, name, int(row["slots"]), int(row["nic"]))
    if row["event"] == "job":
        return Job(time, name, int(row["wait"]), int(row["preempt"]), tuple(tasks[name]))
    kinds = {"failure": Failure, "recovery": Recovery, "withdrawal": Withdrawal}
    if row["event"] not in kinds:
        raise ValueError("no event is called %r" % row["event"])
    return kinds[row["event"]](time, name)


def named_in(table):
    """The kinds of things that a trace has rows for, with their names."""
    return {(row["event"], identity(row["name"])) for row in table if row["event"] in ("machine", "job")}


def reference_of(row):
    """What a row is about that is to have a row of its own, or None."""
    needs = {"task": ("job", "job"), "withdrawal": ("job", "name"), "failure": ("machine", "name"), "recovery": ("machine", "name")}
    kind, column = needs.get(row["event"], (None, None))
    return kind and (kind, identity(row[column]))


def read_trace(file):
    """The events of a trace in order. A ValueError says which row is none."""
    reader, tasks, events, number = csv.DictReader(file), collections.defaultdict(list), [], 1
    table = list(reader)
    try:
        if set(COLUMNS) - set(reader.fieldnames or ()):
            raise ValueError("the columns are to be %s" % ",".join(COLUMNS))
        names = named_in(table) | {None}
        for of_tasks in (True, False):
            for number, row in enumerate(table, 2):
                if (row["event"] == "task") is not of_tasks:
                    continue
                if reference_of(row) not in names:
                    raise ValueError("no %s of this name" % reference_of(row)[0])
                if of_tasks:
                    tasks[identity(row["job"])].append(task_of(row))
                else:
                    events.append(event_of(row, tasks))
    except (KeyError, TypeError, ValueError, AttributeError) as fault:
        raise ValueError("row %d of the trace: %s" % (number, fault)) from fault
    return sorted(events, key=lambda event: event.time)
