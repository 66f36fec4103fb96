"""What comes from outside, as operations that coordinators are told: the events of a life, ends of runs, and reports of use."""
import random


class TaskState:
    """A task that was told: its job and its coordinator, when it came, whether it was placed, and how it ended, if it did."""
    __slots__ = "task", "job", "owner", "came", "is_placed", "end", "finisher"

    def __init__(self, task, job, owner, came):
        self.task, self.job, self.owner, self.came = task, job, owner, came
        self.is_placed, self.end, self.finisher = False, None, None


# the writer of each record is the coordinator that is told it

def register(event, withdrawn, owner):
    return {"job": {"id": event.name, "version": 1 + withdrawn, "writer": owner.number, "withdrawn": withdrawn, "wait": event.wait,
                    "preempt": event.preempt}}


def spec(task, job, owner):
    fields = {"id": task.name, "version": 1, "writer": owner.number, "withdrawn": False, "job": job, "request": task.request}
    if task.prefers:
        fields["prefer"] = [{"machine": host, "credit": credit} for host, credit in task.prefers]
    return {"spec": fields}


def state(name, host, owner):
    return {"machine": {"id": name, "incarnation": host.incarnation, "version": host.version, "writer": owner.number, "up": host.is_up,
                        "slots": host.slots, "nic": host.nic}}


def done(task, attempt):
    return {"progress": {"id": task, "attempt": attempt, "phase": "done"}}


class Outside:
    """Handles events of a simulation's outside. A job belongs to a coordinator that is drawn, and so does a machine."""

    def __init__(self, simulation):
        self.simulation, self.ground, self.settings = simulation, simulation.ground, simulation.settings
        self.chance = random.Random("outside %d" % self.settings.seed)
        self.tasks, self.jobs, self.owners, self.reports = {}, {}, {}, {}
        self.live = 0

    def handle(self, event):
        """What an event tells of, and the coordinator that it is told to."""
        return getattr(self, type(event).__name__.lower())(event)

    def hand(self, event):
        """Hands an event's operations to their coordinator."""
        owner, operations = self.handle(event)
        if operations:
            self.simulation.hand(owner, operations)

    def owner(self, name):
        if name not in self.owners:
            self.owners[name] = self.chance.choice(self.simulation.members)
        return self.owners[name]

    def machine(self, event):
        self.ground.add_host(event.name, event.slots, event.nic)
        self.reports[event.name] = 0
        first = self.ground.time + self.chance.random() * self.settings.report_every
        self.simulation.at(first, self.measure, event.name)
        return self.told_state(event.name)

    def told_state(self, name):
        """A machine's state, and the coordinator that is told it."""
        owner = self.owner(name)
        return owner, [state(name, self.ground.hosts[name], owner)]

    def job(self, event):
        owner = self.owner(event.name)
        self.jobs[event.name] = event
        for task in event.tasks:
            self.tasks[task.name] = TaskState(task, event.name, owner, self.ground.time)
        self.live += len(event.tasks)
        return owner, [register(event, False, owner), *(spec(task, event.name, owner) for task in event.tasks)]

    def withdrawal(self, event):
        """A job is withdrawn: what runs of it stops at once."""
        job = self.jobs[event.name]
        for task in job.tasks:
            if self.tasks[task.name].end is None:
                self.over(self.tasks[task.name], "withdrawn")
            for key in list(self.ground.runs_of(task.name)):
                self.ground.stop(key)
                self.simulation.counts["runs withdrawn"] += 1
        owner = self.owner(event.name)
        return owner, [register(job, True, owner)]

    def over(self, task, end):
        task.end = end
        self.live -= 1

    def failure(self, event):
        """A machine fails, which is found out a while later."""
        lost = self.ground.fail(event.name)
        self.simulation.counts["runs lost with machines"] += len(lost)
        self.simulation.counts["machines failed"] += 1
        host = self.ground.hosts[event.name]
        self.simulation.at(self.ground.time + self.settings.detection, self.found_out, event.name, host.incarnation)
        return None, []

    def found_out(self, name, incarnation):
        host = self.ground.hosts[name]
        if not host.is_up and host.incarnation == incarnation:
            host.version += 1
            self.simulation.hand(*self.told_state(name))

    def recovery(self, event):
        self.ground.recover(event.name)
        return self.told_state(event.name)

    def measure(self, name):
        """A machine measures what its runs use, which a report says a while later."""
        host, settings = self.ground.hosts[name], self.settings
        if host.is_up:
            self.reports[name] += 1
            used = round(host.asked * self.chance.uniform(*settings.use))
            report = {"id": name, "incarnation": host.incarnation, "number": self.reports[name], "used": used}
            lag = self.chance.uniform(*settings.report_lag)
            self.simulation.at(self.ground.time + lag, self.simulation.hand, self.owner(name), [{"report": report}])
        self.simulation.at(self.ground.time + settings.report_every, self.measure, name)

    def run_ends(self, key):
        """A run came to its end, if it was not stopped before: its coordinator is told that the task is done."""
        run = self.ground.stop(key)
        if run is None:
            return
        task, coordinator = self.tasks[run.task], self.simulation.numbered[key[2]]
        if task.end is None:
            self.over(task, "done")
            task.finisher = coordinator
            self.simulation.hand(coordinator, [run.task])
        else:
            self.simulation.waste(run)
