"""The same life under a policy that knows no network: a task that comes goes to a machine with a free slot, drawn at random, at once."""
import collections
import heapq
import itertools
import random

from .grounds import Ground


class Blind:
    """Lives through a life. A task for which there is no free slot waits in a queue; one whose machine fails begins anew."""

    def __init__(self, events, seconds, samples=200, seed=1):
        self.events, self.seconds, self.samples = events, seconds, samples
        self.chance, self.ground = random.Random("blind %d" % seed), Ground()
        self.tasks, self.jobs, self.queue = {}, {}, collections.deque()
        self.ends, self.serial, self.keys = [], itertools.count(), itertools.count()
        # the machines with a free slot, as a list and the place of each in it, so that one is drawn in one step
        self.free, self.place = [], {}
        self.series = []

    def live(self):
        """Lives to the end: the samples and the ground."""
        due = [("event", event.time, event) for event in self.events if event.time < self.seconds]
        due += [("sample", self.seconds * place / self.samples, None) for place in range(self.samples + 1)]
        for kind, time, event in sorted(due, key=lambda one: (one[1], one[0] == "sample")):
            self.end_until(time)
            self.ground.advance(time)
            if kind == "sample":
                self.series.append(self.ground.sample(len(self.tasks) - len(self.ground.runs)))
            else:
                getattr(self, type(event).__name__.lower())(event)
            self.fill()
        return self.series, self.ground

    def end_until(self, time):
        while self.ends and self.ends[0][0] <= time:
            at, _, key = heapq.heappop(self.ends)
            self.ground.advance(at)
            run = self.ground.stop(key)
            if run is not None:
                self.tasks.pop(run.task, None)
                self.note(run.machine)
                self.fill()

    def note(self, name):
        """A machine has a free slot now, or none."""
        has, place = self.ground.hosts[name].has_slot(), self.place.get(name)
        if has and place is None:
            self.place[name] = len(self.free)
            self.free.append(name)
        elif not has and place is not None:
            last = self.free.pop()
            if last != name:
                self.free[place], self.place[last] = last, place
            del self.place[name]

    def fill(self):
        """Tasks that wait go to machines, as long as there are both."""
        while self.queue and self.free:
            task = self.tasks.get(self.queue.popleft())
            if task is not None:
                machine, key = self.chance.choice(self.free), next(self.keys)
                self.ground.start(key, machine, task.name, task.request)
                self.note(machine)
                heapq.heappush(self.ends, (self.ground.time + task.seconds, next(self.serial), key))

    def machine(self, event):
        self.ground.add_host(event.name, event.slots, event.nic)
        self.note(event.name)

    def job(self, event):
        self.jobs[event.name] = event
        self.tasks.update((task.name, task) for task in event.tasks)
        self.queue.extend(task.name for task in event.tasks)

    def withdrawal(self, event):
        for task in self.jobs[event.name].tasks:
            self.tasks.pop(task.name, None)
            for key in list(self.ground.runs_of(task.name)):
                self.note(self.ground.stop(key).machine)

    def failure(self, event):
        lost = self.ground.fail(event.name)
        self.note(event.name)
        self.queue.extend(run.task for _, run in lost)

    def recovery(self, event):
        self.ground.recover(event.name)
        self.note(event.name)
