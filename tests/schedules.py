"""Clusters of few tasks, and all their schedules, one by one: the network is that of tests/reference.py, and no solver takes part."""
import json
import random

import drawn
import reference

SINK, REQUEST, MACHINE, TASK = (0, 0), 2, 3, 4
KINDS = "anything", "ties", "chains"


def told(kind, of, **fields):
    return {kind: {"id": drawn.unique(of), **fields}}


def written(kind, of, chance, **fields):
    """A record of a version, now and then withdrawn."""
    return told(kind, of, version=1, writer=1, withdrawn=chance.random() < 0.06, **fields)


def machine_told(chance, machine, kind):
    """A machine with few slots; now and then it is closed, or known by a report alone."""
    if chance.random() < 0.9:
        yield told("machine", machine, incarnation=1, version=1, writer=1, up=chance.random() < 0.9,
                   slots=1 if kind == "chains" else chance.choice((1, 1, 2)),
                   nic=chance.choice((100, 300, 1000)) if kind == "anything" else 1000)
    if kind != "ties" and chance.random() < 0.6:
        yield told("report", machine, incarnation=1, number=1, used=chance.choice((0, 20, 50, 200)))


def preferred(chance, kind, place, machines):
    """What the spec of a task says of machines that it prefers: in a chain, of one and of the next."""
    if kind == "chains":
        liked = sorted({machines[(place + step) % len(machines)] for step in range(2)}) if machines else []
        return {"prefer": [{"machine": drawn.unique(machine), "credit": chance.choice((50, 100, 400))} for machine in liked]}
    return drawn.prefer(chance, [drawn.unique(machine) for machine in machines]) if kind == "anything" else {}


def task_told(chance, task, place, machines, kind):
    """A task of a job, which may be unknown; now and then it is held, or it runs already or is done."""
    yield written("spec", task, chance, job=drawn.unique(chance.choice((1, 1, 1, 1, 2, 2, 2, 2, 3))),
                  request=100 if kind == "ties" else chance.choice((0, 50, 100, 100, 300)), **preferred(chance, kind, place, machines))
    if machines and chance.random() < 0.15:
        yield told("propose", task, attempt=0, coordinator=1, machine=drawn.unique(chance.choice(machines)), incarnation=1)
    if chance.random() < 0.1:
        yield told("progress", task, attempt=0, phase=chance.choice(drawn.PHASES))


def few(seed):
    """What a coordinator is told of up to 12 tasks, and the numbers of the tasks."""
    chance, kind = random.Random("few %d" % seed), KINDS[seed % len(KINDS)]
    tasks = chance.sample(range(41, 99), chance.choice((1, 3, 4, 5, 6, 7, 8, 10, 12)))
    machines = sorted(chance.sample(range(11, 31), chance.choice((0, 1, 2, 3, 3, 4) if len(tasks) < 9 else (1, 2, 3))))
    steps = [written("job", job, chance, wait=chance.choice((0, 150, 300, 300, 600, 600)), preempt=chance.choice((0, 400, 800))) for job in (1, 2)]
    for machine in machines:
        steps += machine_told(chance, machine, kind)
    for place, task in enumerate(tasks):
        steps += task_told(chance, task, place, machines, kind)
    return steps, sorted(tasks)


def script_of(steps):
    return json.dumps({"coordinators": [1], "steps": [{"at": 1, "tell": step} for step in steps]}).encode()


def known(steps):
    """What the steps come to."""
    return reference.Known(reference.operation(*next(iter(step.items()))) for step in steps)


class Schedules:
    """All schedules of what is known: what the cheapest costs, and the cheapest of those with a task at a place, by both. A place
    is a machine, or None for waiting."""

    def __init__(self, known):
        nodes, self.arcs = reference.network(known)
        self.left = {ends: capacity for ends, (capacity, _) in self.arcs.items()}
        self.tasks = [of for kind, of in nodes if kind == TASK]
        self.ways = {task: list(self.ways_of((TASK, task))) for task in self.tasks}
        self.least, self.with_task, self.count = None, {}, 0
        self.go_on(0, 0, ())

    def next_of(self, node):
        return [target for source, target in sorted(self.arcs) if source == node]

    def ways_of(self, task):
        """The place of each way of the task's unit, what the way costs, and its arcs to the sink."""
        for first in self.next_of(task):
            for last in self.next_of(first) if first[0] == REQUEST else [first]:
                way = [(task, first), (last, SINK)] + [(first, last)] * (first != last)
                yield last[1] if last[0] == MACHINE else None, sum(self.arcs[ends][1] for ends in way), way

    def go_on(self, number, cost, places):
        """Goes through all that the tasks from that one on can do, if the earlier ones are at the places for that cost."""
        if number == len(self.tasks):
            self.count += 1
            self.least = cost if self.least is None else min(cost, self.least)
            for found in zip(self.tasks, places):
                self.with_task[found] = min(cost, self.with_task.get(found, cost))
            return
        for place, more, way in self.ways[self.tasks[number]]:
            if all(self.left[ends] for ends in way):
                self.left.update((ends, self.left[ends] - 1) for ends in way)
                self.go_on(number + 1, cost + more, places + (place,))
                self.left.update((ends, self.left[ends] + 1) for ends in way)

    def places(self, task):
        """For each place of the task, what the cheaper way costs, and how much dearer the cheapest schedule is with it there."""
        return {place: (min(cost for at, cost, _ in self.ways[task] if at == place), self.with_task[task, place] - self.least)
                for place, _, _ in self.ways[task]}
