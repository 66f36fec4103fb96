#!/usr/bin/env python3
"""Draws scripts of several coordinators, the same for the same seeds: `gossip`, in which they pass on what they know,
`refused`, which has a step that is refused, `rounds`, `tells`, of tells alone, `contended`, of one, in which tasks contend for
few slots, `shared`, in which rounds then carry out parts of plans, and `grouped`, in which one is told all and the others are given
that in groups of neighbouring deltas, each in other groups.

    tests/drawn.py gossip SEED
    tests/drawn.py refused SEED KIND
    tests/drawn.py rounds SEED COORDINATORS
    tests/drawn.py tells SEED COORDINATORS STEPS
    tests/drawn.py contended SEED
    tests/drawn.py shared SEED
    tests/drawn.py corners SEED
    tests/drawn.py grouped SEED

`corners` is of one coordinator too: few tasks and machines, with requests, prices, uses and slots at the ends of their ranges,
ids of 128 bits, held tasks on full machines, and now and then no machine.
"""
import collections
import json
import random
import sys
import uuid

PHASES = ("pending", "running", "done")
REFUSED = ("field", "turned", "beyond", "below and beyond", "let go", "sunk", "ahead", "unlisted", "unnamed", "later", "twice")
PARTS = ({"writers": [1]}, {"writers": [2]}, {"each": 1}, {"writers": [2], "each": 1}, {"writers": [2, 1], "each": 1})
NAMES = ("news", "what all know", "W\u00f6rter \u2192", 'a "quote"', "tab\tand \\", "7")


def unique(n):
    return str(uuid.UUID(int=n))


def prefer(chance, machines):
    """What a spec says of some of the machines that it prefers, or nothing."""
    if chance.random() < 0.6:
        return {}
    machines = sorted(set(machines), key=lambda machine: uuid.UUID(machine).int)
    liked = sorted(chance.sample(machines, chance.randint(0, min(len(machines), 4))), key=machines.index)
    return {"prefer": [{"machine": machine, "credit": chance.choice((0, 10, 100, 400, 900, 10 ** 9))} for machine in liked]}


def share(chance):
    """What a round is asked for by: mostly true, and now and then only entries of some writers, or so many places on each machine."""
    if chance.random() < 0.7:
        return True
    asked = {"writers": chance.sample(range(1, 5), chance.randint(1, 2)), "each": chance.choice((1, 1, 2, 2 ** 32 - 1))}
    return {member: asked[member] for member in chance.choice(((), ("writers",), ("writers",), ("each",), ("each",), ("writers", "each")))}


def operation(chance):
    """Of few jobs, machines and tasks, so that operations meet."""
    job, machine, task = unique(chance.randint(1, 3)), unique(chance.randint(11, 14)), unique(chance.randint(21, 26))
    register = {"version": chance.randint(0, 3), "writer": chance.randint(1, 3)}
    gone = chance.random() < 0.15
    return chance.choice((
        {"job": {"id": job, **register, "withdrawn": gone, "wait": chance.randint(0, 900), "preempt": chance.randint(0, 900)}},
        {"spec": {"id": task, **register, "withdrawn": gone, "job": job, "request": chance.choice((0, 100, 300, 700))}},
        {"spec": {"id": task, **register, "withdrawn": gone, "job": job, "request": chance.choice((0, 100, 300, 700)),
                  **prefer(chance, [unique(n) for n in range(11, 15)])}},
        {"progress": {"id": task, "attempt": chance.choice((0, 0, 1, 2)), "phase": chance.choice(PHASES)}},
        {"machine": {"id": machine, "incarnation": chance.choice((1, 1, 2)), **register, "up": not gone,
                     "slots": chance.randint(1, 3), "nic": chance.randint(0, 1000)}},
        {"report": {"id": machine, "incarnation": chance.choice((1, 1, 2)), "number": chance.randint(0, 3),
                    "used": chance.randint(0, 900)}},
        {"propose": {"id": task, "attempt": chance.choice((0, 0, 1, 2)), "coordinator": chance.randint(1, 64),
                     "machine": machine, "incarnation": chance.choice((1, 1, 2))}}))


class Drawing:
    """A script as it grows, with how many deltas each coordinator has, its floor, and the names of packets."""

    def __init__(self, seed, coordinators=None):
        self.chance = random.Random("%d %s" % (seed, coordinators))
        self.numbers = self.chance.sample(range(1, 65), coordinators or self.chance.randint(2, 5))
        self.ends, self.floors = dict.fromkeys(self.numbers, 0), dict.fromkeys(self.numbers, 0)
        self.names, self.steps = [], []

    def add(self, at, act, asked):
        self.steps.append({"at": at, act: asked})

    def tell(self):
        at = self.chance.choice(self.numbers)
        self.ends[at] += 1
        self.add(at, "tell", operation(self.chance))

    def cut(self):
        at = self.chance.choice(self.numbers)
        count = len(self.names)
        asked = {"name": NAMES[count] if count < len(NAMES) else "packet %d" % count}
        if self.chance.random() < 0.6:
            ends = sorted(self.chance.randint(self.floors[at], self.ends[at]) for _ in range(2))
            asked["from"], asked["to"] = ends
        self.names.append(asked["name"])
        self.add(at, "cut", asked)

    def deliver(self):
        if self.names:
            at = self.chance.choice(self.numbers)
            self.ends[at] += 1
            self.add(at, "deliver", self.chance.choice(self.names[-6:]))

    def trim(self):
        at = self.chance.choice(self.numbers)
        self.floors[at] = self.chance.randint(self.floors[at], (self.floors[at] + self.ends[at] + 1) // 2)
        self.add(at, "trim", self.floors[at])

    def draw(self, count):
        for _ in range(count):
            self.chance.choice((self.tell,) * 8 + (self.cut,) * 4 + (self.deliver,) * 5 + (self.trim,))()

    def exchange(self, name):
        """Everyone cuts all that it knows, and everyone is given it, in some order."""
        for at in self.numbers:
            self.add(at, "cut", {"name": "%s of %d" % (name, at)})
        given = [(at, sender) for at in self.numbers for sender in self.numbers if at != sender]
        self.chance.shuffle(given)
        for at, sender in given:
            self.add(at, "deliver", "%s of %d" % (name, sender))

    def refused(self, kind):
        """A step that is refused, at a coordinator whose floor is above 0 and which cut a packet."""
        at = self.numbers[0]
        self.draw(20)
        self.add(at, "tell", operation(self.chance))
        self.add(at, "cut", {"name": "given"})
        end = self.ends[at] = self.ends[at] + 1
        floor = self.floors[at] = max(1, self.floors[at])
        self.add(at, "trim", floor)
        other = next(n for n in range(1, 65) if n not in self.numbers)
        bad = {"job": {"id": unique(1), "version": 1, "writer": 65, "withdrawn": False, "wait": 0, "preempt": 0}}
        self.add(*{
            "field": (at, "tell", bad),
            "turned": (at, "cut", {"name": "no", "from": end, "to": end - 1}),
            "beyond": (at, "cut", {"name": "no", "from": floor, "to": end + 1}),
            "below and beyond": (at, "cut", {"name": "no", "from": 0, "to": end + 1}),
            "let go": (at, "cut", {"name": "no", "from": floor - 1, "to": end}),
            "sunk": (at, "trim", floor - 1),
            "ahead": (at, "trim", end + 1),
            "unlisted": (other, "deliver", "no"),
            "unnamed": (at, "deliver", "no"),
            "later": (at, "deliver", "later"),
            "twice": (at, "cut", {"name": "given", "from": 0, "to": end + 1}),
        }[kind])
        self.add(at, "cut", {"name": "later"})
        self.draw(8)

    def cluster(self, first, wait):
        """Jobs, machines and tasks that are known as the greatest of their kind, each told to some coordinator."""
        draw, register = self.chance.randint, {"version": 1, "writer": 1}
        jobs, hosts, tasks = ([unique(first + 100 * kind + n) for n in range(draw(kind, 2 * kind))] for kind in (1, 2, 3))
        told = [{"job": {"id": job, **register, "withdrawn": False, "wait": wait + draw(0, 300), "preempt": draw(0, 300)}}
                for job in jobs]
        told += [{"machine": {"id": host, "incarnation": 1, **register, "up": True, "slots": draw(1, 2), "nic": draw(0, 900)}}
                 for host in hosts]
        told += [{"report": {"id": host, "incarnation": 1, "number": 1, "used": draw(0, 400)}} for host in hosts[::2]]
        told += [{"spec": {"id": task, **register, "withdrawn": False, "job": self.chance.choice(jobs),
                           "request": 100 * draw(0, 4), **prefer(self.chance, hosts)}} for task in tasks]
        self.chance.shuffle(told)
        for op in told:
            self.add(self.chance.choice(self.numbers), "tell", op)

    def contend(self):
        """Tasks that wait or are held, on machines that have too few slots for all, or too little bandwidth."""
        draw, register, at = self.chance.randint, {"version": 1, "writer": 1}, self.numbers[0]
        jobs, hosts, tasks = (range(first, first + draw(*count)) for first, count in ((1, (1, 3)), (11, (1, 4)), (31, (2, 9))))
        for job in jobs:
            self.add(at, "tell", {"job": {"id": unique(job), **register, "withdrawn": False,
                                          "wait": draw(100, 900), "preempt": draw(0, 900)}})
        for host in hosts:
            self.add(at, "tell", {"machine": {"id": unique(host), "incarnation": 1, **register, "up": True,
                                              "slots": draw(1, 3), "nic": draw(200, 900)}})
            self.add(at, "tell", {"report": {"id": unique(host), "incarnation": 1, "number": 1, "used": draw(0, 400)}})
        for task in tasks:
            self.add(at, "tell", {"spec": {"id": unique(task), **register, "withdrawn": False,
                                           "job": unique(self.chance.choice(jobs)), "request": 100 * draw(0, 3),
                                           **prefer(self.chance, [unique(host) for host in hosts])}})
            if draw(1, 3) == 1:
                self.add(at, "tell", {"propose": {"id": unique(task), "attempt": 0, "coordinator": at,
                                                  "machine": unique(self.chance.choice(hosts)), "incarnation": 1}})

    def share(self):
        """Rounds that carry out parts of plans, of tasks that two coordinators wrote, and between them a job that waits for more, or less."""
        for step in self.steps:
            if "spec" in step.get("tell", {}):
                step["tell"]["spec"]["writer"] = self.chance.randint(1, 2)
        jobs = [step["tell"]["job"] for step in self.steps if "job" in step["tell"]]
        for version in range(2, 8):
            self.add(self.numbers[0], "round", share(self.chance) if self.chance.random() < 0.3 else self.chance.choice(PARTS))
            job = self.chance.choice(jobs)
            self.add(self.numbers[0], "tell", {"job": {**job, "version": version, "wait": self.chance.choice((100, 500, 900, 3000))}})

    def rounds(self):
        for at in self.numbers * 2:
            self.add(at, *(("relieve", True) if self.chance.random() < 0.2 else ("round", share(self.chance))))

    def text(self):
        return json.dumps({"coordinators": self.numbers, "steps": self.steps})


class Lives:
    """Operations on one small cluster as it lives: what is told mostly follows what was told before it."""

    def __init__(self, chance):
        self.chance, self.told, self.versions, self.attempts = chance, [], collections.Counter(), collections.Counter()
        self.incarnations, self.numbers = collections.Counter({n: 1 for n in range(11, 15)}), collections.Counter()
        self.jobs, self.machines, self.tasks = range(1, 4), range(11, 15), range(21, 30)

    def register(self, of):
        """A version, mostly the next one and now and then the last one again, with a writer."""
        self.versions[of] += self.chance.random() < 0.85
        return {"version": self.versions[of], "writer": self.chance.randint(1, 3)}

    def job(self):
        """Prices change; some jobs are withdrawn, and come back."""
        job = self.chance.choice(self.jobs)
        return {"job": {"id": unique(job), **self.register(job), "withdrawn": self.chance.random() < 0.25,
                        "wait": self.chance.randint(0, 900), "preempt": self.chance.randint(0, 900)}}

    def spec(self):
        """Some tasks are withdrawn and come back, and some go to another job, get another request, or prefer other machines."""
        task = self.chance.choice(self.tasks)
        return {"spec": {"id": unique(task), **self.register(task), "withdrawn": self.chance.random() < 0.2,
                         "job": unique(self.chance.choice(self.jobs)), "request": self.chance.choice((0, 100, 300, 700)),
                         **prefer(self.chance, [unique(machine) for machine in self.machines])}}

    def progress(self):
        """A task gets on, or gets a later attempt, also after it was done."""
        task = self.chance.choice(self.tasks)
        later = self.chance.random() < 0.4
        self.attempts[task] += later
        phase = "pending" if later else self.chance.choice(PHASES[1:])
        return {"progress": {"id": unique(task), "attempt": self.attempts[task], "phase": phase}}

    def machine(self):
        """A machine goes down or comes back, or has other slots and bandwidth; some news are of an old incarnation."""
        machine = self.chance.choice(self.machines)
        late = self.chance.random() < 0.1 and self.incarnations[machine] > 1
        return {"machine": {"id": unique(machine), "incarnation": self.incarnations[machine] - late, **self.register(machine),
                            "up": self.chance.random() < 0.8, "slots": self.chance.randint(1, 3),
                            "nic": self.chance.choice((0, 600, 1000))}}

    def report(self):
        """A use; now and then of the next incarnation, whose state is not known yet: so the machine is lost."""
        machine = self.chance.choice(self.machines)
        self.incarnations[machine] += self.chance.random() < 0.15
        self.numbers[machine] += self.chance.random() < 0.85
        return {"report": {"id": unique(machine), "incarnation": self.incarnations[machine], "number": self.numbers[machine],
                           "used": self.chance.choice((0, 0, 200, 450, 900, 1001))}}

    def propose(self):
        """An attempt of a task, mostly the present one, gets a proposal: several coordinators contend for it."""
        task, machine = self.chance.choice(self.tasks), self.chance.choice((*self.machines, 15))
        attempt = self.attempts[task] + self.chance.choice((0, 0, 0, 0, 1))
        return {"propose": {"id": unique(task), "attempt": attempt, "coordinator": self.chance.randint(1, 4),
                            "machine": unique(machine), "incarnation": max(1, self.incarnations[machine])}}

    def again(self):
        return self.chance.choice(self.told) if self.told else self.job()

    def operations(self, count):
        for _ in range(count):
            kinds = (self.job, self.spec, self.spec, self.spec, self.progress, self.progress, self.machine, self.machine,
                     self.report, self.report, self.propose, self.propose, self.propose, self.propose, self.again)
            self.told.append(self.chance.choice(kinds)())
        return self.told


def groups_of(chance, count, most):
    """Neighbouring intervals that cover 0 to count, none longer than most."""
    ends = [0]
    while ends[-1] < count:
        ends.append(min(count, ends[-1] + chance.randint(1, most)))
    return list(zip(ends, ends[1:]))


def deliveries(told, groupings):
    """A script in which the last coordinator is told the operations, and each of the others, two for each grouping, is given
    them by packets of its intervals, in their order. So of each two the first edits its network and the second builds it."""
    steps, source, cut = [{"at": 64, "tell": op} for op in told], 64, set()
    for place, groups in enumerate(groupings):
        for start, end in groups:
            name = "%d to %d" % (start, end)
            if name not in cut:
                cut.add(name)
                steps.append({"at": source, "cut": {"name": name, "from": start, "to": end}})
            steps += [{"at": 2 * place + at, "deliver": name} for at in (1, 2)]
    return {"coordinators": [*range(1, 2 * len(groupings) + 1), source], "steps": steps}


def grouped(seed, count=240):
    """A life in some groupings: delta by delta, in small and in large groups, with groups that come again, and all at once."""
    chance = random.Random("grouped %d" % seed)
    told = Lives(chance).operations(count)
    groupings = [groups_of(chance, count, most) for most in (1, 3, 12, 60, count)]
    groupings[1] = [group for place, one in enumerate(groupings[1])
                    for group in (one, chance.choice(groupings[1][:place + 1]))[:1 + (chance.random() < 0.2)]]
    return json.dumps(deliveries(told, groupings))


def gossip(seed):
    """Coordinators that pass on some of what they know; those of every third seed then exchange all."""
    drawing = Drawing(seed)
    drawing.draw(drawing.chance.randint(30, 70))
    if seed % 3 == 0:
        drawing.exchange("all")
    return drawing.text()


def refused(seed, kind):
    """A step of the kind, one of REFUSED, amid others."""
    drawing = Drawing(seed)
    drawing.refused(kind)
    return drawing.text()


def rounds(seed, coordinators):
    """Rounds on a cluster that all know, more jobs, which are dearer, and rounds again; in the end all know the same."""
    drawing = Drawing(seed, coordinators)
    for first, wait in ((1000, 0), (2000, 600)):
        drawing.cluster(first, wait)
        drawing.exchange("told %d" % first)
        drawing.rounds()
        drawing.exchange("done %d" % first)
    return drawing.text()


def tells(seed, coordinators, steps):
    """Operations told to each of the coordinators, and nothing else."""
    drawing = Drawing(seed, coordinators)
    for _ in range(steps):
        drawing.tell()
    return drawing.text()


def contended(seed):
    """Tasks that contend for slots and bandwidth, known to one coordinator."""
    drawing = Drawing(seed, 1)
    drawing.contend()
    return drawing.text()


def shared(seed):
    """Tasks that contend for slots and bandwidth, known to one coordinator, and rounds that carry out parts of plans."""
    drawing = Drawing(seed, 1)
    drawing.contend()
    drawing.share()
    return drawing.text()


def corners(seed):
    """A script of one coordinator that is told of few tasks, machines and jobs, with costs and capacities at the corners."""
    chance = random.Random("corners %d" % seed)
    far = lambda: unique(chance.choice((chance.randint(1, 50), chance.getrandbits(64), 2**128 - 1 - chance.randint(0, 50))))
    prices = (0, 0, 1, 100, 500, 1_000_000, 1_000_000_000)
    jobs = [far() for _ in range(chance.randint(1, 3))]
    machines = [far() for _ in range(chance.choice((0, 1, 2, 3, 4)))]
    told = [{"job": {"id": job, "version": 1, "writer": 1, "withdrawn": False, "wait": chance.choice(prices),
                     "preempt": chance.choice(prices)}} for job in jobs]
    for machine in machines:
        told.append({"machine": {"id": machine, "incarnation": 1, "version": 1, "writer": 1, "up": chance.random() < 0.9,
                                 "slots": chance.choice((1, 1, 2, 3, 1000)), "nic": chance.choice((0, 1, 100, 1000, 1_000_000))}})
        if chance.random() < 0.6:
            told.append({"report": {"id": machine, "incarnation": 1, "number": 1,
                                    "used": chance.choice((0, 1, 99, 100, 1000, 1_000_000_000))}})
    for _ in range(chance.randint(1, 9)):
        task = far()
        told.append({"spec": {"id": task, "version": 1, "writer": 1, "withdrawn": False, "job": chance.choice(jobs),
                              "request": chance.choice((0, 0, 1, 50, 100, 1_000_000)), **prefer(chance, machines)}})
        if machines and chance.random() < 0.4:
            told.append({"propose": {"id": task, "attempt": 0, "coordinator": 1, "machine": chance.choice(machines),
                                     "incarnation": 1}})
    chance.shuffle(told)
    return json.dumps({"coordinators": [1], "steps": [{"at": 1, "tell": op} for op in told]})


if __name__ == "__main__":
    kind, seed, *more = sys.argv[1:]
    kinds = {"gossip": gossip, "refused": refused, "rounds": lambda s, n: rounds(s, int(n)), "tells": lambda s, n, m: tells(s, int(n), int(m)),
             "contended": contended, "shared": shared, "corners": corners, "grouped": grouped}
    print(kinds[kind](int(seed), *more))
