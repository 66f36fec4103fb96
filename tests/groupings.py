"""Tests that coordinators dump the network of what they were told, in whatever groups of deltas it came: worked rows in every
grouping, and drawn lives of clusters in several. Each coordinator is looked at once, so its network is built; tests/edits.py looks
after each group, so that networks are edited."""
import itertools
import json

import drawn
import reference


def op(kind, of, **fields):
    return {kind: {"id": drawn.unique(of), **fields}}


def job(wait=500, preempt=800, **more):
    return op("job", 0x1, **{"version": 1, "writer": 1, "withdrawn": False, "wait": wait, "preempt": preempt, **more})


def machine(of=0xA, slots=2, **more):
    return op("machine", of, **{"incarnation": 1, "version": 1, "writer": 1, "up": True, "slots": slots, "nic": 1000, **more})


def spec(of=0x11, request=100, version=1, prefer=()):
    """Of the task, which prefers machines (number, credit)."""
    return op("spec", of, version=version, writer=1, withdrawn=False, job=drawn.unique(0x1), request=request,
              prefer=[{"machine": drawn.unique(on), "credit": credit} for on, credit in prefer])


def report(used, number=1, incarnation=1):
    return op("report", 0xA, incarnation=incarnation, number=number, used=used)


def propose(of=0x11, on=0xA):
    return op("propose", of, attempt=0, coordinator=1, machine=drawn.unique(on), incarnation=1)


ROWS = {
    "a task before its job": [machine(), spec(), job()],
    "a register twice": [job(), machine(), spec(), job(wait=600)],
    "a register twice, the other way": [job(wait=600), machine(), spec(), job()],
    "reports out of order": [job(), machine(), spec(), report(950, number=3), report(0, number=2)],
    "a machine that is lost": [job(), machine(), spec(), propose(), report(0, incarnation=2)],
    "a request of 0": [job(), machine(), spec(request=0), report(40), report(1001, number=2)],
    "a full machine": [job(preempt=80), machine(slots=1), spec(), propose(), spec(0x12, request=0), report(0)],
    "a task that is held": [job(), machine(), spec(), spec(0x12, request=50), propose()],
    "a machine that is preferred": [job(), machine(), spec(prefer=[(0xA, 30)]), report(500), report(950, number=2)],
    "a machine that is preferred before it is known": [spec(prefer=[(0xA, 200), (0xB, 1)]), job(), machine(0xB), machine(), report(10)],
    "a task that is held where it prefers to be": [job(), machine(), spec(prefer=[(0xA, 30)]), spec(0x12, prefer=[(0xA, 30)]), propose()],
    "other machines preferred": [job(), machine(), machine(0xB), spec(prefer=[(0xA, 30)]), spec(version=2, prefer=[(0xB, 9)]), report(50)],
}


def groupings(count):
    """Every way to cut 0 to count into neighbouring intervals."""
    for cuts in itertools.product((False, True), repeat=count - 1):
        ends = [0, *(place for place, cut in enumerate(cuts, 1) if cut), count]
        yield list(zip(ends, ends[1:]))


def scripts():
    """Each script with its name."""
    for name, told in ROWS.items():
        for groups in groupings(len(told)):
            yield "%s, in %s" % (name, groups), drawn.deliveries(told, [groups])
    for seed in range(12):
        yield "life %d" % seed, json.loads(drawn.grouped(seed))


def all_tests(run):
    """Of a `run` that answers what the program prints for words on a script."""
    for name, script in scripts():
        world = reference.World(script)
        for at, coordinator in world.coordinators.items():
            wanted = "".join(reference.graph(reference.Known(coordinator.taken)))
            yield "%s: graph --at %d" % (name, at), run(["graph", "--at", str(at)], script) == wanted
    for seed in range(12):
        script = json.loads(drawn.grouped(seed))
        for count in range(40, len(script["steps"]), 97):
            begun = {**script, "steps": script["steps"][:count]}
            world = reference.World(begun)
            at = begun["steps"][-1]["at"]
            wanted = "".join(reference.graph(reference.Known(world.coordinators[at].taken)))
            yield "life %d up to step %d" % (seed, count), run(["graph", "--at", str(at)], begun) == wanted
