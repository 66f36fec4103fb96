#!/usr/bin/env python3
"""Writes the script of a cluster, the same for the same numbers.

    bench/scripts.py --tasks N [--machines N] [--requests N] [--seed N] [--prefer SHARE] [--gossip]
    bench/scripts.py --tasks N --rounds N [--at 1|2] [--share N]
    bench/scripts.py --tasks N --kind mix|fresh|tight|steady|hard [--seed N] [--prefer SHARE]
    bench/scripts.py --tasks N --chain plain|ties|limits|many [--slots N] [--drawn]

A tenth as many machines as tasks, a job for each fifty tasks, 20 to 50 sizes of requests. Every tenth task is held by a
proposal, and every fourth machine has reported a use. Ids are random, so that they do not come in order. All is told to
coordinator 1; with --gossip there is a second, which is delivered all of that in one packet. With --prefer such a share of the
tasks prefer one to four machines, and nothing else differs.

With --rounds so many rounds come after that, each after one task in 100 (--share) changed: of those a third are done, a third are
new, and for each of the others a machine reports. Nothing is held at first.

With --kind the cluster is of one of five kinds, which differ in how much is held, in use and free: see KINDS. Machines have half to three
halves of the slots that their share of the tasks needs, and bandwidth for 0.6, 1 or 1.6 times the mean request on each.

With --chain about so many tasks are chained by what they prefer. As many tasks as a machine has slots prefer the first machine and,
a little less, the second, as many the second and the third, and so on; one task more prefers the first machine alone. So the least
flow moves a task of each machine on to the next. `plain` costs one more at the second machine; with `ties` all costs are
the same; with `limits` credits are at their limit; with `many` several chains end in one machine. Ids are in the order of the chain, with
--drawn in no order.
"""
import argparse
import json
import random
import sys
import uuid


def ids(chance, count):
    return [str(uuid.UUID(int=chance.getrandbits(128), version=4)) for _ in range(count)]


def spec(task, jobs, sizes, chance):
    return {"spec": {"id": task, "version": 1, "writer": 1, "withdrawn": False,
                     "job": chance.choice(jobs), "request": chance.choice(sizes)}}


def preferring(op, hosts, chance):
    """The operation of a spec whose task prefers some of the machines."""
    liked = sorted(chance.sample(hosts, chance.randint(1, min(4, len(hosts)))))
    op["spec"]["prefer"] = [{"machine": host, "credit": chance.randint(0, 4000)} for host in liked]
    return op


def jobs_of(chance, jobs):
    for job in jobs:
        wait = chance.randint(500, 20000)
        yield {"job": {"id": job, "version": 1, "writer": 1, "withdrawn": False,
                       "wait": wait, "preempt": wait + chance.randint(0, 5000)}}


def machine(host, slots, nic):
    return {"machine": {"id": host, "incarnation": 1, "version": 1, "writer": 1, "up": True, "slots": slots, "nic": nic}}


def told_before(chance, jobs, hosts, names, sizes):
    """Jobs, machines and tasks."""
    yield from jobs_of(chance, jobs)
    for host in hosts:
        yield machine(host, chance.randint(5, 20), chance.randint(2000, 20000))
    for task in names:
        yield spec(task, jobs, sizes, chance)


def script(tasks, machines=None, requests=None, seed=1, gossip=False, prefer=0.0):
    """The lines of the script."""
    chance = random.Random("%d %s %s %d" % (tasks, machines, requests, seed))
    machines = machines or max(1, tasks // 10)
    requests = requests or chance.randint(20, 50)
    sizes = chance.sample(range(1, 1001), requests)
    jobs, hosts, names = ids(chance, max(1, tasks // 50)), ids(chance, machines), ids(chance, tasks)
    told = list(told_before(chance, jobs, hosts, names, sizes))
    # a chance of its own, so that all else is as it is if nothing is preferred
    liking = random.Random("prefer %d %d" % (tasks, seed))
    told = [preferring(op, hosts, liking) if "spec" in op and liking.random() < prefer else op for op in told]
    for task in names[::10]:
        told.append({"propose": {"id": task, "attempt": 0, "coordinator": 1,
                                 "machine": chance.choice(hosts), "incarnation": 1}})
    for host in hosts[::4]:
        told.append({"report": {"id": host, "incarnation": 1, "number": 1, "used": chance.randint(0, 5000)}})
    steps = [{"at": 1, "tell": op} for op in told]
    if gossip:
        steps += [{"at": 1, "cut": {"name": "all"}}, {"at": 2, "deliver": "all"}]
    return lines(steps, "[1,2]" if gossip else "[1]")


# The kinds of clusters: the share of the tasks that is held, the share of the machines that reports a use of up to 0.6 of its bandwidth, and
# the slots for each task. In `tight` not all tasks can run; in `hard` all wait, on machines of many different loads.
KINDS = {"mix": (0.3, 0.5, 1.2), "fresh": (0, 0, 1.2), "tight": (0.3, 0.5, 0.8), "steady": (0.9, 0.5, 1.2), "hard": (0, 0.5, 1.2)}


def cluster(tasks, kind, prefer=0.0, seed=1):
    """The lines of the script of a cluster of that kind."""
    held, used, slots = KINDS[kind]
    # what is preferred is drawn apart, so that all else is as it is if nothing is
    chance, liking = (random.Random("%s %d %s %d" % (drawn, tasks, kind, seed)) for drawn in ("cluster", "prefer"))
    many = 50 if kind == "hard" or tasks > 10000 else 20 if tasks > 1000 else 10
    sizes = sorted(chance.sample(range(10, 1001), many))
    jobs, hosts, names = (ids(chance, max(1, count)) for count in (tasks // 50, tasks // 10, tasks))
    told, room = list(jobs_of(chance, jobs)), {}
    for host in hosts:
        room[host] = its = [max(1, round(chance.uniform(0.5, 1.5) * slots * tasks / len(hosts))), 0]
        its[1] = int(chance.choice((0.6, 1, 1.6)) * its[0] * sum(sizes) / many)
        told.append(machine(host, *its))
    for host in hosts:
        if chance.random() < used:
            told.append({"report": {"id": host, "incarnation": 1, "number": 1, "used": chance.randint(0, room[host][1] * 6 // 10)}})
    for name in names:
        op = spec(name, jobs, sizes, chance)
        told.append(preferring(op, hosts, liking) if liking.random() < prefer else op)
        if chance.random() < held:
            told += holding(chance, name, op["spec"]["request"], hosts, room)
    return lines([{"at": 1, "tell": op} for op in told], "[1]")


def holding(chance, task, request, hosts, room):
    """The proposal by which one of eight machines holds the task, if one has room, which it then takes."""
    for host in (chance.choice(hosts) for _ in range(8)):
        slots, bandwidth = room[host]
        if slots > 0 and bandwidth >= request:
            room[host] = [slots - 1, bandwidth - request]
            return [{"propose": {"id": task, "attempt": 0, "coordinator": 1, "machine": host, "incarnation": 1}}]
    return []


def changing(tasks, count, share=100, seed=1, machines=None, prefer=0.0):
    """The operations of a cluster, one after another, and for each of so many rounds those of a part of its tasks that changed, and
    then None."""
    liking = random.Random("prefer %d %d" % (tasks, seed))
    chance = random.Random("rounds %d %d %d" % (tasks, share, seed))
    sizes = chance.sample(range(1, 1001), chance.randint(20, 50))
    jobs, hosts, names = ids(chance, max(1, tasks // 50)), ids(chance, machines or max(1, tasks // 10)), ids(chance, tasks)
    wishful = lambda op: preferring(op, hosts, liking) if "spec" in op and liking.random() < prefer else op
    yield from map(wishful, told_before(chance, jobs, hosts, names, sizes))
    reported = 0
    for _ in range(count):
        for change in range(max(1, tasks // share)):
            if change % 3 == 0:
                gone = chance.randrange(len(names))
                names[gone], names[-1] = names[-1], names[gone]
                yield {"progress": {"id": names.pop(), "attempt": 0, "phase": "done"}}
            elif change % 3 == 1:
                names += ids(chance, 1)
                yield wishful(spec(names[-1], jobs, sizes, chance))
            else:
                reported += 1
                yield {"report": {"id": chance.choice(hosts), "incarnation": 1, "number": reported,
                                  "used": chance.randint(0, 5000)}}
        yield None


def rounds(tasks, count, share=100, prefer=0.0, seed=1):
    """The lines of a script of rounds, each after a part of the tasks changed."""
    told = changing(tasks, count, share, seed, prefer=prefer)
    return lines([{"at": 1, "round": True} if op is None else {"at": 1, "tell": op} for op in told], "[1]")


# what a task saves at the first and at the second machine that it prefers, beyond what it asks for
CREDITS = {"plain": (-1, -2), "many": (-1, -2), "ties": (0, 0), "limits": (10 ** 9, 10 ** 9 - 1)}


def links_of_chain(count, slots, first, last):
    """Which machines tasks prefer in a chain of so many machines and one more, the last; the others are numbered from the first on."""
    machines = list(range(first, first + count)) + [last]
    yield machines[:1]
    for near, far in zip(machines, machines[1:]):
        yield from [[near, far]] * slots


def chain(tasks, kind="plain", slots=1, drawn=False, seed=1):
    """The lines of the script of a chain, or of several that end in machine 0."""
    chance = random.Random("chain %d %s %d %d" % (tasks, kind, slots, seed))
    chains = max(2, int(tasks ** 0.5) // 2) if kind == "many" else 1
    count = max(1, tasks // slots // chains)
    liked = [link for number in range(chains) for link in links_of_chain(count, slots, 1 + number * count, 0)]
    jobs, hosts, names = ids(chance, 1), ids(chance, 1 + chains * count), ids(chance, len(liked))
    if not drawn:
        # the machine in which chains end stands behind them
        hosts.sort()
        hosts = hosts[-1:] + hosts[:-1]
        names.sort()
    told = [{"job": {"id": jobs[0], "version": 1, "writer": 1, "withdrawn": False, "wait": 10 ** 9, "preempt": 10 ** 9}}]
    told += [machine(host, slots, 10 ** 6) for host in hosts]
    request = 10 ** 6 // slots
    for name, machines in zip(names, liked):
        told.append(spec(name, jobs, [request], chance))
        credits = [min(10 ** 9, request + more) for more in CREDITS[kind]]
        told[-1]["spec"]["prefer"] = sorted(({"machine": hosts[machine], "credit": credit} for machine, credit in zip(machines, credits)),
                                            key=lambda entry: entry["machine"])
    return lines([{"at": 1, "tell": op} for op in told], "[1]")


def lines(steps, coordinators):
    yield '{"coordinators":%s,"steps":[\n' % coordinators
    for place, step in enumerate(steps):
        yield json.dumps(step, separators=(",", ":")) + ("\n" if place + 1 == len(steps) else ",\n")
    yield "]}\n"


if __name__ == "__main__":
    words = argparse.ArgumentParser(description=__doc__, formatter_class=argparse.RawDescriptionHelpFormatter)
    words.add_argument("--tasks", type=int, required=True)
    words.add_argument("--machines", type=int)
    words.add_argument("--requests", type=int)
    words.add_argument("--seed", type=int, default=1)
    words.add_argument("--prefer", type=float, default=0.0)
    words.add_argument("--gossip", action="store_true")
    words.add_argument("--rounds", type=int)
    words.add_argument("--share", type=int, default=100)
    words.add_argument("--kind", choices=tuple(KINDS))
    words.add_argument("--chain", choices=tuple(CREDITS))
    words.add_argument("--slots", type=int, default=1)
    words.add_argument("--drawn", action="store_true")
    words = words.parse_args()
    if words.chain:
        sys.stdout.writelines(chain(words.tasks, words.chain, words.slots, words.drawn, words.seed))
    elif words.kind:
        sys.stdout.writelines(cluster(words.tasks, words.kind, words.prefer, words.seed))
    elif words.rounds is None:
        sys.stdout.writelines(script(words.tasks, words.machines, words.requests, words.seed, words.gossip, words.prefer))
    else:
        sys.stdout.writelines(rounds(words.tasks, words.rounds, words.share, words.prefer, words.seed))
