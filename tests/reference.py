#!/usr/bin/env python3
"""What `firmament graph`, `winners`, `list`, `agree`, `pack` and `unpack` are to print, worked out by the rules alone, slowly and in
another way: a coordinator is the set of all operations that it took in, a packet is the set of those that it stands for, and
every record is the greatest of all that a set tells, found by going over all of them.

    tests/reference.py graph [--at N] < SCRIPT
    tests/reference.py winners [--at N] < SCRIPT
    tests/reference.py list [--at N] < SCRIPT
    tests/reference.py agree < SCRIPT
    tests/reference.py pack NAME < SCRIPT
    tests/reference.py unpack < DIGITS

Texts, refusals and statuses are the program's. Which of several least flows a round finds is not said: so `answers` gives each
answer that may come, for few flows, and there is one `answer` only if nothing turns on that. Histories have no limit, since no
script without rounds is long enough to reach it.
"""
import argparse
import collections
import functools
import json
import re
import struct
import sys
import uuid

import rounds
import strict

MOST_ANSWERS = 64

PHASES = ["pending", "running", "done"]
# what a list may be of, if not of all records
LISTED = ("jobs", "machines", "tasks", "waiting")

# the number and the cause of a refusal
Why = collections.namedtuple("Why", "number cause")
BEYOND = Why(4, "there are no such deltas")
UNNAMED = Why(9, "no packet has this name")

LIMITS = {"writer": (1, 64), "coordinator": (1, 64), "wait": (0, 10 ** 9), "preempt": (0, 10 ** 9), "request": (0, 10 ** 6),
          "slots": (1, 1000), "nic": (0, 10 ** 6), "used": (0, 10 ** 9)}


class Refused(Exception):
    """The program stops: the number of the refusal, and the step, if it is one's."""

    def __init__(self, number, step=None):
        super().__init__("firmament: refusal %d" % number + ("" if step is None else " at step %d" % step))


class NotSaid(Exception):
    """The rules leave open what comes of the script."""


@functools.lru_cache(1 << 16)
def number(text):
    return uuid.UUID(text).int


def name(n):
    return str(uuid.UUID(int=n))


def raw(n):
    return n.to_bytes(16, "big")


def out_of_range(fields):
    """Whether a field is beyond its limits, or machines that are preferred do not rise."""
    prefer = preferred(fields) if "prefer" in fields else ()
    machines = [machine for machine, _ in prefer]
    return (any(not LIMITS[field][0] <= fields[field] <= LIMITS[field][1] for field in LIMITS.keys() & fields.keys())
            or machines != sorted(set(machines)) or any(credit > 10 ** 9 for _, credit in prefer))


def range_fault(kind, fields):
    """What is wrong with the first field of an operation that is beyond its limits, in the order in which docs/formats.md lists them."""
    for field in strict.FIELDS[kind]:
        if field in LIMITS and not LIMITS[field][0] <= fields[field] <= LIMITS[field][1]:
            return "%s must be from %d to %d" % (field, *LIMITS[field])
    return "prefer must list machines by rising id, with credits from 0 to 1000000000"


def preferred(fields):
    """The machines that a spec prefers, each with its credit."""
    return tuple((number(machine), credit) for machine, credit in fields["prefer"])


def operation(kind, fields):
    """An operation as a member of a set: a spec's preferences, if a script has them, as pairs."""
    fields = dict(fields)
    if kind == "spec":
        fields["prefer"] = tuple((entry["machine"], entry["credit"]) for entry in fields.get("prefer", ()))
    return kind, frozenset(fields.items())


class Known:
    """What a set of operations comes to."""

    def __init__(self, operations):
        told = collections.defaultdict(list)
        for kind, fields in operations:
            told[kind].append(dict(fields))
        self.jobs = self.greatest(
            (number(o["id"]), (o["version"], o["writer"], o["withdrawn"], o["wait"], o["preempt"])) for o in told["job"])
        self.specs = self.greatest(
            (number(o["id"]), (o["version"], o["writer"], o["withdrawn"], number(o["job"]), o["request"], preferred(o)))
            for o in told["spec"])
        self.progress = {task: (0, 0) for task in self.specs}
        self.progress.update(self.greatest(
            (number(o["id"]), (o["attempt"], PHASES.index(o["phase"]))) for o in told["progress"]))
        self.incarnations = self.greatest(
            (number(o["id"]), o["incarnation"]) for o in told["machine"] + told["report"])
        self.states = self.greatest(
            (number(o["id"]), (o["version"], o["writer"], o["up"], o["slots"], o["nic"]))
            for o in told["machine"] if self.is_now(o))
        self.reports = self.greatest(
            (number(o["id"]), (o["number"], o["used"])) for o in told["report"] if self.is_now(o))
        self.spots = {}
        for o in told["propose"]:
            at = (number(o["id"]), o["attempt"], o["coordinator"])
            spot = (number(o["machine"]), o["incarnation"])
            self.spots[at] = min(self.spots.get(at, spot), spot)
        self.winners = {}
        for task, attempt, coordinator in sorted(self.spots, reverse=True):
            self.winners[task, attempt] = (coordinator,) + self.spots[task, attempt, coordinator]

    def __eq__(self, other):
        return vars(self) == vars(other)

    def is_now(self, op):
        return op["incarnation"] == self.incarnations[number(op["id"])]

    @staticmethod
    def greatest(pairs):
        found = {}
        for key, value in pairs:
            found[key] = max(found.get(key, value), value)
        return found

    def attempt(self, task):
        return self.progress.get(task, (0, 0))[0]

    def is_live(self, task):
        if task not in self.specs or self.specs[task][2]:
            return False
        job = self.specs[task][3]
        return job in self.jobs and not self.jobs[job][2] and self.progress[task][1] != 2

    def is_open(self, machine):
        return machine in self.states and self.states[machine][2]

    def holder(self, task):
        winner = self.winners.get((task, self.attempt(task)))
        if winner is None or not self.is_live(task):
            return None
        _, machine, incarnation = winner
        return machine if self.is_open(machine) and self.incarnations[machine] == incarnation else None


class Coordinator:
    """What a coordinator took in, the sets by which it did, below which of these it keeps none, and how many packets it cut."""

    def __init__(self):
        self.taken, self.sets, self.floor, self.cuts = set(), [], 0, 0

    def take(self, operations):
        self.taken |= operations
        self.sets.append(frozenset(operations))


Packet = collections.namedtuple("Packet", "sender number operations")


class Choices:
    """Which of its outcomes each round has, the first if none is chosen, and how many each had."""

    def __init__(self, path=()):
        self.path, self.counts = list(path), []

    def pick(self, outcomes):
        self.counts.append(len(outcomes))
        place = len(self.counts) - 1
        return outcomes[self.path[place] if place < len(self.path) else 0]

    def following(self):
        """The choices after these, or None."""
        path = self.path + [0] * (len(self.counts) - len(self.path))
        while path and path[-1] + 1 >= self.counts[len(path) - 1]:
            path.pop()
        return Choices(path[:-1] + [path[-1] + 1]) if path else None


def nobody(at):
    """Why a coordinator that is not listed is refused."""
    return Why(8, "no coordinator has the number %d" % at)


class World:
    """What the steps of a script come to. Each act answers the number of its refusal, if it is refused."""

    def __init__(self, script, choices=None):
        self.choices = choices or Choices()
        self.coordinators = {number: Coordinator() for number in script["coordinators"]}
        self.packets = {}
        for place, step in enumerate(script["steps"], 1):
            refused = self.act(**step)
            if refused:
                raise Refused(refused, place)

    def act(self, at, **act):
        why = self.why_not(at, **act)
        if why:
            return why.number
        (kind, asked), = act.items()
        getattr(self, kind)(at, asked)

    def why_not(self, at, **act):
        """Why an act is refused now, or None. Nothing happens."""
        if at not in self.coordinators:
            return nobody(at)
        (kind, asked), = act.items()
        sender = self.coordinators[at]
        if kind == "tell":
            (kind, fields), = asked.items()
            return Why(2, range_fault(kind, fields)) if out_of_range(dict(operation(kind, fields)[1])) else None
        if kind == "deliver":
            return None if asked in self.packets else UNNAMED
        if kind == "trim":
            return None if sender.floor <= asked <= len(sender.sets) else BEYOND
        if kind == "cut" and "from" in asked:
            if not asked["from"] <= asked["to"] <= len(sender.sets):
                return BEYOND
            return Why(5, "deltas below %d are trimmed" % sender.floor) if asked["from"] < sender.floor else None
        return None

    def tell(self, at, asked):
        (kind, fields), = asked.items()
        self.coordinators[at].take({operation(kind, fields)})

    def cut(self, at, asked):
        sender = self.coordinators[at]
        operations = set().union(*sender.sets[asked["from"]:asked["to"]]) if "from" in asked else set(sender.taken)
        sender.cuts += 1
        self.packets[asked["name"]] = Packet(at, sender.cuts, operations)

    def deliver(self, at, asked):
        self.coordinators[at].take(self.packets[asked].operations)

    def trim(self, at, asked):
        self.coordinators[at].floor = asked

    def round(self, at, asked):
        taken = frozenset(self.coordinators[at].taken)
        try:
            found = rounds.outcomes(Known, name, network(Known(taken)), taken, at, asked)
        except rounds.TooMany:
            raise NotSaid("a round has too many flows to go over")
        self.coordinators[at].take(self.choices.pick(found))

    def relieve(self, at, asked):
        coordinator = self.coordinators[at]
        admission = rounds.Admission(Known, name, frozenset(coordinator.taken), at)
        admission.plan([], relief_preempts(Known(coordinator.taken)))
        coordinator.take(admission.added)


def winners(known):
    for task, attempt in sorted(known.winners):
        if known.attempt(task) == attempt:
            coordinator, machine, incarnation = known.winners[task, attempt]
            held = "free" if known.holder(task) is None else "held"
            yield "%s %d %d %s %d %s\n" % (name(task), attempt, coordinator, name(machine), incarnation, held)


def listing(known, of=None):
    """The lines of a list: of one of LISTED, or of jobs, then machines, then tasks."""
    if of in (None, "jobs"):
        yield from (job_record(known, job)[0] for job in sorted(known.jobs))
    if of in (None, "machines"):
        held = requests_held(known)
        yield from (machine_line(known, machine, held[machine]) for machine in sorted(known.incarnations))
    for task in () if of in ("jobs", "machines") else sorted(known.progress):
        state = state_of(known, task)
        if of != "waiting" or state == "waiting":
            yield task_line(known, task, state)


def requests_held(known):
    """The requests of the tasks that each machine holds."""
    held = collections.defaultdict(list)
    for task in known.specs:
        held[known.holder(task)].append(known.specs[task][4])
    return held


def reliefs(known):
    """Each open machine whose held tasks request more than its bandwidth, by id: what they request, the bandwidth, and the tasks that go,
    with attempt, request and price."""
    held = collections.defaultdict(list)
    for task, (_, _, _, job, request, _) in known.specs.items():
        if known.holder(task) is not None:
            held[known.holder(task)].append((known.jobs[job][4], -request, task))
    for machine in sorted(held):
        nic, tasks = known.states[machine][4], sorted(held[machine])
        # what a task and those behind it request
        behind = [-sum(request for _, request, _ in tasks[place:]) for place in range(len(tasks))]
        gone = [(task, known.attempt(task), -request, price) for (price, request, task), left in zip(tasks, behind) if left > nic]
        if gone:
            yield machine, behind[0], nic, gone


def relief_preempts(known):
    """The preempts of a relief."""
    return [(task, attempt) for _, _, _, gone in reliefs(known) for task, attempt, _, _ in gone]


def over(known):
    """The lines of the machines whose bandwidth is exceeded, and of the tasks that a relief preempts there."""
    for machine, requests, nic, gone in reliefs(known):
        yield "over %s %d %d\n" % (name(machine), requests, nic)
        for task, attempt, request, price in gone:
            yield "preempt %s %d %d %d\n" % (name(task), attempt, request, price)


def load_of(known, machine, requests):
    """The load of an open machine that holds tasks of these requests."""
    return max(known.reports.get(machine, (0, 0))[1], sum(requests))


def machine_line(known, machine, requests):
    """The line of a machine that holds tasks of these requests: what is not known of it is `-`, and one that is closed has no load, and
    nothing to spare."""
    version, writer, is_up, slots, nic = known.states.get(machine, ("-", "-", False, "-", "-"))
    load = load_of(known, machine, requests) if is_up else 0
    spare = nic - load if is_up and load <= nic else "-"
    state = version, writer, "open" if is_up else "closed", slots, nic
    return "machine %s %d %s %s %s %s %s %d %d %s\n" % (name(machine), known.incarnations[machine], *state, len(requests), load, spare)


def sizes(known):
    """How much is known, by name, in the order in which it is said."""
    tasks = collections.Counter(state_of(known, task).split()[0] for task in known.progress)
    held, opened = requests_held(known), [machine for machine in known.incarnations if known.is_open(machine)]
    loads = [(known.states[machine][4], load_of(known, machine, held[machine])) for machine in opened]
    return {"jobs": len(known.jobs), "machines": len(known.incarnations), "tasks": len(known.progress), "proposals": len(known.spots),
            **{state: tasks[state] for state in ("waiting", "held", "over")},
            "open": len(opened), "closed": len(known.incarnations) - len(opened),
            "requested": sum(sum(held[machine]) for machine in opened),
            "reported": sum(known.reports[machine][1] for machine in opened if machine in known.reports),
            "spare": sum(max(0, nic - load) for nic, load in loads)}


def state_of(known, task):
    """Where a task is."""
    holder = known.holder(task)
    return "over" if not known.is_live(task) else "waiting" if holder is None else "held " + name(holder)


def task_line(known, task, state):
    """The line of a task that is there: what is not known of it is `-`."""
    attempt, phase = known.progress[task]
    version, writer, _, job, request, _ = known.specs.get(task, ("-", "-", None, None, "-", None))
    job = "-" if job is None else name(job)
    return "task %s %d %s %s %s %s %s %s\n" % (name(task), attempt, PHASES[phase], version, writer, job, request, state)


def next_number(known, kind, of, incarnation=None):
    """The version of the next operation on a job, or on a machine at the incarnation; the next attempt of a task. It may be one more than
    there can be."""
    if kind == "job":
        return known.jobs[of][0] + 1 if of in known.jobs else 1
    if kind == "machine":
        is_present = of in known.states and known.incarnations[of] == incarnation
        return known.states[of][0] + 1 if is_present else 1
    return known.attempt(of) + 1


def network(known):
    """The nodes in order, and the arcs with their capacities and costs."""
    live = [task for task in known.specs if known.is_live(task)]
    holders = {task: known.holder(task) for task in live}
    machines = [machine for machine in known.states if known.is_open(machine)]
    sums = collections.Counter()
    for task in live:
        sums[holders[task]] += known.specs[task][4]
    arcs = {}
    live_of = collections.Counter(known.specs[task][3] for task in live)
    for job, count in live_of.items():
        arcs[(1, job), (0, 0)] = (count, 0)
    for task in live:
        request = known.specs[task][4]
        job = known.specs[task][3]
        _, _, _, wait, preempt = known.jobs[job]
        if holders[task] is None:
            arcs[(4, task), (2, request)] = (1, 0)
            arcs[(4, task), (1, job)] = (1, wait)
        else:
            arcs[(4, task), (3, holders[task])] = (1, 0)
            arcs[(4, task), (1, job)] = (1, preempt)
    requests = {known.specs[task][4] for task in live if holders[task] is None}
    credits = collections.defaultdict(list)
    for task in live:
        for machine, credit in known.specs[task][5] if holders[task] is None else ():
            credits[machine].append((task, credit))
    for machine in machines:
        _, _, _, slots, nic = known.states[machine]
        arcs[(3, machine), (0, 0)] = (slots, 0)
        load = max(known.reports.get(machine, (0, 0))[1], sums[machine])
        for task, credit in credits[machine]:
            request = known.specs[task][4]
            if load <= nic and nic - load >= request:
                arcs[(4, task), (3, machine)] = (1, max(0, request + load - credit))
        for request in requests:
            if load <= nic and nic - load >= request:
                capacity = slots if request == 0 else min(slots, (nic - load) // request)
                arcs[(2, request), (3, machine)] = (capacity, request + load)
    nodes = {(0, 0)} | {(1, job) for job in live_of} | {(2, request) for request in requests}
    nodes |= {(3, machine) for machine in machines} | {(4, task) for task in live}
    return sorted(nodes), arcs


def graph(known):
    nodes, arcs = network(known)
    ids = {node: place for place, node in enumerate(nodes, 1)}
    for kind, of in nodes:
        shown = "" if kind == 0 else " %d" % of if kind == 2 else " " + name(of)
        yield "c %d %s%s\n" % (ids[kind, of], "SURMT"[kind], shown)
    yield "p min %d %d\n" % (len(nodes), len(arcs))
    tasks = [node for node in nodes if node[0] == 4]
    if tasks:
        yield "n 1 -%d\n" % len(tasks)
    for task in tasks:
        yield "n %d 1\n" % ids[task]
    for (source, target), (capacity, cost) in sorted(arcs.items()):
        yield "a %d %d 0 %d %d\n" % (ids[source], ids[target], capacity, cost)


def job_record(known, job):
    """A record's lines, and its bytes; and so below."""
    version, writer, withdrawn, wait, preempt = known.jobs[job]
    line = "job %s %d %d %s %d %d\n" % (name(job), version, writer, json.dumps(withdrawn), wait, preempt)
    return line, struct.pack(">16sQBBII", raw(job), version, writer, withdrawn, wait, preempt)


def task_record(known, task, version):
    attempt, phase = known.progress[task]
    lines = "task %s %d %s\n" % (name(task), attempt, PHASES[phase])
    spelled = struct.pack(">16sIBB", raw(task), attempt, phase, task in known.specs)
    if task in known.specs:
        count, writer, withdrawn, job, request, prefer = known.specs[task]
        lines += "spec %s %d %d %s %s %d" % (name(task), count, writer, json.dumps(withdrawn), name(job), request)
        lines += "".join(" %s %d" % (name(machine), credit) for machine, credit in prefer) + "\n"
        spelled += struct.pack(">QBB16sI", count, writer, withdrawn, raw(job), request)
        if version == b"FDG2":
            spelled += struct.pack(">B", len(prefer))
            spelled += b"".join(struct.pack(">16sI", raw(machine), credit) for machine, credit in prefer)
    return lines, spelled


def machine_record(known, machine):
    incarnation = known.incarnations[machine]
    lines = "machine %s %d\n" % (name(machine), incarnation)
    parts = (machine in known.states) + 2 * (machine in known.reports)
    spelled = struct.pack(">16sQB", raw(machine), incarnation, parts)
    if machine in known.states:
        version, writer, up, slots, nic = known.states[machine]
        lines += "state %s %d %d %s %d %d\n" % (name(machine), version, writer, json.dumps(up), slots, nic)
        spelled += struct.pack(">QBBII", version, writer, up, slots, nic)
    if machine in known.reports:
        count, used = known.reports[machine]
        lines += "report %s %d %d\n" % (name(machine), count, used)
        spelled += struct.pack(">QI", count, used)
    return lines, spelled


def proposal_record(known, at):
    (task, attempt, coordinator), (machine, incarnation) = at, known.spots[at]
    line = "propose %s %d %d %s %d\n" % (name(task), attempt, coordinator, name(machine), incarnation)
    return line, struct.pack(">16sIB16sQ", raw(task), attempt, coordinator, raw(machine), incarnation)


def packed(packet, version=b"FDG2"):
    """The packet's lines, as `unpack` prints them, and its bytes in hexadecimal digits, as `pack` does in the later version."""
    known = Known(packet.operations)
    lines, spelled = "packet %d %d\n" % packet[:2], struct.pack(">4sBQ", version, *packet[:2])
    for keys, record in ((known.jobs, job_record), (known.progress, functools.partial(task_record, version=version)),
                         (known.incarnations, machine_record), (known.spots, proposal_record)):
        spelled += struct.pack(">Q", len(keys))
        for key in sorted(keys):
            line, some = record(known, key)
            lines, spelled = lines + line, spelled + some
    return lines, spelled.hex() + "\n"


def agree(world):
    """The status, and the text: the first coordinator listed, and the first that knows something else."""
    known = {number: Known(coordinator.taken) for number, coordinator in world.coordinators.items()}
    first = next(iter(known))
    for other in known:
        if known[other] != known[first]:
            return 5, "differ %d %d\n" % (first, other)
    return 0, "same\n"


def unpacked(text):
    """The lines of the packet that the digits are of. Its records are read in their order, and spelled again: there is one
    spelling only in each version."""
    digits = re.fullmatch(b"((?:[0-9a-fA-F]{2})*)\n?", text)
    if not digits or len(text) > strict.LIMIT:
        raise Refused(16)
    packet = packet_in(bytes.fromhex(digits[1].decode()))
    if packet is None:
        raise Refused(6)
    return packed(packet)[0]


def packet_in(spelled):
    """The packet that the bytes spell, or None: there is one spelling only in each version."""
    packet = read_packet(spelled)
    return packet if packet and packed(packet, spelled[:4])[1] == spelled.hex() + "\n" else None


class Fault(Exception):
    """Bytes are no packet's: the place of the first fault."""

    def __init__(self, place):
        super().__init__(place)
        self.place = place


class Fields:
    """Bytes that are read field by field."""

    def __init__(self, spelled):
        self.spelled, self.at = spelled, 0

    def take(self, size, least=0, most=None):
        """The number in the next field of so many bytes, if it is allowed."""
        if len(self.spelled) < self.at + size:
            raise Fault(len(self.spelled))
        number = int.from_bytes(self.spelled[self.at:self.at + size], "big")
        if number < least or most is not None and number > most:
            raise Fault(self.at)
        self.at += size
        return number

    def skip(self, *fields):
        """Fields of so many bytes each, with their limits."""
        for field in fields:
            self.take(*field)

    def rising(self, count, key, rest):
        """So many records, whose keys rise."""
        last = ()
        for _ in range(count):
            begin = self.at
            found = tuple(self.take(*field) for field in key)
            if found <= last:
                raise Fault(begin)
            last = found
            rest()

    def spec(self, version):
        self.skip((8,), (1, *LIMITS["writer"]), (1, 0, 1), (16,), (4, *LIMITS["request"]))
        if version == b"FDG2":
            self.rising(self.take(1, 0, 4), [(16,)], lambda: self.take(4, 0, 10 ** 9))

    def task(self, version):
        self.skip((4,), (1, 0, 2))
        if self.take(1, 0, 1):
            self.spec(version)

    def machine(self):
        self.take(8)
        parts = self.take(1, 1, 3)
        if parts != 2:
            self.skip((8,), (1, *LIMITS["writer"]), (1, 0, 1), (4, *LIMITS["slots"]), (4, *LIMITS["nic"]))
        if parts != 1:
            self.skip((8,), (4, *LIMITS["used"]))

    def packet(self):
        version = self.take(4, *(int.from_bytes(word, "big") for word in (b"FDG1", b"FDG2"))).to_bytes(4, "big")
        self.skip((1, *LIMITS["coordinator"]), (8,))
        self.rising(self.take(8), [(16,)], lambda: self.skip((8,), (1, *LIMITS["writer"]), (1, 0, 1), (4, *LIMITS["wait"]), (4, *LIMITS["preempt"])))
        self.rising(self.take(8), [(16,)], lambda: self.task(version))
        self.rising(self.take(8), [(16,)], self.machine)
        self.rising(self.take(8), [(16,), (4,), (1, *LIMITS["coordinator"])], lambda: self.skip((16,), (8,)))
        if self.at < len(self.spelled):
            raise Fault(self.at)


def fault_in(spelled):
    """The place of the first fault of bytes that are no packet's, or None."""
    try:
        Fields(spelled).packet()
    except Fault as fault:
        return fault.place
    return None


def read_packet(spelled):
    """The packet whose operations the records are, if they are in range."""
    at = 0

    def take(form):
        nonlocal at
        at += struct.calcsize(form)
        return struct.unpack(form, spelled[at - struct.calcsize(form):at])
    ops = []
    try:
        magic, sender, count = take(">4sBQ")
        for records in (jobs_told, functools.partial(tasks_told, version=magic), machines_told, proposals_told):
            for _ in range(take(">Q")[0]):
                ops += records(take)
    except (struct.error, IndexError):
        return None
    ops = {operation(kind, fields) for kind, fields in ops}
    if magic not in (b"FDG1", b"FDG2") or at != len(spelled) or not 1 <= sender <= 64 or any(out_of_range(dict(op[1])) for op in ops):
        return None
    return Packet(sender, count, ops)


def jobs_told(take):
    """The operations that a record is of; and so below."""
    job, version, writer, withdrawn, wait, preempt = take(">16sQBBII")
    return [("job", {"id": read_raw(job), "version": version, "writer": writer, "withdrawn": (False, True)[withdrawn],
                     "wait": wait, "preempt": preempt})]


def tasks_told(take, version):
    task, attempt, phase, has = take(">16sIBB")
    told = [("progress", {"id": read_raw(task), "attempt": attempt, "phase": PHASES[phase]})]
    if has:
        count, writer, withdrawn, job, request = take(">QBB16sI")
        prefer = [{"machine": read_raw(machine), "credit": credit} for machine, credit in preferences_told(take, version)]
        told.append(("spec", {"id": read_raw(task), "version": count, "writer": writer, "job": read_raw(job),
                              "withdrawn": (False, True)[withdrawn], "request": request, "prefer": prefer}))
    return told


def preferences_told(take, version):
    """The machines that a spec prefers, as they stand; IndexError if there are more than four."""
    count = take(">B")[0] if version == b"FDG2" else 0
    if count > 4:
        raise IndexError
    return [take(">16sI") for _ in range(count)]


def machines_told(take):
    machine, incarnation, parts = take(">16sQB")
    told = []
    if parts in (1, 3):
        version, writer, up, slots, nic = take(">QBBII")
        told.append(("machine", {"id": read_raw(machine), "incarnation": incarnation, "version": version, "writer": writer,
                                 "up": (False, True)[up], "slots": slots, "nic": nic}))
    if parts in (2, 3):
        count, used = take(">QI")
        told.append(("report", {"id": read_raw(machine), "incarnation": incarnation, "number": count, "used": used}))
    return told


def proposals_told(take):
    task, attempt, coordinator, machine, incarnation = take(">16sIB16sQ")
    return [("propose", {"id": read_raw(task), "attempt": attempt, "coordinator": coordinator, "machine": read_raw(machine),
                         "incarnation": incarnation})]


def read_raw(spelled):
    return name(int.from_bytes(spelled, "big"))


@functools.lru_cache(None)
def parser():
    found = argparse.ArgumentParser(description=__doc__, formatter_class=argparse.RawDescriptionHelpFormatter)
    commands = found.add_subparsers(dest="command", required=True)
    for command in ("graph", "winners", "list"):
        commands.add_parser(command).add_argument("--at", type=int)
    commands.add_parser("agree")
    commands.add_parser("pack").add_argument("name")
    commands.add_parser("unpack")
    return found


def asked(words, text, choices):
    """The status, and what is printed."""
    if words.command == "unpack":
        return 0, unpacked(text)
    try:
        script = strict.read_script(text)
    except strict.Strange as strange:
        raise Refused(16, strange.step)
    at = getattr(words, "at", None)
    at = script["coordinators"][0] if at is None else at
    if at not in script["coordinators"]:
        raise Refused(8)
    world = World(script, choices)
    if words.command == "agree":
        return agree(world)
    if words.command == "pack":
        if words.name not in world.packets:
            raise Refused(9)
        return 0, packed(world.packets[words.name])[1]
    return 0, "".join({"graph": graph, "winners": winners, "list": listing}[words.command](Known(world.coordinators[at].taken)))


def one_answer(words, text, choices):
    try:
        return asked(words, text, choices) + ("",)
    except Refused as refused:
        return 3, "", "%s\n" % refused


def answers(words, text):
    """The status, and the texts on standard output and standard error, of a run with the words on the text or bytes: each that
    may come."""
    words, text = parser().parse_args(words), text.encode() if isinstance(text, str) else text
    choices, found = Choices(), []
    while choices is not None:
        if len(found) == MOST_ANSWERS:
            raise NotSaid("rounds have too many outcomes")
        found.append(one_answer(words, text, choices))
        choices = choices.following()
    return list(dict.fromkeys(found))


def answer(words, text):
    """The answer, if only one may come."""
    found = answers(words, text)
    if len(found) > 1:
        raise NotSaid("which least flow a round finds is not said")
    return found[0]


if __name__ == "__main__":
    try:
        status, out, err = answer(sys.argv[1:], sys.stdin.buffer.read())
    except NotSaid as why:
        sys.exit("tests/reference.py: %s" % why)
    sys.stdout.write(out)
    sys.stderr.write(err)
    sys.exit(status)
