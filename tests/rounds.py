"""All that can come of a round: which least flow it finds is not said, so every least flow is listed, with its plan, the share of that
which the round is asked for, and what is admitted. For small networks, by going over all flows.

Whether a share is that of some least flow is said of larger networks too."""
import collections
import itertools

import witness

LAST_ATTEMPT = 2 ** 32 - 1
MOST = 4000


class TooMany(Exception):
    """There are more flows than are gone over."""


def least_flows(nodes, arcs):
    """Each least flow: where each task's unit goes, and the units from requests to machines."""
    tasks = [node for node in nodes if node[0] == 4]
    ways = [[target for source, target in arcs if source == task] for task in tasks]
    best, found, seen = None, [], 0
    for chosen in itertools.product(*ways):
        cost = sum(arcs[ends][1] for ends in zip(tasks, chosen))
        free = {node: arcs[node, (0, 0)][0] - chosen.count(node) for node in nodes if node[0] == 3}
        if min(free.values(), default=0) < 0:
            continue
        asked = sorted(collections.Counter(node for node in chosen if node[0] == 2).items())
        for seats in seatings(asked, arcs, free):
            seen += 1
            if seen > MOST:
                raise TooMany
            whole = cost + sum(arcs[ends][1] * units for ends, units in seats.items())
            if best is None or whole < best:
                best, found = whole, []
            if whole == best:
                found.append((dict(zip(tasks, chosen)), seats))
    return found


def seatings(asked, arcs, free):
    """Each way to send so many units from each request to machines that have so many slots."""
    if not asked:
        yield {}
        return
    (request, count), rest = asked[0], asked[1:]
    machines = [target for source, target in arcs if source == request]
    bounds = [range(min(count, arcs[request, machine][0], free[machine]) + 1) for machine in machines]
    for units in itertools.product(*bounds):
        if sum(units) == count:
            left = {**free, **{machine: free[machine] - some for machine, some in zip(machines, units)}}
            for seats in seatings(rest, arcs, left):
                yield {**{(request, machine): some for machine, some in zip(machines, units) if some}, **seats}


def plan_of(known, chosen, seats):
    """The places (task, machine, incarnation) and preempts (task, attempt), both by task."""
    places = []
    for request in {node for node in chosen.values() if node[0] == 2}:
        tasks = sorted(task for task, node in chosen.items() if node == request)
        hosts = sorted(machine for (source, machine), units in seats.items() if source == request for _ in range(units))
        places += [(task[1], host[1], known.incarnations[host[1]]) for task, host in zip(tasks, hosts)]
    places += [(task[1], node[1], known.incarnations[node[1]]) for task, node in chosen.items()
               if node[0] == 3 and known.holder(task[1]) is None]
    preempts = [(task[1], known.attempt(task[1])) for task, node in chosen.items()
                if node[0] == 1 and known.holder(task[1]) is not None]
    return sorted(places), sorted(preempts)


def part_of(known, share, places, preempts):
    """What a round that is asked for by the share carries out of a plan: the entries of tasks whose spec one of its writers wrote, and of
    these places at most so many on each machine, the first ones."""
    share = {} if share is True else share
    if "writers" in share:
        tasks = {task for task, spec in known.specs.items() if spec[1] in share["writers"]}
        places, preempts = ([entry for entry in entries if entry[0] in tasks] for entries in (places, preempts))
    on_machine = collections.defaultdict(list)
    for place in sorted(places):
        on_machine[place[1]].append(place)
    return sorted(place for some in on_machine.values() for place in some[:share.get("each")]), preempts


def are_entries(known, places, preempts):
    """Whether places and preempts are by task, one of a task, of tasks that wait on open machines, and of held tasks."""
    if places != sorted(places) or preempts != sorted(preempts):
        return False
    tasks = [entry[0] for entry in places + preempts]
    if len(set(tasks)) < len(tasks) or not all(map(known.is_live, tasks)):
        return False
    return all(known.holder(task) is None and known.is_open(machine) and known.incarnations[machine] == incarnation
               for task, machine, incarnation in places) and all(
                   known.holder(task) is not None and known.attempt(task) == attempt for task, attempt in preempts)


def is_least_part(known, nodes, arcs, cost, share, part):
    """Whether the part is the share of a plan that some flow of the least cost comes to. One flow with such places and preempts is sought.
    With `each` its plan may put a task before one of the part, since tasks of one request do not overtake each other: then all flows are
    gone over, and if they are too many, the part is taken for one."""
    if not are_entries(known, *part) or part_of(known, share, *part) != part:
        return False
    ways = ways_beside(known, nodes, arcs, share, part)
    plan = None if ways is None else plan_by_ways(known, arcs, ways, cost)
    if plan is None or part_of(known, share, *plan) == part:
        return plan is not None
    try:
        return any(part_of(known, share, *plan_of(known, *flow)) == part for flow in least_flows(nodes, arcs))
    except TooMany:
        return True


def ways_beside(known, nodes, arcs, share, part):
    """Where each task may go if the part is what is carried out: machines, and None for its job. None if some task may go nowhere."""
    (places, preempts), ways = part, {}
    hosts, gone = {task: machine for task, machine, _ in places}, {task for task, _ in preempts}
    last = {machine: max(task for task in hosts if hosts[task] == machine) for machine in hosts.values()}
    full = {machine for machine in last if list(hosts.values()).count(machine) == share.get("each")}
    for _, task in (node for node in nodes if node[0] == 4):
        is_held = known.holder(task) is not None
        if task in hosts:
            may = {hosts[task]}
        elif task in gone:
            may = {None}
        elif "writers" in share and known.specs[task][1] not in share["writers"]:
            may = {None, *known.states}
        else:
            # it stays where it is, or its place is left out since it is behind those that its machine gets
            may = {known.holder(task), *(machine for machine in full if last[machine] < task and not is_held)}
        ways[task] = {machine for machine in may if is_way(known, arcs, hosts, task, machine)}
        if not ways[task]:
            return None
    return ways


def is_way(known, arcs, hosts, task, machine):
    """Whether the task may go to the machine, or to its job: straight, or by its request, unless it would overtake one that goes so to its
    host."""
    request = known.specs[task][4]
    if machine is None or ((4, task), (3, machine)) in arcs:
        return True
    rivals = (other for other in hosts if known.specs[other][4] == request and ((4, other), (3, hosts[other])) not in arcs)
    return ((4, task), (2, request)) in arcs and ((2, request), (3, machine)) in arcs and not any(
        (other - task) * (hosts[other] - machine) < 0 for other in rivals)


def plan_by_ways(known, arcs, ways, cost):
    """A plan of that cost in which each task goes one of its ways, or None. Straight to a machine costs no more than by the request."""
    by_ways = {ends: of for ends, of in arcs.items() if ends[1] == (0, 0)}
    for task, machines in ways.items():
        node, request, job = (4, task), (2, known.specs[task][4]), (1, known.specs[task][3])
        for machine in machines:
            straight = (node, job if machine is None else (3, machine))
            seat = request, (3, machine)
            if straight in arcs:
                by_ways[straight] = arcs[straight]
            else:
                by_ways[node, seat], by_ways[seat, (3, machine)] = (1, arcs[seat][1]), (arcs[seat][0], 0)
    found, units = flow_of_all([(4, task) for task in ways], by_ways)
    if found != cost:
        return None
    chosen = {source: target if target[0] in (1, 3) else target[0] for source, target in units if source[0] == 4}
    return plan_of(known, chosen, {ends[0]: many for ends, many in units.items() if ends[0] in arcs})


def flow_of_all(tasks, arcs):
    """The least cost of a flow by the arcs from all of the tasks to the sink, or None if there is no flow, and the units of one."""
    numbers = {(0, 0): 0}
    listed = [(*(numbers.setdefault(end, len(numbers)) for end in ends), *of) for ends, of in arcs.items()]
    # a way that costs more than all others together is taken only if there is no flow
    dear = 1 + len(tasks) * sum(cost for _, _, _, cost in listed)
    listed += [(numbers[task], 0, 1, dear) for task in tasks]
    balance = {**{numbers[task]: 1 for task in tasks}, 0: -len(tasks)}
    cost, units = witness.least_flow(balance, listed) if tasks else (0, {})
    ends = {number: end for end, number in numbers.items()}
    return cost if cost < dear else None, {(ends[source], ends[target]): many for (source, target), many in units.items()}


class Admission:
    """What is added while entries are admitted in turn, each judged after what the earlier ones added."""

    def __init__(self, know, name, taken, coordinator):
        self.know, self.name, self.taken, self.coordinator = know, name, taken, coordinator
        self.added = frozenset()

    def op(self, kind, **fields):
        return kind, frozenset(fields.items())

    def place(self, task, machine, incarnation):
        """What is answered to a place."""
        known = self.know(self.taken | self.added)
        if not known.is_live(task) or not known.is_open(machine) or known.incarnations[machine] != incarnation:
            return "gone"
        attempt, next_one = known.attempt(task), (task, known.attempt(task)) in known.winners
        if known.holder(task) is not None:
            return "held"
        if next_one and attempt == LAST_ATTEMPT:
            return "attempts-spent"
        attempt += next_one
        ops = {self.op("propose", id=self.name(task), attempt=attempt, coordinator=self.coordinator, machine=self.name(machine),
                       incarnation=incarnation)}
        if next_one:
            ops.add(self.op("progress", id=self.name(task), attempt=attempt, phase="pending"))
        if self.know(self.taken | self.added | ops).holder(task) != machine:
            return "contested"
        return self.lacking(known, machine, known.specs[task][4]) or self.accepted(ops)

    def accepted(self, ops):
        self.added |= ops
        return "accepted"

    def lacking(self, known, machine, request):
        """What the machine has too little of for the request, or None."""
        held = [known.specs[task][4] for task in known.specs if known.holder(task) == machine]
        _, _, _, slots, nic = known.states[machine]
        if len(held) >= slots:
            return "no-slot"
        return None if max(known.reports.get(machine, (0, 0))[1], sum(held)) + request <= nic else "no-room"

    def preempt(self, task, attempt):
        """What is answered to a preempt."""
        known = self.know(self.taken | self.added)
        if known.holder(task) is None or known.attempt(task) != attempt:
            return "gone"
        if attempt == LAST_ATTEMPT:
            return "attempts-spent"
        op = self.op("progress", id=self.name(task), attempt=attempt + 1, phase="pending")
        if self.know(self.taken | self.added | {op}).holder(task) is not None:
            return "contested"
        return self.accepted({op})

    def plan(self, places, preempts):
        """What is answered to each place of a plan, and to each preempt."""
        return [self.place(*place) for place in places], [self.preempt(*preempt) for preempt in preempts]


def outcomes(know, name, network, taken, coordinator, share=True):
    """Each set of operations that a round of the coordinator, of such a share, may add to those that it took in."""
    known = know(taken)
    found = set()
    for chosen, seats in least_flows(*network):
        admission = Admission(know, name, frozenset(taken), coordinator)
        admission.plan(*part_of(known, share, *plan_of(known, chosen, seats)))
        found.add(admission.added)
    return sorted(found, key=sorted_text)


def sorted_text(ops):
    return sorted((kind, sorted(map(str, fields))) for kind, fields in ops)
