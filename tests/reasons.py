"""Tests of `firmament why`: each text is worked out again. That the bounds are never above what the cheapest schedule with the task
there costs more is proved; that they are equal to it is proved where the text says "exactly", and else tested alone. That it says so of
each listed machine of a task that waits is tested here. That cost comes from the solver of tests/witness.py, which is made to send the
task there, and for clusters of few tasks from all schedules, one by one (tests/schedules.py). Each change by which a task is said to run
is told, and the cluster that comes of it is worked out in the same way."""
import collections
import json
import pathlib
import re
import sys

ROOT = pathlib.Path(__file__).resolve().parent.parent
sys.path += [str(ROOT / name) for name in ("bench", "bin", "tests")]
import drawn
import forced
import networks
import reference
import schedules
import witness

KNOWN = re.compile(r"room .* of (\d+) machines that are known")
EXAMPLE = re.compile(r"(?<= for all others\n)a schedule that runs it on machine (\S+) costs (\d+); tasks that go elsewhere in it: (\d+)\n"
                     r"((?:in it task .*\n)*)")
MOVE = re.compile(r"in it task (\S+) (?:(waits)|(goes over its request of \d+)|runs on machine (\S+))\n")
REMEDY = re.compile(r"with (?:1 more slot|(\d+) more bandwidth) on machine (\S+) it would run (?:there|on machine (\S+)): "
                    r"the schedule then costs (\d+), and none costs less\n")
CHOICE = re.compile(r"on machine (\S+) it costs \d+, and (?:the cheapest schedule .* costs (exactly)|each schedule .* at least) (\d+) more"
                    r"(?:; one was found that costs (\d+) more)?\n")
BEHIND = re.compile(r"\non machine .*(?=\non machine .* costs exactly \d+ more\n)")
AHEAD = re.compile(r"\Atask .* waits.*\nthis schedule costs .*\n(?:it stays least .*\n)?\Z")
MOST_LINES, SHOWN, UNKNOWN, MOST_SLOTS, MOST_NIC = 20, 5, 7, 1000, 10 ** 6
THEORY = "by potentials that certify the schedule: what is sent over an empty arc costs at least its reduced cost more"

# Of a task that no machine holds: its id, its request, what waiting costs, and what the cheapest schedule costs. For each machine to which
# it has a way, by id, and None for waiting: what the cheaper way costs, and how much dearer the cheapest schedule is with the task there.
Facts = collections.namedtuple("Facts", "name request wait least places")

# A text without its example and its changes, and of the example the machine and the cost, or None. The schedule that it shows may be any
# of that cost.
Said = collections.namedtuple("Said", "text machine cost", defaults=(None, None))


def lines_of(facts, waits, known):
    """The text that such a task has to get, if the schedule that was found has it wait or not."""
    places = sorted((more, name, cost) for name, (cost, more) in facts.places.items() if name)
    head = "task %s " % facts.name
    if not waits:
        yield head + "runs in this schedule: leaving it to wait would cost at least %d more" % facts.places[None][1]
    elif places:
        yield head + "waits, which costs %d: running it on the cheapest machine with room would cost exactly %d more" % (
            facts.wait, places[0][0])
    else:
        yield head + "waits: no machine has room for its request of %d" % facts.request
    yield "this schedule costs %d, and none costs less" % facts.least
    if waits and places:
        yield "it stays least while the price of waiting is %d or less for this task, and as it is for all others" % (facts.wait + places[0][0])
    how = "the cheapest schedule that runs it there costs exactly" if waits else "each schedule that runs it there costs at least"
    for more, name, cost in places[:SHOWN]:
        yield "on machine %s it costs %d, and %s %d more" % (name, cost, how, more)
    if places[SHOWN:]:
        yield "on each of %d other machines with room at least %d more" % (len(places) - SHOWN, places[SHOWN][0])
    yield "room for its request of %d on %d of %s machines that are known" % (facts.request, len(places), known)
    yield THEORY


def texts_of_facts(facts, known):
    """The texts that such a task may get. Which of several least schedules is found is not said, and so not whether the task waits
    if both may be."""
    waits = {name is None for name, (_, more) in facts.places.items() if more == 0}
    first = min(((more, name) for name, (_, more) in facts.places.items() if name), default=None)
    example = (first[1], facts.least + first[0]) if first else (None, None)
    return {is_so: Said("".join(line + "\n" for line in lines_of(facts, is_so, known)), *example if is_so else (None, None))
            for is_so in sorted(waits)}


def texts(known, task, facts_of):
    """The texts that may be said of a task by what is known; of one that is live and not held, by its facts."""
    name = reference.name(task)
    if task not in known.specs:
        return [Said("task %s is not known\n" % name)]
    if not known.is_live(task):
        return [Said("task %s is not live: %s\n" % (name, why_not_live(known, task)))]
    if known.holder(task) is not None:
        return [Said("task %s is held by machine %s\n" % (name, reference.name(known.holder(task))))]
    return list(texts_of_facts(facts_of(task), len(known.incarnations)).values())


def why_not_live(known, task):
    """Why a task whose spec is known is not live: the first cause that holds."""
    _, _, is_withdrawn, job, _, _ = known.specs[task]
    if is_withdrawn:
        return "it is withdrawn"
    if reference.PHASES[known.progress[task][1]] == "done":
        return "it is done"
    return "its job is withdrawn" if job in known.jobs else "its job is not known"


def is_said(text, said):
    """Whether the text is this one, with an example just if there has to be one, and changes only of a task that waits."""
    told = REMEDY.search(text)
    if told and not AHEAD.match(text[:told.start()]):
        return False
    text = REMEDY.sub("", text, 2)
    found = EXAMPLE.search(text)
    if found is None or said.machine is None:
        return found is None and said.machine is None and text == said.text
    count = int(found[3])
    return (text[:found.start()] + text[found.end():] == said.text and (found[1], int(found[2])) == (said.machine, said.cost)
            and count > 0 and found[4].count("\n") == min(count, SHOWN))


def wrong_of(text, wanted):
    """What is wrong with the text, or None."""
    is_fine = any(is_said(text, said) for said in wanted) and text.count("\n") <= MOST_LINES
    return None if is_fine else "%s is none of %s" % (text, wanted)


def wrong_moves(network, flow, text):
    """What is wrong with the example of the text, or None: if the tasks that it names go there, and all others where they go by
    the flow, a schedule has just that cost. If more tasks go elsewhere than are named, nothing can be said."""
    found = EXAMPLE.search(text)
    if found is None or int(found[3]) > SHOWN:
        return None
    goes = {ends[0]: ends[1] for ends, units in flow.units.items() if units and network.nodes[ends[0]].kind == "T"}
    named = {network.nodes[node].name: node for node in network.of_kind("T")}
    for name, waits, request, machine in MOVE.findall(found[4]):
        kind = "U" if waits else "R" if request else "M"
        goes[named[name]] = next(node for node in network.out[named[name]] if network.nodes[node].kind == kind
                                 and (not machine or network.nodes[node].name == machine))
    balance, arcs = forced.problem(network)
    cost = witness.least_cost(balance, [arc for arc in arcs if goes.get(arc[0], arc[1]) == arc[1]])
    return None if cost == int(found[2]) else "with these moves a schedule costs %d, not %s" % (cost, found[2])


def lacks_of(known, request):
    """For each open machine without room for the request: whether it holds as many tasks as it has slots, what it lacks, and its id. None
    that would get more bandwidth than there may be."""
    held, sums = collections.Counter(), collections.Counter()
    for task in filter(known.is_live, known.specs):
        held[known.holder(task)] += 1
        sums[known.holder(task)] += known.specs[task][4]
    for machine in filter(known.is_open, known.states):
        _, _, _, slots, nic = known.states[machine]
        wanted = max(known.reports.get(machine, (0, 0))[1], sums[machine]) + request
        if nic < wanted <= MOST_NIC:
            yield held[machine] >= slots, wanted - nic, machine


def changes_of(known, task, first):
    """The changes that are tried for a task that waits: a machine, how many more slots, and how much more bandwidth."""
    if first is not None and known.states[first][3] < MOST_SLOTS:
        yield first, 1, 0
    for _, by, machine in sorted(lacks_of(known, known.specs[task][4]))[:1]:
        yield machine, 0, by


def changed(taken, machine, slots, nic):
    """What the operations come to if the machine is told to have so many more slots and so much more bandwidth."""
    known = reference.Known(taken)
    version, writer, is_up, before, bandwidth = known.states[machine]
    told = {"id": reference.name(machine), "incarnation": known.incarnations[machine], "version": version + 1, "writer": writer,
            "up": is_up, "slots": before + slots, "nic": bandwidth + nic}
    return reference.Known(set(taken) | {reference.operation("machine", told)})


def wrong_changes(taken, task, text, places_in):
    """What is wrong with the changes that the text tells of, or None. `places_in` answers by what is known what the least schedule costs,
    and for each place of a task how much dearer the cheapest schedule is with it there."""
    said = {(reference.number(machine), 0 if by else 1, int(by or 0)): (reference.number(place or machine), int(cost))
            for by, machine, place, cost in REMEDY.findall(text)}
    known = reference.Known(taken)
    waits = " waits" in text.partition("\n")[0]
    _, places = places_in(known, task)
    first = min(((more, place) for place, more in places.items() if place is not None), default=(0, None))[1]
    for change in changes_of(known, task, first) if waits else ():
        least, places = places_in(changed(taken, *change), task)
        machine, slots, by = change
        if change not in said:
            if places[None] > 0:
                return "%s is not told of, and the task runs in each least schedule" % (change,)
        elif said[change][1] != least or places.get(said[change][0]) != 0:
            return "%s is told of as %s: %d, %s" % (change, said[change], least, places)
        if by and (machine not in places or machine in places_in(changed(taken, machine, 0, by - 1), task)[1]):
            return "%d is not what machine %s lacks" % (by, reference.name(machine))
        said.pop(change, None)
    return "%s is told of" % said if said else None


def places_by_flows(known, task):
    """What a least schedule costs, and how much dearer it is with the task at each place, by the solver of tests/witness.py."""
    network = networks.read_dump("".join(reference.graph(known)))
    node = next(node for node in network.of_kind("T") if network.nodes[node].name == reference.name(task))
    least = witness.least_cost(*forced.problem(network))
    return least, {place and reference.number(place): more for place, (_, more) in facts_by_flows(network, least, node).places.items()}


def places_by_schedules(known, task):
    """The same from all schedules, one by one."""
    found = schedules.Schedules(known)
    return found.least, {place: more for place, (_, more) in found.places(task).items()}


def facts_by_flows(network, least, task):
    """The facts on a task of a network, by the solver of tests/witness.py: it is forced along each of its ways."""
    found = {}
    for place, ways in forced.routes(network, task).items():
        own = min(sum(network.arcs[ends].cost for ends in zip(way, way[1:])) for way in ways)
        found[place] = own, min(forced.least_cost(network, way) for way in ways) - least
    request = int(network.nodes[network.next_of(task, "R")].name)
    return Facts(network.nodes[task].name, request, found[None][0], least, found)


def texts_by_flows(known, task):
    """The texts that may be said of a task, without any text of the program."""
    def facts_of(task):
        network = networks.read_dump("".join(reference.graph(known)))
        node = next(node for node in network.of_kind("T") if network.nodes[node].name == reference.name(task))
        return facts_by_flows(network, witness.least_cost(*forced.problem(network)), node)
    return texts(known, task, facts_of)


def taken_of(script):
    """What the first coordinator of a script took in, or None if the rules leave it open."""
    script = json.loads(script)
    try:
        return frozenset(reference.World(script).coordinators[script["coordinators"][0]].taken)
    except reference.NotSaid:
        return None


def explained(name, run, script, few=None):
    """Whether all that is said of the tasks of a script holds; of a few if there are many, and then not of the changes. The flow that
    `solve` prints is the one that was found."""
    network = networks.read_dump(run("graph", script))
    taken = None if few else taken_of(script)
    flow = networks.read_solution(run("solve", script), network)
    for task in network.of_kind("T")[::few]:
        ident = network.nodes[task].name
        text = run("why", script, ident)
        if network.is_held(task):
            wanted = [Said("task %s is held by machine %s\n" % (ident, network.nodes[network.next_of(task, "M")].name))]
        else:
            known = (KNOWN.search(text) or ["", "none"])[1]
            waits = bool(flow.units.get((task, network.next_of(task, "U"))))
            wanted = [texts_of_facts(facts_by_flows(network, flow.cost, task), known)[waits]]
        wrong = wrong_of(text, wanted) or wrong_moves(network, flow, text)
        if taken and not network.is_held(task):
            wrong = wrong or wrong_changes(taken, reference.number(ident), text, places_by_flows)
        yield "reasons of task %s of %s: %s" % (ident[-4:], name, wrong or "so"), wrong is None


def enumerated(run, seeds):
    """What is said of the tasks of small clusters, and of one that none of them knows, against all schedules. It is counted how often the
    text says "exactly" of a machine behind the first."""
    behind = 0
    for seed in seeds:
        steps, tasks = schedules.few(seed)
        known, script = schedules.known(steps), schedules.script_of(steps)
        found = schedules.Schedules(known)

        def facts_of(task):
            places = {place and reference.name(place): numbers for place, numbers in found.places(task).items()}
            return Facts(reference.name(task), known.specs[task][4], known.jobs[known.specs[task][3]][3], found.least, places)

        def wrong_for(task):
            text = told[task]
            wrong = wrong_of(text, texts(known, task, facts_of))
            is_free = known.is_live(task) and known.holder(task) is None
            return wrong or (wrong_changes(taken, task, text, places_by_schedules) if is_free else None)

        taken = {reference.operation(*next(iter(step.items()))) for step in steps}
        told = {task: run("why", script, reference.name(task)) for task in tasks + [UNKNOWN]}
        wrong = [wrong_for(task) for task in told]
        behind += sum(len(BEHIND.findall(text)) for text in told.values())
        yield "reasons in all %d schedules of %d: %s" % (found.count, seed, list(filter(None, wrong)) or "so"), not any(wrong)
    yield "%d machines behind the first have an exact bound" % behind, behind > 0


def chained(links):
    """A task that waits, and a chain of tasks: each runs on one machine, and would run on the next one for the same, which the next task
    has. The last machine is free and dear. So a schedule that runs the waiting task on the first machine moves all of the chain."""
    first, last, waiting = 100, 100 + links, 99
    jobs = [("job", {"id": drawn.unique(job), "version": 1, "writer": 1, "withdrawn": False, "wait": wait, "preempt": wait})
            for job, wait in ((1, 100), (2, 60))]
    machines = [("machine", {"id": drawn.unique(machine), "incarnation": 1, "version": 1, "writer": 1, "up": True, "slots": 1, "nic": 2000})
                for machine in range(first, last + 1)]
    report = ("report", {"id": drawn.unique(last), "incarnation": 1, "number": 1, "used": 1000})
    tasks = [("spec", {"id": drawn.unique(task), "version": 1, "writer": 1, "withdrawn": False, "job": drawn.unique(1), "request": 50,
                       "prefer": [{"machine": drawn.unique(machine), "credit": 1000 if machine == last else 30}
                                  for machine in (task, task + 1)]})
             for task in range(first, last)]
    spec = ("spec", {"id": drawn.unique(waiting), "version": 1, "writer": 1, "withdrawn": False, "job": drawn.unique(2), "request": 50})
    told = jobs + machines + [report] + tasks + [spec]
    return json.dumps({"coordinators": [1], "steps": [{"at": 1, "tell": {kind: fields}} for kind, fields in told]}).encode(), waiting


def far(run, links):
    """What is said of a task if a cheapest schedule with it moves more tasks than the search for ways gets to, which ends after 64 turns. The
    bounds hold all the same, and what was found costs no less than a cheapest schedule."""
    script, waiting = chained(links)
    network = networks.read_dump(run("graph", script))
    task = next(node for node in network.of_kind("T") if network.nodes[node].name == reference.name(waiting))
    least, ways = witness.least_cost(*forced.problem(network)), forced.routes(network, task)
    lines = CHOICE.findall(run("why", script, reference.name(waiting)))
    for machine, exact, bound, found in lines:
        more = min(forced.least_cost(network, way) for way in ways[machine]) - least
        most = bound if exact else found or more
        yield "a chain of %d to machine ..%s costs %d more" % (links, machine[-3:], more), int(bound) <= more <= int(most)
    beyond = sum(found != "" for _, _, _, found in lines)
    yield "%d of %d schedules cost more than the bound" % (beyond, len(lines)), len(lines) == SHOWN and beyond > 0


def all_tests(run):
    """Of a `run` that answers what the program prints for a command, with further words, on a script."""
    for file in sorted((ROOT / "examples").glob("*.json")):
        yield from explained(file.name, run, file.read_bytes(), 40 if file.name == "many.json" else None)
    for seed in range(20):
        yield from explained("contended %d" % seed, run, drawn.contended(seed).encode())
    yield from enumerated(run, range(60))
    yield from far(run, 100)
