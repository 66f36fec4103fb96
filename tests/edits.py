"""Tests of an Editor by what it does with each delta, which `fm_probe_editor` prints: the edits are the change from the network before
to the one after, as tests/reference.py works both out, and what is looked up are the keys of the delta, each once and dirty.
And tests of two coordinators that are looked at after each delta, with `fm_probe_editor looks`: one edits its network, as the counts of
its edits and builds show, the other builds it, and both networks are that of what was told."""
import json
import random
import re
import subprocess

import drawn
import groupings
import reference

KINDS = ("Sink", "Unscheduled", "Request", "Machine", "Task")
TOKEN = re.compile(r"[A-Za-z]+|\d+")


def node(words):
    """The next node among the words of a line."""
    kind = KINDS.index(words.pop(0))
    if kind == 0:
        return (0, 0)
    while not words[0].isdigit():
        words.pop(0)
    return (kind, int(words.pop(0)))


def edit(line):
    """An edit as the program shows it: its name, its nodes, and of an arc that is put its capacity and cost."""
    words = TOKEN.findall(line)
    name = words.pop(0)
    ends = tuple(node(words) for _ in range(2 if name.endswith("Arc") else 1))
    return (name, *ends, *map(int, words))


def key(line):
    """A key as the program shows it: its kind, an id, and of a winner the attempt."""
    words = TOKEN.findall(line)
    return (words[0], *(int(word) for word in words if word.isdigit()))


def change(before, after):
    """The least edits from one network to another: arcs and nodes that go, nodes and arcs that come, each in node order."""
    (nodes, arcs), (nodes_after, arcs_after) = before, after
    yield from (("DropArc", *ends) for ends in sorted(arcs) if ends not in arcs_after)
    yield from (("DropNode", one) for one in nodes if one not in nodes_after)
    yield from (("PutNode", one) for one in nodes_after if one not in nodes)
    yield from (("PutArc", *ends, *arcs_after[ends]) for ends in sorted(arcs_after) if arcs.get(ends) != arcs_after[ends])


def ids(operations, *kinds):
    return {reference.number(fields["id"]) for kind, fields in operations if kind in kinds}


def dirty(before, after, delta):
    """The jobs, tasks and machines that a delta can have changed, by what was known before it and after."""
    jobs, machines = ids(delta, "job"), ids(delta, "machine", "report")
    tasks = ids(delta, "spec", "progress", "propose")
    for known in (before, after):
        tasks |= {task for task, spec in known.specs.items() if spec[3] in jobs}
        tasks |= {task for (task, attempt), winner in known.winners.items()
                  if attempt == known.attempt(task) and winner[1] in machines}
    held = {known.holder(task) for known in (before, after) for task in tasks} - {None}
    of = {known.specs[task][3] for known in (before, after) for task in tasks if task in known.specs}
    return jobs | of, tasks, machines | held


def looks(after, delta):
    """The keys of the delta, in the order in which they are looked up."""
    tasks = sorted(ids(delta, "spec", "progress", "propose"))
    yield from (("Machine", one) for one in sorted(ids(delta, "machine", "report")))
    yield from (("Job", one) for one in sorted(ids(delta, "job")))
    yield from (("Task", one) for one in tasks)
    yield from (("Winner", one, after.attempt(one)) for one in tasks)


def is_dirty(found, of):
    jobs, tasks, machines = of
    return found[1] in {"Job": jobs, "Machine": machines}.get(found[0], tasks)


def script(groups):
    """A script whose cuts part the groups of operations."""
    steps = []
    for place, group in enumerate(groups):
        steps += [{"at": 1, "tell": op} for op in group]
        steps.append({"at": 1, "cut": {"name": "p%d" % place}})
    return {"coordinators": [1], "steps": steps}


def operations(group):
    return {reference.operation(kind, fields) for op in group for kind, fields in op.items()}


def is_followed(program, groups):
    """Whether the program answers each group's edits and keys."""
    said = subprocess.run([program], input=json.dumps(script(groups)).encode(), stdout=subprocess.PIPE, timeout=120)
    deltas = said.stdout.decode().split("delta\n")[1:]
    if said.returncode or len(deltas) != len(groups):
        return False
    taken, before = set(), reference.Known(set())
    for text, group in zip(deltas, groups):
        delta = operations(group)
        taken |= delta
        after = reference.Known(taken)
        lines = text.splitlines()
        made = [edit(line) for line in lines if line.startswith(("Drop", "Put"))]
        found = [key(line) for line in lines if not line.startswith(("Drop", "Put"))]
        of = dirty(before, after, [(kind, dict(fields)) for kind, fields in delta])
        wanted = list(looks(after, [(kind, dict(fields)) for kind, fields in delta]))
        if made != list(change(reference.network(before), reference.network(after))) or found != wanted:
            return False
        if not all(is_dirty(one, of) for one in found):
            return False
        before = after
    return True


LOOK = re.compile(r"^look: same (true|false), (\d+) edits, (\d+) builds\n", re.MULTILINE)
BEFORE = [[groupings.machine(0xF0)], [groupings.machine(0xF1)]]


def looks_at(program, groups):
    """What is seen at a look after each group: whether both networks are that of what was told, and the counts of the edits and
    of the builds so far. None if the program does not answer."""
    said = subprocess.run([program, "looks"], input=json.dumps(script(groups)).encode(), stdout=subprocess.PIPE, timeout=120)
    found = LOOK.split(said.stdout.decode())
    if said.returncode or found[0] or len(found) != 1 + 4 * len(groups):
        return None
    taken, seen = set(), []
    for place, group in enumerate(groups):
        taken |= operations(group)
        same, edits, builds, text = found[1 + 4 * place:5 + 4 * place]
        is_right = same == "true" and text == "".join(reference.graph(reference.Known(taken)))
        seen.append((is_right, int(edits), int(builds)))
    return seen


def is_edited(program, groups):
    """Whether every look but the first is answered by an edit, and every network is right. The groups are small."""
    return looks_at(program, groups) == [(True, place, 1) for place in range(len(groups))]


def is_edited_and_built(program, groups):
    """Whether every network is right, and there are looks that are answered by edits and looks that are answered by builds."""
    seen = looks_at(program, groups)
    if not seen or not all(is_right and edits + builds == place for place, (is_right, edits, builds) in enumerate(seen, 1)):
        return False
    return seen[-1][1] > 0 and seen[-1][2] > 1


def look_tests(program, seeds):
    """Each test of looks with whether it holds."""
    for name, told in groupings.ROWS.items():
        for groups in groupings.groupings(len(told)):
            after = [told[start:end] for start, end in groups]
            yield "looks at %s, in %s" % (name, groups), is_edited(program, BEFORE + after)
    for seed in range(seeds):
        chance = random.Random("looks %d" % seed)
        told = drawn.Lives(chance).operations(240)
        for most in (1, 3, 12):
            groups = [told[start:end] for start, end in drawn.groups_of(chance, len(told), most)]
            holds = is_edited_and_built(program, [told[:40]] + groups + [told[40:80]] + groups[-3:])
            yield "looks at life %d, in groups of up to %d" % (seed, most), holds


SOLVE = re.compile(r"built in [1-9]\d* ns, solved in [1-9]\d* ns, written in [1-9]\d* ns")


def are_solves_timed(program, told, count):
    """Whether all that is told is solved so many times, with a line of times for each."""
    text = json.dumps(script([told])).encode()
    said = subprocess.run([program, "solves", str(count)], input=text, stdout=subprocess.PIPE, timeout=120)
    lines = said.stdout.decode().splitlines()
    return said.returncode == 0 and len(lines) == count and all(SOLVE.fullmatch(line) for line in lines)


def all_tests(program, seeds):
    """Each test with whether it holds."""
    yield from look_tests(program, seeds)
    yield "solving is timed", are_solves_timed(program, drawn.Lives(random.Random("solves")).operations(240), 3)
    for name, told in groupings.ROWS.items():
        for groups in groupings.groupings(len(told)):
            yield "edits of %s, in %s" % (name, groups), is_followed(program, [told[start:end] for start, end in groups])
    for seed in range(seeds):
        chance = random.Random("edits %d" % seed)
        told = drawn.Lives(chance).operations(240)
        for most in (1, 3, 12, 60, 240):
            groups = [told[start:end] for start, end in drawn.groups_of(chance, len(told), most)]
            again = [group for place, one in enumerate(groups) for group in (one, chance.choice(groups[:place + 1]))]
            yield "edits of life %d, in groups of up to %d" % (seed, most), is_followed(program, groups)
            yield "edits of life %d, in groups that come again" % seed, is_followed(program, again)
