"""Networks and flows as `firmament graph` and `firmament solve` print them, read strictly. `docs/formats.md` has the texts.

What is read here is what bin/picture draws; nothing of it is proved.
"""
import collections
import re

KINDS = "SURMT"
JOINED = {("T", "R"), ("R", "M"), ("T", "M"), ("T", "U"), ("M", "S"), ("U", "S")}
MOST_CAPACITY, MOST_COST, MOST_REQUEST = 2 ** 64 - 1, 10 ** 9, 10 ** 6
NUMBER = r"(0|[1-9][0-9]*)"
UUID = r"([0-9a-f]{8}-[0-9a-f]{4}-[0-9a-f]{4}-[0-9a-f]{4}-[0-9a-f]{12})"
NODE_LINE = re.compile("c %s (?:([UMT]) %s|(R) %s)" % (NUMBER, UUID, NUMBER))
ARC_LINE = re.compile("a %s %s 0 %s %s" % ((NUMBER,) * 4))
UNITS_LINE = re.compile("f %s %s %s" % ((NUMBER,) * 3))

Node = collections.namedtuple("Node", "kind name")
Arc = collections.namedtuple("Arc", "capacity cost")
Flow = collections.namedtuple("Flow", "cost units")


class Strange(Exception):
    """A text is not what it is taken for."""


class Network:
    """Nodes by their IDs, and arcs by the IDs of their ends, both in the order of the dump."""

    def __init__(self, nodes, arcs):
        self.nodes, self.arcs = nodes, arcs
        self.out, self.into = collections.defaultdict(list), collections.defaultdict(list)
        for source, target in arcs:
            self.out[source].append(target)
            self.into[target].append(source)

    def of_kind(self, kind):
        return [node for node in self.nodes if self.nodes[node].kind == kind]

    def next_of(self, node, kind):
        """The first node of the kind to which the node has an arc, or None."""
        return next((target for target in self.out[node] if self.nodes[target].kind == kind), None)

    def is_held(self, task):
        """A held task has an arc to its machine and none to a request."""
        return self.next_of(task, "M") is not None and self.next_of(task, "R") is None

    def load(self, machine):
        """The machine's load, which is what an arc from a request costs beside that request; None if it has none."""
        for source in self.into[machine]:
            if self.nodes[source].kind == "R":
                return self.arcs[source, machine].cost - int(self.nodes[source].name)
        return None


def is_after(node, last):
    """Whether a node comes after another in node order. UUIDs in lower case are in order as their numbers are."""
    if node.kind != last.kind:
        return KINDS.index(node.kind) > KINDS.index(last.kind)
    return int(node.name) > int(last.name) if node.kind == "R" else node.kind != "S" and node.name > last.name


def lines_of(text, what):
    """The lines of a text, each of which ends in a line feed."""
    if not text.endswith("\n"):
        raise Strange("%s: line %d has no line feed, or is missing" % (what, text.count("\n") + 1))
    return text.split("\n")[:-1]


def read_nodes(lines):
    if lines[0] != "c 1 S":
        raise Strange("no dump: line 1 is not 'c 1 S'")
    nodes = {1: Node("S", "")}
    for place, line in enumerate(lines[1:], 2):
        if not line.startswith("c "):
            break
        found = NODE_LINE.fullmatch(line)
        if not found or int(found[1]) != place:
            raise Strange("no dump: line %d is not node %d" % (place, place))
        node = Node(found[2] or found[4], found[3] or found[5])
        if not is_after(node, nodes[place - 1]) or node.kind == "R" and int(node.name) > MOST_REQUEST:
            raise Strange("no dump: the node of line %d is out of order, or of range" % place)
        nodes[place] = node
    return nodes


def read_arcs(nodes, lines, first):
    arcs, last = {}, (0, 0)
    for place, line in enumerate(lines, first):
        found = ARC_LINE.fullmatch(line)
        if not found:
            raise Strange("no dump: line %d is no arc" % place)
        source, target, capacity, cost = map(int, found.groups())
        if (source, target) <= last or (kind_of(nodes, source), kind_of(nodes, target)) not in JOINED:
            raise Strange("no dump: the arc of line %d is out of order, or joins what no arc joins" % place)
        if not 1 <= capacity <= MOST_CAPACITY or cost > MOST_COST:
            raise Strange("no dump: a number of line %d is out of range" % place)
        last = source, target
        arcs[last] = Arc(capacity, cost)
    return arcs


def kind_of(nodes, node):
    return nodes[node].kind if node in nodes else None


def read_dump(text):
    """The network whose dump the text is."""
    lines = lines_of(text, "no dump")
    nodes = read_nodes(lines)
    tasks = [node for node in nodes if nodes[node].kind == "T"]
    place = len(nodes)
    found = re.fullmatch("p min %d %s" % (len(nodes), NUMBER), lines[place]) if place < len(lines) else None
    if not found:
        raise Strange("no dump: line %d is not the problem line of %d nodes" % (place + 1, len(nodes)))
    wanted = ["n 1 -%d" % len(tasks)] * bool(tasks) + ["n %d 1" % task for task in tasks]
    for place, line in enumerate(wanted, len(nodes) + 1):
        if lines[place:place + 1] != [line]:
            raise Strange("no dump: line %d is not '%s'" % (place + 1, line))
    place = len(nodes) + 1 + len(wanted)
    if len(lines) - place != int(found[1]):
        raise Strange("no dump: %d arcs are announced, and %d lines follow" % (int(found[1]), len(lines) - place))
    return Network(nodes, read_arcs(nodes, lines[place:], place + 1))


def read_solution(text, network):
    """The flow that the text gives the network."""
    lines = lines_of(text, "no solution")
    found = re.fullmatch("s " + NUMBER, lines[0])
    if not found:
        raise Strange("no solution: line 1 is no cost")
    units, last = {}, (0, 0)
    for place, line in enumerate(lines[1:], 2):
        read = UNITS_LINE.fullmatch(line)
        if not read:
            raise Strange("no solution: line %d is no arc with units" % place)
        source, target, count = map(int, read.groups())
        if (source, target) not in network.arcs:
            raise Strange("not a solution of this network: it has no arc %d %d, as line %d says" % (source, target, place))
        if (source, target) <= last or not 1 <= count <= network.arcs[source, target].capacity:
            raise Strange("not a solution of this network: line %d is out of order, or beyond the capacity" % place)
        last = source, target
        units[last] = count
    check_flow(network, units, int(found[1]))
    return Flow(int(found[1]), units)


def check_flow(network, units, cost):
    """Each task sends a unit, all of them arrive, and they cost what is said."""
    left = collections.Counter()
    for (source, target), count in units.items():
        left[source] += count
        left[target] -= count
    for node, (kind, _) in network.nodes.items():
        if kind != "S" and left[node] != (kind == "T"):
            raise Strange("not a solution of this network: node %d does not pass on what it gets" % node)
    if cost != sum(network.arcs[arc].cost * count for arc, count in units.items()):
        raise Strange("not a solution of this network: its units do not cost %d" % cost)


def machines_of(network, units):
    """The machine of each task that runs by the flow: a task with a unit to a machine runs there; of those with a unit to
    a request the i-th runs on the i-th of the machines to which the request's units go, both in the dump's order."""
    found = {}
    by_request = collections.defaultdict(list)
    for (source, target) in units:
        if network.nodes[source].kind == "T":
            if network.nodes[target].kind == "M":
                found[source] = target
            elif network.nodes[target].kind == "R":
                by_request[target].append(source)
    for request, tasks in by_request.items():
        hosts = [machine for machine in network.out[request] for _ in range(units.get((request, machine), 0))]
        found.update(zip(tasks, hosts))
    return found


def is_full(network, units, machine):
    """Whether the units take all of the machine's slots."""
    return all(units.get((machine, sink), 0) == network.arcs[machine, sink].capacity for sink in network.out[machine])


def short_names(names):
    """The shortest beginnings or endings, of two characters or more, that tell the names apart."""
    names = set(names)
    for size in range(2, 36):
        for cut in ((lambda name: name[:size] + "\u2026"), (lambda name: "\u2026" + name[-size:])):
            cuts = {name: cut(name) for name in names}
            if len(set(cuts.values())) == len(names) and all(map(tells_some, cuts.values())):
                return cuts
    return {name: name for name in names}


def tells_some(short):
    """Whether a shortened id is more than a few zeros, and neither begins nor ends in a hyphen."""
    shown = short.strip("\u2026")
    return (shown.strip("0-") != "" or len(shown) > 3) and shown == shown.strip("-")
