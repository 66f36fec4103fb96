"""Tests of bin/picture: each node and arc of a dump stands in its picture, alone or in the count of those drawn as one."""
import collections
import pathlib
import random
import subprocess
import sys
import tempfile
import uuid
import xml.etree.ElementTree as tree

ROOT = pathlib.Path(__file__).resolve().parent.parent
sys.path += [str(ROOT / name) for name in ("bench", "bin", "tests")]
import networks
import scripts

SPACE = "{http://www.w3.org/2000/svg}"


def groups(picture, name):
    return [group for group in picture.iter(SPACE + "g") if group.get("class", "").split()[:1] == [name]]


def title(group):
    return group.find(SPACE + "title").text


def fault(svg, network, units=None):
    """What the picture lacks of the network, and of the flow's units if these are given, or None."""
    try:
        picture = tree.fromstring(svg)
    except tree.ParseError as wrong:
        return str(wrong)
    return fault_of_nodes(groups(picture, "node"), network) or fault_of_arcs(groups(picture, "arc"), network, units)


def fault_of_nodes(drawn, network):
    count = collections.Counter()
    for group in drawn:
        count[group.get("data-kind")] += int(group.get("data-nodes"))
        if group.get("data-nodes") == "1":
            node = network.nodes.get(int(group.get("data-id")))
            if not node or node.kind != group.get("data-kind") or node.name not in title(group):
                return "node %s is drawn as another" % group.get("data-id")
    alone = [group.get("data-id") for group in drawn if group.get("data-id")]
    if count != collections.Counter(node.kind for node in network.nodes.values()) or len(set(alone)) < len(alone):
        return "not every node is drawn once"
    if len(network.nodes) <= 60 and len(alone) != len(network.nodes):
        return "few nodes are drawn as one"
    return None


def fault_of_arcs(drawn, network, units):
    seen, wanted = collections.Counter(), collections.Counter()
    for group in drawn:
        count, capacity, sent = (int(group.get("data-" + name)) for name in ("arcs", "capacity", "units"))
        sent = 0 if units is None else sent
        seen.update({(group.get("data-kinds"), name): number for name, number in zip("acu", (count, capacity, sent))})
        if count == 1:
            ends = tuple(map(int, group.get("data-ends").split()))
            wanted_units = units.get(ends, 0) if units else 0
            if (network.arcs.get(ends), wanted_units) != ((capacity, int(group.get("data-cost"))), sent):
                return "arc %d %d is drawn as another" % ends
    for ends, arc in network.arcs.items():
        kinds = "".join(network.nodes[end].kind for end in ends)
        wanted.update({(kinds, "a"): 1, (kinds, "c"): arc.capacity, (kinds, "u"): units.get(ends, 0) if units else 0})
    return None if +seen == +wanted else "not every arc is drawn once"


def drawn(dump, solution=None):
    """The status, the picture, and what is said on standard error."""
    with tempfile.NamedTemporaryFile("w") as file:
        file.write(solution or "")
        file.flush()
        done = subprocess.run([ROOT / "bin/picture"] + ["--solution", file.name] * (solution is not None),
                              input=dump.encode(), stdout=subprocess.PIPE, stderr=subprocess.PIPE, timeout=120)
    return done.returncode, done.stdout.decode(), done.stderr.decode()


def shows(name, dump, solution=None):
    """Whether the picture has the network, and with a solution its units too."""
    network = networks.read_dump(dump)
    for given in (None, solution) if solution else (None,):
        status, svg, said = drawn(dump, given)
        units = networks.read_solution(given, network).units if given else None
        wrong = said or "status %d" % status if status else fault(svg, network, units)
        yield "picture of %s%s: %s" % (name, ", solved" * bool(given), wrong or "whole"), wrong is None


def stored(file, dump):
    """Whether the picture beside an example is of its network."""
    picture = file.with_suffix(".svg")
    if not picture.exists():
        return "there is none; examples/draw makes it"
    wrong = fault(picture.read_text(), networks.read_dump(dump))
    return wrong and "%s; examples/draw makes it anew" % wrong


def any_network(seed):
    """The dump of a network that the format has, mostly none that the policy builds."""
    chance = random.Random(seed)
    nodes = [("S", "")] + [("U", str(uuid.UUID(int=n))) for n in range(chance.randint(0, 4))]
    nodes += [("R", str(n * 10 ** 5)) for n in range(chance.randint(0, 6))]
    nodes += [(kind, name) for kind in "MT" for name in sorted(str(uuid.UUID(int=chance.getrandbits(128)))
                                                              for _ in range(chance.choice((0, 3, 20, 70))))]
    lines = ["c %d %s" % (number, (kind + " " + name).strip()) for number, (kind, name) in enumerate(nodes, 1)]
    arcs = ["a %d %d 0 %d %d" % (source, target, chance.choice((1, 7, 10 ** 6 + 1, 2 ** 64 - 1)), chance.choice((0, 5, 10 ** 9)))
            for source, (kind, _) in enumerate(nodes, 1) for target, (other, _) in enumerate(nodes, 1)
            if (kind, other) in networks.JOINED and chance.random() < 0.3]
    tasks = [number for number, (kind, _) in enumerate(nodes, 1) if kind == "T"]
    lines += ["p min %d %d" % (len(nodes), len(arcs))] + ["n 1 -%d" % len(tasks)] * bool(tasks) + ["n %d 1" % n for n in tasks]
    return "".join(line + "\n" for line in lines + arcs)


def strange(dump, solution):
    """Inputs that are not what they are to be, and a word that is said of each."""
    lines = dump.splitlines(keepends=True)
    for name, text in (("nothing", ""), ("a text", "hello\n"), ("half a dump", dump[:len(dump) // 2]),
                       ("no end of line", dump[:-1]), ("a line less", "".join(lines[:-1])), ("a line more", dump + lines[-1]),
                       ("two lines turned", "".join(lines[:-2] + lines[:-3:-1])), ("two networks", dump + dump)):
        yield name, text, None, "no dump"
    other = "c 1 S\np min 1 0\n"
    for name, text, given in (("another's solution", other, solution), ("no cost", dump, "f 1 2 3\n"), ("nothing solved", dump, ""),
                              ("another cost", dump, solution.replace("s ", "s 1", 1)), ("none of its units", dump, "s 0\n")):
        yield name, text, given, "solution"


def all_tests(run):
    """Of a `run` that answers what the program prints for a command on a script."""
    for file in sorted((ROOT / "examples").glob("*.json")):
        script = file.read_bytes()
        dump, solution = run("graph", script), run("solve", script)
        yield from shows(file.name, dump, solution)
        wrong = stored(file, dump)
        yield "stored picture of %s: %s" % (file.name, wrong or "whole"), wrong is None
    for tasks, machines in ((20, 5), (40, 9), (43, 15), (300, 4), (3000, 300)):
        script = "".join(scripts.script(tasks, machines)).encode()
        yield from shows("%d tasks" % tasks, run("graph", script), run("solve", script))
    for seed in range(12):
        yield from shows("network %d" % seed, any_network(seed))
    script = (ROOT / "examples/waiting.json").read_bytes()
    for name, dump, solution, word in strange(run("graph", script), run("solve", script)):
        status, svg, said = drawn(dump, solution)
        yield "no picture of %s: %s" % (name, said.strip()), status != 0 and svg == "" and word in said and said.count("\n") == 1
