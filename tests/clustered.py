"""Clusters of bridges on a broker, and what their operations come to, for tests/bridged.py and tests/outlived.py."""
import contextlib
import random
import subprocess
import tempfile

import brokers
import hostile
import reference
from brokers import QUICK, Bridge, Broker, told as tell, until

MACHINE = hostile.MACHINE


def cluster(count, name="cluster"):
    """A job, machines, and so many tasks, of which each is seen in the graph of all."""
    chance = random.Random(name)
    yield {"job": hostile.OPERATIONS["job"]}
    for place in range(10):
        yield {"machine": {**hostile.OPERATIONS["machine"], "id": MACHINE[:-2] + "%02x" % (160 + place), "nic": 1000 + place}}
    for place in range(count):
        spec = {**hostile.OPERATIONS["spec"], "id": "00000000-0000-0000-0001-%012x" % place, "request": chance.choice((10, 20, 50))}
        yield {"spec": spec}


def graph_of(told):
    """The answer to the question for the graph, worked out from the operations."""
    known = reference.Known([reference.operation(kind, fields) for op in told for kind, fields in op.items()])
    return "".join(reference.graph(known)).encode() + b"ok\n"


def told_to(bridges, told):
    """Tells the operations to the bridges in turn. Whether each was answered ok."""
    told = list(told)
    parts = [told[place::len(bridges)] for place in range(len(bridges))]
    before = [bridge.count() for bridge in bridges]
    for bridge, part in zip(bridges, parts):
        bridge.write(b"".join(tell(bridge.number, op) for op in part))
    return all([bridge.wait_for(count + len(part)) and b"refusal" not in bridge.heard
                for bridge, count, part in zip(bridges, before, parts)])


@contextlib.contextmanager
def running(program, numbers, *words, lines=("allow_anonymous true",), each=None):
    """A broker and bridges of the numbers, with further words for all, and for each of its own."""
    with contextlib.ExitStack() as stack:
        folder = stack.enter_context(tempfile.TemporaryDirectory())
        broker = stack.enter_context(Broker(folder, lines))
        bridges = [stack.enter_context(Bridge(broker.port, number, *QUICK, *words, *(each or {}).get(number, ()), program=program))
                   for number in numbers]
        yield broker, bridges


def agree(bridges, told, patience=brokers.PATIENCE):
    """Whether all bridges come to the graph of the operations in time."""
    wanted = graph_of(told)
    return bool(until(lambda: all(bridge.graph() == wanted for bridge in bridges), patience, pause=0.1))


def ended(bridges):
    """Whether all end well when there are no more lines."""
    return [bridge.end() for bridge in bridges] == [0] * len(bridges)


def refused(port, *words, program, cluster="test", patience=30):
    """The status of a bridge that is not to begin, and what it said."""
    done = subprocess.run([brokers.BRIDGE, "--cluster", cluster, "--broker", f"127.0.0.1:{port}", "--program", program, *words],
                          stdin=subprocess.DEVNULL, capture_output=True, timeout=patience)
    return done.returncode, done.stdout, done.stderr


def is_refused(found, status, word):
    """Whether a bridge ended with the status, wrote nothing, and said one line with the word."""
    return found[:2] == (status, b"") and found[2].count(b"\n") == 1 and found[2].startswith(b"bridge") and word in found[2]
