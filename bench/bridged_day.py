"""A day of a cluster of 50 machines on a bridge, as fast as it answers: bench/bridge --day.

Each machine does a task a minute, 72,000 in all. A task is told, placed, and done. Each hour the operator asks what must be stopped. A
second bridge hears all of it.
"""
import contextlib
import itertools
import os
import pathlib
import random
import statistics
import sys
import tempfile
import threading
import time

sys.dont_write_bytecode = True
ROOT = pathlib.Path(__file__).resolve().parent.parent
sys.path[:0] = [str(ROOT / "tests"), str(ROOT / "bench")]
import brokers
import scripts

MACHINES, HOURS = 50, 24
# states of so many bytes, and of more, are compared, and none may take more than so many times the first one's time for each byte. It is
# the processor time of the bridge's loop, since on a busy machine all else varies more
LEAST, MOST_TIMES = 2_000_000, 2
PATIENCE = 3600


def lines(tasks):
    """The lines of the day: operations, and a question each hour."""
    chance = random.Random("day")
    jobs, hosts, names = scripts.ids(chance, HOURS), scripts.ids(chance, MACHINES), scripts.ids(chance, tasks)
    told = scripts.told_before(chance, jobs, hosts, [], [])
    yield from (brokers.told(1, op) for op in told)
    for place, task in enumerate(names):
        host = hosts[place % MACHINES]
        yield brokers.told(1, scripts.spec(task, jobs, (10, 20, 50, 100), chance))
        yield brokers.told(1, {"propose": {"id": task, "attempt": 0, "coordinator": 1, "machine": host, "incarnation": 1}})
        yield brokers.told(1, {"progress": {"id": task, "attempt": 0, "phase": "done"}})
        if place % max(1, tasks // HOURS) == 0:
            yield b'{"at":1,"ask":"stops"}\n'


class Day:
    """The day with a program and so many tasks, with a store or without."""

    def __init__(self, program, tasks, has_store):
        self.program, self.lines, self.has_store = program, list(lines(tasks)), has_store

    def run(self):
        """Tells the day. Answers how many seconds it took, how many lines were answered, the states, and how the bridges ended."""
        with contextlib.ExitStack() as stack:
            folder = stack.enter_context(tempfile.TemporaryDirectory())
            broker = stack.enter_context(brokers.Broker(folder, ("allow_anonymous true",)))
            words = ["--trace", "--end-wait", "120", *(["--store", f"{folder}/store"] if self.has_store else [])]
            bridge = stack.enter_context(brokers.Bridge(broker.port, 1, *words, program=self.program))
            other = stack.enter_context(brokers.Bridge(broker.port, 2, "--end-wait", "120", program=self.program))
            began = time.monotonic()
            feeder = threading.Thread(target=lambda: [bridge.write(b"".join(some)) for some in self.parts()], daemon=True)
            feeder.start()
            answered = self.heard(bridge, began + PATIENCE)
            took = time.monotonic() - began
            ended = [each.end(PATIENCE) for each in (bridge, other)]
            states = [(said["bytes"], said["seconds"], said["processor"]) for said in bridge.events() if said["event"] == "state"]
            return took, answered, states, ended

    def heard(self, bridge, end):
        """How many lines were answered with ok, once all were or the bridge ended. The texts of answers have lines of their own."""
        while (answered := bridge.heard.count(b"ok\n")) < len(self.lines) and bridge.reader.is_alive() and time.monotonic() < end:
            time.sleep(0.2)
        return answered

    def parts(self):
        left = iter(self.lines)
        while some := list(itertools.islice(left, 1000)):
            yield some


def measured(program, tasks, has_store):
    """Prints the figures of a day. Ends with status 1 if a line was not answered, or a state took too long."""
    os.environ["BENCH_BRIDGE_DAY"] = "yes"
    day = Day(program, tasks, has_store)
    took, answered, states, ended = day.run()
    large = [(1e9 * seconds / size, 1e9 * processor / size) for size, seconds, processor in states if size >= LEAST]
    print(f"{len(day.lines)} lines, {answered} answered ok in {took:.0f} s; ended {ended}")
    print(f"{len(states)} states, the largest of {max((state[0] for state in states), default=0)} bytes")
    fine = answered == len(day.lines) and ended == [0, 0]
    if large:
        first, most = large[0][1], max(each for _, each in large)
        print(f"of those of {LEAST} bytes and more, processor ms for each MB: the first {first:.0f}, the most {most:.0f}; "
              f"ms for each MB, in the median: {statistics.median(each for each, _ in large):.0f}")
        fine = fine and most <= MOST_TIMES * first
    if not fine:
        sys.exit(f"bench/bridge: a line was not answered, or a state took more than {MOST_TIMES} times what the first one took")


if __name__ == "__main__":
    sys.exit("bench/bridged_day.py is for bench/bridge --day")
