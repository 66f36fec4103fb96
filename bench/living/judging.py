"""Rounds beside other solvers: what a coordinator knows is dumped and solved by LEMON, or by tests/witness.py, and costs have to agree."""
import pathlib
import sys

import measuring

ROOT = pathlib.Path(__file__).resolve().parent.parent.parent


class Differ(Exception):
    """A coordinator and another solver found different least costs."""


def asked(member):
    """The dump of what the coordinator knows, the least cost that it finds, and the seconds of its answers: it makes or edits its
    network and writes it; it solves and certifies; it solves and plans."""
    graph, dump = member.ask("graph")
    solve, solution = member.ask("solve")
    plan, _ = member.ask("plan")
    return dump, int(solution.split(None, 2)[1]), {"graph": graph, "solve": solve, "plan": plan}


class Lemon:
    """Judges by LEMON's solvers, which are made in the folder. They are timed too: the better run, and with reading and making the
    graph."""

    def __init__(self, folder):
        self.dump, self.program = pathlib.Path(folder) / "dump.min", measuring.lemon(folder)

    def __call__(self, member):
        dump, cost, times = asked(member)
        self.dump.write_text(dump)
        found = measuring.lemon_times(self.program, self.dump, cost).values()
        return {"cost": cost, **times, "lemon": min(run for run, _ in found), "whole": min(whole for _, whole in found)}


def by_witness(member):
    """Judges by the solver after a textbook, which takes long for thousands of tasks."""
    sys.path.insert(0, str(ROOT / "tests"))
    import witness
    dump, cost, times = asked(member)
    least = witness.least_cost(*witness.read_network(dump))
    if least != cost:
        raise Differ("the least cost is %d, and coordinator %d finds %d" % (least, member.number, cost))
    return {"cost": cost, **times}
