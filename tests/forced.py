"""Least costs of networks in which a task is forced to go somewhere, by the solver of tests/witness.py: an independent answer to what
`firmament why` says."""
import collections

import witness


def problem(network):
    balance = {node: 1 for node in network.of_kind("T")}
    balance[1] = -len(balance)
    return balance, [ends + tuple(arc) for ends, arc in network.arcs.items()]


def least_cost(network, route):
    """The least cost where the task, the first of the route, sends its unit along the route."""
    ways = set(zip(route, route[1:]))
    balance, _ = problem(network)
    balance.pop(route[0])
    balance[1] += 1
    arcs = [ends + (arc.capacity - (ends in ways), arc.cost) for ends, arc in network.arcs.items() if ends[0] != route[0]]
    own = sum(network.arcs[ends].cost for ends in ways)
    return own + (witness.least_cost(balance, [arc for arc in arcs if arc[2]]) if len(balance) > 1 else 0)


def routes(network, task):
    """The ways of a task to the sink, by the place that they go through."""
    found = collections.defaultdict(list)
    for first in network.out[task]:
        for second in network.out[first]:
            if network.nodes[first].kind == "R":
                found[network.nodes[second].name].append((task, first, second, 1))
            else:
                name = network.nodes[first].name if network.nodes[first].kind == "M" else None
                found[name].append((task, first, 1))
    return found
