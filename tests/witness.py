#!/usr/bin/env python3
"""An outside witness of schedules: minimum-cost flow after a textbook, over the DIMACS format.

    tests/witness.py DUMP SOLUTION

It reads a network in DIMACS lines and a solution, tests the solution's flow for order, capacities and balance, adds up
what it costs, and finds the least cost by itself: successive shortest paths with potentials, from each source in turn.
It knows nothing of jobs, machines or tasks.
"""
import heapq
import sys


def read_network(text):
    """Balances of nodes, and arcs as (from, to, capacity, cost)."""
    balance, arcs = {}, []
    for words in map(str.split, text.splitlines()):
        if words[0] == "n":
            balance[int(words[1])] = int(words[2])
        elif words[0] == "a":
            source, target, low, capacity, cost = map(int, words[1:])
            assert low == 0
            arcs.append((source, target, capacity, cost))
    return balance, arcs


def fault(balance, arcs, solution):
    """What is wrong with the solution as a flow of the cost that it says, or None."""
    lines = [line.split() for line in solution.splitlines()]
    if not lines or lines[0][0] != "s" or any(line[0] != "f" for line in lines[1:]):
        return "the lines are not one s and then f"
    bounds = {(source, target): (capacity, cost) for source, target, capacity, cost in arcs}
    left, total, last = dict(balance), 0, (0, 0)
    for source, target, units in (map(int, line[1:]) for line in lines[1:]):
        if (source, target) <= last or (source, target) not in bounds:
            return "arc %d %d is out of order or none" % (source, target)
        last = source, target
        capacity, cost = bounds[last]
        if not 1 <= units <= capacity:
            return "arc %d %d has %d units" % (source, target, units)
        total += units * cost
        left[source] = left.get(source, 0) - units
        left[target] = left.get(target, 0) + units
    if any(left.values()):
        return "units are not kept"
    return None if total == int(lines[0][1]) else "the flow costs %d" % total


def least_flow(balance, arcs):
    """The least cost of a flow that meets the balances, and the units of one by the ends of arcs: successive shortest paths
    (Ahuja, Magnanti and Orlin)."""
    out, residual = {}, []
    for source, target, capacity, cost in arcs:
        out.setdefault(source, []).append(len(residual))
        residual.append([target, capacity, cost])
        out.setdefault(target, []).append(len(residual))
        residual.append([source, 0, -cost])
    potential, total = {}, 0
    for source in (node for node, units in balance.items() if units > 0):
        for _ in range(balance[source]):
            distance, by, done, queue = {source: 0}, {}, set(), [(0, source)]
            while queue:
                far, node = heapq.heappop(queue)
                if node in done:
                    continue
                done.add(node)
                for edge in out.get(node, []):
                    target, capacity, cost = residual[edge]
                    next_far = far + cost + potential.get(node, 0) - potential.get(target, 0)
                    if capacity and next_far < distance.get(target, next_far + 1):
                        distance[target], by[target] = next_far, edge
                        heapq.heappush(queue, (next_far, target))
            node = next(node for node, units in balance.items() if units < 0)
            furthest = distance[node]
            for other, far in distance.items():
                potential[other] = potential.get(other, 0) + min(far, furthest)
            for other in out:
                if other not in distance:
                    potential[other] = potential.get(other, 0) + furthest
            while node != source:
                edge = by[node]
                residual[edge][1] -= 1
                residual[edge ^ 1][1] += 1
                total += residual[edge][2]
                node = residual[edge ^ 1][0]
    units = {ends[:2]: residual[2 * place + 1][1] for place, ends in enumerate(arcs)}
    return total, {ends: many for ends, many in units.items() if many}


def least_cost(balance, arcs):
    return least_flow(balance, arcs)[0]


def check(dump, solution):
    """What is wrong with the solution of the network, or None."""
    balance, arcs = read_network(dump)
    wrong = fault(balance, arcs, solution)
    if wrong is None and int(solution.split()[1]) != least_cost(balance, arcs):
        wrong = "the least cost is %d" % least_cost(balance, arcs)
    return wrong


if __name__ == "__main__":
    found = check(*(open(name).read() for name in sys.argv[1:3]))
    sys.exit(found)
