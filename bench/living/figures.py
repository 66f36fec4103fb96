"""What is measured of a life, as values for JSON and CSV."""
import collections
import csv
import statistics

from .causes import CAUSES

QUANTILES = (("median", 0.5), ("p90", 0.9), ("p99", 0.99), ("p999", 0.999), ("most", 1.0))
POINTS = 200
RULES = "gone", "held", "attempts-spent", "contested", "no-slot", "no-room"
# the columns of the table of lives: a heading, and the path to a value
COLUMNS = (
    ("tasks", "tasks"), ("machines", "machines"), ("coordinators", "coordinators"), ("sharing", "sharing"), ("seconds", "seconds"),
    ("rounds", "rounds"), ("tasks told", "tasks_told"), ("tasks that came", "tasks_came"),
    ("start: told in, s", "start.telling"), ("start: rounds", "start.rounds"),
    ("start: first round, ms", "start.first_round"), ("round, median ms", "round.median"), ("round, 99 % ms", "round.p99"),
    ("round, most ms", "round.most"), ("telling before it, median ms", "telling.median"), ("taking in packets, median ms", "taking.median"),
    ("turn, median ms", "turn.median"), ("latency, median ms", "latency.median"), ("latency, 99 % ms", "latency.p99"),
    ("network and its text, ms", "beside.graph"), ("solve, ms", "beside.solve"), ("plan, ms", "beside.plan"),
    ("LEMON's run, ms", "beside.lemon"), ("with reading, ms", "beside.whole"), ("costs checked", "beside.checks"),
    ("most memory, MB", "memory"), ("places refused", "refused_places"), ("started twice", "stale.started_twice"),
    ("started when over", "stale.started_when_over"), ("preempted", "preempted"),
    ("bandwidth used, %", "bandwidth.carried"), ("beyond nics, %", "bandwidth.beyond"),
    ("machines beyond their nics, % of time", "bandwidth.crowded"), ("most beyond a nic, % of it", "bandwidth.most_beyond"),
    ("machines with too many tasks, % of time", "bandwidth.overfull"),
    ("blind: used, %", "blind.carried"), ("blind: beyond nics, %", "blind.beyond"),
    ("blind: machines beyond their nics, % of time", "blind.crowded"), ("blind: most beyond a nic, % of it", "blind.most_beyond"),
    ("runs in vain, %", "stale.wasted"),
)


def quantile(ordered, part):
    """The least of the values, in order, that such a part of them is no greater than."""
    return ordered[min(len(ordered) - 1, max(0, -(-int(part * 1e6) * len(ordered) // 1000000) - 1))]


def quantiles(values, scale=1000):
    """Quantiles of seconds, in milliseconds."""
    ordered = sorted(values)
    found = {name: round(quantile(ordered, part) * scale, 3) for name, part in QUANTILES} if ordered else {}
    return {"count": len(ordered), **found}


def curve(values):
    """The distribution of seconds in points: the part of the values, and milliseconds."""
    ordered = sorted(values)
    parts = [place / POINTS for place in range(POINTS)] + [0.999, 0.9999, 1.0]
    return [[part, round(quantile(ordered, part) * 1000, 3)] for part in parts] if ordered else []


def thinned(rows):
    """So many of the rows at most, evenly."""
    step = max(1, -(-len(rows) // POINTS))
    return rows[::step]


def bandwidth(ground):
    """Shares of all bandwidth that was up, over time, in percent. Of machines with too much asked, and with too many runs, the seconds, and
    in percent of those of all machines that were up. And the most that was asked for beyond a nic, in percent of it."""
    sums = ground.sums
    shares = {name: round(100 * sums[name] / (sums["offered"] or 1), 3) for name in ("carried", "beyond")}
    shares.update((name, round(100 * sums[name] / (sums["up"] or 1), 3)) for name in ("crowded", "overfull"))
    return {**shares, "most_beyond": round(100 * ground.most_beyond, 1), "crowded_seconds": round(sums["crowded"], 1),
            "overfull_seconds": round(sums["overfull"], 1)}


def shares_over_time(series):
    """For each sample its time, and carried and asked beyond nics, in percent of what was up."""
    return [[round(one.time, 3), *(round(100 * part / (one.offered or 1), 2) for part in (one.carried, one.beyond))] for one in series]


def refusals(simulation):
    """Entries of plans that were refused, by what was planned, the rule and the coordinator."""
    return [{"coordinator": number, "entry": kind, "rule": rule, "count": count}
            for (number, kind, rule), count in sorted(simulation.refused.items())]


def refusals_over_time(simulation):
    """For each of some spans of time its begin, and how many entries each rule refused, in the order of the rules."""
    spans, seconds = 50, simulation.ground.time or 1
    found = [[0] * len(RULES) for _ in range(spans)]
    for turn in simulation.turns:
        row = found[min(spans - 1, int(turn.time / seconds * spans))]
        for rule, count in turn.refused.items():
            row[RULES.index(rule)] += count
    return [[round(seconds * place / spans, 3), *row] for place, row in enumerate(found)]


def memory_over_time(simulation):
    """For each coordinator its memory in MB over time."""
    found = collections.defaultdict(list)
    for turn in simulation.first_turns[-1:] + simulation.turns:
        found[turn.coordinator].append([round(turn.time, 3), round(turn.memory[0] / 1e6, 1)])
    return {number: thinned(rows) for number, rows in found.items()}


def start(simulation):
    """What it took to tell of the cluster at the start, and to place its tasks."""
    turns = simulation.first_turns
    rounds = [turn.round for turn in turns if turn.round is not None]
    return {"operations": sum(turn.told for turn in turns), "telling": round(sum(turn.telling for turn in turns), 3),
            "taking": round(sum(turn.taking for turn in turns), 3), "rounds": len(rounds), "first_round": round(rounds[0] * 1000, 3),
            "all_rounds": round(sum(rounds), 3), "placed": sum(turn.accepted for turn in turns)}


def beside(checks):
    """Medians of the checks, in milliseconds, and how many costs agreed."""
    names = [name for name in ("graph", "solve", "plan", "lemon", "whole") if checks and name in checks[0]]
    return {"checks": len(checks), **{name: round(1000 * statistics.median(check[name] for check in checks), 3) for name in names}}


def stale(simulation):
    """What coordinators did that others would have told them not to, and runs that were of no use, in percent of the time of all runs."""
    names = ("started twice", "started when over", "runs stopped", "told done again", "placed where a machine had gone")
    whole = sum(one.runs for one in simulation.series) / max(1, len(simulation.series)) * simulation.ground.time
    return {**{name.replace(" ", "_"): simulation.counts[name] for name in names}, "wasted": round(100 * simulation.wasted / (whole or 1), 3)}


def causes(simulation):
    """How many tasks were preempted, or started in vain, after the start, by the cause."""
    return [{"what": what, "cause": cause, "count": simulation.causes[what, cause]} for what, those in CAUSES.items() for cause, _ in those]


def tasks(simulation):
    """How the tasks ended that were told: all of them, those that came after the start, done, withdrawn, running and waiting."""
    states = simulation.outside.tasks.values()
    ends = collections.Counter(state.end for state in states)
    running = sum(state.end is None and bool(simulation.ground.runs_of(state.task.name)) for state in states)
    return {"tasks_told": len(states), "tasks_came": sum(state.came > 0 for state in states), "done": ends["done"],
            "withdrawn": ends["withdrawn"], "running": running, "waiting": ends[None] - running}


def figures(simulation, blind, parameters):
    """All that is measured of a life, beside the same life of the blind policy."""
    turns, (blind_series, blind_ground) = simulation.turns, blind
    rounds = [turn for turn in turns if turn.round is not None and not turn.is_checked]
    memory = [member.follower.memory()[1] for member in simulation.members]
    return {
        **parameters, **tasks(simulation), "rounds": simulation.rounds, "start": start(simulation),
        "round": quantiles(turn.round for turn in rounds),
        "turn": quantiles((turn.telling + turn.taking + turn.renewal + (turn.round or 0) for turn in turns)),
        "telling": quantiles(turn.telling for turn in turns), "taking": quantiles(turn.taking for turn in turns if turn.packets),
        "renewals": quantiles(turn.renewal for turn in turns if turn.renewal),
        "operations": sum(turn.told for turn in turns), "latency": quantiles(simulation.latencies),
        "memory": round(max(memory) / 1e6, 1), "memory_of_each": [round(most / 1e6, 1) for most in memory],
        "placed": simulation.counts["placed"], "preempted": simulation.counts["preempted"] - simulation.counts["preempted at the start"],
        "machines_failed": simulation.counts["machines failed"], "runs_lost": simulation.counts["runs lost with machines"],
        "refused_places": sum(count for (_, kind, _), count in simulation.refused.items() if kind == "place"), "refused": refusals(simulation),
        "bandwidth": bandwidth(simulation.ground), "blind": bandwidth(blind_ground), "stale": stale(simulation),
        "causes": causes(simulation), "beside": beside(simulation.checks),
        "curves": {"latency": curve(simulation.latencies), "bandwidth": shares_over_time(simulation.series),
                   "blind": shares_over_time(blind_series), "refusals": refusals_over_time(simulation),
                   "memory": memory_over_time(simulation)}}


def value_at(life, path):
    """The value of a life by its path, or None."""
    for name in path.split("."):
        life = life.get(name) if isinstance(life, dict) else None
    return life


def write_table(lives, file):
    """A row for each life."""
    writer = csv.writer(file, lineterminator="\n")
    writer.writerow(path for _, path in COLUMNS)
    writer.writerows([value_at(life, path) for _, path in COLUMNS] for life in lives)


def write_turns(simulation, file):
    """A row for each turn of a coordinator: seconds, counts, and memory in bytes."""
    names = ("time", "coordinator", "told", "telling", "packets", "taking", "renewal", "round", "places", "preempts", "accepted", "waiting")
    writer = csv.writer(file, lineterminator="\n")
    writer.writerow((*names, *RULES, "memory"))
    for turn in simulation.first_turns + simulation.turns:
        row = [round(value, 6) if isinstance(value, float) else value for value in (getattr(turn, name) for name in names)]
        writer.writerow((*row, *(turn.refused[rule] for rule in RULES), turn.memory[0]))
