#!/usr/bin/env python3
"""Tests of lives of clusters, by name, for tests/run: coordinators of `firmament follow` live through what bench/living draws, and what
they know in the end is what happened. Each line takes the same simulated time, so a life is the same each time.

    tests/lived.py [--program FILE]

Ends in a line 'N passed, M failed'.
"""
import argparse
import contextlib
import io
import json
import pathlib
import re
import subprocess
import sys
import tempfile

ROOT = pathlib.Path(__file__).resolve().parent.parent
sys.path[:0] = [str(ROOT / "bench"), str(ROOT / "tests")]
import measuring
from living import blind, causes, figures, followers, judging, lives, members, simulation

# seconds of simulated time that a line takes
PACE = 0.0005
# two tasks that do not fit their machine together, which fails while the second one runs
BY_HAND = """\
time,event,name,job,slots,nic,wait,preempt,request,seconds,prefers
0,machine,A,,2,1000,,,,,
1,job,J,,,,9000,9000,,,
1,task,x,J,,,,,800,10,
2,job,K,,,,9000,9000,,,
2,task,y,K,,,,,800,10,A:50
15,failure,A,,,,,,,,
20,recovery,A,,,,,,,,
28,withdrawal,K,,,,,,,,
"""
# a task that takes the slot of a cheaper one
DEARER = """\
time,event,name,job,slots,nic,wait,preempt,request,seconds,prefers
0,machine,A,,1,1000,,,,,
1,job,J,,,,3000,3500,,,
1,task,x,J,,,,,100,10,
2,job,K,,,,9000,9500,,,
2,task,y,K,,,,,100,10,
"""
# two tasks that come at once, of which each prefers the one slot of A; then others, so that their coordinators exchange what they know
OVERFULL = """\
time,event,name,job,slots,nic,wait,preempt,request,seconds,prefers
0,machine,A,,1,1000,,,,,
0,machine,B,,9,1000,,,,,
1,job,J,,,,9000,9500,,,
1,task,x,J,,,,,100,10,A:50
1,job,K,,,,8000,8500,,,
1,task,y,K,,,,,100,10,A:50
2,job,L,,,,9000,9500,,,
2,task,z,L,,,,,10,1,
2,job,N,,,,9000,9500,,,
2,task,w,N,,,,,10,1,
3,job,O,,,,9000,9500,,,
3,task,v,O,,,,,10,1,
3,job,Q,,,,9000,9500,,,
3,task,u,Q,,,,,10,1,
"""
# with which the two coordinators are told of these jobs in turn
OVERFULL_SEED = 154
IN_VAIN = [cause for what in ("started twice", "started when over") for cause, _ in causes.CAUSES[what]]
BROKEN = {"tasks": 7, "coordinators": 1, "broke": "refusal 1 of 20 bytes"}


@contextlib.contextmanager
def lived(program, events, count, judge=None, **settings):
    """So many coordinators that lived through the events."""
    with contextlib.ExitStack() as stack:
        those = [members.Member(number, [program], PACE) for number in range(1, count + 1)]
        for member in those:
            stack.enter_context(member.follower)
        simulated = simulation.Simulation(events, those, simulation.Settings(**settings), judge)
        simulated.live()
        yield simulated


def lines_of(known):
    """The lines of `winners` that come of what was accepted and exchanged, without their last words."""
    for task in {task for task, _ in known.entries}:
        winner = known.winner(task)
        if winner:
            number, (machine, incarnation) = winner
            yield "%s %d %d %s %d" % (task, known.attempt(task), number, machine, incarnation)


def nodes(dump, kind):
    """The names of the nodes of a kind."""
    return {line.split()[3] for line in dump.splitlines() if line.startswith("c ") and line.split()[2] == kind}


def keeps_all(name, simulated):
    """What all coordinators know in the end is what was told, placed and exchanged, and what runs is what they hold."""
    dumps = {member.ask("graph")[1] for member in simulated.members}
    yield name + ": one dump", len(dumps) == 1
    dump, states = dumps.pop(), simulated.outside.tasks.values()
    yield name + ": live tasks are known, no others", nodes(dump, "T") == {state.task.name for state in states if state.end is None}
    up = {host for host, it in simulated.ground.hosts.items() if it.is_up}
    yield name + ": machines that are up are known, no others", nodes(dump, "M") == up
    winners = [member.ask("winners")[1].splitlines() for member in simulated.members]
    yield name + ": one list of winners", all(some == winners[0] for some in winners)
    for member in simulated.members:
        wanted = sorted(lines_of(member.known))
        yield "%s: winners are what was accepted, at %d" % (name, member.number), [line.rpartition(" ")[0] for line in winners[0]] == wanted
    held = {tuple(line.split()[:3]) for line in winners[0] if line.endswith(" held")}
    yield name + ": what is held runs, and nothing else", held == {tuple(map(str, key)) for key in simulated.ground.runs}


def adds_up(name, simulated):
    """Counts of tasks and of entries of plans."""
    found = figures.tasks(simulated)
    yield name + ": each task that was told has one end", found["tasks_told"] == sum(
        found[end] for end in ("done", "withdrawn", "running", "waiting")) and found["waiting"] >= 0
    turns = simulated.first_turns + simulated.turns
    listed = sum(turn.places + turn.preempts for turn in turns)
    answered = simulated.counts["placed"] + simulated.counts["preempted"] + sum(simulated.refused.values())
    yield name + ": each entry of a plan has one answer", listed == answered > 0
    started = simulated.counts["placed"] - sum(simulated.counts[it] for it in ("placed where a machine had gone", "preempted at the start"))
    ended = found["done"] + simulated.counts["runs stopped"] + simulated.counts["runs lost with machines"] + simulated.counts["runs withdrawn"]
    yield name + ": each run that began ended or runs", started == ended + len(simulated.ground.runs)
    for what in causes.CAUSES:
        count = simulated.counts[what] - simulated.counts[what + " at the start"]
        yield "%s: each has a cause that was %s" % (name, what), sum(counted(simulated, what).values()) == count
    told = sum(turn.told for turn in turns)
    yield name + ": tasks came, ended, and were withdrawn", told > 1500 and min(found["done"], found["withdrawn"], len(simulated.latencies)) > 0


def lives_of(program):
    """A thousand tasks, whose coordinators are renewed on the way."""
    shape = lives.Shape(tasks=1000, machines=76, seconds=20.0, change=0.02, up=1000.0, load=0.9)
    events = lives.Drawn(shape).events()
    for count, sharing in ((1, "own"), (3, "own"), (8, "all")):
        name = "a life of %d" % count
        with lived(program, events, count, seconds=20.0, exchange_after=20, renew_after=300, sharing=sharing) as simulated:
            yield from keeps_all(name, simulated)
            yield from adds_up(name, simulated)
            sums, counts = simulated.ground.sums, simulated.counts
            yield name + ": all kinds of things happened", min(counts[it] for it in ("machines failed", "renewals", "preempted")) > 0
            if count == 1:
                yield name + ": no machine has too much", sums["beyond"] == sums["overfull"] == simulated.ground.most_beyond == 0
            else:
                yield name + ": packets were exchanged", sum(turn.packets for turn in simulated.turns) > 20
            yield "%s: %d started twice" % (name, counts["started twice"]), (counts["started twice"] > 0) is (sharing == "all")
            yield name + ": each runs what it was told of, or any", runs_its_own(simulated) is (sharing == "own")


def runs_its_own(simulated):
    """Whether all that runs was started by the coordinator that was told of it."""
    return all(simulated.outside.tasks[task].owner.number == number for task, _, number in simulated.ground.runs)


def outbid(program):
    """A dearer task takes the one slot, and the cheaper one has it when that is done."""
    events = lives.read_trace(io.StringIO(DEARER))
    with lived(program, events, 1, seconds=30.0, report_every=100.0) as simulated:
        yield "outbid: one is preempted", counted(simulated, "preempted") == {"overfull": 0, "outbid": 1}
        yield "outbid: nothing is started in vain", counted(simulated, "started twice", "started when over") == dict.fromkeys(IN_VAIN, 0)
        # x from 1 to 2, y from 2 to 12, x from 12 to 22
        yield "outbid: bandwidth times time", abs(simulated.ground.sums["carried"] - 100 * 21) < 2
        yield from keeps_all("outbid", simulated)


def overfull(program):
    """Two coordinators give one slot to two tasks, before they heard of each other. The cheaper one is preempted, and goes to the other
    machine: once if each coordinator starts its own, and by both if each carries out whole plans."""
    events = lives.read_trace(io.StringIO(OVERFULL))
    for sharing, preempted, twice in ("own", 1, 0), ("all", 2, 1):
        name = "overfull, sharing %s" % sharing
        with lived(program, events, 2, seconds=14.0, exchange_after=1, report_every=100.0, seed=OVERFULL_SEED, sharing=sharing) as simulated:
            owners = [simulated.outside.owners[event.name].number for event in events if type(event) is lives.Job]
            yield "%s: jobs in turn" % name, owners == [1, 2, 1, 2, 1, 2]
            yield "%s: preempted" % name, counted(simulated, "preempted") == {"overfull": preempted, "outbid": 0}
            wanted = {**dict.fromkeys(IN_VAIN, 0), "same attempt": twice}
            yield "%s: started twice" % name, counted(simulated, "started twice", "started when over") == wanted
            # from 1 to 3
            seconds = simulated.ground.sums["overfull"]
            yield "%s: too many for two seconds: %.3f" % (name, seconds), abs(seconds - 2) < 0.05
            yield from keeps_all(name, simulated)


def counted(simulated, *names):
    """How many tasks were preempted, or started in vain, by the cause."""
    return {row["cause"]: row["count"] for row in figures.causes(simulated) if row["what"] in names}


def costs(program):
    """Each tenth round finds the least cost that a solver after a textbook finds."""
    events = lives.Drawn(lives.Shape(tasks=150, machines=12, seconds=30.0, change=0.05, load=0.9)).events()
    with lived(program, events, 2, judging.by_witness, seconds=30.0, exchange_after=10, check_every=10) as simulated:
        yield "costs of %d rounds" % len(simulated.checks), len(simulated.checks) >= 5
        yield "and some are of tasks that wait", any(check["cost"] > 0 for check in simulated.checks)


def by_hand(program):
    """A trace whose life was worked out by hand: y waits until x is done, fails with its machine, begins anew, and is withdrawn."""
    events = lives.read_trace(io.StringIO(BY_HAND))
    with lived(program, events, 1, seconds=40.0, report_every=100.0) as simulated:
        first, second = simulated.latencies
        yield "x is placed at once", 0 < first < 0.01
        yield "y waits for x: %.4f" % second, 9 < second < 9.01
        # x from 1 to 11, y from 11 to 15 and from 20 to 28, but for some lines
        yield "bandwidth times time: %.1f" % simulated.ground.sums["carried"], abs(simulated.ground.sums["carried"] - 800 * 22) < 16
        yield "bandwidth that is up", abs(simulated.ground.sums["offered"] - 1000 * (simulated.ground.time - 5)) < 1
        yield "one run was lost", simulated.counts["runs lost with machines"] == 1
        wanted = {"tasks_told": 2, "tasks_came": 2, "done": 1, "withdrawn": 1, "running": 0, "waiting": 0}
        yield "how the tasks ended", figures.tasks(simulated) == wanted
        yield from keeps_all("by hand", simulated)
    _, ground = blind.Blind(events, 40.0).live()
    # blind: x from 1 to 11, y from 2 to 12, and the machine is away for 5 seconds of 40
    yield "blind, carried", abs(ground.sums["carried"] - (800 * 2 + 1000 * 9)) < 1
    yield "blind, beyond the nic", abs(ground.sums["beyond"] - 600 * 9) < 1
    found = figures.bandwidth(ground)
    yield "blind, how long beyond the nic: %s" % found, abs(found["crowded"] - 100 * 9 / 35) < 0.1
    yield "blind, how far beyond the nic", found["most_beyond"] == 60


def traces():
    """A life is the same that is written as a trace and read, and another seed gives another one."""
    shape = lives.Shape(tasks=200, machines=20, seconds=30.0)
    events = lives.Drawn(shape).events()
    texts = [io.StringIO(), io.StringIO()]
    lives.write_trace(events, texts[0])
    lives.write_trace(lives.read_trace(io.StringIO(texts[0].getvalue())), texts[1])
    yield "a trace is read as it was written", texts[0].getvalue() == texts[1].getvalue() and len(events) > 100
    yield "a life is drawn again", lives.Drawn(shape).events() == events
    yield "another seed", lives.Drawn(lives.Shape(tasks=200, machines=20, seconds=30.0, seed=2)).events() != events
    changed = [BY_HAND.replace(*pair) for pair in (("x,J", "x,L"), ("failure,A", "failure,B"), ("failure", "fail"), ("800,10", "800,ten"))]
    for text in ("", "bad\n", "time,event\n1,job\n", *changed):
        try:
            lives.read_trace(io.StringIO(text))
            yield "a trace that is none", False
        except ValueError as fault:
            yield "a trace that is none: %s" % fault, "row " in str(fault)


def shapes():
    """What is drawn has the means that are worked out."""
    drawn = lives.Drawn(lives.Shape(tasks=10000, machines=833, seconds=1.0))
    sizes, times = [drawn.size() for _ in range(100000)], [drawn.run_time() for _ in range(100000)]
    yield "sizes of jobs", abs(sum(sizes) / len(sizes) / lives.mean_size(drawn.largest) - 1) < 0.05
    yield "run times: tasks over arrivals", abs(sum(times) / len(times) / 200 - 1) < 0.2
    yield "tails: the longest hundredth runs over a tenth of all time", sum(sorted(times)[-1000:]) > sum(times) / 10
    some = [5, 1, 4, 2, 3] * 20
    yield "quantiles", [figures.quantile(sorted(some), part) for part in (0.0, 0.2, 0.201, 0.5, 0.99, 1.0)] == [1, 1, 2, 3, 5, 5]
    ground = sum(machine.nic for machine in drawn.machines)
    asked = 10000 * sum(drawn.requests) / len(drawn.requests)
    yield "requests come to the load that is asked for", abs(asked / ground / 0.7 - 1) < 0.01


def pages(program):
    """The page of a life shows its figures, and needs nothing from elsewhere. It is skipped if no Python has matplotlib."""
    python = measuring.python_with("matplotlib")
    if python is None:
        print("lived: the page is not tested: no Python here has matplotlib")
        return
    events = lives.read_trace(io.StringIO(BY_HAND))
    with lived(program, events, 1, seconds=40.0) as simulated, tempfile.TemporaryDirectory() as folder:
        blindly = blind.Blind(events, 40.0).live()
        life = figures.figures(simulated, blindly, {"tasks": 2, "machines": 1, "coordinators": 1, "sharing": "own", "seconds": 40.0})
        results = {"date": "today", "machine": "this <one>", "build": "any", "command": "none", "clock": "wall", "lives": [life, {**BROKEN}]}
        done, page = page_of(results, python, folder)
        yield "the page is made: %s" % done.stderr.decode(), done.returncode == 0
        several = {**life, "coordinators": 2, "causes": [{**life["causes"][0], "count": 7}]}
        old = {name: value for name, value in life.items() if name not in ("sharing", "causes", "tasks_came")}
        done, text = page_of({**results, "lives": [several, {**old, "coordinators": 3}]}, python, folder)
        yield "the page of results of now and before is made: %s" % done.stderr.decode(), done.returncode == 0
        yield "it says what is shared, and that before whole plans were carried out", [
            "2 tasks, %d coordinators, whole plans" % count in text for count in (2, 3)] == [False, True]
        yield "it says why one was preempted", causes.CAUSES["preempted"][0][1] in text and "<td>7</td>" in text
    yield "the page needs nothing from elsewhere", not re.search(r"<script|<link|<img|\ssrc=|@import|url\((?!#)|href=\"(?!#)", page)
    yield "the page has its plots", page.count("<svg") == 5
    shown = "<td>%s</td>" % ("%.3g" % life["round"]["median"])
    yield "the page has its figures, and says what broke", shown in page and BROKEN["broke"] in page and "this &lt;one&gt;" in page


def page_of(results, python, folder):
    """How the page is made of results in a folder, and its text."""
    (pathlib.Path(folder) / "cluster.json").write_text(json.dumps(results))
    done = subprocess.run([python, "-B", "-m", "living.page", folder], cwd=ROOT / "bench", stderr=subprocess.PIPE)
    return done, (pathlib.Path(folder) / "cluster.html").read_text()


def all_tests(program):
    by_program = by_hand, outbid, overfull, pages, costs, lives_of
    for group in (traces(), shapes(), *(tests(program) for tests in by_program)):
        try:
            for name, fine in group:
                yield "lived: " + name, fine
        except (followers.Refused, judging.Differ) as fault:
            yield "lived: %s" % fault, False


def main():
    words = argparse.ArgumentParser(description=__doc__, formatter_class=argparse.RawDescriptionHelpFormatter)
    words.add_argument("--program", default=str(ROOT / "crates/fm_cli/out/fm_cli"))
    seen = list(all_tests(words.parse_args().program))
    for name, fine in seen:
        if not fine:
            print("FAILED: " + name)
    print("%d passed, %d failed" % (sum(fine for _, fine in seen), sum(not fine for _, fine in seen)))
    sys.exit(not all(fine for _, fine in seen))


if __name__ == "__main__":
    main()
